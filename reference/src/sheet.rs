//! A balance party's sheet.

use crate::book::{Book, RegisterRow, decode};
use crate::refusal::{Refusal, refused};
use crate::settle::{Quarter, settle_book};

/// The sheet call: a number for each quarter-hour of the month, or 1 to 9, 11, 10 with item 0.
pub fn sheet(bytes: &[u8], party: u16, sheet_length: usize) -> Result<Vec<i64>, Refusal> {
    let book = decode(bytes)?;
    let quarters = settle_book(&book)?;
    if !parties(&book).contains(&party) {
        return refused(11, 0);
    }
    if sheet_length < book.month_quarters() {
        return refused(10, 0);
    }
    let numbers = sheet_numbers(&book, &quarters, party);
    Ok(numbers.into_iter().map(|grains| i64::try_from(grains).unwrap()).collect())
}

/// The columns of a register row that name a balance party. C-14: "From version 2 on, sheets and refusal 11 read the new
/// column as well."
fn columns(book: &Book, row: &RegisterRow) -> Vec<u16> {
    let mut columns = vec![row.source_party, row.fsp_party];
    if book.has_injection_parties() {
        columns.push(row.injection_party);
    }
    columns
}

/// All parties of all columns of the register, each once.
pub fn parties(book: &Book) -> Vec<u16> {
    let mut parties: Vec<u16> = book.register.iter().flat_map(|row| columns(book, row)).collect();
    parties.sort();
    parties.dedup();
    parties
}

/// "A party's sheet has the sum of its corrections for each quarter-hour of the month"; "one party in both
/// columns gets both", and one in three all three.
pub fn sheet_numbers(book: &Book, quarters: &[Quarter], party: u16) -> Vec<i128> {
    let mut sheet = vec![0; book.month_quarters()];
    for quarter in quarters {
        let columns = columns(book, &book.register[quarter.point]);
        let corrections = [quarter.source_correction, quarter.fsp_correction, quarter.injection_correction];
        for (column, correction) in columns.into_iter().zip(corrections) {
            if column == party {
                sheet[position(book, quarter) - 1] += correction;
            }
        }
    }
    sheet
}

/// "Position is 96 (day - L) + q + 1"; C-12: "Positions count the quarter-hours that the month has."
pub fn position(book: &Book, quarter: &Quarter) -> usize {
    book.place(quarter.day, quarter.quarter) - book.place(book.lead_days as usize, 0) + 1
}

/// "The requested volume of a quarter-hour sums the requested watts, in grains, of the engagements that
/// cover it, up less down."
pub fn requested_volume(book: &Book, quarters: &[Quarter]) -> Vec<i128> {
    let mut volume = vec![0; book.month_quarters()];
    for quarter in quarters {
        let sign = if quarter.downward { -1 } else { 1 };
        volume[position(book, quarter) - 1] += sign * quarter.requested;
    }
    volume
}
