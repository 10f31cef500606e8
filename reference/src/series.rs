//! The series of the three kinds of file, and the file call.

use crate::book::{Book, RegisterRow, decode};
use crate::calendar::{is_moment, is_transaction_id};
use crate::message::{FileRow, file_text};
use crate::refusal::{Refusal, refused};
use crate::settle::{GRAINS_PER_WATT, Quarter, rows, settle_book};
use crate::sheet::position;
use std::collections::BTreeMap;

/// A series is "one partner, supply and delivery direction"; the order of this tuple is the file's:
/// "partners rise, off-take before injection, up before down".
pub type SeriesKey = (u64, u64, u64);

/// "TOE01 (one FSP, by supplier) and TOE02 (one supplier, by FSP) take transfer points; TOE03 (one supplier,
/// by access point) takes pass-through points."
fn takes(kind: u8, row: &RegisterRow) -> bool {
    match kind {
        1 | 2 => row.situation == 0,
        _ => row.situation == 1,
    }
}

fn receiver_of(kind: u8, row: &RegisterRow) -> u64 {
    match kind {
        1 => row.fsp,
        _ => row.supplier,
    }
}

fn partner_of(kind: u8, row: &RegisterRow) -> u64 {
    match kind {
        1 => row.supplier,
        2 => row.fsp,
        _ => row.access_ean,
    }
}

/// The grains of each series by place, the place being the position less 1.
pub fn series_grains(book: &Book, quarters: &[Quarter], kind: u8, receiver: u64) -> BTreeMap<SeriesKey, Vec<i128>> {
    let mut series = BTreeMap::new();
    for quarter in quarters {
        let row = &book.register[quarter.point];
        if takes(kind, row) && receiver_of(kind, row) == receiver {
            let key = (partner_of(kind, row), row.supply as u64, quarter.downward as u64);
            let grains = series.entry(key).or_insert_with(|| vec![0; book.month_quarters()]);
            grains[position(book, quarter) - 1] += quarter.delivered;
        }
    }
    series
}

/// "The watts at a position are the series' grains up to it, over 30,240 rounded down, less the same before
/// it. Zero watts aren't written."
pub fn file_rows(book: &Book, quarters: &[Quarter], kind: u8, receiver: u64) -> Vec<FileRow> {
    let mut rows = Vec::new();
    for ((partner, supply, direction), grains) in series_grains(book, quarters, kind, receiver) {
        let mut before = 0;
        let mut up_to = 0;
        for (place, quarter_grains) in grains.into_iter().enumerate() {
            up_to += quarter_grains;
            let watts = up_to / GRAINS_PER_WATT - before / GRAINS_PER_WATT;
            if watts > 0 {
                rows.push(FileRow {
                    partner,
                    supply,
                    direction,
                    position: place as u64 + 1,
                    watts: watts as u64,
                    last: 0,
                });
            }
            before = up_to;
        }
    }
    rows
}

/// What an accepted file call fills.
#[derive(Clone, Debug, PartialEq, Eq)]
pub struct Filed {
    pub rows: Vec<i64>,
    pub file: Vec<u8>,
}

/// The file call. Its refusals in order: 1 to 9, 12 for the kind, 11, 12 for ID or moment, 10 with item 0,
/// 10 with item 1. "File calls take the book and fill the rows too."
pub fn file_call(
    bytes: &[u8],
    kind: u8,
    receiver: u64,
    id: &[u8],
    moment: &[u8],
    rows_length: usize,
    file_length: usize,
) -> Result<Filed, Refusal> {
    let book = decode(bytes)?;
    let quarters = settle_book(&book)?;
    if !(1..=3).contains(&kind) {
        return refused(12, 0);
    }
    if !book.register.iter().any(|row| receiver_of(kind, row) == receiver) {
        return refused(11, 0);
    }
    if !is_transaction_id(id) || !is_moment(moment) {
        return refused(12, 0);
    }
    let rows = rows(&quarters);
    if rows_length < rows.len() {
        return refused(10, 0);
    }
    let file_rows = file_rows(&book, &quarters, kind, receiver);
    let file = file_text(kind, receiver, book.year as i64, book.month as i64, &file_rows, id, moment);
    if file_length < file.len() {
        return refused(10, 1);
    }
    Ok(Filed { rows, file })
}
