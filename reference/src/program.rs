//! The program: one line, then a book; the file's bytes alone, or one line of refusal.

use crate::calendar::{digits, is_moment, is_transaction_id};
use crate::refusal::{Refusal, refused};
use crate::series::file_call;

const INPUT_LIMIT: usize = 65_536;
/// C-14: "the program's rows buffer has 10,240 numbers".
const ROWS_LENGTH: usize = 10_240;
const FILE_LENGTH: usize = 65_536;

/// What the program prints for this input.
pub fn output(input: &[u8]) -> Vec<u8> {
    match answer(input) {
        Ok(file) => file,
        Err(refusal) => format!("refused {} {}\n", refusal.number, refusal.item).into_bytes(),
    }
}

/// "A line of another form, or with a malformed field, gives 12 and item 0 before the book is read; longer
/// input then gives 2 and item 0."
fn answer(input: &[u8]) -> Result<Vec<u8>, Refusal> {
    let Some(line) = read_line(input) else {
        return refused(12, 0);
    };
    if input.len() > INPUT_LIMIT {
        return refused(2, 0);
    }
    let filed = file_call(line.book, line.kind, line.receiver, line.id, line.moment, ROWS_LENGTH, FILE_LENGTH)?;
    Ok(filed.file)
}

struct Line<'a> {
    kind: u8,
    receiver: u64,
    id: &'a [u8],
    moment: &'a [u8],
    book: &'a [u8],
}

/// "one line (kind 01 to 03, receiver of 10 digits, ID, moment, single spaces, line feed) and then a book".
fn read_line(input: &[u8]) -> Option<Line<'_>> {
    let end = input.iter().position(|&byte| byte == b'\n')?;
    let words: Vec<&[u8]> = input[..end].split(|&byte| byte == b' ').collect();
    let [kind, receiver, id, moment] = words[..] else {
        return None;
    };
    let kind = match kind {
        b"01" => 1,
        b"02" => 2,
        b"03" => 3,
        _ => return None,
    };
    if receiver.len() != 10 || !is_transaction_id(id) || !is_moment(moment) {
        return None;
    }
    let receiver = digits(receiver)? as u64;
    Some(Line { kind, receiver, id, moment, book: &input[end + 1..] })
}
