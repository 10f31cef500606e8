//! The two calls that the example makes, as safe functions; see include/toe.h.

use std::fmt;

unsafe extern "C" {
    fn toe_settle(book: *const u8, book_length: usize, rows: *mut i64, rows_length: usize) -> u64;
    fn toe_file(
        book: *const u8,
        book_length: usize,
        kind: u8,
        receiver: u64,
        id: *const u8,
        id_length: usize,
        moment: *const u8,
        moment_length: usize,
        rows: *mut i64,
        rows_length: usize,
        file: *mut u8,
        file_length: usize,
    ) -> u64;
}

pub const GRAINS_PER_WATT: i64 = 30_240;
/// Long enough for any book.
pub const ROWS_LARGEST: usize = 256_000;
pub const FILE_LARGEST: usize = 4_856_366;

/// A refusal: its number and item; docs/BOOK.md says what they mean.
pub struct Refused {
    number: u32,
    item: u32,
}

impl fmt::Debug for Refused {
    fn fmt(&self, f: &mut fmt::Formatter) -> fmt::Result {
        write!(f, "refused {} {}", self.number, self.item)
    }
}

/// Below 2^63 an answer is a count; else it is 2^63 + number × 2^32 + item.
fn count(answer: u64) -> Result<usize, Refused> {
    if answer >> 63 == 0 {
        return Ok(answer as usize);
    }
    Err(Refused { number: (answer >> 32) as u32 & 0x7fff_ffff, item: answer as u32 })
}

/// Settles a book: the rows, five numbers of grains for each engagement quarter-hour.
pub fn settle(book: &[u8]) -> Result<Vec<i64>, Refused> {
    let mut rows = vec![0; ROWS_LARGEST];
    // SAFETY: the call reads `book` and writes `rows`, which are live for their lengths and apart.
    let answer = unsafe { toe_settle(book.as_ptr(), book.len(), rows.as_mut_ptr(), rows.len()) };
    rows.truncate(5 * count(answer)?);
    Ok(rows)
}

/// The file of a kind for a receiver. It needs 1.0 MB of stack.
pub fn file(book: &[u8], kind: u8, receiver: u64, id: &str, moment: &str) -> Result<Vec<u8>, Refused> {
    let (mut rows, mut file) = (vec![0; ROWS_LARGEST], vec![0; FILE_LARGEST]);
    // SAFETY: the call reads `book`, `id` and `moment` and writes `rows` and `file`, all live for their lengths and apart.
    let answer = unsafe {
        toe_file(
            book.as_ptr(),
            book.len(),
            kind,
            receiver,
            id.as_ptr(),
            id.len(),
            moment.as_ptr(),
            moment.len(),
            rows.as_mut_ptr(),
            rows.len(),
            file.as_mut_ptr(),
            file.len(),
        )
    };
    file.truncate(count(answer)?);
    Ok(file)
}
