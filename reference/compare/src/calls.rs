//! The calls of the proved library; see include/toe.h.

use reference::refusal::Refusal;

unsafe extern "C" {
    fn toe_settle(book: *const u8, book_length: usize, rows: *mut i64, rows_length: usize) -> u64;
    fn toe_sheet(book: *const u8, book_length: usize, party: u16, sums: *mut i64, sums_length: usize) -> u64;
    fn toe_file(
        book: *const u8,
        book_length: usize,
        kind: u8,
        receiver: u64,
        id: *const u8,
        id_length: usize,
        moment: *const u8,
        moment_length: usize,
        rows: *mut i64,
        rows_length: usize,
        file: *mut u8,
        file_length: usize,
    ) -> u64;
    fn toe_read(
        file: *const u8,
        file_length: usize,
        rows: *mut u64,
        rows_length: usize,
        facts: *mut u64,
        facts_length: usize,
    ) -> u64;
    fn toe_write(
        kind: u8,
        receiver: u64,
        year: u64,
        month: u64,
        rows: *const u64,
        rows_length: usize,
        id: *const u8,
        id_length: usize,
        moment: *const u8,
        moment_length: usize,
        file: *mut u8,
        file_length: usize,
    ) -> u64;
}

/// Accepted, the count; refused, 2^63 + number × 2^32 + item.
pub type Answer = Result<usize, Refusal>;

fn decode(code: u64) -> Answer {
    if code < 1 << 63 {
        return Ok(code as usize);
    }
    let number = (code - (1 << 63)) >> 32;
    Err(Refusal { number: u8::try_from(number).unwrap(), item: code as u32 })
}

// SAFETY of all below: a call reads and writes the lent slices alone, which are live and, as Rust's references are,
// apart where one is written.

pub fn settle(book: &[u8], rows: &mut [i64]) -> Answer {
    decode(unsafe { toe_settle(book.as_ptr(), book.len(), rows.as_mut_ptr(), rows.len()) })
}

pub fn sheet(book: &[u8], party: u16, sums: &mut [i64]) -> Answer {
    decode(unsafe { toe_sheet(book.as_ptr(), book.len(), party, sums.as_mut_ptr(), sums.len()) })
}

/// What a file call names.
#[derive(Clone, Copy)]
pub struct Named<'a> {
    pub kind: u8,
    pub receiver: u64,
    pub id: &'a [u8],
    pub moment: &'a [u8],
}

pub fn file(book: &[u8], named: Named, rows: &mut [i64], file: &mut [u8]) -> Answer {
    decode(unsafe {
        toe_file(
            book.as_ptr(),
            book.len(),
            named.kind,
            named.receiver,
            named.id.as_ptr(),
            named.id.len(),
            named.moment.as_ptr(),
            named.moment.len(),
            rows.as_mut_ptr(),
            rows.len(),
            file.as_mut_ptr(),
            file.len(),
        )
    })
}

pub fn read(file: &[u8], rows: &mut [u64], facts: &mut [u64]) -> Answer {
    decode(unsafe {
        toe_read(file.as_ptr(), file.len(), rows.as_mut_ptr(), rows.len(), facts.as_mut_ptr(), facts.len())
    })
}

pub fn write(named: Named, year: u64, month: u64, rows: &[u64], file: &mut [u8]) -> Answer {
    decode(unsafe {
        toe_write(
            named.kind,
            named.receiver,
            year,
            month,
            rows.as_ptr(),
            rows.len(),
            named.id.as_ptr(),
            named.id.len(),
            named.moment.as_ptr(),
            named.moment.len(),
            file.as_mut_ptr(),
            file.len(),
        )
    })
}
