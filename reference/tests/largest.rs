//! The largest answers of any book, as docs/BOOK.md gives them.

use reference::book::{Book, Engagement, RegisterRow};
use reference::examples::CASE_F_MOMENT;
use reference::message::{good_rows, write};
use reference::message_cases::random_file;
use reference::random::Random;
use reference::report_cases::heat_pumps;
use reference::series::file_call;
use reference::settle::settle;
use reference::settle_cases::random_book;
use reference::sheet::sheet;
use std::collections::BTreeSet;

const LARGEST_BOOK: usize = 6_320_256;
const LARGEST_ROWS: usize = 250_880;
const LARGEST_SHEET: usize = 2_980;
const LARGEST_FILES: [usize; 3] = [4_443_665, 4_438_545, 4_427_293];

/// October 2021, 33 lead days, 256 points, each of its own partner and of one receiver, each with the whole day of 100 quarter-hours up and a
/// whole day down of 10^9 W, at positions of four digits: every partner, series and observation that a book can have, each as long as it can be.
fn largest(kind: u8) -> Book {
    let mut book = Book::plain(2021, 10, 33, 256);
    for (index, row) in book.register.iter_mut().enumerate() {
        let own = index as u64;
        (row.supplier, row.fsp) = match kind {
            1 => (own, 7),
            2 => (3, own),
            _ => (3, 7),
        };
        row.situation = if kind == 3 { 1 } else { 0 };
        (row.supply, row.method) = (1, 0);
        (row.largest_up, row.largest_down) = (1_000_000_000, 1_000_000_000);
    }
    let days = [47, 62].map(|day| book.place(day, 0)..book.place(day + 1, 0));
    for point in 0..256 {
        let readings = &mut book.readings[point as usize];
        for day in days.clone() {
            readings[day].fill(1_000_000_000);
        }
        for (day, count, direction) in [(47, 96, 1), (63, 100, 0)] {
            book.engagements.push(Engagement { point, day, count, direction, requested: 1, ..Engagement::default() });
        }
    }
    book.lay_out();
    book
}

#[test]
fn largest_files() {
    for (kind, receiver) in [(1, 7), (2, 3), (3, 3)] {
        let length = LARGEST_FILES[kind as usize - 1];
        let book = largest(kind);
        let bytes = book.encode();
        assert_eq!(bytes.len(), LARGEST_BOOK);
        assert!(length <= enough(&book));
        let call = |file| file_call(&bytes, kind, receiver, &[b'x'; 36], CASE_F_MOMENT, LARGEST_ROWS, file);
        let filed = call(length).unwrap();
        assert_eq!((filed.rows.len(), filed.file.len()), (LARGEST_ROWS, length));
        assert!(call(length - 1).is_err());
    }
}

#[test]
fn largest_rows_and_sheet() {
    for version in [1, 2] {
        let mut book = largest(1);
        book.version = version;
        let bytes = book.encode();
        assert_eq!(settle(&bytes, LARGEST_ROWS).unwrap().len(), LARGEST_ROWS);
        assert_eq!(sheet(&bytes, 0, LARGEST_SHEET).unwrap().len(), LARGEST_SHEET);
    }
}

/// The length that docs/BOOK.md gives for every file of a book.
fn enough(book: &Book) -> usize {
    let quarters: usize = book.engagements.iter().map(|row| row.count as usize).sum();
    285 + 160 * book.register.len() + 378 * book.engagements.len() + 84 * quarters
}

/// How many files of the book are not refused; each has no more than that length, with the longest ID.
fn files_within(book: &Book) -> usize {
    let bytes = book.encode();
    let of_row = |row: &RegisterRow| [(1, row.fsp), (2, row.supplier), (3, row.supplier)];
    let receivers: BTreeSet<(u8, u64)> = book.register.iter().flat_map(of_row).collect();
    let lengths = receivers.into_iter().filter_map(|(kind, receiver)| {
        let filed = file_call(&bytes, kind, receiver, &[b'x'; 36], CASE_F_MOMENT, usize::MAX, usize::MAX).ok()?;
        Some(filed.file.len())
    });
    lengths.inspect(|&length| assert!(length <= enough(book))).count()
}

#[test]
fn files_of_random_books() {
    let mut random = Random::new(12);
    let accepted: usize = (0..200).map(|_| files_within(&random_book(&mut random))).sum();
    assert!(accepted > 100);
    assert!(files_within(&heat_pumps()) > 0);
}

/// 300 + 600 n bytes for a file written from n rows, and six numbers for every 75 bytes of a file that is read.
#[test]
fn files_from_rows() {
    let mut random = Random::new(13);
    let mut checked = 0;
    for _ in 0..2000 {
        let case = random_file(&mut random);
        if good_rows(case.kind, case.receiver, case.year, case.month, &case.numbers) {
            let (year, month, id) = (case.year, case.month, [b'x'; 36]);
            let file =
                write(case.kind, case.receiver, year, month, &case.numbers, &id, CASE_F_MOMENT, usize::MAX).unwrap();
            assert!(file.len() <= 300 + 600 * (case.numbers.len() / 6));
            assert!(case.numbers.len() <= 6 * (file.len() / 75));
            checked += 1;
        }
    }
    assert!(checked > 1000);
}
