//! A month's whole set of files for a pool of heat pumps: TOE01 for every FSP, TOE02 and TOE03 for every supplier.

use crate::calls::{self, Named};
use reference::book::{Book, Engagement};
use reference::examples::{CASE_F_ID, CASE_F_MOMENT, june};
use reference::random::Random;
use reference::series;
use std::time::Instant;

const LONG: usize = 1 << 24;

/// Points with three reference days, so that most baselines end in a third of a watt. Suppliers take turns; FSP and situation are
/// drawn for each point, one in three pass-through, so that a supplier has points of every FSP and an FSP of every supplier.
fn pool(points: u16, suppliers: u64, providers: u64, engagements: usize, count: u8) -> Book {
    let mut random = Random::new(2);
    let mut book = june(3, points, 3, 3);
    for (index, row) in book.register.iter_mut().enumerate() {
        row.supplier = 1 + index as u64 % suppliers;
        row.fsp = 100 + random.range(0, providers as i64 - 1) as u64;
        row.situation = random.once_in(3) as u8;
    }
    for watts in book.readings.iter_mut().flatten() {
        *watts = random.range(0, 6000) as i32;
    }
    for point in 0..points {
        for part in 0..engagements as u8 {
            let (day, first) = (4 + 9 * part, random.range(0, 96 - count as i64) as u8);
            let direction = random.range(0, 1) as u8;
            book.engagements.push(Engagement {
                point,
                day,
                first,
                count,
                direction,
                requested: 2000,
                ..Engagement::default()
            });
        }
    }
    book.lay_out();
    book
}

/// The kind and receiver of each file of the book.
fn receivers(book: &Book) -> Vec<(u8, u64)> {
    let mut all = Vec::new();
    for row in &book.register {
        all.extend([(1, row.fsp), (2, row.supplier), (3, row.supplier)]);
    }
    all.sort();
    all.dedup();
    all
}

/// Milliseconds for the set of files, the least of some runs; each file is compared with the reference once.
fn set_of_files(book: &Book) -> (usize, usize, f64) {
    let bytes = book.encode();
    let (mut rows, mut file) = (vec![0; LONG / 8], vec![0; LONG]);
    let (mut least, mut written) = (f64::MAX, 0);
    let receivers = receivers(book);
    for run in 0..5 {
        let mut spent = 0.0;
        written = 0;
        for &(kind, receiver) in &receivers {
            let named = Named { kind, receiver, id: CASE_F_ID, moment: CASE_F_MOMENT };
            let begun = Instant::now();
            let count = calls::file(&bytes, named, &mut rows, &mut file).expect("the book is accepted");
            spent += begun.elapsed().as_secs_f64() * 1e3;
            written += count;
            if run == 0 {
                let expected =
                    series::file_call(&bytes, kind, receiver, CASE_F_ID, CASE_F_MOMENT, rows.len(), file.len())
                        .unwrap();
                assert!(expected.file == file[..count] && rows.starts_with(&expected.rows), "the files differ");
            }
        }
        least = f64::min(least, spent);
    }
    (receivers.len(), written, least)
}

fn row(what: &str, book: &Book) {
    let (files, bytes, spent) = set_of_files(book);
    println!("{what:<44} {files:>4} files {bytes:>9} bytes {spent:>9.2} ms");
}

pub fn run() {
    println!("a month's whole set of files, files compared, least of 5 runs");
    row("180 points, 6 suppliers, 3 FSPs", &pool(180, 6, 3, 2, 8));
    println!("growth with points, two engagements each");
    for points in [45, 90, 180] {
        row(&format!("{points} points, 6 suppliers, 3 FSPs"), &pool(points, 6, 3, 2, 8));
    }
    println!("growth with suppliers, 180 points");
    for suppliers in [6, 12, 24] {
        row(&format!("180 points, {suppliers} suppliers, 3 FSPs"), &pool(180, suppliers, 3, 2, 8));
    }
    println!("growth with quarter-hours, 180 points");
    for count in [8, 16, 32] {
        row(&format!("180 points, {count} quarter-hours an engagement"), &pool(180, 6, 3, 2, count));
    }
}
