//! What the examples print for their cold store is what is calculated here.

use reference::book::{Book, Choice};
use reference::examples::engage;
use reference::series::file_call;
use reference::settle::{GRAINS_PER_WATT, ROW_WIDTH, settle};

/// June 2021 from Monday 31 May on: two points, the second at half of the first's level, turned down from 14:00 to 15:00 on the 10th.
fn cold_store() -> Book {
    let mut book = Book::plain(2021, 6, 1, 2);
    for (day, category) in book.calendar.iter_mut().enumerate() {
        *category = if day % 7 < 5 { 0 } else { 1 };
    }
    book.choices = [(4, 5), (2, 3), (2, 3), (2, 3)].map(|(x, y)| Choice { x, y }).to_vec();
    for (index, row) in book.register.iter_mut().enumerate() {
        (row.delivery_ean, row.access_ean) = (541_400_000_000_000_011 + index as u64, 541_400_000_000_000_001);
        (row.supplier, row.fsp, row.method, row.situation) = (3, 7, 1, index as u8);
        (row.largest_up, row.largest_down, row.source_party, row.fsp_party) = (500_000, 500_000, 1, 2);
    }
    for (point, watts) in [(0, 1000), (1, 500)] {
        book.readings[point].fill(400 * watts);
        for (day, kilowatts) in [(4, 420), (7, 410), (8, 300), (9, 410), (10, 410)] {
            book.readings[point][96 * day..96 * (day + 1)].fill(kilowatts * watts);
        }
    }
    book.readings[0][96 * 10 + 56..96 * 10 + 60].fill(310_000);
    book.readings[1][96 * 10 + 56..96 * 10 + 60].fill(145_000);
    engage(&mut book, 0, 10, 56, 4, 0, 100_000);
    engage(&mut book, 1, 10, 56, 4, 0, 50_000);
    book
}

#[test]
fn examples_print_this() {
    let bytes = cold_store().encode();
    let mut text = "baseline, delivered, source, FSP and injection correction, in kilowatts\n".to_string();
    for row in settle(&bytes, usize::MAX).unwrap().chunks(ROW_WIDTH) {
        let kilowatts = |&grains: &i64| {
            let watts = grains as i128 / GRAINS_PER_WATT;
            assert_eq!(watts * GRAINS_PER_WATT, grains as i128);
            let sign = if watts < 0 { "-" } else { "" };
            format!("{sign}{}.{:03}", watts.abs() / 1000, watts.abs() % 1000)
        };
        text += &(row.iter().map(kilowatts).collect::<Vec<_>>().join(" ") + "\n");
    }
    for (kind, receiver) in [(1, 7), (2, 3), (3, 3)] {
        let moment = b"2021-08-02T09:00:00.000+02:00";
        let filed = file_call(&bytes, kind, receiver, b"COLD-STORE-1", moment, usize::MAX, usize::MAX).unwrap();
        text += &format!("TOE0{kind}\n{}\n", String::from_utf8(filed.file).unwrap());
    }
    assert_eq!(std::fs::read_to_string("../examples/expected.txt").unwrap(), text);
}
