//! A cold store's month of June 2021: makes a book, settles it, and writes its three files.
//! docs/BOOK.md has the book's layout, docs/LIBRARY.md the command that runs this.
//!
//! The store has two delivery points behind one access point. The first is settled by transfer, so it stands in TOE01 and TOE02;
//! the second has a pass-through contract, so it stands in TOE03. On Thursday 10 June, from 14:00 to 15:00, the FSP turns both
//! down.

mod toe;

use std::ops::Range;

const LEAD_DAYS: usize = 1;
const DAYS: usize = LEAD_DAYS + 30;

const SUPPLIER: u64 = 3;
const FSP: u64 = 7;

/// Day 0 is Monday 31 May, so day 10 is 10 June; quarter-hour 56 starts at 14:00.
const ACTIVATED_DAY: usize = 10;
const ACTIVATED: Range<usize> = 56..60;

struct Point {
    delivery_ean: u64,
    /// 0 transfer, 1 pass-through.
    situation: u8,
    requested_watts: u32,
    watts: fn(usize, usize) -> i32,
}

const POINTS: [Point; 2] = [
    Point { delivery_ean: 541400000000000011, situation: 0, requested_watts: 100_000, watts: first_watts },
    Point { delivery_ean: 541400000000000012, situation: 1, requested_watts: 50_000, watts: second_watts },
];

/// The kilowatts that the first point takes on a day; the second takes half of them.
fn kilowatts(day: usize) -> i32 {
    match day {
        4 => 420,  // Friday 4 June
        7 => 410,  // Monday 7 June
        8 => 300,  // Tuesday 8 June: maintenance, the lowest of the five
        9 => 410,  // Wednesday 9 June
        10 => 410, // Thursday 10 June, but for the hour
        _ => 400,  // Thursday 3 June among them
    }
}

fn is_activated(day: usize, quarter: usize) -> bool {
    day == ACTIVATED_DAY && ACTIVATED.contains(&quarter)
}

fn first_watts(day: usize, quarter: usize) -> i32 {
    if is_activated(day, quarter) { 310_000 } else { 1000 * kilowatts(day) }
}

fn second_watts(day: usize, quarter: usize) -> i32 {
    if is_activated(day, quarter) { 145_000 } else { 500 * kilowatts(day) }
}

/// Working days are category 0, with the 4 greatest of the 5 latest as reference days; weekends are category 1, with 2 of 3.
fn calendar() -> Vec<u8> {
    (0..DAYS).map(|day| (day % 7 >= 5) as u8).collect()
}

fn choices() -> Vec<u8> {
    vec![4, 5, 2, 3, 2, 3, 2, 3]
}

fn register() -> Vec<u8> {
    let mut bytes = Vec::new();
    for point in POINTS {
        bytes.extend(point.delivery_ean.to_le_bytes());
        bytes.extend(541400000000000001u64.to_le_bytes()); // access point EAN
        bytes.extend(SUPPLIER.to_le_bytes());
        bytes.extend(FSP.to_le_bytes());
        bytes.extend(0u64.to_le_bytes()); // no day is excluded
        bytes.extend(500_000u32.to_le_bytes()); // largest upward watts
        bytes.extend(500_000u32.to_le_bytes()); // largest downward watts
        bytes.extend(1u16.to_le_bytes()); // source balance party
        bytes.extend(2u16.to_le_bytes()); // FSP balance party
        bytes.extend([point.situation, 0, 1]); // off-take, High X of Y
        bytes.extend([0; 9]);
    }
    bytes
}

fn readings() -> Vec<u8> {
    let mut bytes = Vec::new();
    for point in POINTS {
        for day in 0..DAYS {
            for quarter in 0..96 {
                bytes.extend((point.watts)(day, quarter).to_le_bytes());
            }
        }
    }
    bytes
}

fn engagements() -> Vec<u8> {
    let mut bytes = Vec::new();
    for (index, point) in POINTS.iter().enumerate() {
        bytes.extend((index as u16).to_le_bytes());
        bytes.extend([ACTIVATED_DAY as u8, ACTIVATED.start as u8, ACTIVATED.len() as u8]);
        bytes.extend([0, 0, 0]); // up: less is taken from the grid; notice, which method 0 alone asks for; zero
        bytes.extend(point.requested_watts.to_le_bytes());
        bytes.extend([0; 4]);
    }
    bytes
}

/// The header, the five pairs and the five sections.
fn book() -> Vec<u8> {
    let sections = [calendar(), choices(), register(), readings(), engagements()];
    let mut bytes = Vec::new();
    bytes.extend(1u16.to_le_bytes()); // version
    bytes.extend(2021u16.to_le_bytes());
    bytes.extend([6, LEAD_DAYS as u8]); // month and lead days
    bytes.extend((POINTS.len() as u16).to_le_bytes());
    bytes.extend((POINTS.len() as u16).to_le_bytes()); // one engagement a point
    bytes.extend([0; 6]);
    let mut start = 56;
    for section in &sections {
        bytes.extend((start as u32).to_le_bytes());
        bytes.extend((section.len() as u32).to_le_bytes());
        start += section.len();
    }
    [bytes, sections.concat()].concat()
}

fn main() -> Result<(), toe::Refused> {
    let book = book();
    println!("baseline, delivered, source, FSP and injection correction, in kilowatts");
    for row in toe::settle(&book)?.chunks(5) {
        let kilowatts = |grains: &i64| format!("{:.3}", *grains as f64 / (1000 * toe::GRAINS_PER_WATT) as f64);
        println!("{}", row.iter().map(kilowatts).collect::<Vec<_>>().join(" "));
    }
    for (kind, receiver) in [(1, FSP), (2, SUPPLIER), (3, SUPPLIER)] {
        let file = toe::file(&book, kind, receiver, "COLD-STORE-1", "2021-08-02T09:00:00.000+02:00")?;
        println!("TOE0{kind}\n{}", String::from_utf8_lossy(&file));
    }
    Ok(())
}
