//! Random books, good and damaged, and damaged files.

use reference::book::{Book, Choice, Engagement, MISSING};
use reference::calendar::MONTHS;
use reference::random::Random;
use reference::settle_cases;
use reference::split_cases::random_split_book;

/// A good book of version 1 or 2.
pub fn random_book(random: &mut Random) -> Book {
    match random.range(0, 5) {
        0 => settle_cases::random_book(random),
        1 => random_split_book(random),
        _ => full_book(random),
    }
}

/// A book with readings everywhere, whose points share access points, companies and parties.
fn full_book(random: &mut Random) -> Book {
    let month = random.pick(&MONTHS);
    let lead_days = if random.once_in(5) { random.range(1, 33) } else { random.range(3, 9) } as u8;
    let points = if random.once_in(40) { random.range(7, 30) } else { random.range(1, 5) } as u16;
    let mut book = Book::plain(random.range(2018, 2099) as u16, month, lead_days, points);
    book.version = random.range(1, 2) as u16;
    for category in &mut book.calendar {
        *category = if random.once_in(5) { random.range(0, 3) as u8 } else { 0 };
    }
    for choice in &mut book.choices {
        let x = if random.once_in(6) { random.range(1, 10) } else { random.range(1, 3) };
        *choice = Choice { x: x as u8, y: random.range(x, x + 2) as u8 };
    }
    for point in 0..points as usize {
        fill_point(random, &mut book, point);
    }
    book.lay_out();
    book
}

fn fill_point(random: &mut Random, book: &mut Book, point: usize) {
    let days = book.days();
    let row = &mut book.register[point];
    row.delivery_ean = 1000 * point as u64 + random.range(0, 999) as u64;
    row.method = random.range(0, 2) as u8;
    row.situation = random.pick(&[0, 0, 0, 0, 1, 1, 2, 3]);
    row.supply = random.range(0, 1) as u8;
    row.supplier = random.range(1, 3) as u64;
    row.fsp = random.pick(&[1, 2, 9_999_999_999]);
    row.access_ean = 10 * row.supplier + row.supply as u64;
    row.source_party = if random.once_in(8) { 0 } else { random.range(1, 4) as u16 };
    row.fsp_party = random.range(3, 6) as u16;
    row.injection_party = if book.version == 1 { 0 } else { random.pick(&[0, 1, 2, 4, 5, 8, 258, 513, 65535]) };
    row.largest_up = random.pick(&[0, 40, 5000, 1_000_000_000]);
    row.largest_down = random.pick(&[0, 40, 5000, 1_000_000_000]);
    row.excluded_days = if random.once_in(3) { 1 << random.range(0, days as i64 - 1) } else { 0 };
    let spread = random.pick(&[1, 50, 3000]);
    let level = if random.once_in(2) { random.range(-spread, 0) } else { random.range(-500, 5000) };
    for watts in &mut book.readings[point] {
        *watts = if random.once_in(3000) { MISSING } else { (level + random.range(0, spread)) as i32 };
    }
    let mut day = first_day(random, book) + random.range(0, 4);
    while day < days as i64 && !random.once_in(4) {
        let length = book.day_lengths[day as usize] as i64;
        let mut first = random.range(0, length - 1);
        while first < length && !random.once_in(3) {
            let most = if random.once_in(4) { length } else { 6 };
            let count = random.range(1, most.min(length - first));
            book.engagements.push(Engagement {
                point: point as u16,
                day: day as u8,
                first: first as u8,
                count: count as u8,
                direction: random.range(0, 1) as u8,
                notice: random.range(0, 96) as u8,
                requested: random.range(1, 6000) as u32,
                ..Engagement::default()
            });
            first += count + random.range(0, 20);
        }
        day += random.range(1, 9);
    }
}

/// The first settled day, or one shortly before the clock change.
fn first_day(random: &mut Random, book: &Book) -> i64 {
    let lead_days = book.lead_days as usize;
    let change = (lead_days..book.days()).find(|&day| book.is_clock_change(day));
    let near = change.filter(|_| random.once_in(2)).map_or(0, |day| day.saturating_sub(3));
    near.max(lead_days) as i64
}

/// Another value near this byte, or any.
fn other(random: &mut Random, byte: u8) -> u8 {
    match random.range(0, 3) {
        0 => byte.wrapping_add(1),
        1 => byte.wrapping_sub(1),
        2 => byte ^ 1 << random.range(0, 7),
        _ => random.range(0, 255) as u8,
    }
}

/// One or two readings at the edges of their range, or missing.
fn change_readings(random: &mut Random, bytes: &mut [u8], (start, length): (i64, i64)) {
    for _ in 0..random.range(1, 2) {
        let place = (start + 4 * random.range(0, length / 4 - 1)) as usize;
        let limit = 1_000_000_000;
        let watts = random.pick(&[limit, limit + 1, -limit, -limit - 1, i32::MAX, MISSING + 1, MISSING]);
        bytes[place..place + 4].copy_from_slice(&watts.to_le_bytes());
    }
}

/// Another value for one of the nine bytes behind a register row's method, of which version 2 has two for a party.
fn change_last_nine(random: &mut Random, bytes: &mut [u8], (start, length): (i64, i64)) {
    let row = start + 64 * random.range(0, length / 64 - 1);
    let place = (row + random.range(55, 63)) as usize;
    bytes[place] = other(random, bytes[place]);
}

/// The bytes of a book with some of them changed, cut off or added, now and then with 96 readings on every day.
pub fn damaged_book(random: &mut Random, book: &Book) -> Vec<u8> {
    let mut book = book.clone();
    if random.once_in(20) {
        book.resize_readings(96 * book.days());
    }
    let mut bytes = book.encode();
    let section = |k: usize| (book.pairs[k].0 as i64, book.pairs[k].1 as i64);
    for _ in 0..random.range(1, 2) {
        let (start, length) = match random.range(0, 7) {
            0 => (0, 16),
            1 => (16, 40),
            2 => section(0),
            3 => section(1),
            4 => section(2),
            5 => section(3),
            _ => section(4),
        };
        if length > 0 {
            let place = random.range(start, start + length - 1) as usize;
            bytes[place] = other(random, bytes[place]);
        }
    }
    if random.once_in(6) {
        change_readings(random, &mut bytes, section(3));
    }
    if random.once_in(12) {
        change_last_nine(random, &mut bytes, section(2));
    }
    match random.range(0, 19) {
        0 => bytes.truncate(random.range(0, bytes.len() as i64) as usize),
        1 => bytes.push(0),
        _ => {}
    }
    bytes
}

/// The bytes of a file with one changed, left out, doubled, or a part repeated or left out.
pub fn damaged_file(random: &mut Random, file: &[u8]) -> Vec<u8> {
    let mut bytes = file.to_vec();
    let place = random.range(0, file.len() as i64 - 1) as usize;
    let end = (place + random.range(1, 120) as usize).min(file.len());
    match random.range(0, 7) {
        0 => drop(bytes.remove(place)),
        1 => bytes.insert(place, file[place]),
        2 => drop(bytes.drain(place..end)),
        3 => drop(bytes.splice(place..place, file[place..end].to_vec())),
        4 => bytes.truncate(place),
        5 => bytes.push(random.pick(b"\n <0")),
        _ => {
            bytes[place] =
                if random.once_in(2) { random.pick(b"0123456789<>/.+-:TZ") } else { other(random, file[place]) }
        }
    }
    bytes
}
