//! C-14's cases: books of version 2, with an injection party at each point, and the same books as version 1.

use crate::book::{Book, MISSING, RegisterRow};
use crate::book_cases::{self, engaged, random_damage, small, spoils, with_byte};
use crate::calendar::MONTHS;
use crate::clock_cases::CHANGES;
use crate::examples::*;
use crate::random::Random;
use crate::report_cases::{FileCases, LINE, SheetCase, steady};
use crate::settle_cases::{self, random_book, random_cases, random_plain_book};
use crate::sheet::parties;

const BILLION: i32 = 1_000_000_000;

/// The book as one of this version; of version 1 it has no injection parties.
fn of_version(version: u16, book: &Book) -> Book {
    let mut book = book.clone();
    book.version = version;
    if version == 1 {
        for row in &mut book.register {
            row.injection_party = 0;
        }
    }
    book
}

/// The book with one byte of a register row changed.
fn with_row_byte(book: &Book, row: usize, byte: usize, value: u8) -> Book {
    let mut book = book.clone();
    book.register[row] = with_byte(&book.register[row], byte, value);
    book
}

/// Case F of version 2.
fn case_f_2() -> Book {
    of_version(2, &case_f())
}

/// A good book of version 2, with readings about 0 W, so that off-take turns into injection and back.
pub fn random_split_book(random: &mut Random) -> Book {
    let mut book = if random.once_in(4) { random_book(random) } else { random_plain_book(random) };
    split(random, &mut book);
    book
}

/// The same of a month that has no clock change in its calendar.
fn random_plain_split_book(random: &mut Random) -> Book {
    let mut book = random_plain_book(random);
    split(random, &mut book);
    book
}

/// Makes a book one of version 2 and lowers what it has of small readings; some parties stand in other columns too.
fn split(random: &mut Random, book: &mut Book) {
    book.version = 2;
    for (row, readings) in book.register.iter_mut().zip(&mut book.readings) {
        row.injection_party = random.pick(&[0, 1, 2, 3, 4, 258, 513]);
        if random.once_in(4) {
            row.source_party = random.pick(&[0, 4, 258, 513]);
        }
        let lower = random.range(0, 80) as i32;
        for watts in readings.iter_mut().filter(|watts| **watts != 0 && (-1000..=1000).contains(*watts)) {
            *watts -= lower;
        }
    }
}

impl book_cases::Cases {
    pub fn versions(&mut self) {
        for version in [3, 4, 255, 258, 512, 513, 514, 770] {
            self.changed(format!("version {version}"), &small(1), |book| book.version = version);
        }
        self.version_2();
        self.last_nine_bytes();
        self.injection_parties();
        self.random_versions();
    }

    /// Version 2 is judged as version 1 is.
    fn version_2(&mut self) {
        let base = of_version(2, &engaged());
        self.book("version 2 with engagements", &base);
        self.bytes("version 2, the first 55 bytes", base.encode()[..55].to_vec());
        self.changed("version 2, year 2017", &base, |book| book.year = 2017);
        for (from, (number, _)) in spoils().into_iter().enumerate() {
            self.changed(format!("version 2, bad in every way from {number} on"), &base, |book| {
                for (_, change) in &spoils()[from..] {
                    change(book);
                }
            });
        }
        self.changed("version 3, bad in every way from 2 on", &base, |book| {
            book.version = 3;
            for (_, change) in &spoils()[1..] {
                change(book);
            }
        });
        let march = of_version(2, &Book::plain(2021, 3, 1, 1));
        self.book("version 2, 2021-03", &march);
        self.changed("version 2, 2021-03, 96 a day", &march, |book| book.resize_readings(96 * book.days()));
    }

    /// Bytes 55 to 63 of row 1 of three.
    fn last_nine_bytes(&mut self) {
        let base = small(3);
        for byte in 55..64 {
            self.book(format!("byte {byte} of the row is 128"), &with_row_byte(&base, 1, byte, 128));
        }
        let base = of_version(2, &base);
        for (byte, value) in (55..64).flat_map(|byte| [(byte, 1), (byte, 128)]) {
            self.book(format!("version 2, byte {byte} of the row is {value}"), &with_row_byte(&base, 1, byte, value));
        }
        for (row, byte) in [(0, 55), (2, 55), (0, 58), (2, 58), (0, 63), (2, 63)] {
            self.book(format!("version 2, byte {byte} of row {row} is 255"), &with_row_byte(&base, row, byte, 255));
        }
        for (what, change) in [
            ("5 by byte 58 and 4", (|book| book.calendar[0] = 4) as fn(&mut Book)),
            ("5 by byte 58 and 6", |book| book.readings[0][0] = i32::MAX),
            ("5 by byte 58 of row 1 and method 3 of row 0", |book| book.register[0].method = 3),
            ("5 by byte 58 of row 1 and method 3 of row 2", |book| book.register[2].method = 3),
        ] {
            self.changed(format!("version 2, {what}"), &with_row_byte(&base, 1, 58, 1), change);
        }
    }

    fn injection_parties(&mut self) {
        let second = of_version(2, &small(3));
        for party in [1, 255, 256, 258, 513, 65535] {
            self.changed(format!("version 2, injection party {party}"), &second, |book| {
                book.register[1].injection_party = party
            });
        }
        for party in [258, 65535] {
            self.changed(format!("version 1, {party} in bytes 56 and 57"), &small(3), |book| {
                book.register[1].injection_party = party
            });
        }
        let all = |book: &mut Book| book.register.iter_mut().for_each(|row| row.injection_party = 65535);
        self.changed("version 2, injection party 65535 in all rows", &second, all);
        self.changed("version 1, 65535 in bytes 56 and 57 of all rows", &small(3), all);
        for byte in [55, 58] {
            self.changed(format!("version 2, injection party 65535 and byte {byte}"), &second, |book| {
                all(book);
                book.register[2] = with_byte(&book.register[2], byte, 1);
            });
        }
        let shared = |change: fn(&mut RegisterRow)| {
            let mut book = second.clone();
            book.register[2].access_ean = book.register[0].access_ean;
            change(&mut book.register[2]);
            book
        };
        self.book(
            "version 2, rows of one access point with other injection parties",
            &shared(|row| row.injection_party = 9),
        );
        self.book(
            "version 2, rows of one access point with other suppliers",
            &shared(|row| (row.injection_party, row.supplier) = (9, 1)),
        );
    }

    /// Each as it is and with one byte changed, half of the time one of a row's last nine or of the version.
    fn random_versions(&mut self) {
        let mut random = Random::new(17);
        for number in 1..=14 {
            let mut book = book_cases::random_book(&mut random, &MONTHS);
            split(&mut random, &mut book);
            let bytes = book.encode();
            let row = book.pairs[2].0 as i64 + 64 * random.range(0, book.points as i64 - 1);
            let (place, value) = match random.range(0, 3) {
                0 => random.pick(&[(0, 0), (0, 1), (0, 3), (1, 1), (1, 2)]),
                1 => ((row + random.range(55, 63)) as usize, random.range(0, 255) as u8),
                _ => random_damage(&mut random, &book, &bytes),
            };
            let mut damaged = bytes.clone();
            damaged[place] = value;
            self.bytes(format!("random book {number} of version 2"), bytes);
            self.bytes(format!("random book {number} of version 2, byte {place} made {value}"), damaged);
        }
    }
}

/// Every pair of these as baseline and reading, upward on day 1 and downward on day 2, limited to so many watts.
fn all_signs(limit: u32) -> Book {
    let signs = [-9, -3, 0, 3, 9];
    let pairs = || signs.into_iter().flat_map(|baseline| signs.map(|reading| (baseline, reading)));
    let (baselines, readings): (Vec<i32>, Vec<i32>) = pairs().unzip();
    let mut book = june(1, 1, 1, 1);
    (book.register[0].largest_up, book.register[0].largest_down) = (limit, limit);
    read(&mut book, 0, 0, 10, &baselines);
    for (day, direction) in [(1, 0), (2, 1)] {
        read(&mut book, 0, day, 10, &readings);
        engage(&mut book, 0, day as u8, 10, 25, direction, 20);
    }
    book
}

/// Two points of other limits, methods and parties, with engagements up and down on several days.
fn two_points() -> Book {
    let mut book = june(1, 2, 1, 1);
    for (point, (up, down, method)) in [(10, 7, 1), (4, 1000, 0)].into_iter().enumerate() {
        let row = &mut book.register[point];
        (row.largest_up, row.largest_down, row.method) = (up, down, method);
        row.injection_party = 3 + point as u16;
        read(&mut book, point, 0, 39, &[-6, 9, -9, 5]);
        read(&mut book, point, 1, 39, &[8, -3, 3, -2]);
        read(&mut book, point, 3, 39, &[-7, 20, 2, -20]);
        engage(&mut book, point as u16, 1, 40, 2, point as u8, 15);
        engage(&mut book, point as u16, 1, 42, 1, 1 - point as u8, 25);
        engage(&mut book, point as u16, 3, 40, 3, 1, 35);
    }
    book
}

impl settle_cases::Cases {
    pub fn splits(&mut self) {
        self.one_quarter_hour_in_two_parts();
        self.all_signs();
        self.splits_by_method();
        self.splits_of_parts_of_a_watt();
        self.greatest_splits();
        self.splits_of_several_rows();
        self.rows_of_five();
        self.refused_versions();
        self.splits_on_clock_change_days();
        for mut case in random_cases(18, 8, random_plain_split_book) {
            case.what += " of version 2";
            self.0.push(case);
        }
    }

    /// As version 1 and as version 2.
    fn both(&mut self, what: &str, book: &Book) {
        for version in [1, 2] {
            self.book(format!("version {version}, {what}"), &of_version(version, book));
        }
    }

    fn one_quarter_hour_in_two_parts(&mut self) {
        for (what, direction, baseline, reading, limit) in [
            ("up, 9 to -3, limit 10: the off-take party first", 0, 9, -3, 10),
            ("down, -9 to 3, limit 10: annex 2", 1, -9, 3, 10),
            ("down, -3 to 9, limit 10: the off-take party first", 1, -3, 9, 10),
            ("up, -2 to -5", 0, -2, -5, 1000),
            ("up, 4 to -5", 0, 4, -5, 1000),
            ("up, -4 to 1: nothing delivered", 0, -4, 1, 1000),
            ("up, 7 to 2", 0, 7, 2, 1000),
            ("down, -5 to -2", 1, -5, -2, 1000),
            ("down, -5 to 4", 1, -5, 4, 1000),
            ("down, 1 to -4: nothing delivered", 1, 1, -4, 1000),
            ("down, 2 to 7", 1, 2, 7, 1000),
            ("up, 30 to -30, limit 50, more than requested", 0, 30, -30, 50),
            ("down, -30 to 30, limit 50, more than requested", 1, -30, 30, 50),
        ] {
            self.both(what, &one_quarter_hour(2, direction, baseline, reading, limit, 20));
        }
    }

    fn all_signs(&mut self) {
        for limit in [0, 3, 5, 10, 1000] {
            self.both(&format!("all signs, up and down, limit {limit}"), &all_signs(limit));
        }
    }

    fn splits_by_method(&mut self) {
        for (method, direction) in (0..3).flat_map(|method| [(method, 0), (method, 1)]) {
            for baseline in [6, -6] {
                let mut book = june(1, 1, 1, 1);
                book.version = 2;
                let row = &mut book.register[0];
                (row.method, row.largest_up, row.largest_down) = (method, 10, 10);
                read(&mut book, 0, 0, 50, &[baseline; 5]);
                read(&mut book, 0, 1, 49, &[baseline, -9, -4, 0, 4, 9]);
                engage(&mut book, 0, 1, 50, 5, direction, 20);
                let way = ["up", "down"][direction as usize];
                self.book(format!("version 2, method {method}, {way}, baseline {baseline}"), &book);
            }
        }
        for (baseline, addend) in [(4, -9), (-4, 9)] {
            let mut book = june(1, 1, 1, 1);
            book.register[0].method = 2;
            read(&mut book, 0, 0, 50, &[baseline; 4]);
            read(&mut book, 0, 1, 26, &[addend; 14]);
            read(&mut book, 0, 1, 50, &[-8, -1, 2, 8]);
            engage(&mut book, 0, 1, 50, 2, 0, 20);
            engage(&mut book, 0, 1, 52, 2, 1, 20);
            self.both(&format!("method 2, baseline {baseline} with addend {addend}"), &book);
        }
    }

    /// Baselines of thirds of a watt: 1, -1, 2, -2, 0 and 1 of them.
    fn splits_of_parts_of_a_watt(&mut self) {
        let mut book = june(3, 1, 3, 3);
        read(&mut book, 0, 0, 40, &[1, -1, 1, -1, 0, 2]);
        read(&mut book, 0, 1, 40, &[0, 0, 1, -1, 0, -1]);
        read(&mut book, 0, 3, 40, &[0, 0, -1, -1, -1, 1]);
        read(&mut book, 0, 4, 40, &[1, 1, 0, 0, 1, -1]);
        engage(&mut book, 0, 3, 40, 6, 0, 2);
        engage(&mut book, 0, 4, 40, 6, 1, 2);
        self.both("thirds of a watt", &book);
    }

    fn greatest_splits(&mut self) {
        for (direction, baseline, reading) in [
            (0, BILLION, -BILLION),
            (0, 400_000_000, -BILLION),
            (0, -1, -BILLION),
            (1, -BILLION, BILLION),
            (1, -BILLION, 400_000_000),
            (1, -BILLION, -1),
        ] {
            let way = ["up", "down"][direction as usize];
            let book = one_quarter_hour(2, direction, baseline, reading, BILLION as u32, BILLION as u32);
            self.book(format!("version 2, {way}, {baseline} to {reading}, the greatest limit"), &book);
        }
        for (direction, billions, reading) in [(0, 3, -BILLION), (1, -3, BILLION), (1, -3, -BILLION)] {
            let sign = billions / 3;
            let mut book = one_quarter_hour(2, direction, sign * BILLION, reading, BILLION as u32, BILLION as u32);
            book.register[0].method = 2;
            read(&mut book, 0, 0, 26, &[-sign * BILLION; 12]);
            read(&mut book, 0, 1, 26, &[sign * BILLION; 12]);
            self.book(format!("version 2, method 2, baseline of {billions} 10^9 W, reading {reading}"), &book);
        }
    }

    fn splits_of_several_rows(&mut self) {
        self.both("two points, up and down, on several days", &two_points());
        let base = one_quarter_hour(2, 0, 9, -3, 10, 20);
        for situation in 0..4 {
            self.changed(format!("version 2, situation {situation}"), &base, |book| {
                book.register[0].situation = situation
            });
        }
        self.changed("version 2, supply direction injection", &base, |book| book.register[0].supply = 1);
        for party in [0, 5, 65535] {
            self.changed(format!("version 2, party {party} in all three columns"), &base, |book| {
                let row = &mut book.register[0];
                (row.source_party, row.fsp_party, row.injection_party) = (party, party, party);
            });
        }
        self.book("case F of version 2", &case_f_2());
    }

    fn rows_of_five(&mut self) {
        for (version, length) in [(1, 8), (2, 8), (2, 9), (2, 10), (2, 11)] {
            let what = format!("version {version}, case F (2 rows), {length} numbers lent");
            self.lent(what, length, &of_version(version, &case_f()));
        }
        for (version, length) in [(1, 4), (1, 5), (2, 4), (2, 5)] {
            let what = format!("version {version}, one row, {length} numbers lent");
            self.lent(what, length, &one_quarter_hour(version, 1, -9, 3, 10, 20));
        }
        let mut long = june(1, 1, 1, 1);
        engage(&mut long, 0, 1, 0, 96, 0, 1);
        engage(&mut long, 0, 2, 0, 96, 1, 1);
        for (version, length) in [(1, 768), (2, 768), (2, 959), (2, 960)] {
            let what = format!("version {version}, 192 rows, {length} numbers lent");
            self.lent(what, length, &of_version(version, &long));
        }
        self.lent("version 2, no engagement, no numbers lent", 0, &of_version(2, &june(3, 1, 2, 3)));
    }

    fn refused_versions(&mut self) {
        let base = one_quarter_hour(2, 0, 9, -3, 10, 20);
        for version in [0, 3, 258, 512] {
            self.changed(format!("1: version {version}"), &base, |book| book.version = version);
        }
        for (version, byte) in [1, 2].into_iter().flat_map(|version| [55, 56, 57, 58, 63].map(|byte| (version, byte))) {
            let book = with_row_byte(&of_version(version, &base), 0, byte, 2);
            self.book(format!("version {version}, byte {byte} of the row is 2"), &book);
        }
        self.changed("8: version 2", &case_f_2(), |book| book.readings[0][96 * 3] = MISSING);
        self.lent("version 2, 9 before 10", 0, &{
            let mut book = case_f_2();
            book.readings[0][0] = MISSING;
            book
        });
    }

    fn splits_on_clock_change_days(&mut self) {
        for change in CHANGES {
            let mut book = change.book(1, 1, 1);
            let baselines: Vec<i32> = (0..16).map(|quarter| 7 * quarter % 23 - 11).collect();
            read(&mut book, 0, change.day - 1, 2, &baselines);
            read(&mut book, 0, change.day, 6, &[5, -5, 5, -5, 5, -5, 5, -5]);
            engage(&mut book, 0, change.day as u8, 6, 4, 0, 20);
            engage(&mut book, 0, change.day as u8, 10, 4, 1, 20);
            self.both(&format!("{}, the day of {}", change.name(), change.length), &book);
        }
    }
}

/// One quarter-hour up with off-take 9, FSP 20 and injection 1, of these parties.
fn one_row(source: u16, fsp: u16, injection: u16) -> Book {
    let mut book = one_quarter_hour(2, 0, 9, -3, 10, 30);
    let row = &mut book.register[0];
    (row.source_party, row.fsp_party, row.injection_party) = (source, fsp, injection);
    book
}

/// The same with another point of these parties, which in that quarter-hour and the next has off-take -3, FSP -30 and injection -7.
fn two_rows(first: [u16; 3], second: [u16; 3]) -> Book {
    let mut book = june(1, 2, 1, 1);
    book.version = 2;
    for (row, parties) in book.register.iter_mut().zip([first, second]) {
        (row.largest_up, row.largest_down) = (10, 10);
        [row.source_party, row.fsp_party, row.injection_party] = parties;
    }
    read(&mut book, 0, 0, 50, &[9]);
    read(&mut book, 0, 1, 50, &[-3]);
    engage(&mut book, 0, 1, 50, 1, 0, 30);
    read(&mut book, 1, 0, 50, &[-9, -9]);
    read(&mut book, 1, 1, 50, &[3, 3]);
    engage(&mut book, 1, 1, 50, 2, 1, 40);
    book
}

/// As many numbers as June has.
const JUNE: usize = 2880;

pub fn sheet_cases() -> Vec<SheetCase> {
    let mut cases = Vec::new();
    let mut add = |what: String, party: u16, sheet_length: usize, book: &Book| {
        cases.push(SheetCase { what, party, sheet_length, bytes: book.encode() });
    };
    columns_of_parties(&mut add);
    parties_0(&mut add);
    bytes_of_parties(&mut add);
    sheets_of_version_2(&mut add);
    let mut random = Random::new(19);
    for number in 1..=8 {
        let book = random_plain_split_book(&mut random);
        let any = random.pick(&[0, 1, 2, 3, 4, 258, 513]);
        let party = if random.once_in(4) { any } else { random.pick(&parties(&book)) };
        add(format!("random book {number} of version 2"), party, book.month_quarters(), &book);
    }
    cases
}

/// Party 5 in one, two and three columns, of one point and of two.
fn columns_of_parties(add: &mut impl FnMut(String, u16, usize, &Book)) {
    let columns =
        [[5, 6, 7], [6, 5, 7], [6, 7, 5], [5, 5, 6], [5, 6, 5], [6, 5, 5], [5, 5, 5], [6, 7, 8], [6, 6, 6], [6, 6, 0]];
    for [source, fsp, injection] in columns {
        let book = one_row(source, fsp, injection);
        add(format!("version 2, parties {source}, {fsp}, {injection}: party 5"), 5, JUNE, &book);
    }
    for (source, fsp) in [(5, 6), (6, 5), (5, 5), (6, 7)] {
        let book = of_version(1, &one_row(source, fsp, 0));
        add(format!("version 1, parties {source}, {fsp}: party 5"), 5, JUNE, &book);
    }
    for (first, second) in [
        ([5, 6, 7], [6, 7, 5]),
        ([6, 7, 5], [5, 6, 7]),
        ([6, 5, 7], [7, 6, 5]),
        ([6, 7, 5], [7, 6, 5]),
        ([5, 6, 5], [6, 5, 5]),
        ([5, 5, 5], [5, 5, 5]),
        ([6, 7, 8], [6, 7, 5]),
        ([6, 7, 8], [8, 7, 6]),
    ] {
        let what = format!("version 2, parties {first:?} and {second:?}: party 5");
        add(what, 5, JUNE, &two_rows(first, second));
    }
}

fn parties_0(add: &mut impl FnMut(String, u16, usize, &Book)) {
    add("version 1, case F, party 0".into(), 0, JUNE, &case_f());
    add("version 2, case F, party 0: a sheet of zeros".into(), 0, JUNE, &case_f_2());
    add("version 1, 9 to -3, party 0".into(), 0, JUNE, &of_version(1, &one_row(5, 6, 0)));
    add("version 2, 9 to -3, party 0".into(), 0, JUNE, &one_row(5, 6, 0));
    add("version 2, parties 5, 6, 7: party 0".into(), 0, JUNE, &one_row(5, 6, 7));
    add("version 2, parties 0, 6, 7: party 0".into(), 0, JUNE, &one_row(0, 6, 7));
    add("version 2, parties 5, 0, 7: party 0".into(), 0, JUNE, &one_row(5, 0, 7));
    add("version 2, parties 0, 0, 0: party 0".into(), 0, JUNE, &one_row(0, 0, 0));
    add("version 1, parties 0, 6: party 0".into(), 0, JUNE, &of_version(1, &one_row(0, 6, 0)));
    let mut empty = of_version(2, &june(1, 1, 1, 1));
    add("version 2, no engagement, party 0".into(), 0, JUNE, &empty);
    empty.register[0].injection_party = 9;
    add("version 2, no engagement, injection party 9: party 9".into(), 9, JUNE, &empty);
    add("version 2, no engagement, injection party 9: party 0".into(), 0, JUNE, &empty);
}

/// The party is bytes 56 and 57, low byte first.
fn bytes_of_parties(add: &mut impl FnMut(String, u16, usize, &Book)) {
    for (injection, asked) in [
        (258, vec![258, 513, 2, 1]),
        (513, vec![513, 258]),
        (256, vec![256, 0, 1]),
        (255, vec![255, 65280]),
        (65535, vec![65535, 255]),
    ] {
        for party in asked {
            let book = one_row(10, 11, injection);
            add(format!("version 2, injection party {injection}: party {party}"), party, JUNE, &book);
        }
    }
}

fn sheets_of_version_2(add: &mut impl FnMut(String, u16, usize, &Book)) {
    let base = one_row(5, 6, 7);
    for length in [0, JUNE - 1, JUNE + 1] {
        add(format!("version 2, the injection party, {length} numbers lent"), 7, length, &base);
    }
    add("version 2, 11 before 10".into(), 8, 0, &base);
    for situation in 1..4 {
        let mut book = base.clone();
        book.register[0].situation = situation;
        add(format!("version 2, situation {situation}, the injection party"), 7, JUNE, &book);
    }
    for party in 1..=4 {
        add(format!("version 2, two points on several days, party {party}"), party, JUNE, &{
            of_version(2, &two_points())
        });
    }
    let f = case_f_2();
    add("version 2, byte 58: 5 before 11".into(), 99, 0, &with_row_byte(&f, 0, 58, 1));
    add("version 1, 9 in byte 56, party 9: 5".into(), 9, JUNE, &with_row_byte(&case_f(), 0, 56, 9));
    add("version 3, party 9".into(), 9, JUNE, &{
        let mut book = with_row_byte(&f, 0, 56, 9);
        book.version = 3;
        book
    });
    let mut missing = f.clone();
    missing.readings[0][96 * 3] = MISSING;
    add("version 2, 8 for the injection party".into(), 0, JUNE, &missing);
    for change in CHANGES {
        let mut book = change.book(0, 1, 1);
        (book.version, book.register[0].injection_party) = (2, 7);
        read(&mut book, 0, change.day, change.length - 1, &[-5, 9]);
        engage(&mut book, 0, change.day as u8 + 1, 0, 1, 1, 20);
        let what = format!("version 2, {}, just after the day of {}", change.name(), change.length);
        add(what, 7, book.month_quarters(), &book);
    }
}

/// A transfer point and a pass-through point of one access point, both with off-take and injection to share.
fn two_situations() -> Book {
    let mut book = two_rows([1, 2, 3], [1, 2, 4]);
    book.register[1].access_ean = book.register[0].access_ean;
    book.register[1].situation = 1;
    book
}

/// A kind and a receiver in its role.
fn random_role(random: &mut Random, book: &Book) -> (u8, u64) {
    let (kind, row) = (random.range(1, 3) as u8, random.pick(&book.register));
    (kind, if kind == 1 { row.fsp } else { row.supplier })
}

const KINDS: [(u8, u64); 3] = [(1, 7), (2, 3), (3, 3)];

/// Files are the same in both versions; the rows that their calls fill too have the split.
pub fn file_cases(cases: &mut FileCases) {
    for (version, (kind, receiver)) in [1, 2].into_iter().flat_map(|version| KINDS.map(|kind| (version, kind))) {
        let book = of_version(version, &two_situations());
        cases.add(&format!("version {version}, two points, kind {kind}"), kind, receiver, &book);
    }
    for (what, book) in [
        ("up, 9 to -3, limit 10", one_quarter_hour(2, 0, 9, -3, 10, 20)),
        ("down, -9 to 3, limit 10", one_quarter_hour(2, 1, -9, 3, 10, 20)),
        ("up, -2 to -5", one_quarter_hour(2, 0, -2, -5, 1000, 20)),
        ("up, -4 to 1: no series", one_quarter_hour(2, 0, -4, 1, 1000, 20)),
    ] {
        cases.add(&format!("version 2, {what}"), 1, 7, &book);
    }
    let mut injection = one_quarter_hour(2, 0, 9, -3, 10, 20);
    (injection.register[0].supply, injection.register[0].injection_party) = (1, 513);
    cases.add("version 2, supply direction injection", 1, 7, &injection);
    cases.add("version 2, the injection party as receiver", 1, 513, &injection);
    let length = CASE_F_FILE.len();
    for (version, rows_length, file_length) in [
        (1, 8, length),
        (1, 8, length - 1),
        (2, 8, length),
        (2, 9, length),
        (2, 10, length),
        (2, 10, length - 1),
        (2, 9, length - 1),
        (2, 11, length + 1),
    ] {
        let what = format!("version {version}, case F, {rows_length} numbers and {file_length} of {length} bytes lent");
        let book = of_version(version, &case_f());
        cases.changed(&what, 1, 7, &book, |case| (case.rows_length, case.file_length) = (rows_length, file_length));
    }
    let mut whole = of_version(2, &june(1, 1, 1, 1));
    engage(&mut whole, 0, 1, 0, 96, 0, 1);
    for rows_length in [384, 479, 480] {
        let what = format!("version 2, 96 rows, {rows_length} numbers lent");
        cases.changed(&what, 1, 7, &whole, |case| case.rows_length = rows_length);
    }
    for byte in [55, 56, 57, 58, 63] {
        for version in [1, 2] {
            let book = with_row_byte(&of_version(version, &case_f()), 0, byte, 1);
            cases.add(&format!("version {version}, byte {byte} of the row is 1"), 1, 7, &book);
        }
    }
    let mut third = case_f();
    third.version = 3;
    cases.add("version 3", 1, 7, &third);
    let mut random = Random::new(20);
    for number in 1..=6 {
        let book = random_plain_split_book(&mut random);
        let (kind, receiver) = random_role(&mut random, &book);
        cases.add(&format!("random book {number} of version 2"), kind, receiver, &book);
    }
}

/// The program on books of version 2, and its rows buffer of 10,240 numbers, which are 2,048 rows.
pub fn program_cases(add: &mut impl FnMut(String, &[u8], &[u8])) {
    let line = |kind: u8, receiver: u64| LINE.replace("01 0000000007", &format!("{kind:02} {receiver:010}"));
    add("case F of version 2".into(), LINE.as_bytes(), &case_f_2().encode());
    for (kind, receiver) in KINDS {
        let what = format!("version 2, two points, kind {kind}");
        add(what, line(kind, receiver).as_bytes(), &two_situations().encode());
    }
    let mut third = case_f();
    third.version = 3;
    add("version 3".into(), LINE.as_bytes(), &third.encode());
    for (version, byte) in [(1, 56), (1, 57), (2, 55), (2, 56), (2, 57), (2, 58), (2, 63)] {
        let book = with_row_byte(&of_version(version, &case_f()), 0, byte, 1);
        add(format!("version {version}, byte {byte} of the row is 1"), LINE.as_bytes(), &book.encode());
    }
    for rows in [2048, 2049] {
        let mut book = of_version(2, &steady(21, 0));
        engage(&mut book, 0, 22, 0, (rows - 21 * 95) as u8, 0, 1);
        add(format!("version 2, {rows} rows, no watts"), LINE.as_bytes(), &book.encode());
    }
    let mut random = Random::new(21);
    for number in 1..=4 {
        let book = random_plain_split_book(&mut random);
        let (kind, receiver) = random_role(&mut random, &book);
        add(format!("random book {number} of version 2"), line(kind, receiver).as_bytes(), &book.encode());
    }
}
