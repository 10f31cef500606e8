//! Books at both sides of each edge of refusals 1 to 7, in the order of document 01, and random ones.

use crate::book::{Book, Choice, Engagement, MISSING, RegisterRow, judge};
use crate::calendar::{MONTHS, last_sunday};
use crate::case_text::{Case, read_sparse, write_sparse};
use crate::random::Random;

const EAN_LIMIT: u64 = 1_000_000_000_000_000_000;
const COMPANY_LIMIT: u64 = 10_000_000_000;
const WATT_LIMIT: u32 = 1_000_000_000;

pub fn cases() -> Vec<Case> {
    let mut cases = Cases(Vec::new());
    cases.header();
    cases.pairs();
    cases.clock_changes();
    cases.calendar();
    cases.register();
    cases.register_order();
    cases.readings();
    cases.reading_places();
    cases.reading_pairs();
    cases.engagements();
    cases.engagement_order();
    cases.large_books();
    cases.order_of_refusals();
    cases.0.extend(random_cases(1, 110, &[1, 2, 6, 7, 8, 9]));
    cases.days_of_96_instead();
    cases.clock_change_readings();
    cases.clock_change_engagements();
    cases.0.extend(random_cases(10, 40, &MONTHS));
    cases.versions();
    cases.0
}

pub fn cases_text(cases: &[Case]) -> String {
    cases.iter().map(|case| write_sparse(&case.bytes) + "\n").collect()
}

/// The expected output for a text of cases, calculated from that text.
pub fn answers(text: &str) -> String {
    let mut output = String::new();
    for line in text.lines() {
        let words: Vec<&str> = line.split(' ').collect();
        output += &match judge(&read_sparse(&words)) {
            None => "passed\n".to_string(),
            Some((number, item)) => format!("refused {number} {item}\n"),
        };
    }
    output
}

/// February 2021 with one lead day, 29 days in all.
pub fn small(points: u16) -> Book {
    Book::plain(2021, 2, 1, points)
}

/// February 2021 with three lead days and three points, and engagements of the middle point.
pub fn engaged() -> Book {
    let mut book = Book::plain(2021, 2, 3, 3);
    book.engagements = vec![engagement(1, 4, 8, 4), engagement(1, 4, 20, 4), engagement(1, 6, 0, 1)];
    book.lay_out();
    book
}

fn engagement(point: u16, day: u8, first: u8, count: u8) -> Engagement {
    Engagement { point, day, first, count, requested: 1, ..Engagement::default() }
}

/// The row whose bytes are these but for one.
pub fn with_byte(row: &RegisterRow, byte: usize, value: u8) -> RegisterRow {
    let mut bytes = row.encode();
    bytes[byte] = value;
    RegisterRow::decode(&bytes)
}

pub struct Cases(Vec<Case>);

impl Cases {
    pub fn bytes(&mut self, what: impl Into<String>, bytes: Vec<u8>) {
        self.0.push(Case { what: what.into(), bytes });
    }

    /// The book as it is.
    pub fn book(&mut self, what: impl Into<String>, book: &Book) {
        self.bytes(what, book.encode());
    }

    /// The book with a change after its layout was made.
    pub fn changed(&mut self, what: impl Into<String>, book: &Book, change: impl FnOnce(&mut Book)) {
        let mut book = book.clone();
        change(&mut book);
        self.book(what, &book);
    }

    /// The book with a change and the layout made anew.
    fn laid_out(&mut self, what: impl Into<String>, book: &Book, change: impl FnOnce(&mut Book)) {
        let mut book = book.clone();
        change(&mut book);
        book.lay_out();
        self.book(what, &book);
    }

    fn header(&mut self) {
        let base = small(1);
        let whole = base.encode();
        for length in [0, 1, 55, 56] {
            self.bytes(format!("the first {length} bytes of a good book"), whole[..length].to_vec());
        }
        self.bytes("56 bytes of zero", vec![0; 56]);
        self.bytes("55 bytes with a good header so far", Book::plain(2021, 6, 1, 1).encode()[..55].to_vec());
        for version in [0, 1, 2, 256, 257, 65535] {
            self.changed(format!("version {version}"), &base, |book| book.version = version);
        }
        for year in [0, 2017, 2018, 2099, 2100, 2018 - 256, 2099 + 256, 65535] {
            self.changed(format!("year {year}"), &base, |book| book.year = year);
        }
        for month in [0, 13, 14, 255] {
            self.changed(format!("month {month}"), &base, |book| book.month = month);
        }
        for month in 1..=12 {
            self.book(format!("month {month}, laid out for it"), &Book::plain(2022, month, 1, 1));
        }
        for lead_days in [0, 34, 255] {
            self.changed(format!("L {lead_days}"), &base, |book| book.lead_days = lead_days);
        }
        for lead_days in [1, 2, 32, 33] {
            self.book(format!("L {lead_days}, laid out for it"), &Book::plain(2021, 2, lead_days, 1));
        }
        self.book("L 0, laid out for it", &Book::plain(2021, 2, 0, 1));
        self.book("L 34, laid out for it", &Book::plain(2021, 2, 34, 1));
        for points in [0, 2, 256, 257, 512, 65535] {
            self.changed(format!("P {points}, one point laid out"), &base, |book| book.points = points);
        }
        self.book("P 0, laid out for it", &small(0));
        for count in [1, 512, 513, 768, 65535] {
            let what = format!("E {count}, none laid out");
            self.changed(what, &base, |book| book.engagement_count = count);
        }
        self.laid_out("E 513, laid out for it, rows of zeros", &base, |book| {
            book.engagements = vec![Engagement::default(); 513];
        });
        self.laid_out("E 512, laid out for it, rows of zeros", &base, |book| {
            book.engagements = vec![Engagement::default(); 512];
        });
        for place in 0..6 {
            for value in [1, 255] {
                let what = format!("zero byte {} of the header is {value}", 10 + place);
                self.changed(what, &base, |book| book.zeros[place] = value);
            }
        }
    }

    fn pairs(&mut self) {
        let base = engaged();
        for index in 0..5 {
            let (offset, length) = base.pairs[index];
            let number = index + 1;
            for value in [offset - 1, offset + 1, u32::MAX, 0, 1 << 31, offset ^ 1 << 16] {
                self.changed(format!("offset of section {number} is {value}"), &base, |book| {
                    book.pairs[index].0 = value
                });
            }
            for value in [length - 1, length + 1, u32::MAX, 0, 1 << 31, length ^ 1 << 16] {
                self.changed(format!("length of section {number} is {value}"), &base, |book| {
                    book.pairs[index].1 = value
                });
            }
        }
        for index in 0..4 {
            self.changed(format!("section {} up to 2^32 - 1, the next from there", index + 1), &base, |book| {
                book.pairs[index].1 = u32::MAX - book.pairs[index].0;
                book.pairs[index + 1].0 = u32::MAX;
            });
            self.changed(format!("section {} past 2^32 and round to 8 before its start", index + 1), &base, |book| {
                book.pairs[index].1 = u32::MAX - 7;
                book.pairs[index + 1].0 = book.pairs[index].0 - 8;
            });
        }
        self.changed("section 5 from past the book round to its end", &base, |book| {
            let end = book.pairs[4].0 + book.pairs[4].1;
            book.pairs[4] = (end + 16, u32::MAX - 15);
        });
        for index in 0..4 {
            let what = format!("a byte moved from section {} to {}", index + 1, index + 2);
            self.changed(what, &base, |book| {
                book.pairs[index].1 -= 1;
                book.pairs[index + 1].0 -= 1;
                book.pairs[index + 1].1 += 1;
            });
            self.changed(format!("a gap of one byte before section {}", index + 2), &base, |book| {
                for pair in &mut book.pairs[index + 1..] {
                    pair.0 += 1;
                }
            });
        }
        self.changed("sections 1 and 2 swapped", &base, |book| book.pairs.swap(0, 1));
        self.changed("sections from 57 on", &base, |book| book.pairs.iter_mut().for_each(|pair| pair.0 += 1));
        self.changed("all pairs zero", &base, |book| book.pairs = [(0, 0); 5]);
        self.book("the good book that these come from", &base);

        let good = base.encode();
        for short in [1, 2, 16, 48] {
            let what = format!("the book {short} bytes short");
            self.bytes(what, good[..good.len() - short].to_vec());
        }
        for long in [1, 16] {
            let mut bytes = good.clone();
            bytes.extend(vec![0; long]);
            self.bytes(format!("the book {long} bytes long"), bytes);
        }
        let empty = small(1);
        let end = empty.pairs[4].0;
        self.book("E 0 with fifth pair (length of the book, 0)", &empty);
        for pair in [(0, 0), (end - 1, 0), (end + 1, 0), (end, 1), (end, 16), (56, 0), (u32::MAX, 0), (end, u32::MAX)] {
            self.changed(format!("E 0 with fifth pair {pair:?}"), &empty, |book| book.pairs[4] = pair);
        }
        let mut bytes = empty.encode();
        bytes.push(0);
        self.bytes("E 0, one byte after the readings", bytes.clone());
        bytes.truncate(bytes.len() - 2);
        self.bytes("E 0, one byte short", bytes);
        self.laid_out("readings of a day less", &empty, |book| {
            book.readings[0].truncate(96 * 28);
        });
        self.laid_out("a calendar of a day more", &empty, |book| book.calendar.push(0));
        self.laid_out("a leap day in a common year", &empty, |book| {
            book.calendar.push(0);
            book.readings[0].extend([0; 96]);
        });
        self.book("February of a leap year", &Book::plain(2024, 2, 1, 1));
        self.changed("February of a leap year, a common year laid out", &small(1), |book| book.year = 2024);
        self.changed("June, July laid out", &Book::plain(2021, 7, 1, 1), |book| book.month = 6);
        self.changed("L 2, L 3 laid out", &Book::plain(2021, 6, 3, 1), |book| book.lead_days = 2);
    }

    /// C-12: with days of 92 and 100, lead days too, these pass.
    fn clock_changes(&mut self) {
        for year in 2018..=2099 {
            for month in [3, 10] {
                self.book(format!("{year}-{month:02}, L 1"), &Book::plain(year, month, 1, 1));
            }
        }
        for lead_days in [9, 33] {
            for month in [3, 10] {
                let what = format!("2025-{month:02}, L {lead_days}");
                self.book(what, &Book::plain(2025, month, lead_days, 1));
            }
        }
        for year in 2018..=2099 {
            for (month, changing) in [(4, 3), (11, 10)] {
                let reaching = 32 - last_sunday(year as i64, changing) as u8;
                for lead_days in [reaching - 1, reaching] {
                    if lead_days >= 1 {
                        let what = format!("{year}-{month:02}, L {lead_days}: the last Sunday is L {reaching}");
                        self.book(what, &Book::plain(year, month, lead_days, 1));
                    }
                }
            }
        }
        for (month, years, before) in [(5, [2026, 2025, 2024], 30), (12, [2023, 2022, 2021], 30)] {
            for year in years {
                let changing = if month == 5 { 3 } else { 10 };
                let reaching = 32 - last_sunday(year as i64, changing) as u8 + before;
                for lead_days in [reaching - 1, reaching] {
                    let what = format!("{year}-{month:02}, L {lead_days}: the last Sunday is L {reaching}");
                    self.book(what, &Book::plain(year, month, lead_days, 1));
                }
            }
        }
        self.book("2027-05, L 33: the last Sunday is March 28", &Book::plain(2027, 5, 33, 1));
        self.book("2024-12, L 33: the last Sunday is October 27", &Book::plain(2024, 12, 33, 1));
        for month in [1, 2, 6, 7, 8, 9] {
            self.book(format!("2018-{month:02}, L 33"), &Book::plain(2018, month, 33, 1));
        }
        self.book("2099-12, L 33", &Book::plain(2099, 12, 33, 1));
        self.book("2099-12, L 1", &Book::plain(2099, 12, 1, 1));
    }

    fn calendar(&mut self) {
        let base = small(1);
        for day in [0, 28] {
            for category in [1, 3, 4, 128, 255] {
                let what = format!("category {category} on day {day}");
                self.changed(what, &base, |book| book.calendar[day] = category);
            }
        }
        self.changed("category 4 in the middle", &base, |book| book.calendar[14] = 4);
        self.changed("all days of category 3", &base, |book| book.calendar.fill(3));
        for category in 0..4 {
            let pairs = [
                (0, 1),
                (0, 0),
                (1, 0),
                (1, 2),
                (1, 20),
                (1, 21),
                (10, 9),
                (10, 10),
                (10, 20),
                (10, 21),
                (11, 11),
                (11, 20),
                (255, 255),
            ];
            for (x, y) in pairs {
                let what = format!("category {category} with X {x}, Y {y}");
                self.changed(what, &base, |book| book.choices[category] = Choice { x, y });
            }
        }
    }

    /// A change of row 1 of three rows.
    fn row(&mut self, what: impl Into<String>, change: impl FnOnce(&mut RegisterRow)) {
        self.changed(what, &small(3), |book| {
            book.register[2].delivery_ean = EAN_LIMIT - 1;
            change(&mut book.register[1]);
        });
    }

    fn register(&mut self) {
        for limit in [EAN_LIMIT - 2, EAN_LIMIT - 1, EAN_LIMIT, u64::MAX] {
            self.changed(format!("last delivery EAN {limit}"), &small(1), |book| book.register[0].delivery_ean = limit);
        }
        for limit in [EAN_LIMIT - 1, EAN_LIMIT, u64::MAX] {
            self.row(format!("access EAN {limit}"), |row| row.access_ean = limit);
        }
        for limit in [COMPANY_LIMIT - 1, COMPANY_LIMIT, 1 << 63] {
            self.row(format!("supplier {limit}"), |row| row.supplier = limit);
            self.row(format!("FSP {limit}"), |row| row.fsp = limit);
        }
        self.row("one company is supplier and FSP", |row| (row.supplier, row.fsp) = (5, 5));
        for bit in [0, 28, 29, 30, 62, 63] {
            self.row(format!("mask bit {bit}, N 29"), |row| row.excluded_days = 1 << bit);
        }
        self.row("mask of all 29 days", |row| row.excluded_days = (1 << 29) - 1);
        self.row("mask of all bits, N 29", |row| row.excluded_days = u64::MAX);
        let days_64 = Book::plain(2021, 7, 33, 1);
        self.changed("mask of all bits, N 64", &days_64, |book| book.register[0].excluded_days = u64::MAX);
        self.changed("mask bit 63, N 64", &days_64, |book| book.register[0].excluded_days = 1 << 63);
        let days_63 = Book::plain(2021, 7, 32, 1);
        for bit in [62, 63] {
            let what = format!("mask bit {bit}, N 63");
            self.changed(what, &days_63, |book| book.register[0].excluded_days = 1 << bit);
        }
        for watts in [0, 1, WATT_LIMIT - 1, WATT_LIMIT, WATT_LIMIT + 1, u32::MAX] {
            self.row(format!("largest upward watts {watts}"), |row| row.largest_up = watts);
            self.row(format!("largest downward watts {watts}"), |row| row.largest_down = watts);
        }
        self.row("balance parties 65535 and 0", |row| row.source_party = 65535);
        self.row("balance parties 0 and 65535", |row| row.fsp_party = 65535);
        for situation in [1, 2, 3, 4, 255] {
            self.row(format!("situation {situation}"), |row| row.situation = situation);
        }
        for supply in [1, 2, 255] {
            self.row(format!("supply direction {supply}"), |row| row.supply = supply);
        }
        for method in [1, 2, 3, 255] {
            self.row(format!("method {method}"), |row| row.method = method);
        }
        for byte in 55..64 {
            self.row(format!("zero byte {byte} of the row is 1"), |row| *row = with_byte(row, byte, 1));
        }
        self.row("the last zero byte of the row is 255", |row| *row = with_byte(row, 63, 255));
        for index in [0, 2] {
            let what = format!("method 3 in row {index}");
            self.changed(what, &small(3), |book| book.register[index].method = 3);
        }
    }

    fn register_order(&mut self) {
        for (eans, what) in [
            ([5, 5, 9], "equal in rows 0 and 1"),
            ([5, 4, 9], "falling at row 1"),
            ([5, 6, 7], "rising by one"),
            ([5, 9, 9], "equal in rows 1 and 2"),
            ([5, 9, 8], "falling at row 2"),
            ([5, 9, 5], "row 2 like row 0"),
            ([256, 1, 2], "rising only in the lowest byte"),
            ([1, 256, 1 << 40], "rising in higher bytes"),
            ([1 << 40, 1 << 40 | 1, EAN_LIMIT - 1], "the last at its limit"),
        ] {
            self.changed(format!("delivery EANs {eans:?}: {what}"), &small(3), |book| {
                for (row, ean) in book.register.iter_mut().zip(eans) {
                    row.delivery_ean = ean;
                }
            });
        }
        let share = |first: usize, second: usize| {
            let mut book = small(4);
            book.register[first].access_ean = 77;
            book.register[second].access_ean = 77;
            book
        };
        for (first, second) in [(0, 1), (0, 3), (1, 2), (1, 3), (2, 3)] {
            let rows = format!("rows {first} and {second} of one access point");
            let book = share(first, second);
            self.book(format!("{rows}, alike"), &book);
            self.changed(format!("{rows}, the first of another supplier"), &book, |book| {
                book.register[first].supplier = 1
            });
            self.changed(format!("{rows}, the second of another supplier"), &book, |book| {
                book.register[second].supplier = 1 << 33
            });
            self.changed(format!("{rows}, of another supply direction"), &book, |book| {
                book.register[second].supply = 1
            });
            self.changed(format!("{rows}, both of injection and supplier 9"), &book, |book| {
                for index in [first, second] {
                    book.register[index].supply = 1;
                    book.register[index].supplier = 9;
                }
            });
            self.changed(format!("{rows}, of other FSP, parties, situation, method"), &book, |book| {
                let row = &mut book.register[second];
                (row.fsp, row.source_party, row.fsp_party, row.situation, row.method) = (1, 2, 3, 1, 1);
            });
        }
        self.changed("rows 0, 1, 3 of one access point, rows 1 and 3 of other suppliers", &share(0, 1), |book| {
            book.register[3].access_ean = 77;
            book.register[1].supplier = 1;
            book.register[3].supplier = 2;
        });
        self.changed("rows 0, 1, 3 of one access point, row 3 of another supply", &share(0, 1), |book| {
            book.register[3].access_ean = 77;
            book.register[3].supply = 1;
        });
        self.changed("two access points with one disagreement each, at rows 3 and 2", &share(0, 3), |book| {
            book.register[2].access_ean = 1;
            book.register[2].supply = 1;
            book.register[3].supply = 1;
        });
        self.changed("access EANs that differ only in the highest byte", &small(2), |book| {
            book.register[0].access_ean = 1;
            book.register[1].access_ean = 1 | 1 << 56;
            book.register[1].supplier = 1;
        });
        self.changed("an access EAN like another row's delivery EAN", &small(2), |book| {
            book.register[0].access_ean = 1;
            book.register[1].access_ean = 0;
            book.register[1].supplier = 1;
        });
        self.changed("row 1 disagrees, row 2 is bad by itself", &share(0, 1), |book| {
            book.register[1].supply = 1;
            book.register[2].method = 3;
        });
        self.changed("row 1 is bad by itself, row 2 falls", &small(3), |book| {
            book.register[1].method = 3;
            book.register[2].delivery_ean = 0;
        });
    }

    fn readings(&mut self) {
        let limit = WATT_LIMIT as i32;
        let values = [limit, limit + 1, -limit, -limit - 1, MISSING, MISSING + 1, i32::MAX, -1];
        for point in [0, 2] {
            for place in [0, 96 * 29 - 1] {
                for value in values {
                    let what = format!("reading {value} of point {point} at {place}");
                    self.changed(what, &small(3), |book| book.readings[point][place] = value);
                }
            }
        }
        self.changed("reading out of range in the middle point", &small(3), |book| book.readings[1][1000] = limit + 1);
        self.changed("readings out of range in points 2 and 1", &small(3), |book| {
            book.readings[2][0] = limit + 1;
            book.readings[1][96 * 29 - 1] = -limit - 1;
        });
        self.changed("a day of missing readings", &small(1), |book| book.readings[0][96..192].fill(MISSING));
    }

    /// The book with readings changed, which are named by their places in section 4.
    fn placed(&mut self, what: impl Into<String>, book: &Book, placed: &[(usize, i32)]) {
        let each = book.quarters();
        self.changed(what, book, |book| {
            for &(place, watts) in placed {
                book.readings[place / each][place % each] = watts;
            }
        });
    }

    /// Readings out of range about the edges of blocks of 1,024, of points and of section 4, in books of 2,784 readings, the
    /// fewest, of 3,072, which are three blocks, of 5,568, where a block has readings of two points, and of 6,144.
    fn reading_places(&mut self) {
        let bad = WATT_LIMIT as i32 + 1;
        for (month, points) in [(2, 1), (8, 1), (2, 2), (8, 2)] {
            let book = Book::plain(2021, month, 1, points);
            let each = book.quarters();
            let count = each * points as usize;
            let rest = count / 1024 * 1024;
            let edges = [1, 1024, 1025, 2048, each, each + 1, rest, rest + 1, count - 1, count];
            let mut places: Vec<usize> = edges.into_iter().flat_map(|edge| [edge - 1, edge]).collect();
            places.retain(|&place| place < count);
            places.sort();
            places.dedup();
            for &place in &places {
                let what = format!("{count} readings, {place} out of range");
                self.placed(what.clone(), &book, &[(place, bad)]);
                self.placed(what + " below", &book, &[(place, -bad)]);
            }
            let missing: Vec<_> = places.iter().map(|&place| (place, MISSING)).collect();
            self.placed(format!("{count} readings, {places:?} missing"), &book, &missing);
        }
    }

    /// Two readings out of range, and one beside missing ones, in a book of 5,568 readings of two points.
    fn reading_pairs(&mut self) {
        let (book, bad) = (small(2), WATT_LIMIT as i32 + 1);
        let pairs = [
            ("in one block, of one point", 1030, 2040),
            ("in one block, of two points", 2783, 2784),
            ("at both ends of a block, of two points", 2048, 3071),
            ("in two blocks, of one point", 1023, 1024),
            ("in two blocks, of two points", 2047, 3072),
            ("in the first block and behind the last", 0, 5567),
            ("in the last block and behind it", 5119, 5120),
            ("behind the last block", 5120, 5567),
        ];
        for (what, first, second) in pairs {
            self.placed(format!("two readings out of range {what}"), &book, &[(first, bad), (second, -bad)]);
        }
        for place in [1, 1023, 1024, 2783, 2784, 5119, 5120, 5566] {
            let what = format!("reading {place} out of range, those beside it missing");
            self.placed(what, &book, &[(place - 1, MISSING), (place, bad), (place + 1, MISSING)]);
        }
    }

    /// A change of one engagement of a book of 3 points, L 3, N 31.
    fn engagement(&mut self, what: impl Into<String>, change: impl FnOnce(&mut Engagement)) {
        self.laid_out(what, &engaged(), |book| {
            book.engagements = vec![engagement(1, 4, 8, 4)];
            change(&mut book.engagements[0]);
        });
    }

    fn engagements(&mut self) {
        for point in [0, 2, 3, 256, 257, 65535] {
            self.engagement(format!("point {point} of 3"), |row| row.point = point);
        }
        for day in [0, 2, 3, 30, 31, 255] {
            self.engagement(format!("day {day}, L 3, N 31"), |row| row.day = day);
        }
        for (first, count) in [
            (0, 0),
            (0, 1),
            (0, 96),
            (0, 97),
            (95, 0),
            (95, 1),
            (95, 2),
            (96, 0),
            (96, 1),
            (48, 48),
            (48, 49),
            (1, 95),
            (1, 96),
            (255, 255),
            (255, 1),
            (0, 255),
            (128, 128),
            (1, 255),
            (90, 166),
        ] {
            self.engagement(format!("first {first}, count {count}"), |row| (row.first, row.count) = (first, count));
        }
        for direction in [1, 2, 255] {
            self.engagement(format!("direction {direction}"), |row| row.direction = direction);
        }
        for notice in [1, 96, 97, 255] {
            self.engagement(format!("notice {notice}"), |row| row.notice = notice);
        }
        for zero in [1, 255] {
            self.engagement(format!("zero byte is {zero}"), |row| row.zero = zero);
        }
        for requested in [0, 1, WATT_LIMIT, WATT_LIMIT + 1, u32::MAX] {
            self.engagement(format!("requested {requested}"), |row| row.requested = requested);
        }
        for shift in [0, 8, 16, 24] {
            self.engagement(format!("the zero u32 is {}", 1u32 << shift), |row| row.zeros = 1 << shift);
        }
        self.engagement("the zero u32 is all ones", |row| row.zeros = u32::MAX);
    }

    fn engagement_order(&mut self) {
        let rows = [
            ("equal rows", vec![engagement(1, 5, 8, 1); 2]),
            ("falling by point", vec![engagement(1, 5, 8, 1), engagement(0, 6, 9, 1)]),
            ("falling by day", vec![engagement(1, 5, 8, 1), engagement(1, 4, 9, 1)]),
            ("falling by first", vec![engagement(1, 5, 8, 1), engagement(1, 5, 7, 1)]),
            ("falling by first, the earlier ends before", vec![engagement(1, 5, 8, 1), engagement(1, 5, 0, 8)]),
            ("rising by point, day and first falling", vec![engagement(1, 5, 8, 1), engagement(2, 4, 7, 1)]),
            ("rising by day, first falling", vec![engagement(1, 5, 8, 1), engagement(1, 6, 7, 1)]),
            ("touching", vec![engagement(1, 5, 8, 4), engagement(1, 5, 12, 1)]),
            ("overlapping by one", vec![engagement(1, 5, 8, 4), engagement(1, 5, 11, 1)]),
            ("one inside the other", vec![engagement(1, 5, 8, 40), engagement(1, 5, 20, 2)]),
            ("same quarter-hours on another day", vec![engagement(1, 5, 8, 4), engagement(1, 6, 8, 4)]),
            ("same quarter-hours of another point", vec![engagement(1, 5, 8, 4), engagement(2, 5, 8, 4)]),
            ("to midnight and from midnight", vec![engagement(1, 5, 90, 6), engagement(1, 6, 0, 6)]),
            (
                "a long first, then two inside it",
                vec![engagement(1, 5, 0, 90), engagement(1, 5, 1, 1), engagement(1, 5, 80, 2)],
            ),
            (
                "overlap at the third row",
                vec![engagement(1, 5, 0, 2), engagement(1, 5, 4, 20), engagement(1, 5, 23, 2)],
            ),
            (
                "overlap of the third with the first only: the second is of another day",
                vec![engagement(1, 5, 0, 90), engagement(1, 6, 1, 1), engagement(1, 5, 80, 2)],
            ),
            (
                "overlap of rows with another point's row between",
                vec![engagement(0, 5, 0, 90), engagement(1, 5, 1, 1), engagement(0, 5, 80, 2)],
            ),
            ("up and down in one quarter-hour", {
                let down = Engagement { direction: 1, ..engagement(1, 5, 8, 4) };
                vec![engagement(1, 5, 8, 4), down]
            }),
            ("a bad row, then a falling one", { vec![engagement(1, 5, 8, 0), engagement(0, 5, 8, 1)] }),
            ("a falling row, then a bad one", {
                vec![engagement(1, 5, 8, 1), engagement(0, 5, 8, 1), engagement(3, 5, 8, 1)]
            }),
            ("the last of three is bad", {
                vec![engagement(0, 5, 8, 1), engagement(1, 5, 8, 1), engagement(3, 5, 8, 1)]
            }),
            ("order judged by the whole point number", { vec![engagement(2, 5, 8, 1), engagement(256, 5, 8, 1)] }),
        ];
        for (what, rows) in rows {
            self.laid_out(format!("engagements: {what}"), &engaged(), |book| book.engagements = rows);
        }
    }

    fn large_books(&mut self) {
        let mut largest = small(256);
        self.book("P 256", &largest);
        largest.engagements = vec![engagement(255, 1, 0, 96), engagement(256, 1, 0, 1)];
        largest.lay_out();
        self.book("P 256, engagement of point 255 and one of point 256", &largest);
        let mut last = small(256);
        last.register[255].access_ean = 0;
        last.register[255].supplier = 1;
        self.book("P 256, the last row disagrees with the first", &last);
        let mut reading = small(256);
        *reading.readings[255].last_mut().unwrap() = i32::MAX;
        self.book("P 256, the last reading out of range", &reading);
        let zeros = vec![0; 56 + 29 + 8 + 257 * 64 + 257 * 29 * 384];
        let mut header = small(257);
        header.readings.clear();
        let mut bytes = zeros;
        bytes[..56].copy_from_slice(&header.encode()[..56]);
        self.bytes("P 257, laid out for it", bytes);
        let mut many = small(1);
        many.engagements = (0..512).map(|i| engagement(0, 1 + (i / 96) as u8, (i % 96) as u8, 1)).collect();
        many.lay_out();
        self.book("E 512", &many);
        many.engagements[511].requested = 0;
        self.book("E 512, the last bad", &many);
    }

    /// Everything is bad from a refusal on: the books tell in which order the refusals come.
    fn order_of_refusals(&mut self) {
        let spoil = spoils();
        for (what, base) in [("", engaged()), ("March, ", rebuilt_as_march(&engaged()))] {
            for from in 0..6 {
                self.changed(format!("{what}bad in every way from {} on", spoil[from].0), &base, |book| {
                    for (_, change) in &spoil[from..] {
                        change(book);
                    }
                });
            }
        }
        for first in 0..6 {
            for second in first + 1..6 {
                self.changed(format!("bad by {} and {}", spoil[first].0, spoil[second].0), &engaged(), |book| {
                    spoil[first].1(book);
                    spoil[second].1(book);
                });
            }
        }
        let mut book = small(2);
        book.calendar[28] = 4;
        book.choices[0].x = 0;
        self.book("a category and a choice out of range", &book);
    }

    /// The book with so many readings of each point, and the layout made anew.
    fn of_readings(&mut self, what: impl Into<String>, book: &Book, each: usize) {
        self.changed(what, book, |book| book.resize_readings(each));
    }

    /// C-12: section 4's length follows the days; any other is 2.
    fn days_of_96_instead(&mut self) {
        for year in [2018, 2019, 2021, 2024, 2025, 2099] {
            let (march, october) = (last_sunday(year as i64, 3) as u8, last_sunday(year as i64, 10) as u8);
            let months = [(3, 1), (10, 1), (4, 32 - march), (11, 32 - october), (4, 33), (11, 33)];
            for (month, lead_days) in months {
                let book = Book::plain(year, month, lead_days, 1);
                self.of_readings(format!("{year}-{month:02}, L {lead_days}, 96 a day"), &book, 96 * book.days());
            }
        }
        for (year, month, lead_days) in [(2026, 5, 33), (2025, 5, 32), (2024, 5, 31), (2023, 12, 33), (2021, 12, 31)] {
            let book = Book::plain(year, month, lead_days, 1);
            self.of_readings(format!("{year}-{month:02}, L {lead_days}, 96 a day"), &book, 96 * book.days());
        }
        for (year, month, lead_days, points) in [(2021, 3, 3, 2), (2023, 10, 3, 2), (2021, 4, 4, 1), (2023, 11, 3, 1)] {
            let book = Book::plain(year, month, lead_days, points);
            let name = format!("{year}-{month:02}, L {lead_days}, {points} points");
            self.book(format!("{name}, as the days are"), &book);
            for each in [book.quarters() - 1, book.quarters() + 1, 96 * book.days() - 4, 96 * book.days() + 4] {
                self.of_readings(format!("{name}, {each} readings each"), &book, each);
            }
        }
        for (year, month, lead_days) in [(2021, 4, 3), (2023, 11, 2), (2026, 5, 32), (2023, 12, 32)] {
            let book = Book::plain(year, month, lead_days, 1);
            for each in [book.quarters() - 4, book.quarters() + 4] {
                let what = format!("{year}-{month:02}, L {lead_days}, a day too few for the change: {each} readings");
                self.of_readings(what, &book, each);
            }
        }
    }

    /// 6 names the point also where days have 92 or 100 readings.
    fn clock_change_readings(&mut self) {
        for month in [3, 10] {
            let book = Book::plain(2021, month, 1, 2);
            let each = book.quarters();
            for place in [0, each - 1, each, 2 * each - 1] {
                let what = format!("2021-{month:02}, two points, reading {place} out of range");
                self.placed(what, &book, &[(place, WATT_LIMIT as i32 + 1)]);
            }
        }
    }

    /// 7 on the clock-change day and on the days beside it: 28 March 2021 is day 30, 29 October 2023 is day 31.
    fn clock_change_engagements(&mut self) {
        for (year, month, change, length) in [(2021, 3, 30, 92), (2023, 10, 31, 100)] {
            let book = Book::plain(year, month, 3, 1);
            let name = format!("{year}-{month:02}");
            let mut on = |day: u8, first: u8, count: u8| {
                self.laid_out(format!("{name}, day {day}, first {first}, count {count}"), &book, |book| {
                    book.engagements = vec![engagement(0, day, first, count)];
                });
            };
            for first in [length - 1, length, length + 1] {
                for count in [0, 1, 2] {
                    on(change, first, count);
                }
            }
            for (first, count) in [
                (0, length - 1),
                (0, length),
                (0, length + 1),
                (1, length - 1),
                (1, length),
                (length - 4, 4),
                (length - 4, 5),
                (91, 1),
                (92, 1),
                (0, 96),
                (95, 1),
                (96, 1),
                (255, 1),
                (200, 156),
            ] {
                on(change, first, count);
            }
            for day in [change - 1, change + 1] {
                for (first, count) in [(91, 1), (91, 5), (92, 4), (92, 5), (95, 1), (96, 1), (99, 1), (0, 96), (0, 97)]
                {
                    on(day, first, count);
                }
            }
            for notice in [92, 96, 97, 100] {
                self.laid_out(format!("{name}, day {change}, notice {notice}"), &book, |book| {
                    book.engagements = vec![Engagement { notice, ..engagement(0, change, 8, 1) }];
                });
            }
            for (what, first) in [("touching at the last", length - 1), ("overlapping at the last but one", length - 2)]
            {
                self.laid_out(format!("{name}, day {change}, {what}"), &book, |book| {
                    book.engagements = vec![engagement(0, change, 0, length - 1), engagement(0, change, first, 1)];
                });
            }
            self.laid_out(format!("{name}, a whole day {change} between whole days"), &book, |book| {
                let day = |day: u8, count: u8| engagement(0, day, 0, count);
                book.engagements = vec![day(change - 1, 96), day(change, length), day(change + 1, 96)];
            });
        }
    }
}

/// A change of the book `engaged` for each refusal that it is then bad by.
pub fn spoils() -> [(u8, fn(&mut Book)); 6] {
    [
        (1, |book| book.zeros[5] = 1),
        (2, |book| book.pairs[4].1 += 1),
        (4, |book| book.choices[3].y = 21),
        (5, |book| book.register[2].method = 3),
        (6, |book| *book.readings[1].last_mut().unwrap() = i32::MAX),
        (7, |book| book.engagements[1].count = 0),
    ]
}

/// Random good books of some months, each with one byte damaged after it.
pub fn random_cases(seed: u64, count: usize, months: &[u8]) -> Vec<Case> {
    let mut cases = Vec::new();
    let mut random = Random::new(seed);
    for number in 1..=count {
        let book = random_book(&mut random, months);
        let bytes = book.encode();
        let (place, value) = random_damage(&mut random, &book, &bytes);
        let mut damaged = bytes.clone();
        damaged[place] = value;
        cases.push(Case { what: format!("random book {number}"), bytes });
        cases.push(Case { what: format!("random book {number}, byte {place} made {value}"), bytes: damaged });
    }
    cases
}

/// The same points and engagements in a month with a clock-change day, which has no engagement.
fn rebuilt_as_march(book: &Book) -> Book {
    let mut march = Book::plain(2021, 3, book.lead_days, book.points);
    march.engagements = book.engagements.clone();
    march.lay_out();
    march
}

/// A good book, nearly all of whose readings are zero.
pub fn random_book(random: &mut Random, months: &[u8]) -> Book {
    let year = random.range(2018, 2099) as u16;
    let month = random.pick(months);
    let lead_days = if random.once_in(4) { random.range(1, 33) } else { random.range(1, 4) } as u8;
    let points = random.range(1, 3) as u16;
    let mut book = Book::plain(year, month, lead_days, points);
    let days = book.days();
    if random.once_in(2) {
        for _ in 0..3 {
            let day = random.range(0, days as i64 - 1) as usize;
            book.calendar[day] = random.range(0, 3) as u8;
        }
    }
    for choice in &mut book.choices {
        choice.x = random.range(1, 10) as u8;
        choice.y = random.range(choice.x as i64, 20) as u8;
    }
    let mut ean = 0;
    for row in &mut book.register {
        ean += random.range(1, 200) as u64;
        row.delivery_ean = ean;
        // An access point of one's own, told by its supplier and supply direction.
        row.supplier = random.range(0, 2) as u64;
        row.supply = random.range(0, 1) as u8;
        row.access_ean = 10 * row.supplier + row.supply as u64;
        row.fsp = random.range(0, 2) as u64;
        row.excluded_days = if random.once_in(3) { random.number() & ((1u128 << days) - 1) as u64 } else { 0 };
        row.largest_up = random.range(0, 255) as u32;
        row.situation = random.range(0, 3) as u8;
        row.method = random.range(0, 2) as u8;
    }
    for readings in &mut book.readings {
        let place = random.range(0, readings.len() as i64 - 1) as usize;
        readings[place] = random.pick(&[1, -1, 1_000_000_000, -1_000_000_000, MISSING]);
    }
    for point in 0..points {
        let mut day = lead_days as i64;
        while day < days as i64 && random.once_in(2) {
            let length = book.day_lengths[day as usize] as i64;
            let first = random.range(0, length - 1);
            let count = random.range(1, length - first);
            book.engagements.push(Engagement {
                point,
                day: day as u8,
                first: first as u8,
                count: count as u8,
                direction: random.range(0, 1) as u8,
                notice: random.range(0, 96) as u8,
                zero: 0,
                requested: random.range(1, 255) as u32,
                zeros: 0,
            });
            day += random.range(1, 9);
        }
    }
    book.lay_out();
    book
}

/// A place of the book, more often one that is judged, and another value for it.
pub fn random_damage(random: &mut Random, book: &Book, bytes: &[u8]) -> (usize, u8) {
    let section = |index: usize| (book.pairs[index].0 as i64, (book.pairs[index].0 + book.pairs[index].1) as i64);
    let (start, end) = match random.range(0, 9) {
        0 | 1 => (0, 16),
        2 => (16, 56),
        3 => section(0),
        4 => section(1),
        5 | 6 => section(2),
        7 => section(3),
        _ if book.engagements.is_empty() => section(2),
        _ => section(4),
    };
    let place = random.range(start, end - 1) as usize;
    let mut value = bytes[place];
    while value == bytes[place] {
        value = match random.range(0, 3) {
            0 => bytes[place].wrapping_add(1),
            1 => bytes[place].wrapping_sub(1),
            2 => random.range(0, 255) as u8,
            _ => bytes[place] ^ 1 << random.range(0, 7),
        };
    }
    (place, value)
}
