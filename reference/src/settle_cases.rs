//! Books for the settling call: refusals 8, 9 and 10, baselines, volumes and corrections, and random ones.

use crate::book::{Book, Choice, Engagement, MISSING};
use crate::calendar::MONTHS;
use crate::case_text::{read_sparse, write_sparse};
use crate::examples::*;
use crate::random::Random;
use crate::settle::{ROW_WIDTH, settle};

/// A book and the length of the rows that are lent with it.
pub struct SettleCase {
    pub what: String,
    pub rows_length: usize,
    pub bytes: Vec<u8>,
}

pub fn cases() -> Vec<SettleCase> {
    let mut cases = Cases(Vec::new());
    cases.document_examples();
    cases.refused_books();
    cases.buffers();
    cases.needed_readings();
    cases.eligible_days();
    cases.engaged_days();
    cases.engaged_days_and_others();
    cases.engaged_days_at_the_edges();
    cases.engaged_days_of_method_2();
    cases.ranking();
    cases.method_0();
    cases.method_2();
    cases.volumes();
    cases.order_of_8_and_9();
    cases.book("256 points, 512 engagements", &largest_book());
    cases.0.extend(random_cases(2, 200, random_plain_book));
    cases.0.extend(random_large_cases(3));
    cases.clock_changes();
    cases.0.extend(random_cases(11, 14, random_book));
    cases.splits();
    cases.0
}

/// One case a line: `ROWS LENGTH OFFSET HEX ...`.
pub fn cases_text(cases: &[SettleCase]) -> String {
    cases.iter().map(|case| format!("{} {}\n", case.rows_length, write_sparse(&case.bytes))).collect()
}

/// The expected output for a text of cases: `rows COUNT` and a line of five numbers for each row, or
/// `refused NUMBER ITEM`.
pub fn answers(text: &str) -> String {
    let mut output = String::new();
    for line in text.lines() {
        let words: Vec<&str> = line.split(' ').collect();
        match settle(&read_sparse(&words[1..]), words[0].parse().unwrap()) {
            Err(refusal) => output += &format!("refused {} {}\n", refusal.number, refusal.item),
            Ok(rows) => {
                output += &format!("rows {}\n", rows.len() / ROW_WIDTH);
                output += &rows_text(&rows);
            }
        }
    }
    output
}

/// A line for each row.
pub fn rows_text(rows: &[i64]) -> String {
    let line = |row: &[i64]| row.iter().map(i64::to_string).collect::<Vec<_>>().join(" ") + "\n";
    rows.chunks(ROW_WIDTH).map(line).collect()
}

fn quarter_hours(book: &Book) -> usize {
    book.engagements.iter().map(|row| row.count as usize).sum()
}

pub struct Cases(pub Vec<SettleCase>);

impl Cases {
    pub fn lent(&mut self, what: impl Into<String>, rows_length: usize, book: &Book) {
        self.0.push(SettleCase { what: what.into(), rows_length, bytes: book.encode() });
    }

    /// With rows of exactly the length of the answer.
    pub fn book(&mut self, what: impl Into<String>, book: &Book) {
        self.lent(what, ROW_WIDTH * quarter_hours(book), book);
    }

    pub fn changed(&mut self, what: impl Into<String>, book: &Book, change: impl FnOnce(&mut Book)) {
        let mut book = book.clone();
        change(&mut book);
        book.lay_out();
        self.book(what, &book);
    }

    fn document_examples(&mut self) {
        self.book("case F, P1 to P3", &case_f());
        self.book("P4, P5", &thirds());
        self.book("P6", &halves());
        self.book("P7", &limited_down());
        self.book("P8", &above_baseline());
        self.book("P9", &tie());
        self.book("P10; not by a ratio; the window doesn't end at the start", &window());
        self.book("days ranked by sum, not quarter-hour by quarter-hour", &ranked_by_sum());
        self.book("delivery not limited to the request", &above_request());
        self.book("other categories don't use up Y", &other_categories());
        self.changed("other categories leave Y - 1", &other_categories(), |book| book.register[0].excluded_days = 1);
        self.changed("Y - 1 eligible days: one misses a reading", &case_f(), |book| book.readings[0][0] = MISSING);
        self.changed("first + count 96", &case_f(), |book| book.engagements[0].first = 94);
        self.changed("first + count 97", &case_f(), |book| book.engagements[0].first = 95);
        self.book("March passes", &Book::plain(2021, 3, 3, 1));
    }

    /// Settling refuses what 1 to 7 refuse, whatever is lent.
    fn refused_books(&mut self) {
        let base = case_f();
        self.changed("1: version 3", &base, |book| book.version = 3);
        self.changed("5: method 3", &base, |book| book.register[0].method = 3);
        self.changed("6: a reading of 2^31 - 1", &base, |book| book.readings[0][100] = i32::MAX);
        self.changed("7: nothing requested", &base, |book| book.engagements[0].requested = 0);
        self.changed("4: X 0", &base, |book| book.choices[1].x = 0);
        let mut book = base.clone();
        book.pairs[0].0 = 57;
        self.book("2: an offset", &book);
        self.lent("no rows lent, 7", 0, &{
            let mut book = base.clone();
            book.engagements[0].count = 0;
            book
        });
    }

    fn buffers(&mut self) {
        let f = case_f();
        for length in [0, 1, 5, 9, 10, 11, 15, 100] {
            self.lent(format!("case F (2 rows), {length} numbers lent"), length, &f);
        }
        let empty = june(3, 1, 2, 3);
        for length in [0, 1, 5] {
            self.lent(format!("no engagement, {length} numbers lent"), length, &empty);
        }
        let mut long = june(1, 1, 1, 1);
        engage(&mut long, 0, 1, 0, 96, 0, 1);
        engage(&mut long, 0, 2, 0, 96, 1, 1);
        for length in [479, 480, 959, 960] {
            self.lent(format!("192 rows, {length} numbers lent"), length, &long);
        }
        self.lent("9 before 10", 0, &{
            let mut book = f.clone();
            book.readings[0][0] = MISSING;
            book
        });
        self.lent("8 before 10", 0, &{
            let mut book = f.clone();
            book.readings[0][96 * 3] = MISSING;
            book
        });
    }

    /// 8: readings of A in the engagement's quarter-hours, and only these.
    fn needed_readings(&mut self) {
        for method in 0..=2 {
            let mut book = june(2, 1, 1, 1);
            book.register[0].method = method;
            read(&mut book, 0, 1, 30, &[100, 200, 300, 400, 500, 600]);
            read(&mut book, 0, 2, 30, &[90, 190, 290, 390, 490, 590]);
            engage(&mut book, 0, 2, 31, 4, 0, 1000);
            book.engagements[0].notice = 3;
            for quarter in [30, 31, 32, 34, 35] {
                let what = format!("method {method}, reading {quarter} of A missing, quarter-hours 31 to 34");
                self.changed(what, &book, |book| book.readings[0][96 * 2 + quarter] = MISSING);
            }
            for quarter in [30, 31, 34, 35] {
                let what = format!("method {method}, reading {quarter} of the day before missing");
                self.changed(what, &book, |book| book.readings[0][96 + quarter] = MISSING);
            }
        }
    }

    fn eligible_days(&mut self) {
        let base = || {
            let mut book = june(6, 1, 2, 4);
            for (day, watts) in [(0, 700), (1, 100), (2, 600), (3, 200), (4, 500), (5, 300), (6, 50)] {
                read(&mut book, 0, day, 20, &[watts, watts + 1]);
            }
            engage(&mut book, 0, 6, 20, 2, 0, 400);
            book
        };
        self.book("6 eligible days, Y 4: days 2 to 5 are taken", &base());
        for y in [2, 3, 5, 6, 7, 20] {
            self.changed(format!("6 eligible days, X 2, Y {y}"), &base(), |book| book.choices[0].y = y);
        }
        for x in [1, 3, 4] {
            self.changed(format!("X {x}, Y 4"), &base(), |book| book.choices[0].x = x);
        }
        for day in 0..=6 {
            self.changed(format!("day {day} excluded"), &base(), |book| book.register[0].excluded_days = 1 << day);
            self.changed(format!("day {day} of category 2"), &base(), |book| book.calendar[day] = 2);
            self.changed(format!("day {day} misses its last reading of the two"), &base(), |book| {
                book.readings[0][96 * day + 21] = MISSING
            });
        }
        self.changed("A of another category than all", &base(), |book| book.calendar[6] = 3);
        self.changed("all of category 3, whose X, Y are 1, 6", &base(), |book| {
            book.calendar.fill(3);
            book.choices[3] = Choice { x: 1, y: 6 };
        });
        self.changed("A of category 1 with days 0, 3; its X, Y are 1, 2", &base(), |book| {
            for day in [0, 3, 6] {
                book.calendar[day] = 1;
            }
            book.choices[1] = Choice { x: 1, y: 2 };
        });
        self.changed("A of category 1 with days 0, 3; its X, Y are 2, 3", &base(), |book| {
            for day in [0, 3, 6] {
                book.calendar[day] = 1;
            }
            book.choices[1] = Choice { x: 2, y: 3 };
        });
        self.changed("mask of all days", &base(), |book| book.register[0].excluded_days = (1 << 36) - 1);
        self.changed("days 0, 1 excluded, Y 4", &base(), |book| book.register[0].excluded_days = 3);
        self.changed("days 0, 1, 2 excluded, Y 4", &base(), |book| book.register[0].excluded_days = 7);
        self.changed("readings missing beside the engagement's quarter-hours", &base(), |book| {
            for day in 0..7 {
                book.readings[0][96 * day + 19] = MISSING;
                book.readings[0][96 * day + 22] = MISSING;
            }
        });
        self.changed("days after A don't count", &base(), |book| {
            read(book, 0, 7, 20, &[100000, 100000]);
            book.choices[0] = Choice { x: 1, y: 1 };
        });
        self.changed("A itself doesn't count", &base(), |book| {
            read(book, 0, 6, 20, &[100000, 100000]);
            book.choices[0] = Choice { x: 1, y: 1 };
        });
        self.changed("days with engagements don't count: A is day 9", &base(), |book| {
            read(book, 0, 6, 20, &[5000, 5000]);
            read(book, 0, 8, 20, &[4000, 4000]);
            engage(book, 0, 8, 20, 2, 0, 10);
            engage(book, 0, 9, 20, 2, 0, 10);
        });
        let mut book = june(1, 1, 1, 1);
        engage(&mut book, 0, 1, 0, 1, 0, 10);
        self.book("L 1, Y 1, A the first settled day", &book);
        self.changed("L 1, Y 2, A the first settled day", &book, |book| book.choices[0].y = 2);
        self.changed("L 1, Y 2, A the second settled day", &book, |book| {
            book.choices[0].y = 2;
            book.engagements[0].day = 2;
        });
        let mut long = Book::plain(2021, 7, 33, 1);
        long.choices = vec![Choice { x: 10, y: 20 }; 4];
        long.register[0].method = 1;
        long.register[0].largest_up = 1_000_000_000;
        for day in 0..64 {
            read(&mut long, 0, day, 95, &[((day * 7919) % 101) as i32 + 1]);
        }
        engage(&mut long, 0, 33, 95, 1, 0, 10);
        engage(&mut long, 0, 63, 95, 1, 0, 10);
        self.book("X 10, Y 20, N 64, first and last settled day", &long);
        self.changed("mask bit 63 excludes only A", &long, |book| book.register[0].excluded_days = 1 << 63);
        self.changed("mask bits 32 and 62", &long, |book| book.register[0].excluded_days = 1 << 32 | 1 << 62);
    }

    /// C-11: a day with an engagement of the point isn't eligible and uses up no Y.
    fn engaged_days(&mut self) {
        let two = |y: u8, readings: usize| {
            let mut book = june(3, 1, 1, y);
            for day in 0..6 {
                read(&mut book, 0, day, 10, &vec![50 + 10 * day as i32; readings]);
            }
            engage(&mut book, 0, 4, 10, 2, 0, 1000);
            engage(&mut book, 0, 5, 10, 2, 0, 1000);
            book
        };
        for y in [1, 2, 3, 4, 5] {
            self.book(format!("days 4 and 5 engaged, X 1, Y {y}"), &two(y, 2));
        }
        self.book("days 4 and 5 engaged, X 1, Y 2, more readings", &two(2, 20));
        self.changed("day 5 engaged alone, X 1, Y 5", &two(5, 2), |book| {
            book.engagements.remove(0);
        });
        self.changed("days 4 and 5 engaged, down", &two(2, 2), |book| {
            for row in &mut book.engagements {
                row.direction = 1;
            }
        });
        self.book("day 11 alone", &day_11(&[11]));
        for days in [
            vec![10, 11],
            vec![9, 11],
            vec![8, 11],
            vec![5, 11],
            vec![5, 6, 7, 8, 9, 10, 11],
            vec![5, 7, 9, 11],
            vec![6, 8, 10, 11],
        ] {
            self.book(format!("days {days:?} engaged, X 2, Y 3"), &day_11(&days));
        }
        for y in [5, 6] {
            self.changed(
                format!("days 5 to 11 engaged: 5 lead days are left, Y {y}"),
                &day_11(&[5, 6, 7, 8, 9, 10, 11]),
                |book| book.choices[0].y = y,
            );
        }
        for (first, count) in [(0, 1), (95, 1), (49, 1), (52, 1), (0, 96)] {
            self.changed(format!("day 10 engaged from {first}, {count} quarter-hours"), &day_11(&[10, 11]), |book| {
                (book.engagements[0].first, book.engagements[0].count) = (first, count);
            });
        }
        self.changed("day 10 engaged down, with notice, for another request", &day_11(&[10, 11]), |book| {
            let row = &mut book.engagements[0];
            (row.direction, row.notice, row.requested) = (1, 96, 1);
        });
        self.changed("day 10 engaged twice", &day_11(&[10, 11]), |book| {
            book.engagements[0].count = 1;
            let mut later = book.engagements[0].clone();
            later.first = 60;
            book.engagements.insert(1, later);
        });
    }

    /// Beside engagements of another point or day, and what else keeps a day from being eligible.
    fn engaged_days_and_others(&mut self) {
        self.changed("day 10 of the other point of the access point engaged", &day_11(&[11]), |book| {
            read_twelve_days(book, 1);
            engage(book, 1, 10, 50, 2, 0, 300);
        });
        self.changed("days 9, 10 of the other point engaged, and its 11", &day_11(&[11]), |book| {
            read_twelve_days(book, 1);
            for day in 9..12 {
                engage(book, 1, day, 50, 2, 0, 300);
            }
        });
        self.changed("day 10 of one point engaged, day 9 of the other, 11 of both", &day_11(&[10, 11]), |book| {
            read_twelve_days(book, 1);
            engage(book, 1, 9, 50, 2, 0, 300);
            engage(book, 1, 11, 50, 2, 0, 300);
        });
        self.changed("days 12 and 13 engaged too: nothing for day 11", &day_11(&[11]), |book| {
            engage(book, 0, 12, 50, 2, 0, 300);
            engage(book, 0, 13, 50, 2, 0, 300);
        });
        self.changed("day 11 engaged twice: nothing for either", &day_11(&[11]), |book| {
            book.engagements[0].count = 1;
            engage(book, 0, 11, 51, 1, 0, 300);
        });
        self.changed("day 10 engaged and excluded", &day_11(&[10, 11]), |book| {
            book.register[0].excluded_days = 1 << 10
        });
        self.changed("day 10 engaged, day 9 excluded", &day_11(&[10, 11]), |book| {
            book.register[0].excluded_days = 1 << 9
        });
        self.changed("day 10 engaged, of another category", &day_11(&[10, 11]), |book| book.calendar[10] = 2);
        self.changed("day 10 engaged, day 9 of another category", &day_11(&[10, 11]), |book| book.calendar[9] = 2);
        self.changed("day 10 engaged at another time, and misses a reading of day 11's", &day_11(&[10, 11]), |book| {
            book.engagements[0].first = 60;
            book.readings[0][96 * 10 + 50] = MISSING;
        });
        self.changed("day 10 engaged, day 9 misses a reading", &day_11(&[10, 11]), |book| {
            book.readings[0][96 * 9 + 51] = MISSING;
        });
        self.changed("method 0 looks at no day", &day_11(&[10, 11]), |book| {
            book.register[0].method = 0;
            book.choices[0] = Choice { x: 10, y: 20 };
        });
    }

    /// At the calendar's ends, and 9 for want of a day.
    fn engaged_days_at_the_edges(&mut self) {
        let mut next = june(1, 1, 1, 1);
        engage(&mut next, 0, 1, 0, 1, 0, 10);
        engage(&mut next, 0, 2, 0, 1, 0, 10);
        self.book("L 1, Y 1, the first two settled days engaged", &next);
        self.changed("L 1, Y 1, the lead day excluded", &next, |book| book.register[0].excluded_days = 1);
        self.changed("L 1, Y 2, the second settled day engaged alone", &next, |book| {
            book.choices[0].y = 2;
            book.engagements.remove(0);
        });
        self.changed("L 1, Y 2, days 2 and 3 engaged: both look at 1 and 0", &next, |book| {
            book.choices[0].y = 2;
            (book.engagements[0].day, book.engagements[1].day) = (2, 3);
        });
        self.changed("L 1, Y 2, days 1 and 2 engaged: 9 with the first", &next, |book| book.choices[0].y = 2);
        let later = |days: &[(u8, u8)]| {
            let mut book = june(4, 1, 1, 4);
            book.readings[0][20] = MISSING;
            for &(day, first) in days {
                engage(&mut book, 0, day, first, 1, 0, 10);
            }
            book
        };
        self.book("Y 4, day 5 misses day 0: days 4 to 1", &later(&[(5, 20)]));
        self.book("Y 4, day 5 misses days 0 and 4: 9 with the later row", &later(&[(4, 10), (5, 20)]));
        let mut long = Book::plain(2021, 7, 33, 1);
        long.choices = vec![Choice { x: 1, y: 1 }; 4];
        long.register[0].method = 1;
        long.register[0].largest_up = 1_000_000_000;
        for day in 0..64 {
            read(&mut long, 0, day, 95, &[day as i32 + 1]);
        }
        for days in [vec![33, 34], vec![33, 63], vec![62, 63], vec![61, 62, 63], vec![33, 34, 61, 62, 63]] {
            self.changed(format!("N 64, days {days:?} engaged"), &long, |book| {
                for &day in &days {
                    engage(book, 0, day, 95, 1, 0, 10);
                }
            });
        }
        self.changed("N 64, all 31 settled days engaged, X 10, Y 20", &long, |book| {
            book.choices[0] = Choice { x: 10, y: 20 };
            for day in 33..64 {
                engage(book, 0, day, 95, 1, 0, 10);
            }
        });
    }

    /// The day isn't eligible; a window may lie on it.
    fn engaged_days_of_method_2(&mut self) {
        let base = |first: u8, days: &[u8]| {
            let mut book = june(4, 1, 1, 2);
            book.register[0].method = 2;
            book.register[0].largest_up = 1_000_000_000;
            for day in 0..8 {
                let start = 96 * day + first as usize;
                let watts = 1000 + 300 * (day as i32 * 3 % 8);
                book.readings[0][start] = watts;
                if start >= 24 {
                    book.readings[0][start - 24] = 2 * watts;
                    book.readings[0][start - 13] = watts / 3;
                }
            }
            for &day in days {
                engage(&mut book, 0, day, first, 1, 0, 100);
            }
            book
        };
        for first in [0, 10, 30, 95] {
            self.book(format!("method 2, first {first}, day 7 alone"), &base(first, &[7]));
            self.book(
                format!("method 2, first {first}, days 6, 7: its own window is on day 6 or 7"),
                &base(first, &[6, 7]),
            );
            self.book(
                format!("method 2, first {first}, days 5, 7: day 6's window is on day 5 or 6"),
                &base(first, &[5, 7]),
            );
            self.book(format!("method 2, first {first}, days 4, 6, 7"), &base(first, &[4, 6, 7]));
        }
        self.changed("method 2, days 4 to 7 engaged, Y 4", &base(30, &[4, 5, 6, 7]), |book| book.choices[0].y = 4);
        self.changed("method 2, days 4 to 7 engaged, Y 5", &base(30, &[4, 5, 6, 7]), |book| book.choices[0].y = 5);
        self.changed(
            "method 2, first 0, day 0 has no window: days 4 to 7 engaged, Y 4",
            &base(0, &[4, 5, 6, 7]),
            |book| book.choices[0].y = 4,
        );
        self.changed("method 2, days 6, 7, down", &base(30, &[6, 7]), |book| {
            book.register[0].largest_down = 1_000_000_000;
            for row in &mut book.engagements {
                row.direction = 1;
            }
        });
    }

    fn ranking(&mut self) {
        let ranked = |x: u8, sums: &[i32]| {
            let days = sums.len() as u8;
            let mut book = june(days, 1, x, days);
            for (day, &sum) in sums.iter().enumerate() {
                // The day shows in the second quarter-hour.
                read(&mut book, 0, day, 0, &[sum - day as i32 - 1, day as i32 + 1]);
            }
            engage(&mut book, 0, days, 0, 2, 0, 5);
            book
        };
        for (x, sums) in [
            (1, vec![7, 7, 5]),
            (1, vec![7, 5, 7]),
            (1, vec![5, 7, 7]),
            (1, vec![7, 7, 7]),
            (2, vec![7, 7, 7]),
            (2, vec![9, 7, 7]),
            (2, vec![7, 9, 7]),
            (2, vec![7, 7, 9]),
            (3, vec![5, 5, 9, 5, 5]),
            (3, vec![1, 2, 3, 4, 5]),
            (3, vec![5, 4, 3, 2, 1]),
            (2, vec![-5, -5, -5]),
            (2, vec![-9, -5, -7, -5]),
            (1, vec![-1, 0, -1]),
            (4, vec![3, 1, 3, 1, 3, 1]),
        ] {
            self.book(format!("X {x} of sums {sums:?}"), &ranked(x, &sums));
        }
        self.changed("sums of the greatest readings", &ranked(1, &[0, 0, 0]), |book| {
            for (day, watts) in [(0, 999_999_999), (1, 1_000_000_000), (2, -1_000_000_000)] {
                read(book, 0, day, 0, &[watts, watts]);
            }
        });
        let mut book = june(2, 1, 1, 2);
        for quarter in 0..96 {
            read(&mut book, 0, 0, quarter, &[1_000_000_000]);
            read(&mut book, 0, 1, quarter, &[if quarter == 50 { 999_999_999 } else { 1_000_000_000 }]);
        }
        engage(&mut book, 0, 2, 0, 96, 0, 1_000_000_000);
        self.book("a whole day of 10^9 W, the earlier day greater by 1 W", &book);
        let mut book = june(3, 1, 1, 3);
        read(&mut book, 0, 0, 40, &[10, 10, 1000]);
        read(&mut book, 0, 1, 40, &[20, 20, 0]);
        read(&mut book, 0, 2, 39, &[5000, 15, 15]);
        engage(&mut book, 0, 3, 40, 2, 0, 1);
        self.book("readings outside the engagement's quarter-hours don't rank", &book);
    }

    fn method_0(&mut self) {
        let base = |day: u8, first: u8, notice: u8| {
            let mut book = june(1, 1, 1, 1);
            book.register[0].method = 0;
            // Each reading names its place.
            for place in [0, 1, 94, 95, 96, 97, 98, 99, 100, 101] {
                book.readings[0][place] = 1000 + place as i32;
            }
            engage(&mut book, 0, day, first, 2, 0, 100);
            book.engagements[0].notice = notice;
            book
        };
        for (first, notice, place) in [
            (0, 96, "before the calendar"),
            (0, 95, "place 0"),
            (1, 96, "place 0"),
            (2, 96, "place 1"),
            (0, 0, "place 95, the day before"),
            (0, 1, "place 94"),
            (1, 0, "place 96"),
            (4, 0, "place 99"),
            (4, 3, "place 96"),
            (4, 4, "place 95"),
            (94, 0, "place 189, a zero"),
            (94, 94, "place 95"),
        ] {
            self.book(format!("method 0, first {first}, notice {notice}: {place}"), &base(1, first, notice));
        }
        self.book("method 0, the second settled day, first 0, notice 96: place 95", &base(2, 0, 96));
        self.changed("method 0, its reading missing", &base(1, 4, 3), |book| book.readings[0][96] = MISSING);
        self.changed("method 0, the reading after it missing", &base(1, 4, 3), |book| book.readings[0][97] = MISSING);
        self.changed("method 0, the reading before it missing", &base(1, 4, 3), |book| book.readings[0][95] = MISSING);
        self.changed("method 0 needs no eligible days", &base(1, 4, 3), |book| {
            book.choices[0] = Choice { x: 10, y: 20 };
            book.register[0].excluded_days = 1;
        });
        self.changed("method 0 down", &base(1, 4, 3), |book| {
            book.engagements[0].direction = 1;
            read(book, 0, 1, 4, &[1200, 1000]);
        });
        self.changed("method 0, its own engagement's quarter-hour as the reading", &base(1, 4, 0), |book| {
            engage(book, 0, 1, 6, 1, 0, 100);
            read(book, 0, 1, 5, &[77]);
        });
    }

    fn method_2(&mut self) {
        let base = |first: u8| {
            let mut book = june(3, 1, 2, 2);
            book.register[0].method = 2;
            book.register[0].largest_up = 1_000_000_000;
            for day in 0..=3 {
                let start = 96 * day + first as i64;
                for place in [start - 25, start - 24, start - 20, start - 13, start - 12, start - 1, start] {
                    if place >= 0 {
                        let watts = 1000 * (day as i32 + 1) + 37 * (place % 29) as i32;
                        book.readings[0][place as usize] = watts;
                    }
                }
            }
            engage(&mut book, 0, 3, first, 1, 0, 100);
            book
        };
        for first in [0, 1, 11, 12, 13, 23, 24, 25, 48, 95] {
            self.book(format!("method 2, first {first}"), &base(first));
        }
        for first in [0, 23, 24, 25] {
            let what = format!("method 2, X 3, Y 3, first {first}: day 0 is eligible from 24 on");
            self.changed(what, &base(first), |book| book.choices[0] = Choice { x: 3, y: 3 });
        }
        self.changed("method 1, X 3, Y 3, first 0: day 0 is eligible", &base(0), |book| {
            book.choices[0] = Choice { x: 3, y: 3 };
            book.register[0].method = 1;
        });
        for before in [25, 24, 18, 13, 12, 1] {
            self.changed(format!("method 2, own reading {before} before the start missing"), &base(30), |book| {
                book.readings[0][96 * 3 + 30 - before] = MISSING
            });
            self.changed(format!("method 2, day 2's reading {before} before missing, Y 2"), &base(30), |book| {
                book.readings[0][96 * 2 + 30 - before] = MISSING
            });
            let what = format!("method 2, day 2's reading {before} before missing, X 2, Y 3");
            self.changed(what, &base(30), |book| {
                book.choices[0].y = 3;
                book.readings[0][96 * 2 + 30 - before] = MISSING
            });
        }
        self.changed("method 1, day 2's window missing", &base(30), |book| {
            book.register[0].method = 1;
            read(book, 0, 2, 6, &[MISSING; 12]);
        });
        self.changed(
            "method 2, the window on the day before, which is of another category and excluded",
            &base(5),
            |book| {
                book.choices[0] = Choice { x: 1, y: 1 };
                book.calendar[1] = 3;
                book.register[0].excluded_days = 2;
            },
        );
        self.changed("method 2, the own window over midnight, missing the day before's last", &base(20), |book| {
            book.readings[0][96 * 3 - 1] = MISSING
        });
        self.changed("method 2, the own window on the day before, missing there", &base(0), |book| {
            book.readings[0][96 * 3 - 24] = MISSING
        });
        self.changed("method 2 doesn't leave out the day before A", &base(30), |book| {
            book.choices[0] = Choice { x: 1, y: 1 };
        });
        self.changed("method 2, baseline of 3 10^9 W", &base(30), |book| {
            book.choices[0] = Choice { x: 1, y: 1 };
            read(book, 0, 2, 6, &[-1_000_000_000; 12]);
            read(book, 0, 3, 6, &[1_000_000_000; 12]);
            read(book, 0, 2, 30, &[1_000_000_000]);
            read(book, 0, 3, 30, &[-1_000_000_000]);
        });
        self.changed("method 2, baseline of -3 10^9 W, down", &base(30), |book| {
            book.choices[0] = Choice { x: 1, y: 1 };
            book.engagements[0].direction = 1;
            book.register[0].largest_down = 1_000_000_000;
            read(book, 0, 2, 6, &[1_000_000_000; 12]);
            read(book, 0, 3, 6, &[-1_000_000_000; 12]);
            read(book, 0, 2, 30, &[-1_000_000_000]);
            read(book, 0, 3, 30, &[1_000_000_000]);
        });
        for x in [3, 7, 9, 10] {
            let mut book = june(x, 1, x, x);
            book.register[0].method = 2;
            for day in 0..=x as usize {
                read(&mut book, 0, day, 36, &[day as i32 + 1]);
                read(&mut book, 0, day, 60, &[100 + 13 * (day as i32 % 4)]);
            }
            engage(&mut book, 0, x, 60, 1, 0, 1);
            self.book(format!("method 2, X {x}: parts of {} of a watt", 12 * x as i32), &book);
        }
        self.changed("method 2, windows rank nothing", &base(40), |book| {
            book.choices[0] = Choice { x: 1, y: 2 };
            read(book, 0, 1, 16, &[9000]);
            read(book, 0, 1, 40, &[10]);
            read(book, 0, 2, 16, &[10]);
            read(book, 0, 2, 40, &[11]);
        });
    }

    fn volumes(&mut self) {
        for method in 0..=2 {
            for direction in 0..=1 {
                for (baseline, reading) in
                    [(5000, 4000), (4000, 5000), (-300, -500), (-500, 700), (5000, 5000), (9000, 0), (0, 9000)]
                {
                    let mut book = june(1, 1, 1, 1);
                    let row = &mut book.register[0];
                    (row.method, row.largest_up, row.largest_down) = (method, 6000, 7000);
                    read(&mut book, 0, 0, 50, &[baseline]);
                    read(&mut book, 0, 1, 49, &[baseline, reading]);
                    engage(&mut book, 0, 1, 50, 1, direction, 800);
                    let way = ["up", "down"][direction as usize];
                    self.book(format!("method {method}, {way}, baseline {baseline}, reading {reading}"), &book);
                }
            }
        }
        for (up, down) in [(0, 0), (0, 1), (1, 0), (99, 1000), (100, 1000), (101, 1000), (1_000_000_000, 0)] {
            for direction in 0..=1 {
                let mut book = june(1, 1, 1, 1);
                (book.register[0].largest_up, book.register[0].largest_down) = (up, down);
                let (baseline, reading) = if direction == 0 { (600, 500) } else { (500, 600) };
                read(&mut book, 0, 0, 50, &[baseline]);
                read(&mut book, 0, 1, 50, &[reading]);
                engage(&mut book, 0, 1, 50, 1, direction, 70);
                let way = ["up", "down"][direction as usize];
                self.book(format!("100 W {way}, limits {up} and {down}"), &book);
            }
        }
        for situation in 1..=3 {
            self.changed(format!("case F with situation {situation}"), &case_f(), |book| {
                book.register[0].situation = situation
            });
        }
        self.changed("case F with injection, one party in both columns", &case_f(), |book| {
            book.register[0].supply = 1;
            book.register[0].fsp_party = 1;
        });
        let mut book = june(2, 1, 1, 1);
        read(&mut book, 0, 1, 10, &[1_000_000_000]);
        read(&mut book, 0, 2, 10, &[-1_000_000_000]);
        book.register[0].largest_up = 1_000_000_000;
        engage(&mut book, 0, 2, 10, 1, 0, 1_000_000_000);
        self.book("the greatest limit and request", &book);
        let mut book = june(1, 2, 1, 1);
        book.register[1].method = 0;
        for point in 0..2 {
            read(&mut book, point, 0, 5, &[300, 310, 320, 330]);
            read(&mut book, point, 1, 5, &[200, 210, 400, 230]);
        }
        engage(&mut book, 0, 1, 5, 2, 0, 50);
        engage(&mut book, 0, 1, 7, 2, 1, 60);
        engage(&mut book, 0, 3, 5, 1, 0, 50);
        engage(&mut book, 1, 1, 5, 1, 1, 70);
        engage(&mut book, 1, 1, 8, 1, 0, 70);
        self.book("rows of several engagements, points and directions stand in order", &book);
    }

    fn order_of_8_and_9(&mut self) {
        let base = || {
            let mut book = june(2, 2, 1, 2);
            engage(&mut book, 0, 2, 10, 1, 0, 1);
            engage(&mut book, 0, 2, 20, 1, 0, 1);
            engage(&mut book, 1, 2, 30, 1, 0, 1);
            book
        };
        self.changed("9 of row 0 before 8 of row 1", &base(), |book| {
            book.readings[0][10] = MISSING;
            book.readings[0][96 * 2 + 20] = MISSING;
        });
        self.changed("8 of row 0 before 9 of row 0", &base(), |book| {
            book.readings[0][10] = MISSING;
            book.readings[0][96 * 2 + 10] = MISSING;
        });
        self.changed("8 of row 1 before 9 of row 2", &base(), |book| {
            book.readings[0][96 * 2 + 20] = MISSING;
            book.readings[1][30] = MISSING;
        });
        self.changed("9 of row 2", &base(), |book| book.readings[1][96 + 30] = MISSING);
        self.changed("8 of row 2", &base(), |book| book.readings[1][96 * 2 + 30] = MISSING);
        self.changed("another point's reading missing", &base(), |book| book.readings[0][96 * 2 + 30] = MISSING);
        self.changed("8 by method 2's own 12 before 9 by its days", &base(), |book| {
            book.register[1].method = 2;
            book.readings[1][96 * 2 + 6] = MISSING;
            book.readings[1][30] = MISSING;
        });
    }
}

/// Readings of two quarter-hours of a point, of days 0 to 11.
fn read_twelve_days(book: &mut Book, point: usize) {
    for day in 0..12 {
        let watts = 100 * (day as i32 * 5 % 12) + 7 * day as i32 + point as i32;
        read(book, point, day, 50, &[watts, watts + 1]);
    }
}

/// Two delivery points of one access point, X 2, Y 3, the first engaged on these days, of which the last is 11.
fn day_11(days: &[u8]) -> Book {
    let mut book = june(5, 2, 2, 3);
    book.register[1].access_ean = book.register[0].access_ean;
    read_twelve_days(&mut book, 0);
    for &day in days {
        engage(&mut book, 0, day, 50, 2, 0, 300);
    }
    book
}

/// As many engagements as a book can have, two for each of as many points as it can have: of every second point on two days that follow each other, so
/// that the first of them, whose reading is the greater, is no reference day of the other.
pub fn largest_book() -> Book {
    let mut book = Book::plain(2021, 2, 2, 256);
    book.choices = vec![Choice { x: 1, y: 2 }; 4];
    for point in 0..256 {
        let row = &mut book.register[point];
        row.method = (point % 3) as u8;
        (row.largest_up, row.largest_down) = (20 * point as u32, 15 * point as u32);
        let (first, watts) = (40 + point % 50, point as i32);
        read(&mut book, point, 1, first - 1, &[5000 - 7 * watts, 4000 + 3 * watts]);
        let follows = point % 2 == 1;
        let own = if follows { 9000 + watts } else { 9 * watts };
        read(&mut book, point, 2, first - 1, &[300 * (watts % 7), own]);
        let direction = (point / 3 % 2) as u8;
        engage(&mut book, point as u16, 2, first as u8, 1, direction, 100 + point as u32);
        let (day, first) = if follows { (3, first as u8) } else { (29, 95) };
        engage(&mut book, point as u16, day, first, 1, 1 - direction, 1 + point as u32);
    }
    book
}

/// Random books, now and then with rows that are too short or longer than needed.
pub fn random_cases(seed: u64, count: usize, book: fn(&mut Random) -> Book) -> Vec<SettleCase> {
    let mut cases = Cases(Vec::new());
    let mut random = Random::new(seed);
    for number in 1..=count {
        let book = book(&mut random);
        let exact = ROW_WIDTH * quarter_hours(&book);
        let length = match random.range(0, 9) {
            0 => exact.saturating_sub(1),
            1 => exact + 3,
            _ => exact,
        };
        cases.lent(format!("random book {number}"), length, &book);
    }
    cases.0
}

/// A good book of any month, March and October more often, with few days that matter, the clock change among or near them if the calendar has one.
pub fn random_book(random: &mut Random) -> Book {
    let month = if random.once_in(2) { random.pick(&[3, 10]) } else { random.pick(&MONTHS) };
    let lead_days = random.pick(&[3, 4, 5, 6, 7, 33]);
    let points = random.range(1, 2) as u16;
    let mut book = Book::plain(random.range(2018, 2099) as u16, month, lead_days, points);
    let change = (0..book.days()).find(|&day| book.is_clock_change(day));
    let near = change.map_or(0, |day| day as i64 - random.range(-1, 3));
    let from = near.clamp(lead_days as i64, book.days() as i64 - 4) as u8;
    fill(random, &mut book, from);
    book
}

/// The same of a month that has no clock change in its calendar, in its first days.
pub fn random_plain_book(random: &mut Random) -> Book {
    let lead_days = random.range(3, 7) as u8;
    let points = random.range(1, 2) as u16;
    let month = random.pick(&[1, 2, 6, 9]);
    let mut book = Book::plain(random.range(2018, 2099) as u16, month, lead_days, points);
    fill(random, &mut book, lead_days);
    book
}

/// Gives all points of a book fields, readings and engagements; see `fill_points`.
fn fill(random: &mut Random, book: &mut Book, from: u8) {
    let all: Vec<u16> = (0..book.points).collect();
    fill_points(random, book, &all, from);
}

/// Books of many points, few of which are engaged.
pub fn random_large_cases(seed: u64) -> Vec<SettleCase> {
    let mut cases = Cases(Vec::new());
    let mut random = Random::new(seed);
    for points in [5, 17, 60, 130, 255, 256, 256, 256] {
        let mut book = Book::plain(random.pick(&[2018, 2019, 2021, 2099]), 2, 2, points);
        for row in &mut book.register {
            row.access_ean += 1000;
        }
        let engaged: Vec<u16> =
            (1..=4).map(|part| part * points / 4 - random.range(1, points as i64 / 4) as u16).collect();
        fill_points(&mut random, &mut book, &engaged, 7);
        cases.book(format!("random book of {points} points"), &book);
    }
    cases.0
}

/// Gives these points fields, readings and engagements, all in a few days up to the fourth from day `from` on. Near a clock change
/// engagements are longer, and there are more readings about them: those that another day's quarter-hours look at.
fn fill_points(random: &mut Random, book: &mut Book, engaged: &[u16], from: u8) {
    let days = from.saturating_sub(7) as usize..from as usize + 4;
    let clock_change = days.clone().any(|day| book.is_clock_change(day));
    let longest = (from as usize..days.end).map(|day| book.day_lengths[day]).max().unwrap() as i64;
    for day in days.clone() {
        book.calendar[day] = if random.once_in(4) { 1 } else { 0 };
    }
    book.choices[0].x = random.range(1, 3) as u8;
    book.choices[0].y = random.range(book.choices[0].x as i64, 3) as u8;
    let first = random.range(0, longest - 4);
    let count = random.range(1, if clock_change { 8 } else { 3 });
    for point in engaged.iter().map(|&point| point as usize) {
        let row = &mut book.register[point];
        row.method = random.range(0, 2) as u8;
        row.situation = random.pick(&[0, 0, 0, 1, 1, 2, 3]);
        row.supply = random.range(0, 1) as u8;
        row.supplier = random.range(1, 2) as u64;
        row.fsp = random.range(1, 2) as u64;
        row.access_ean = 10 * row.supplier + row.supply as u64;
        row.source_party = random.range(1, 3) as u16;
        row.fsp_party = random.range(1, 3) as u16;
        row.largest_up = random.range(0, 90) as u32;
        row.largest_down = random.range(0, 90) as u32;
        let excluded = random.once_in(3).then(|| random.range(days.start as i64, days.end as i64 - 1));
        row.excluded_days = excluded.map_or(0, |day| 1 << day);
        let level = random.range(-60, 120) as i32;
        for day in days.clone() {
            let start = book.place(day, 0) as i64 + first;
            let mut places = vec![start - 24, start - 24 + random.range(1, 10), start - 13];
            places.extend(start - 1..start + count);
            if clock_change {
                places.extend([start - 28, start - 20, start - 17, start - 9]);
                places.extend((start - 5..start - 1).chain(start + count..start + count + 4));
            }
            for place in places {
                if (0..book.quarters() as i64).contains(&place) {
                    book.readings[point][place as usize] =
                        if random.once_in(60) { MISSING } else { level + random.range(0, 40) as i32 };
                }
            }
        }
    }
    for &point in engaged {
        for day in from..=from + 3 {
            let fits = first + count <= book.day_lengths[day as usize] as i64;
            if random.once_in(2) && fits {
                let shift = random.range(0, count - 1) as u8;
                book.engagements.push(Engagement {
                    point,
                    day,
                    first: first as u8 + shift,
                    count: count as u8 - shift,
                    direction: random.range(0, 1) as u8,
                    notice: random.pick(&[0, 0, 1, 12, 96]),
                    requested: random.range(1, 100) as u32,
                    ..Engagement::default()
                });
            }
        }
    }
    book.lay_out();
}
