//! Books for the ranking of reference days: which days are taken, by which sums and in which order.

use crate::book::{Book, decode};
use crate::book_cases::{engaged, small};
use crate::case_text::{read_sparse, write_sparse};
use crate::clock_cases::OCTOBER;
use crate::examples::*;
use crate::random::Random;
use crate::settle::rank;
use crate::settle_cases::{self, SettleCase, random_book, random_plain_book};
use crate::split_cases::random_split_book;

/// A book and the number of an engagement, counted from 0.
pub struct RankCase {
    pub what: String,
    pub engagement: usize,
    pub bytes: Vec<u8>,
}

pub fn cases() -> Vec<RankCase> {
    let mut cases = Cases { settle: settle_cases::cases(), rank: Vec::new() };
    cases.document_examples();
    cases.refused_books();
    cases.numbers();
    cases.eligible_days();
    cases.engaged_days();
    cases.sums();
    cases.methods();
    cases.clock_changes();
    cases.version_2();
    cases.random_books();
    cases.rank
}

/// One case a line: `ENGAGEMENT LENGTH OFFSET HEX ...`.
pub fn cases_text(cases: &[RankCase]) -> String {
    cases.iter().map(|case| format!("{} {}\n", case.engagement, write_sparse(&case.bytes))).collect()
}

/// The expected output for a text of cases: `ranked COUNT` and a line `DAY WATTS` for each day, the first of them first,
/// `no engagement` if the book has none of that number, or `refused NUMBER ITEM`.
pub fn answers(text: &str) -> String {
    let mut output = String::new();
    for line in text.lines() {
        let words: Vec<&str> = line.split(' ').collect();
        match rank(&read_sparse(&words[1..]), words[0].parse().unwrap()) {
            Err(refusal) => output += &format!("refused {} {}\n", refusal.number, refusal.item),
            Ok(None) => output += "no engagement\n",
            Ok(Some(days)) => {
                output += &format!("ranked {}\n", days.len());
                for ranked in days {
                    output += &format!("{} {}\n", ranked.day, ranked.watts);
                }
            }
        }
    }
    output
}

/// The settling call's cases, whose books are taken, and the cases of the ranking.
struct Cases {
    settle: Vec<SettleCase>,
    rank: Vec<RankCase>,
}

impl Cases {
    fn bytes(&mut self, what: &str, engagement: usize, bytes: Vec<u8>) {
        self.rank.push(RankCase { what: format!("{what}: engagement {engagement}"), engagement, bytes });
    }

    fn book(&mut self, what: &str, engagement: usize, book: &Book) {
        self.bytes(what, engagement, book.encode());
    }

    fn changed(&mut self, what: &str, engagement: usize, book: &Book, change: impl FnOnce(&mut Book)) {
        let mut book = book.clone();
        change(&mut book);
        self.book(what, engagement, &book);
    }

    /// The book of the settling call's one case of this.
    fn of_settle(&self, what: &str) -> Vec<u8> {
        let of_what: Vec<&SettleCase> = self.settle.iter().filter(|case| case.what == what).collect();
        assert_eq!(of_what.len(), 1, "settling cases of: {what}");
        of_what[0].bytes.clone()
    }

    /// Some engagements of the settling call's book of this.
    fn taken(&mut self, what: &str, engagements: &[usize]) {
        for &engagement in engagements {
            self.bytes(what, engagement, self.of_settle(what));
        }
    }

    /// The first engagement of each of these books.
    fn first_of(&mut self, whats: &[&str]) {
        for what in whats {
            self.taken(what, &[0]);
        }
    }

    fn document_examples(&mut self) {
        self.first_of(&[
            "case F, P1 to P3",
            "P9",
            "P10; not by a ratio; the window doesn't end at the start",
            "days ranked by sum, not quarter-hour by quarter-hour",
            "other categories don't use up Y",
            "other categories leave Y - 1",
        ]);
    }

    /// The ranking refuses what 1 to 7 refuse, whichever engagement is asked for.
    fn refused_books(&mut self) {
        self.first_of(&["2: an offset"]);
        let base = engaged();
        self.changed("5: method 3 of row 2", 0, &base, |book| book.register[2].method = 3);
        self.changed("6: a reading of point 1 of 2^31 - 1", 0, &base, |book| book.readings[1][100] = i32::MAX);
        self.changed("7: nothing requested in row 2", 0, &base, |book| book.engagements[2].requested = 0);
        self.changed("7 before the number", 3, &base, |book| book.engagements[2].requested = 0);
    }

    /// Of books without engagements, with one and with several.
    fn numbers(&mut self) {
        self.book("no engagement", 0, &small(1));
        self.changed("no engagement, version 2", 0, &small(1), |book| book.version = 2);
        for engagement in [1, 65_536] {
            self.book("case F", engagement, &case_f());
        }
        self.taken("rows of several engagements, points and directions stand in order", &[0, 4, 5]);
    }

    fn eligible_days(&mut self) {
        self.first_of(&[
            "6 eligible days, Y 4: days 2 to 5 are taken",
            "6 eligible days, X 2, Y 20",
            "X 4, Y 4",
            "day 3 excluded",
            "day 3 of category 2",
            "day 3 misses its last reading of the two",
            "day 6 misses its last reading of the two",
            "A of another category than all",
            "all of category 3, whose X, Y are 1, 6",
            "readings missing beside the engagement's quarter-hours",
            "A itself doesn't count",
            "L 1, Y 1, A the first settled day",
        ]);
        self.taken("X 10, Y 20, N 64, first and last settled day", &[0, 1]);
        self.taken("mask bits 32 and 62", &[1]);
    }

    /// C-11: a day with an engagement of the point isn't eligible and uses up no Y.
    fn engaged_days(&mut self) {
        self.taken("days with engagements don't count: A is day 9", &[0, 1, 2, 3]);
        self.taken("days [5, 7, 9, 11] engaged, X 2, Y 3", &[3]);
        self.taken("days 5 to 11 engaged: 5 lead days are left, Y 6", &[6]);
        self.taken("day 10 of one point engaged, day 9 of the other, 11 of both", &[1, 3]);
        self.taken("day 11 engaged twice: nothing for either", &[1]);
        self.taken("method 0 looks at no day", &[1]);
        self.taken("N 64, all 31 settled days engaged, X 10, Y 20", &[30]);
        self.taken("method 2, first 0, day 0 has no window: days 4 to 7 engaged, Y 4", &[3]);
    }

    fn sums(&mut self) {
        self.first_of(&[
            "X 3 of sums [5, 5, 9, 5, 5]",
            "X 2 of sums [-9, -5, -7, -5]",
            "sums of the greatest readings",
            "a whole day of 10^9 W, the earlier day greater by 1 W",
            "readings outside the engagement's quarter-hours don't rank",
            "method 2, windows rank nothing",
            "method 2, X 10: parts of 120 of a watt",
        ]);
        let mut book = OCTOBER.book(1, 1, 2);
        for (day, watts) in [(OCTOBER.day - 2, 1_000_000_000), (OCTOBER.day - 1, -1_000_000_000)] {
            read(&mut book, 0, day, 0, &[watts; 96]);
        }
        engage(&mut book, 0, OCTOBER.day as u8, 0, OCTOBER.length as u8, 0, 100);
        self.book("the whole day of 100, the greatest and the least sum that there are", 0, &book);
    }

    /// Method 2's windows, and the same books with a point of method 1, and of method 0 as for method 1.
    fn methods(&mut self) {
        for what in [
            "method 2, day 2's reading 24 before missing, X 2, Y 3",
            "two days after the day of 92, method 2, first 23, Y 2",
        ] {
            let book = decode(&self.of_settle(what)).unwrap();
            for method in [2, 1, 0] {
                self.changed(&format!("{what}, with method {method}"), 0, &book, |book| {
                    book.register[0].method = method
                });
            }
        }
        self.first_of(&[
            "method 2, own reading 24 before the start missing",
            "method 2, day 2's reading 12 before missing, X 2, Y 3",
        ]);
    }

    /// C-12's days of 92 and 100 quarter-hours.
    fn clock_changes(&mut self) {
        self.first_of(&[
            "2021-03, L 3, the whole day of 92, method 2",
            "day of 92: what quarter-hours 7 to 8 look at",
            "day of 100: what quarter-hours 8 to 12 look at",
            "31 October 2021, first 8, count 5: a reading counts twice in the sum",
            "first 8, count 5, equal sums: the later day",
            "day of 92: days are ranked by the readings looked at",
            "day of 100: days are ranked by the readings looked at",
            "day of 92, first 8, count 1, the reference day misses 8",
            "day of 92, first 8, count 1, the reference day misses 12",
            "day of 100, first 12, count 1, the reference day misses 8",
            "day of 100, first 12, count 1, the reference day misses 12",
            "day of 100, first 40, method 2, the reference day misses 12",
            "the day after the day of 92, method 1, Y 2: one and that day are left",
            "the day after the day of 100, method 2: that day alone is left",
            "the day of 92 and A of category 1, all others of 0",
            "two days after the day of 92, method 2, first 24, the day after alone is left",
            "day of 92, method 2, first 19, day 0 alone is left",
            "day of 92, method 2, first 20, day 0 alone is left",
            "day of 100, method 2, first 27, day 0 alone is left",
            "day of 100, method 2, first 28, day 0 alone is left",
            "2023-10, L 33, X 10, Y 20, method 2, day 63, first 10",
        ]);
        self.taken("2021-03, L 3, three engagements on the day of 92", &[1]);
    }

    fn version_2(&mut self) {
        self.taken("version 2, two points, up and down, on several days", &[1]);
        self.taken("version 2, 2023-10, L 3, the day of 100", &[1]);
    }

    /// An engagement of each, or the number past the last.
    fn random_books(&mut self) {
        let mut random = Random::new(42);
        let books: [fn(&mut Random) -> Book; 3] = [random_plain_book, random_book, random_split_book];
        for number in 1..=6 {
            let book = books[number % 3](&mut random);
            let engagement = random.range(0, book.engagements.len() as i64) as usize;
            self.book(&format!("random book {number}"), engagement, &book);
        }
    }
}
