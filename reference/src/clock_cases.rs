//! C-12's books for the settling call: days of 92 and 100 quarter-hours, on the engagement's day, among the days before it and in their windows.

use crate::book::{Book, Choice, MISSING};
use crate::examples::{engage, looked_at_twice, month, read};
use crate::settle::ROW_WIDTH;
use crate::settle_cases::Cases;

/// A month with a clock change on day `day` of its calendar, which then has `length` quarter-hours.
#[derive(Clone, Copy)]
pub struct Change {
    pub year: u16,
    pub month: u8,
    pub lead_days: u8,
    pub day: usize,
    pub length: usize,
}

impl Change {
    pub const fn new(year: u16, month: u8, lead_days: u8, day: usize, length: usize) -> Change {
        Change { year, month, lead_days, day, length }
    }

    /// A book of this month with one point, whose limits limit nothing.
    pub fn book(self, method: u8, x: u8, y: u8) -> Book {
        let mut book = month(self.year, self.month, self.lead_days, 1, x, y);
        assert_eq!(book.day_lengths[self.day], self.length);
        let row = &mut book.register[0];
        (row.method, row.largest_up, row.largest_down) = (method, 1_000_000_000, 1_000_000_000);
        book
    }

    pub fn name(self) -> String {
        format!("{}-{:02}, L {}", self.year, self.month, self.lead_days)
    }
}

/// 28 March 2021 and 29 October 2023, each with days behind it.
const MARCH: Change = Change::new(2021, 3, 3, 30, 92);
pub const OCTOBER: Change = Change::new(2023, 10, 3, 31, 100);
pub const CHANGES: [Change; 2] = [MARCH, OCTOBER];

/// Gives readings from place `from` up to `to` that name their day and quarter-hour; earlier days have more watts.
fn name_places(book: &mut Book, from: i64, to: i64) {
    for place in from.max(0) as usize..to.clamp(0, book.quarters() as i64) as usize {
        let day = book.day_of(place);
        let quarter = place - book.place(day, 0);
        book.readings[0][place] = 100 * (65 - day as i32) + quarter as i32;
    }
}

/// Such readings for some quarter-hours of some days, as far as a day has them.
fn name_quarters(book: &mut Book, days: std::ops::RangeInclusive<usize>, quarters: std::ops::Range<usize>) {
    for day in days {
        let end = quarters.end.min(book.day_lengths[day]);
        let (from, to) = (book.place(day, quarters.start), book.place(day, end));
        name_places(book, from as i64, to as i64);
    }
}

/// A quarter-hour and the ends of the window before it, counted from that quarter-hour.
const WINDOW: &[i64] = &[-24, -13, 0];
/// Beside these the quarter-hours 4 later and earlier and the ends of theirs.
const WINDOWS: &[i64] = &[-28, -24, -20, -17, -13, -9, -4, 0, 4];

/// Such readings so far from a quarter-hour of some days.
fn name_around(book: &mut Book, days: std::ops::RangeInclusive<usize>, quarter: u8, far: &[i64]) {
    for day in days {
        let start = book.place(day, quarter as usize) as i64;
        for place in far.iter().map(|far| start + far) {
            name_places(book, place, place + 1);
        }
    }
}

/// Excludes all days but these.
fn leave_days(book: &mut Book, days: &[usize]) {
    let all = if book.days() == 64 { u64::MAX } else { (1 << book.days()) - 1 };
    book.register[0].excluded_days = days.iter().fold(all, |mask, day| mask & !(1 << day));
}

/// An engagement up of the point, 100 W.
fn up(book: &mut Book, day: usize, first: u8, count: u8) {
    engage(book, 0, day as u8, first, count, 0, 100);
}

impl Cases {
    pub fn clock_changes(&mut self) {
        self.clock_change_as_a();
        self.clock_change_first_and_count();
        self.clock_change_whole_days();
        self.places_looked_at();
        self.ranked_by_what_is_looked_at();
        self.missing_where_looked_at();
        self.missing_in_windows();
        self.clock_change_is_no_reference_day();
        self.clock_change_has_its_category();
        self.windows_that_touch();
        self.own_windows_over_the_change();
        self.method_0_over_the_change();
        self.change_on_day_0();
        self.windows_of_day_0();
        self.change_among_lead_days();
        self.change_with_64_days();
    }

    /// Quarter-hours 6 to 15 of the clock-change day, by every method and in both directions.
    fn clock_change_as_a(&mut self) {
        for change in CHANGES {
            for (method, direction) in (0..3).flat_map(|method| [(method, 0), (method, 1)]) {
                let mut book = change.book(method, 1, 2);
                name_quarters(&mut book, change.day - 3..=change.day - 1, 78..91);
                name_quarters(&mut book, change.day - 2..=change.day, 5..20);
                up(&mut book, change.day, 6, 10);
                book.engagements[0].direction = direction;
                let way = ["up", "down"][direction as usize];
                self.book(format!("{}, day of {}, method {method}, {way}", change.name(), change.length), &book);
            }
        }
    }

    fn clock_change_first_and_count(&mut self) {
        for change in CHANGES {
            let last = change.length as u8 - 1;
            for method in 0..3 {
                let mut book = change.book(method, 1, 1);
                name_quarters(&mut book, change.day - 1..=change.day, 64..100);
                up(&mut book, change.day, last - 3, 4);
                self.book(format!("{}, its last four quarter-hours, method {method}", change.name()), &book);
            }
            let mut edges = vec![(last, 1), (last, 2), (last + 1, 1), (0, last + 2), (95, 1), (95, 2), (96, 1)];
            edges.extend((change.length == 100).then_some([(91, 1), (91, 2), (92, 1)]).into_iter().flatten());
            for (first, count) in edges {
                let mut book = change.book(1, 1, 1);
                name_quarters(&mut book, change.day - 1..=change.day, 86..100);
                up(&mut book, change.day, first, count);
                self.book(format!("{}, day {}, first {first}, count {count}", change.name(), change.day), &book);
            }
        }
    }

    fn clock_change_whole_days(&mut self) {
        for change in CHANGES {
            let length = change.length;
            let mut book = change.book(2, 1, 1);
            name_quarters(&mut book, change.day - 2..=change.day - 2, 70..86);
            name_quarters(&mut book, change.day - 1..=change.day, 0..100);
            up(&mut book, change.day, 0, length as u8);
            self.book(format!("{}, the whole day of {length}, method 2", change.name()), &book);
            let mut book = change.book(1, 1, 1);
            up(&mut book, change.day, 0, length as u8);
            for numbers in [ROW_WIDTH * length - 1, ROW_WIDTH * length] {
                self.lent(format!("{}, {length} rows, {numbers} numbers lent", change.name()), numbers, &book);
            }
            let mut book = change.book(1, 1, 1);
            name_quarters(&mut book, change.day - 1..=change.day, 4..16);
            up(&mut book, change.day, 4, 5);
            up(&mut book, change.day, 9, 2);
            up(&mut book, change.day, 11, 4);
            book.engagements[1].direction = 1;
            self.book(format!("{}, three engagements on the day of {length}", change.name()), &book);
        }
    }

    /// "from 8 up look at the reference day's quarter-hour 4 later", "from 12 up look 4 earlier".
    fn places_looked_at(&mut self) {
        for change in CHANGES {
            for (first, count) in [(7, 1), (8, 1), (9, 1), (11, 1), (12, 1), (13, 1), (7, 2), (11, 2), (8, 5)] {
                let mut book = change.book(1, 1, 2);
                name_quarters(&mut book, change.day - 2..=change.day, 3..18);
                up(&mut book, change.day, first, count);
                let what =
                    format!("day of {}: what quarter-hours {first} to {} look at", change.length, first + count - 1);
                self.book(what, &book);
            }
        }
    }

    fn ranked_by_what_is_looked_at(&mut self) {
        self.book("31 October 2021, first 8, count 5: a reading counts twice in the sum", &looked_at_twice());
        self.changed("first 8, count 4: it counts once", &looked_at_twice(), |book| book.engagements[0].count = 4);
        self.changed("first 8, count 5, equal sums: the later day", &looked_at_twice(), |book| {
            read(book, 0, 34, 9, &[20])
        });
        self.changed("first 8, count 5, method 2", &looked_at_twice(), |book| book.register[0].method = 2);
        for (change, first, looked_at) in [(MARCH, 8, 12), (OCTOBER, 12, 8)] {
            let mut book = change.book(1, 1, 2);
            read(&mut book, 0, change.day - 2, first, &[50]);
            read(&mut book, 0, change.day - 1, first, &[60]);
            read(&mut book, 0, change.day - 2, looked_at, &[40]);
            read(&mut book, 0, change.day - 1, looked_at, &[30]);
            up(&mut book, change.day, first as u8, 1);
            self.book(format!("day of {}: days are ranked by the readings looked at", change.length), &book);
        }
        self.changed("first 8, count 8: four readings count twice", &looked_at_twice(), |book| {
            book.engagements[0].count = 8;
            read(book, 0, 33, 8, &[3, 3, 3, 3]);
            read(book, 0, 34, 8, &[2, 2, 2, 5]);
        });
    }

    /// A day of which one reading alone can be looked at; missing there it is 9, and elsewhere nothing.
    fn missing_where_looked_at(&mut self) {
        for (change, first, count, quarters) in [
            (MARCH, 7, 1, vec![3, 7, 8, 11]),
            (MARCH, 8, 1, vec![4, 8, 9, 10, 11, 12, 13, 16]),
            (MARCH, 7, 2, vec![7, 8, 11, 12, 13]),
            (MARCH, 91, 1, vec![87, 91, 95]),
            (OCTOBER, 11, 1, vec![7, 8, 11, 12, 15]),
            (OCTOBER, 12, 1, vec![7, 8, 9, 11, 12, 16]),
            (OCTOBER, 8, 5, vec![4, 7, 8, 11, 12, 13]),
            (OCTOBER, 99, 1, vec![91, 94, 95]),
        ] {
            let mut book = change.book(1, 1, 1);
            name_quarters(&mut book, change.day - 1..=change.day - 1, first as usize - 5..first as usize + 6);
            leave_days(&mut book, &[change.day - 1]);
            up(&mut book, change.day, first, count);
            let name = format!("day of {}, first {first}, count {count}", change.length);
            for quarter in quarters {
                self.changed(format!("{name}, the reference day misses {quarter}"), &book, |book| {
                    read(book, 0, change.day - 1, quarter, &[MISSING])
                });
            }
        }
        self.missing_at_8_or_12();
    }

    fn missing_at_8_or_12(&mut self) {
        for (change, first) in [(MARCH, 8), (OCTOBER, 12)] {
            let mut book = change.book(1, 1, 1);
            name_quarters(&mut book, change.day - 2..=change.day, 6..18);
            up(&mut book, change.day, first, 1);
            let name = format!("day of {}, quarter-hour {first}", change.length);
            for quarter in [8, 12] {
                self.changed(format!("{name}, the day before misses {quarter}, another has it"), &book, |book| {
                    read(book, 0, change.day - 1, quarter, &[MISSING])
                });
                self.changed(format!("{name}, its own day misses {quarter}"), &book, |book| {
                    read(book, 0, change.day, quarter, &[MISSING])
                });
            }
            self.changed(format!("{name}, the day before misses 9, 10, 11 and {first}"), &book, |book| {
                for quarter in [9, 10, 11, first as usize] {
                    read(book, 0, change.day - 1, quarter, &[MISSING]);
                }
            });
        }
    }

    /// First 40 of a day of 92 has place 44, so windows of 20 to 31; of a day of 100 place 36 and 12 to 23. Own windows have 16 to 27.
    fn missing_in_windows(&mut self) {
        for change in CHANGES {
            let mut book = change.book(2, 1, 1);
            leave_days(&mut book, &[change.day - 1]);
            name_quarters(&mut book, change.day - 1..=change.day, 11..12);
            up(&mut book, change.day, 40, 1);
            for quarter in [11, 12, 15, 16, 20, 23, 24, 27, 28, 31, 32] {
                for (whose, day) in [("the reference day", change.day - 1), ("its own day", change.day)] {
                    let what = format!("day of {}, first 40, method 2, {whose} misses {quarter}", change.length);
                    self.changed(what, &book, |book| read(book, 0, day, quarter, &[MISSING]));
                }
            }
        }
    }

    /// The day after the clock change, quarter-hours 40 and 41.
    fn clock_change_is_no_reference_day(&mut self) {
        for change in CHANGES {
            let (a, day) = (change.day + 1, change.day);
            let base = |method: u8, y: u8| {
                let mut book = change.book(method, 1, y);
                name_around(&mut book, day - 2..=a, 40, WINDOW);
                up(&mut book, a, 40, 2);
                book
            };
            let name = format!("the day after the day of {}", change.length);
            for method in 1..3 {
                self.book(format!("{name}, method {method}: that day is no reference day"), &base(method, 1));
                self.changed(
                    format!("{name}, method {method}, Y 2: two days before are left"),
                    &base(method, 2),
                    |book| leave_days(book, &[day - 2, day - 1, day]),
                );
                self.changed(
                    format!("{name}, method {method}, Y 2: one and that day are left"),
                    &base(method, 2),
                    |book| leave_days(book, &[day - 1, day]),
                );
                self.changed(format!("{name}, method {method}: that day alone is left"), &base(method, 1), |book| {
                    leave_days(book, &[day])
                });
            }
            self.changed(format!("{name}, that day excluded"), &base(1, 1), |book| {
                book.register[0].excluded_days = 1 << day
            });
            self.changed(format!("{name}, that day engaged"), &base(1, 1), |book| {
                book.engagements.clear();
                up(book, day, 40, 2);
                up(book, a, 40, 2);
            });
            self.changed(format!("{name}, that day and the day before engaged"), &base(1, 1), |book| {
                book.engagements.clear();
                up(book, day - 1, 40, 2);
                up(book, day, 40, 2);
                up(book, a, 40, 2);
            });
        }
    }

    /// "its category doesn't matter" before A; as A the clock-change day has it.
    fn clock_change_has_its_category(&mut self) {
        for change in CHANGES {
            let day = change.day;
            let base = |a: usize| {
                let mut book = change.book(1, 1, 1);
                name_around(&mut book, day - 4..=day + 1, 40, &[-4, 0, 4]);
                up(&mut book, a, 40, 1);
                book
            };
            let name = format!("the day of {}", change.length);
            self.changed(format!("{name} of category 1 before A of category 0"), &base(day + 1), |book| {
                book.calendar[day] = 1
            });
            self.changed(format!("{name} and A of category 1, all others of 0"), &base(day + 1), |book| {
                (book.calendar[day], book.calendar[day + 1]) = (1, 1)
            });
            self.changed(format!("{name} as A of category 1, all others of 0"), &base(day), |book| {
                book.calendar[day] = 1
            });
            self.changed(format!("{name} as A of category 1 with two days of it, X 2, Y 2"), &base(day), |book| {
                book.choices[1] = Choice { x: 2, y: 2 };
                for day in [day - 4, day - 2, day] {
                    book.calendar[day] = 1;
                }
            });
            self.changed(format!("{name} as A, excluded itself"), &base(day), |book| {
                book.register[0].excluded_days = 1 << day
            });
            self.changed(format!("{name} as A, the day before excluded"), &base(day), |book| {
                book.register[0].excluded_days = 1 << (day - 1)
            });
        }
    }

    /// A is two days behind the clock change, so the latest day before it has its window on the clock-change day from place 23 down.
    fn windows_that_touch(&mut self) {
        for change in CHANGES {
            let (a, after) = (change.day + 2, change.day + 1);
            let base = |method: u8, first: u8| {
                let mut book = change.book(method, 1, 1);
                name_around(&mut book, change.day - 1..=a, first, WINDOW);
                up(&mut book, a, first, 1);
                book
            };
            let name = format!("two days after the day of {}", change.length);
            for first in [0, 1, 11, 12, 13, 22, 23, 24, 25, 35, 36, 47] {
                self.book(format!("{name}, method 2, first {first}"), &base(2, first));
            }
            for first in [0, 23, 24] {
                self.book(format!("{name}, method 1, first {first}: no window"), &base(1, first));
            }
            for first in [12, 23, 24] {
                self.changed(
                    format!("{name}, method 2, first {first}, the day after alone is left"),
                    &base(2, first),
                    |book| leave_days(book, &[after]),
                );
            }
            self.changed(format!("{name}, method 2, first 23, Y 2"), &base(2, 23), |book| book.choices[0].y = 2);
        }
    }

    /// The day after: its own 12 lie on the clock-change day, counted as they passed.
    fn own_windows_over_the_change(&mut self) {
        for change in CHANGES {
            for first in [0, 10, 12, 13, 23, 24, 40] {
                let mut book = change.book(2, 1, 1);
                name_around(&mut book, change.day - 1..=change.day + 1, first, WINDOWS);
                up(&mut book, change.day + 1, first, 1);
                self.book(format!("the day after the day of {}, method 2, first {first}", change.length), &book);
            }
            for quarter in [67, 68, 71, 72, 75, 76, 79, 80, 83, 84, 87, 88] {
                let mut book = change.book(2, 1, 1);
                read(&mut book, 0, change.day, quarter, &[MISSING]);
                up(&mut book, change.day + 1, 0, 1);
                let what = format!(
                    "the day after the day of {}, method 2, first 0, {quarter} of that day missing",
                    change.length
                );
                self.book(what, &book);
            }
            for first in [0, 5, 12, 23, 24, 30] {
                let mut book = change.book(2, 1, 1);
                name_around(&mut book, change.day - 1..=change.day, first, WINDOWS);
                up(&mut book, change.day, first, 1);
                self.book(format!("the day of {}, method 2, first {first}", change.length), &book);
            }
        }
    }

    fn method_0_over_the_change(&mut self) {
        for change in CHANGES {
            let last = change.length as u8 - 1;
            for (later, first, notice) in [
                (0, 0, 0),
                (0, 0, 96),
                (0, 12, 0),
                (0, 12, 12),
                (0, last, 0),
                (0, last, 91),
                (0, last, 92),
                (0, last, 96),
                (1, 0, 0),
                (1, 0, 1),
                (1, 0, 91),
                (1, 0, 92),
                (1, 0, 96),
                (1, 4, 96),
                (1, 95, 96),
                (2, 0, 95),
                (2, 0, 96),
            ] {
                let mut book = change.book(0, 1, 1);
                let day = change.day + later;
                let place = book.place(day, first as usize) as i64 - notice as i64 - 1;
                name_places(&mut book, place - 5, place + 6);
                up(&mut book, day, first, 1);
                book.engagements[0].notice = notice;
                let what =
                    format!("day of {}, {later} days later, method 0, first {first}, notice {notice}", change.length);
                self.book(what, &book);
            }
        }
    }

    /// 31 March 2019 has 92 quarter-hours, 31 October 2021 has 100: each the one lead day of the next month.
    fn change_on_day_0(&mut self) {
        for change in [Change::new(2019, 4, 1, 0, 92), Change::new(2021, 11, 1, 0, 100)] {
            for (first, notice) in [(0, 0), (0, 90), (0, 91), (0, 92), (0, 95), (0, 96), (3, 95), (4, 96), (3, 96)] {
                let mut book = change.book(0, 1, 1);
                name_quarters(&mut book, 0..=0, 0..12);
                name_quarters(&mut book, 0..=0, 86..100);
                up(&mut book, 1, first, 1);
                book.engagements[0].notice = notice;
                self.book(format!("{}, method 0, first {first}, notice {notice}", change.name()), &book);
            }
            for (method, day, first) in [(1, 1, 0), (2, 1, 24), (1, 2, 0), (2, 2, 0), (2, 2, 23), (2, 2, 24)] {
                let mut book = change.book(method, 1, 1);
                name_around(&mut book, 1..=day, first, WINDOW);
                up(&mut book, day, first, 1);
                self.book(format!("{}, method {method}, day {day}, first {first}", change.name()), &book);
            }
        }
    }

    /// Day 0 alone is left: its window lies in the calendar from place 24 on, which is first 20 of a day of 92 and 28 of one of 100.
    fn windows_of_day_0(&mut self) {
        for (change, firsts) in [
            (Change::new(2021, 3, 1, 28, 92), [8, 19, 20, 23, 24]),
            (Change::new(2023, 10, 1, 29, 100), [23, 24, 27, 28, 29]),
        ] {
            for (method, first) in firsts.into_iter().flat_map(|first| [(1, first), (2, first)]) {
                let mut book = change.book(method, 1, 1);
                leave_days(&mut book, &[0]);
                name_quarters(&mut book, 0..=0, 0..36);
                name_quarters(&mut book, change.day..=change.day, first as usize..first as usize + 1);
                up(&mut book, change.day, first, 1);
                let what = format!("day of {}, method {method}, first {first}, day 0 alone is left", change.length);
                self.book(what, &book);
            }
        }
    }

    fn change_among_lead_days(&mut self) {
        for change in [
            Change::new(2021, 4, 10, 6, 92),
            Change::new(2025, 5, 33, 1, 92),
            Change::new(2023, 11, 10, 7, 100),
            Change::new(2021, 12, 33, 2, 100),
        ] {
            let (a, day) = (change.lead_days as usize, change.day);
            for (method, first, y) in
                [(1, 20, 1), (1, 20, 2), (1, 20, 3), (2, 20, 1), (2, 20, 2), (2, 30, 1), (2, 30, 2), (2, 30, 3)]
            {
                let mut book = change.book(method, 1, y);
                leave_days(&mut book, &[day - 1, day, day + 1]);
                name_around(&mut book, day - 1..=day + 1, first, WINDOW);
                name_around(&mut book, a..=a, first, WINDOW);
                up(&mut book, a, first, 2);
                let what = format!(
                    "{}, the day of {} is day {day}, method {method}, first {first}, Y {y}",
                    change.name(),
                    change.length
                );
                self.book(what, &book);
            }
        }
    }

    fn change_with_64_days(&mut self) {
        for change in [Change::new(2021, 3, 33, 60, 92), Change::new(2023, 10, 33, 61, 100)] {
            for (a, first) in [(change.day, 50), (63, 10)] {
                let mut book = change.book(2, 10, 20);
                for day in 33..64 {
                    let start = book.place(day, first as usize);
                    for place in [start - 24, start - 4, start, start + 4] {
                        book.readings[0][place] = 10 * (day as i32 * 29 % 31) + place as i32 % 7;
                    }
                }
                up(&mut book, a, first, 1);
                self.book(format!("{}, X 10, Y 20, method 2, day {a}, first {first}", change.name()), &book);
            }
        }
    }
}
