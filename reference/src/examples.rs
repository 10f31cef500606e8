//! The books of document 01's examples, and those that tell the six "wrong though natural" ways apart.

use crate::book::{Book, Choice, Engagement};

/// A June of 2021; see `month`.
pub fn june(lead_days: u8, points: u16, x: u8, y: u8) -> Book {
    month(2021, 6, lead_days, points, x, y)
}

/// A month with these lead days and points, the same X and Y for all categories, 5,000 W each way, method 1.
pub fn month(year: u16, month: u8, lead_days: u8, points: u16, x: u8, y: u8) -> Book {
    let mut book = Book::plain(year, month, lead_days, points);
    book.choices = vec![Choice { x, y }; 4];
    for row in &mut book.register {
        (row.supplier, row.fsp, row.method) = (3, 7, 1);
        (row.largest_up, row.largest_down) = (5000, 5000);
        (row.source_party, row.fsp_party) = (1, 2);
    }
    book
}

/// Readings of a point from a quarter-hour of a day on.
pub fn read(book: &mut Book, point: usize, day: usize, first: usize, watts: &[i32]) {
    let start = book.place(day, first);
    book.readings[point][start..start + watts.len()].copy_from_slice(watts);
}

/// One more engagement of quarter-hours `first` on; direction 0 is up.
pub fn engage(book: &mut Book, point: u16, day: u8, first: u8, count: u8, direction: u8, requested: u32) {
    book.engagements.push(Engagement { point, day, first, count, direction, requested, ..Engagement::default() });
    book.lay_out();
}

pub fn case_f() -> Book {
    let mut book = june(3, 1, 2, 3);
    read(&mut book, 0, 0, 0, &[10000, 10000]);
    read(&mut book, 0, 1, 0, &[9000, 9001]);
    read(&mut book, 0, 2, 0, &[8000, 8000]);
    read(&mut book, 0, 3, 0, &[7000, 7000]);
    engage(&mut book, 0, 3, 0, 2, 0, 3000);
    book
}

pub const CASE_F_ID: &[u8] = b"T-1";
pub const CASE_F_MOMENT: &[u8] = b"2021-08-02T09:00:00.000+02:00";

pub const CASE_F_FILE: &str = "<AggregatedToEVolumesForFSP><TransactionID>T-1</TransactionID><MessageCreateDateTime>2021-08-02T09:00:00.000+02:00</MessageCreateDateTime><ReceiverID>0000000007</ReceiverID><SupplierCounter>1</SupplierCounter><SupplierSeries><SupplierEnterpriseNumber>0000000003</SupplierEnterpriseNumber><DirectionCounter>1</DirectionCounter><ToETimeSeries><SupplyDirection>Off-take</SupplyDirection><DeliveryDirection>DeliveryUp</DeliveryDirection><UnitType>KWT</UnitType><ObservationCounter>2</ObservationCounter><TimeSeriesPeriod><PeriodStart>2021-06-01T00:00:00.000+02:00</PeriodStart><PeriodEnd>2021-07-01T00:00:00.000+02:00</PeriodEnd><PeriodResolution>PT15M</PeriodResolution><Observation><Position>1</Position><Quantity>2.500</Quantity></Observation><Observation><Position>2</Position><Quantity>2.500</Quantity></Observation></TimeSeriesPeriod></ToETimeSeries></SupplierSeries></AggregatedToEVolumesForFSP>";

/// P4 and P5: readings 1000, 1000, 1001, X 3, less 900, in three quarter-hours.
pub fn thirds() -> Book {
    let mut book = june(3, 1, 3, 3);
    for (day, watts) in [(0, 1000), (1, 1000), (2, 1001), (3, 900)] {
        read(&mut book, 0, day, 40, &[watts; 3]);
    }
    engage(&mut book, 0, 3, 40, 3, 0, 200);
    book
}

/// P6: two points of half a watt in one series.
pub fn halves() -> Book {
    let mut book = june(2, 2, 2, 2);
    for point in 0..2 {
        read(&mut book, point, 0, 10, &[1]);
        engage(&mut book, point as u16, 2, 10, 1, 0, 1);
    }
    book
}

/// P7: down, 5000 to 5600, limit 400, requested 500.
pub fn limited_down() -> Book {
    let mut book = june(1, 1, 1, 1);
    book.register[0].largest_down = 400;
    read(&mut book, 0, 0, 10, &[5000]);
    read(&mut book, 0, 1, 10, &[5600]);
    engage(&mut book, 0, 1, 10, 1, 1, 500);
    book
}

/// P8: up, reading above baseline.
pub fn above_baseline() -> Book {
    let mut book = june(1, 1, 1, 1);
    read(&mut book, 0, 0, 10, &[5000]);
    read(&mut book, 0, 1, 10, &[5001]);
    engage(&mut book, 0, 1, 10, 1, 0, 500);
    book
}

/// P9: sums 7, 7, 5 with X 1.
pub fn tie() -> Book {
    let mut book = june(3, 1, 1, 3);
    read(&mut book, 0, 0, 10, &[3, 4]);
    read(&mut book, 0, 1, 10, &[5, 2]);
    read(&mut book, 0, 2, 10, &[1, 4]);
    engage(&mut book, 0, 3, 10, 2, 0, 1);
    book
}

/// P10: window mean 6,100 against 6,000. The baseline before adjustment is 4,000 W, so that a ratio would
/// give another addend; the 12 just before the start differ too.
pub fn window() -> Book {
    let mut book = june(1, 1, 1, 1);
    book.register[0].method = 2;
    read(&mut book, 0, 0, 26, &[6000; 12]);
    read(&mut book, 0, 1, 26, &[6100; 12]);
    read(&mut book, 0, 0, 38, &[1000; 12]);
    read(&mut book, 0, 1, 38, &[9000; 12]);
    read(&mut book, 0, 0, 50, &[4000]);
    read(&mut book, 0, 1, 50, &[100]);
    engage(&mut book, 0, 1, 50, 1, 0, 1000);
    book
}

/// C-12: 31 October 2021, day 35, has 100 quarter-hours; its 8 and its 12 look at the same reading of another day.
pub fn looked_at_twice() -> Book {
    let mut book = month(2021, 10, 5, 1, 1, 2);
    read(&mut book, 0, 33, 8, &[10]);
    read(&mut book, 0, 34, 9, &[15]);
    engage(&mut book, 0, 35, 8, 5, 0, 100);
    book
}

/// C-14: one quarter-hour of this baseline and reading, limited to so many watts in its direction; direction 0 is up.
pub fn one_quarter_hour(version: u16, direction: u8, baseline: i32, reading: i32, limit: u32, requested: u32) -> Book {
    let mut book = june(1, 1, 1, 1);
    book.version = version;
    let row = &mut book.register[0];
    (row.largest_up, row.largest_down) = if direction == 0 { (limit, 0) } else { (0, limit) };
    read(&mut book, 0, 0, 50, &[baseline]);
    read(&mut book, 0, 1, 50, &[reading]);
    engage(&mut book, 0, 1, 50, 1, direction, requested);
    book
}

/// The day with the greatest sum isn't the day with the greatest reading of each quarter-hour.
pub fn ranked_by_sum() -> Book {
    let mut book = june(2, 1, 1, 2);
    read(&mut book, 0, 0, 10, &[100, 0]);
    read(&mut book, 0, 1, 10, &[60, 60]);
    engage(&mut book, 0, 2, 10, 2, 0, 10);
    book
}

/// More delivered than requested.
pub fn above_request() -> Book {
    let mut book = june(1, 1, 1, 1);
    read(&mut book, 0, 0, 10, &[3000]);
    engage(&mut book, 0, 1, 10, 1, 0, 1000);
    book
}

/// Days of another category stand between the eligible ones.
pub fn other_categories() -> Book {
    let mut book = june(6, 1, 1, 2);
    book.calendar[1] = 1;
    book.calendar[3] = 2;
    book.calendar[4] = 1;
    book.calendar[5] = 3;
    for (day, watts) in [(0, 90), (1, 1000), (2, 50), (3, 1000), (4, 1000), (5, 1000)] {
        read(&mut book, 0, day, 10, &[watts]);
    }
    engage(&mut book, 0, 6, 10, 1, 0, 10);
    book
}
