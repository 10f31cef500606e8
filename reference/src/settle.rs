//! Baselines, delivered volumes, corrections, and refusals 8, 9 and 10.

use crate::book::{Book, Choice, Engagement, decode};
use crate::refusal::{Refusal, refused};

/// "One watt is 30,240 grains; all results are whole grains."
pub const GRAINS_PER_WATT: i128 = 30_240;

/// How many numbers a row has; C-14: "Rows of results gain a fifth number".
pub const ROW_WIDTH: usize = 5;

/// What an engagement quarter-hour gives, in grains, and where it stands.
#[derive(Clone, Copy, Debug, PartialEq, Eq)]
pub struct Quarter {
    pub point: usize,
    pub day: usize,
    pub quarter: usize,
    pub downward: bool,
    pub requested: i128,
    pub baseline: i128,
    pub delivered: i128,
    pub source_correction: i128,
    pub fsp_correction: i128,
    pub injection_correction: i128,
}

/// The settling call: five numbers for each engagement quarter-hour, or a refusal.
pub fn settle(bytes: &[u8], rows_length: usize) -> Result<Vec<i64>, Refusal> {
    let book = decode(bytes)?;
    let quarters = settle_book(&book)?;
    let rows = rows(&quarters);
    if rows_length < rows.len() {
        return refused(10, 0);
    }
    Ok(rows)
}

/// "Each engagement quarter-hour, in order, gives four signed numbers: baseline, delivered, source and
/// FSP correction"; C-14: "a fifth number, the injection correction".
pub fn rows(quarters: &[Quarter]) -> Vec<i64> {
    let row = |q: &Quarter| -> [i128; ROW_WIDTH] {
        [q.baseline, q.delivered, q.source_correction, q.fsp_correction, q.injection_correction]
    };
    quarters.iter().flat_map(row).map(|grains| i64::try_from(grains).unwrap()).collect()
}

/// All engagement quarter-hours of a book that passed 1 to 7; "by engagement, 8 before 9".
pub fn settle_book(book: &Book) -> Result<Vec<Quarter>, Refusal> {
    let mut quarters = Vec::new();
    for (index, engagement) in book.engagements.iter().enumerate() {
        if !needed_readings_present(book, engagement) {
            return refused(8, index);
        }
        let baselines = match book.register[engagement.point as usize].method {
            0 => baselines_last_quarter_hour(book, engagement),
            method => match chosen_days(book, engagement, method == 2) {
                None => return refused(9, index),
                Some(days) => baselines_high_x_of_y(book, engagement, &days, method == 2),
            },
        };
        for (quarter, baseline) in engagement_quarters(engagement).zip(baselines) {
            quarters.push(settle_quarter(book, engagement, quarter, baseline));
        }
    }
    Ok(quarters)
}

/// The engagement's quarter-hours within a day.
fn engagement_quarters(engagement: &Engagement) -> std::ops::Range<usize> {
    let first = engagement.first as usize;
    first..first + engagement.count as usize
}

/// The quarter-hour of a reference day that one of the engagement's looks at. C-12: "For an engagement on a day of 92,
/// quarter-hours from 8 up look at the reference day's quarter-hour 4 later; on a day of 100, those from 12 up look 4
/// earlier, and those below look at their own number."
fn looked_at(book: &Book, engagement: &Engagement, quarter: usize) -> usize {
    match book.day_lengths[engagement.day as usize] {
        92 if quarter >= 8 => quarter + 4,
        100 if quarter >= 12 => quarter - 4,
        _ => quarter,
    }
}

/// Where the engagement starts, counted through the whole calendar. C-12: "An own window, and method 0, count the
/// quarter-hours that passed."
fn start(book: &Book, engagement: &Engagement) -> i64 {
    book.place(engagement.day as usize, engagement.first as usize) as i64
}

/// The place that the engagement's first quarter-hour looks at on a reference day, counted through the whole calendar.
fn reference_start(book: &Book, engagement: &Engagement, day: usize) -> i64 {
    book.place(day, looked_at(book, engagement, engagement.first as usize)) as i64
}

/// The readings of the point at some places; none if one is missing or before the calendar.
fn readings(book: &Book, engagement: &Engagement, places: impl Iterator<Item = i64>) -> Option<Vec<i64>> {
    places.map(|place| book.reading(engagement.point as usize, place)).collect()
}

/// The readings of the engagement's quarter-hours on its own day.
fn own_readings(book: &Book, engagement: &Engagement) -> Option<Vec<i64>> {
    let from = start(book, engagement);
    readings(book, engagement, from..from + engagement.count as i64)
}

/// The readings that the engagement's quarter-hours look at on a reference day, one for each.
fn reference_readings(book: &Book, engagement: &Engagement, day: usize) -> Option<Vec<i64>> {
    let place = |quarter| book.place(day, looked_at(book, engagement, quarter)) as i64;
    readings(book, engagement, engagement_quarters(engagement).map(place))
}

/// The 12 places from 24 quarter-hours before a start.
fn window(start: i64) -> std::ops::Range<i64> {
    start - 24..start - 12
}

fn own_window(book: &Book, engagement: &Engagement) -> Option<Vec<i64>> {
    readings(book, engagement, window(start(book, engagement)))
}

/// C-12: "The reference window is 24 before the place so found for the first quarter-hour."
fn reference_window(book: &Book, engagement: &Engagement, day: usize) -> Option<Vec<i64>> {
    readings(book, engagement, window(reference_start(book, engagement, day)))
}

/// C-12: "for method 2 neither is a day whose window of 12 touches one": one of the 12 lies on a clock-change day.
fn window_touches_clock_change(book: &Book, engagement: &Engagement, day: usize) -> bool {
    let on_clock_change = |place: i64| place >= 0 && book.is_clock_change(book.day_of(place as usize));
    window(reference_start(book, engagement, day)).any(on_clock_change)
}

/// Method 0: "the reading just before quarter-hour 96 A + s - notice", which counts the quarter-hours that passed.
fn last_quarter_hour(book: &Book, engagement: &Engagement) -> Option<i64> {
    let place = start(book, engagement) - engagement.notice as i64 - 1;
    book.reading(engagement.point as usize, place)
}

/// 8: "a reading of A in the engagement's quarter-hours, of method 2's own 12, or of method 0 missing or
/// before the calendar".
fn needed_readings_present(book: &Book, engagement: &Engagement) -> bool {
    let method = book.register[engagement.point as usize].method;
    own_readings(book, engagement).is_some()
        && (method != 0 || last_quarter_hour(book, engagement).is_some())
        && (method != 2 || own_window(book, engagement).is_some())
}

fn baselines_last_quarter_hour(book: &Book, engagement: &Engagement) -> Vec<i128> {
    let watts = last_quarter_hour(book, engagement).unwrap() as i128;
    vec![watts * GRAINS_PER_WATT; engagement.count as usize]
}

/// "the book holds an engagement of that point on it": at whatever quarter-hour, of that row of the register.
fn is_engaged(book: &Book, point: u16, day: usize) -> bool {
    book.engagements.iter().any(|engagement| engagement.point == point && engagement.day as usize == day)
}

/// "day d before A is eligible if it has A's category, isn't excluded and misses no reading in the
/// engagement's quarter-hours", the readings being those that these look at; C-11: "a day isn't eligible if the book
/// holds an engagement of that point on it"; C-12: "A clock-change day is never a reference day"; with method 2 "an
/// eligible day's 12 must lie in the calendar and not be missing", and touch no clock-change day.
fn is_eligible(book: &Book, engagement: &Engagement, day: usize, adjusted: bool) -> bool {
    let settled = engagement.day as usize;
    day < settled
        && book.calendar[day] == book.calendar[settled]
        && !book.register[engagement.point as usize].excludes(day)
        && !is_engaged(book, engagement.point, day)
        && !book.is_clock_change(day)
        && reference_readings(book, engagement, day).is_some()
        && (!adjusted
            || reference_window(book, engagement, day).is_some() && !window_touches_clock_change(book, engagement, day))
}

/// A reference day and the sum over the engagement's quarter-hours of what they look at on it.
#[derive(Clone, Copy, Debug, PartialEq, Eq)]
pub struct RankedDay {
    pub day: usize,
    pub watts: i64,
}

/// X and Y of the category of the engagement's day.
fn choice(book: &Book, engagement: &Engagement) -> Choice {
    book.choices[book.calendar[engagement.day as usize] as usize]
}

/// "The Y latest eligible days are taken", fewer where fewer are eligible, ranked by "the greatest sum over the
/// engagement's quarter-hours, the later day first among equal sums": a reading that two of them look at counts twice.
fn ranked_days(book: &Book, engagement: &Engagement, adjusted: bool) -> Vec<RankedDay> {
    let eligible = (0..engagement.day as usize).rev().filter(|&day| is_eligible(book, engagement, day, adjusted));
    let latest = eligible.take(choice(book, engagement).y as usize);
    let sum = |day: usize| -> i64 { reference_readings(book, engagement, day).unwrap().iter().sum() };
    let mut ranked: Vec<RankedDay> = latest.map(|day| RankedDay { day, watts: sum(day) }).collect();
    ranked.sort_by_key(|ranked| (ranked.watts, ranked.day));
    ranked.reverse();
    ranked
}

/// The ranked days of the book's engagement of this number, counted from 0, or none if the book has no such engagement:
/// with method 2's windows where its point has that method, and of method 0 as of method 1.
pub fn rank(bytes: &[u8], number: usize) -> Result<Option<Vec<RankedDay>>, Refusal> {
    let book = decode(bytes)?;
    let method = |engagement: &Engagement| book.register[engagement.point as usize].method;
    let ranked = |engagement: &Engagement| ranked_days(&book, engagement, method(engagement) == 2);
    Ok(book.engagements.get(number).map(ranked))
}

/// "The Y latest eligible days are taken; of them the X with the greatest sum". None if fewer than Y are eligible: 9.
fn chosen_days(book: &Book, engagement: &Engagement, adjusted: bool) -> Option<Vec<usize>> {
    let choice = choice(book, engagement);
    let ranked = ranked_days(book, engagement, adjusted);
    if ranked.len() < choice.y as usize {
        return None;
    }
    Some(ranked.into_iter().take(choice.x as usize).map(|ranked| ranked.day).collect())
}

/// The mean of some whole watts, in grains; 30,240 is a multiple of every count that comes here.
fn mean(watts: &[i64]) -> i128 {
    let sum: i128 = watts.iter().map(|&w| w as i128).sum();
    let count = watts.len() as i128;
    assert_eq!(GRAINS_PER_WATT % count, 0);
    sum * (GRAINS_PER_WATT / count)
}

/// "The baseline of a quarter-hour is the mean of its X readings"; method 2 adds "the mean of the 12
/// readings from 96 A + s - 24 less the mean over the X days of their corresponding 12".
fn baselines_high_x_of_y(book: &Book, engagement: &Engagement, days: &[usize], adjusted: bool) -> Vec<i128> {
    let addend = if adjusted {
        let own = own_window(book, engagement).unwrap();
        let theirs: Vec<i64> = days.iter().flat_map(|&day| reference_window(book, engagement, day).unwrap()).collect();
        mean(&own) - mean(&theirs)
    } else {
        0
    };
    let by_day: Vec<Vec<i64>> = days.iter().map(|&day| reference_readings(book, engagement, day).unwrap()).collect();
    let of_quarter = |index: usize| -> i128 {
        let readings: Vec<i64> = by_day.iter().map(|readings| readings[index]).collect();
        mean(&readings) + addend
    };
    (0..engagement.count as usize).map(of_quarter).collect()
}

/// C-14: "raise baseline and reading each to at least 0 and take the first less the second upward, the second less
/// the first downward, a negative difference counting 0. The off-take party gets the lesser of this and the delivered
/// volume."
fn off_take_volume(baseline: i128, reading: i128, downward: bool, delivered: i128) -> i128 {
    let (baseline, reading) = (baseline.max(0), reading.max(0));
    let difference = if downward { reading - baseline } else { baseline - reading };
    difference.max(0).min(delivered)
}

/// "Upward: baseline less reading; downward: reading less baseline; limited to 0 below and the register's
/// largest watts above. The source party's correction is the delivered volume, the FSP party's is requested
/// less delivered, both negated downward." From version 2 on the source party is the off-take party, and "the injection
/// party gets the rest. Down negates both"; "a version 1 row keeps its four numbers, and its fifth is 0".
fn settle_quarter(book: &Book, engagement: &Engagement, quarter: usize, baseline: i128) -> Quarter {
    let point = engagement.point as usize;
    let day = engagement.day as usize;
    let row = &book.register[point];
    let downward = engagement.direction == 1;
    let reading = book.reading(point, book.place(day, quarter) as i64).unwrap() as i128 * GRAINS_PER_WATT;
    let (volume, largest) =
        if downward { (reading - baseline, row.largest_down) } else { (baseline - reading, row.largest_up) };
    let delivered = volume.max(0).min(largest as i128 * GRAINS_PER_WATT);
    let requested = engagement.requested as i128 * GRAINS_PER_WATT;
    let source = match book.has_injection_parties() {
        true => off_take_volume(baseline, reading, downward, delivered),
        false => delivered,
    };
    let sign = if downward { -1 } else { 1 };
    Quarter {
        point,
        day,
        quarter,
        downward,
        requested,
        baseline,
        delivered,
        source_correction: sign * source,
        fsp_correction: sign * (requested - delivered),
        injection_correction: sign * (delivered - source),
    }
}
