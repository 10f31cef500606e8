//! The Gregorian calendar, the days on which the clock changes, and the forms of moment and
//! transaction ID.

pub const MONTHS: [u8; 12] = [1, 2, 3, 4, 5, 6, 7, 8, 9, 10, 11, 12];

/// Days of a month of 1 to 12.
pub fn month_length(year: i64, month: i64) -> i64 {
    match month {
        1 | 3 | 5 | 7 | 8 | 10 | 12 => 31,
        4 | 6 | 9 | 11 => 30,
        2 if is_leap(year) => 29,
        2 => 28,
        _ => panic!("no month {month}"),
    }
}

pub fn is_leap(year: i64) -> bool {
    year % 4 == 0 && (year % 100 != 0 || year % 400 == 0)
}

#[derive(Clone, Copy, Debug, PartialEq, Eq, PartialOrd, Ord)]
pub struct Date {
    pub year: i64,
    pub month: i64,
    pub day: i64,
}

impl Date {
    pub fn new(year: i64, month: i64, day: i64) -> Date {
        Date { year, month, day }
    }

    pub fn previous(self) -> Date {
        if self.day > 1 {
            Date::new(self.year, self.month, self.day - 1)
        } else if self.month > 1 {
            Date::new(self.year, self.month - 1, month_length(self.year, self.month - 1))
        } else {
            Date::new(self.year - 1, 12, 31)
        }
    }

    pub fn next(self) -> Date {
        if self.day < month_length(self.year, self.month) {
            Date::new(self.year, self.month, self.day + 1)
        } else if self.month < 12 {
            Date::new(self.year, self.month + 1, 1)
        } else {
            Date::new(self.year + 1, 1, 1)
        }
    }
}

/// 0 for Sunday, 1 for Monday, to 6 for Saturday; from 2000 on. 1 January 2000 was a Saturday.
pub fn weekday(date: Date) -> i64 {
    let mut days = 0;
    for year in 2000..date.year {
        days += if is_leap(year) { 366 } else { 365 };
    }
    for month in 1..date.month {
        days += month_length(date.year, month);
    }
    days += date.day - 1;
    (6 + days) % 7
}

pub fn last_sunday(year: i64, month: i64) -> i64 {
    (1..=month_length(year, month)).filter(|&day| weekday(Date::new(year, month, day)) == 0).max().unwrap()
}

/// "a clock-change day": the last Sunday of March or of October.
pub fn is_clock_change(date: Date) -> bool {
    (date.month == 3 || date.month == 10) && date.day == last_sunday(date.year, date.month)
}

/// C-12: "A clock-change day has 92 or 100 readings": 92 where the clock goes forward, in March, and 100 in October.
pub fn day_length(date: Date) -> usize {
    match date.month {
        3 if is_clock_change(date) => 92,
        10 if is_clock_change(date) => 100,
        _ => 96,
    }
}

/// C-12: "Positions count the quarter-hours that the month has, in the reader too: up to 2,972 in March and 2,980 in
/// October"; else "up to 96 times the days of the month".
pub fn last_position(year: i64, month: i64) -> u64 {
    match month {
        3 => 2_972,
        10 => 2_980,
        _ => 96 * month_length(year, month) as u64,
    }
}

/// The hours of the offset at the start of a day: "+02:00 from the last Sunday of March to that of
/// October, else +01:00". On the change days the day still starts with the offset of the day before.
pub fn offset_hours(date: Date) -> i64 {
    let summer_starts = Date::new(date.year, 3, last_sunday(date.year, 3));
    let summer_ends = Date::new(date.year, 10, last_sunday(date.year, 10));
    if summer_starts < date && date <= summer_ends { 2 } else { 1 }
}

/// The N days of a book's calendar: "day 0 is L days before the 1st".
pub fn book_days(year: i64, month: i64, lead_days: i64) -> Vec<Date> {
    let first = Date::new(year, month, 1);
    let mut day = first;
    for _ in 0..lead_days {
        day = day.previous();
    }
    let mut days = Vec::new();
    for _ in 0..lead_days + month_length(year, month) {
        days.push(day);
        day = day.next();
    }
    days
}

/// A whole number of exactly these digits, or none.
pub fn digits(text: &[u8]) -> Option<i64> {
    let mut value = 0;
    for &byte in text {
        if !byte.is_ascii_digit() {
            return None;
        }
        value = 10 * value + (byte - b'0') as i64;
    }
    Some(value)
}

/// "moment in the form shown, a real date and time of 2018 to 2099, with either offset":
/// `2021-08-02T09:00:00.000+02:00`.
pub fn is_moment(text: &[u8]) -> bool {
    if text.len() != 29 {
        return false;
    }
    let marks = [(4, b'-'), (7, b'-'), (10, b'T'), (13, b':'), (16, b':'), (19, b'.')];
    if marks.iter().any(|&(place, mark)| text[place] != mark) {
        return false;
    }
    if &text[23..29] != b"+01:00" && &text[23..29] != b"+02:00" {
        return false;
    }
    let numbers = [
        digits(&text[0..4]),
        digits(&text[5..7]),
        digits(&text[8..10]),
        digits(&text[11..13]),
        digits(&text[14..16]),
        digits(&text[17..19]),
        digits(&text[20..23]),
    ];
    match numbers {
        [Some(year), Some(month), Some(day), Some(hour), Some(minute), Some(second), Some(_)] => {
            (2018..=2099).contains(&year)
                && (1..=12).contains(&month)
                && (1..=month_length(year, month)).contains(&day)
                && hour <= 23
                && minute <= 59
                && second <= 59
        }
        _ => false,
    }
}

/// "Transaction ID: 1 to 36 of 0-9 A-Z a-z and hyphen".
pub fn is_transaction_id(text: &[u8]) -> bool {
    (1..=36).contains(&text.len()) && text.iter().all(|&byte| byte.is_ascii_alphanumeric() || byte == b'-')
}

/// One line a month of 2018 to 2099, in the form that brussels.py prints from the time zone data.
pub fn months_text() -> String {
    let mut text = String::new();
    for year in 2018..=2099 {
        for month in 1..=12 {
            let first = Date::new(year, month, 1);
            let last = Date::new(year, month, month_length(year, month));
            let next = last.next();
            let change = (1..=last.day).find(|&day| is_clock_change(Date::new(year, month, day))).unwrap_or(0);
            text += &format!(
                "{year}-{month:02} {} {} {} {} {}-{:02} {} {change}\n",
                last.day,
                weekday(first),
                last_sunday(year, month),
                offset_hours(first),
                next.year,
                next.month,
                offset_hours(next),
            );
        }
    }
    text
}
