//! A settling written for speed, to time the proved one against: it reads the lent book in place, judges all of
//! it, and keeps the day sums of the point that it is at, so that a day's sum over any quarter-hours is one difference.

use reference::calendar::{last_sunday, month_length};
use reference::refusal::{Refusal, refused};
use std::collections::HashMap;

const GRAINS_PER_WATT: i64 = 30_240;
const MOST_WATTS: i32 = 1_000_000_000;
const MISSING: i32 = i32::MIN;

fn u16_at(bytes: &[u8], at: usize) -> u16 {
    u16::from_le_bytes(bytes[at..at + 2].try_into().unwrap())
}

fn u32_at(bytes: &[u8], at: usize) -> u32 {
    u32::from_le_bytes(bytes[at..at + 4].try_into().unwrap())
}

fn u64_at(bytes: &[u8], at: usize) -> u64 {
    u64::from_le_bytes(bytes[at..at + 8].try_into().unwrap())
}

/// The clock-change day of a calendar, found once: its bit in a mask of days, where it starts and ends, and how many quarter-hours more than 96 it
/// has. Without one the bit and the other numbers are 0.
#[derive(Clone, Copy, Default)]
struct Clock {
    bit: u64,
    start: usize,
    end: usize,
    more: isize,
}

/// The last Sunday of March or October lies in the calendars of its own month and of the next two, or in none.
fn clock(year: i64, month: i64, lead: usize) -> Clock {
    let Some((changing, more)) =
        [(3, -4), (10, 4)].into_iter().find(|(changing, _)| (*changing..changing + 3).contains(&month))
    else {
        return Clock::default();
    };
    let since: i64 = (changing..month).map(|earlier| month_length(year, earlier)).sum();
    match usize::try_from(lead as i64 + last_sunday(year, changing) - 1 - since) {
        Ok(day) => Clock { bit: 1 << day, start: 96 * day, end: (96 * (day + 1)).wrapping_add_signed(more), more },
        Err(_) => Clock::default(),
    }
}

impl Clock {
    fn day_start(self, day: usize) -> usize {
        (96 * day).wrapping_add_signed(if 96 * day > self.start { self.more } else { 0 })
    }

    fn day_length(self, day: usize) -> usize {
        96usize.wrapping_add_signed(if self.bit >> day & 1 == 1 { self.more } else { 0 })
    }

    /// Whether one of 12 quarter-hours from a place on lies on the clock-change day.
    fn touched_from(self, place: usize) -> bool {
        place < self.end && self.start < place + 12
    }
}

/// A book whose layout is good, and its sections.
struct Sections<'a> {
    /// Whether its rows have an injection party, which is so from version 2 on.
    splits: bool,
    lead: usize,
    days: usize,
    clock: Clock,
    /// The quarter-hours of the calendar, and the bytes of their readings.
    quarters: usize,
    point_bytes: usize,
    calendar: &'a [u8],
    pairs: &'a [u8],
    register: &'a [u8],
    readings: &'a [u8],
    engagements: &'a [u8],
}

fn sections(book: &[u8]) -> Result<Sections<'_>, Refusal> {
    if book.len() < 56 {
        return refused(1, 0);
    }
    let (version, year, month, lead) = (u16_at(book, 0), u16_at(book, 2), book[4], book[5] as usize);
    let (points, rows) = (u16_at(book, 6) as usize, u16_at(book, 8) as usize);
    let ranged = (1..=2).contains(&version)
        && (2018..=2099).contains(&year)
        && (1..=12).contains(&month)
        && (1..=33).contains(&lead)
        && (1..=256).contains(&points)
        && rows <= 512
        && book[10..16] == [0; 6];
    if !ranged {
        return refused(1, 0);
    }
    let days = lead + month_length(year as i64, month as i64) as usize;
    let clock = clock(year as i64, month as i64, lead);
    let quarters = (96 * days).wrapping_add_signed(clock.more);
    let point_bytes = 4 * quarters;
    let lengths = [days, 8, 64 * points, point_bytes * points, 16 * rows];
    let mut parts: [&[u8]; 5] = [&[]; 5];
    let mut at = 56;
    for (k, length) in lengths.into_iter().enumerate() {
        let pair = (u32_at(book, 16 + 8 * k) as usize, u32_at(book, 20 + 8 * k) as usize);
        if pair != (at, length) || book.len() < at + length {
            return refused(2, 0);
        }
        parts[k] = &book[at..at + length];
        at += length;
    }
    if at != book.len() {
        return refused(2, 0);
    }
    let [calendar, pairs, register, readings, engagements] = parts;
    let splits = version >= 2;
    Ok(Sections { splits, lead, days, clock, quarters, point_bytes, calendar, pairs, register, readings, engagements })
}

fn judge_tables(s: &Sections) -> Result<(), Refusal> {
    let pair_good = |pair: &[u8]| (1..=10).contains(&pair[0]) && (pair[0]..=20).contains(&pair[1]);
    if s.calendar.iter().any(|&category| category > 3) || !s.pairs.chunks_exact(2).all(pair_good) {
        return refused(4, 0);
    }
    Ok(())
}

fn judge_register(s: &Sections) -> Result<(), Refusal> {
    let mut access_points: HashMap<u64, (u64, u8)> = HashMap::new();
    // Of the row's last eight bytes the first two are the injection party, low byte first.
    let zeros = if s.splits { !0xffff } else { u64::MAX };
    let mut last = None;
    for (index, row) in s.register.chunks_exact(64).enumerate() {
        let (delivery, access, supplier) = (u64_at(row, 0), u64_at(row, 8), u64_at(row, 16));
        let mask = u64_at(row, 32);
        let good = delivery < 10u64.pow(18)
            && access < 10u64.pow(18)
            && supplier < 10u64.pow(10)
            && u64_at(row, 24) < 10u64.pow(10)
            && (s.days == 64 || mask >> s.days == 0)
            && u32_at(row, 40) <= MOST_WATTS as u32
            && u32_at(row, 44) <= MOST_WATTS as u32
            && row[52] <= 3
            && row[53] <= 1
            && row[54] <= 2
            && row[55] == 0
            && u64_at(row, 56) & zeros == 0
            && last.is_none_or(|last| last < delivery);
        let shared = access_points.entry(access).or_insert((supplier, row[53]));
        if !good || *shared != (supplier, row[53]) {
            return refused(5, index);
        }
        last = Some(delivery);
    }
    Ok(())
}

fn out_of_range(bytes: &[u8]) -> bool {
    let watts = i32::from_le_bytes(bytes.try_into().unwrap());
    !(-MOST_WATTS..=MOST_WATTS).contains(&watts) && watts != MISSING
}

fn judge_readings(s: &Sections) -> Result<(), Refusal> {
    let bad = |point: &[u8]| point.chunks_exact(4).fold(false, |bad, four| bad | out_of_range(four));
    match s.readings.chunks_exact(s.point_bytes).position(bad) {
        Some(point) => refused(6, point),
        None => Ok(()),
    }
}

struct Engagement {
    point: usize,
    day: usize,
    first: usize,
    count: usize,
    down: bool,
    notice: usize,
    requested: u32,
}

fn engagement(row: &[u8]) -> Engagement {
    Engagement {
        point: u16_at(row, 0) as usize,
        day: row[2] as usize,
        first: row[3] as usize,
        count: row[4] as usize,
        down: row[5] == 1,
        notice: row[6] as usize,
        requested: u32_at(row, 8),
    }
}

fn judge_engagements(s: &Sections) -> Result<(), Refusal> {
    let mut free_from = (0, 0, 0);
    for (index, row) in s.engagements.chunks_exact(16).enumerate() {
        let e = engagement(row);
        let good = e.point < s.register.len() / 64
            && (s.lead..s.days).contains(&e.day)
            && e.count >= 1
            && e.first + e.count <= s.clock.day_length(e.day)
            && row[5] <= 1
            && e.notice <= 96
            && row[7] == 0
            && (1..=MOST_WATTS as u32).contains(&e.requested)
            && u32_at(row, 12) == 0
            && (e.point, e.day, e.first) >= free_from;
        if !good {
            return refused(7, index);
        }
        free_from = (e.point, e.day, e.first + e.count);
    }
    Ok(())
}

/// The day sums of a point: before each quarter-hour of the calendar the sum of its readings so far, times 2^13, and
/// how many of them are missing, which are fewer than 2^13.
struct DaySums {
    sums: Vec<i64>,
}

impl DaySums {
    fn keep(&mut self, readings: &[u8]) {
        let mut sum = 0;
        for (four, here) in readings.chunks_exact(4).zip(&mut self.sums[1..]) {
            let watts = i32::from_le_bytes(four.try_into().unwrap());
            sum += if watts == MISSING { 1 } else { (watts as i64) << 13 };
            *here = sum;
        }
    }

    fn sum(&self, from: usize, count: usize) -> i64 {
        (self.sums[from + count] - self.sums[from]) >> 13
    }

    fn complete(&self, from: usize, count: usize) -> bool {
        (self.sums[from + count] - self.sums[from]) & 8191 == 0
    }
}

fn reading(readings: &[u8], place: usize) -> i32 {
    i32::from_le_bytes(readings[4 * place..4 * place + 4].try_into().unwrap())
}

/// The days of each point that have an engagement, as bits.
fn engaged_days(s: &Sections) -> Vec<u64> {
    let mut engaged = vec![0; s.register.len() / 64];
    for row in s.engagements.chunks_exact(16) {
        engaged[u16_at(row, 0) as usize] |= 1u64 << row[2];
    }
    engaged
}

/// What an engagement's quarter-hours look at on a reference day: `count` from quarter-hour `from` on, and after them `rest` from `then` on.
struct Looked {
    from: usize,
    count: usize,
    then: usize,
    rest: usize,
}

/// On a day of 92 quarter-hours from 8 up look 4 later, on a day of 100 those from 12 up 4 earlier.
fn looked(s: &Sections, e: &Engagement) -> Looked {
    let (edge, shift) = match s.clock.day_length(e.day) {
        92 => (8, 4),
        100 => (12, -4),
        _ => (usize::MAX, 0),
    };
    let below = edge.saturating_sub(e.first).min(e.count);
    let then = (e.first + below).wrapping_add_signed(shift);
    if below == 0 {
        Looked { from: then, count: e.count, then, rest: 0 }
    } else {
        Looked { from: e.first, count: below, then, rest: e.count - below }
    }
}

/// The X reference days; none if fewer than Y are eligible. The bits of `mask` are those of the days that can't be.
fn reference_days(
    s: &Sections,
    e: &Engagement,
    looked: &Looked,
    mask: u64,
    adjusted: bool,
    sums: &DaySums,
    x: usize,
    y: usize,
) -> Option<[usize; 10]> {
    let mut ranked = [(0i64, 0usize); 20];
    let mut found = 0;
    for day in (0..e.day).rev() {
        let start = s.clock.day_start(day);
        let (from, then) = (start + looked.from, start + looked.then);
        let eligible = s.calendar[day] == s.calendar[e.day]
            && mask >> day & 1 == 0
            && sums.complete(from, looked.count)
            && sums.complete(then, looked.rest)
            && (!adjusted || from >= 24 && sums.complete(from - 24, 12) && !s.clock.touched_from(from - 24));
        if eligible {
            ranked[found] = (sums.sum(from, looked.count) + sums.sum(then, looked.rest), day);
            found += 1;
            if found == y {
                break;
            }
        }
    }
    if found < y {
        return None;
    }
    ranked[..y].sort_unstable_by(|a, b| b.cmp(a));
    let mut days = [0; 10];
    for (day, (_, chosen)) in days.iter_mut().zip(&ranked[..x]) {
        *day = *chosen;
    }
    Some(days)
}

/// Adds the readings from a place on, one to each.
fn add_readings(bases: &mut [i64], readings: &[u8], from: usize) {
    let theirs = &readings[4 * from..4 * (from + bases.len())];
    for (base, four) in bases.iter_mut().zip(theirs.chunks_exact(4)) {
        *base += i32::from_le_bytes(four.try_into().unwrap()) as i64;
    }
}

/// The baselines of one engagement, into `bases`; the refusal's number where it is refused.
fn settle_engagement(
    s: &Sections,
    e: &Engagement,
    engaged: u64,
    sums: &DaySums,
    bases: &mut [i64; 100],
) -> Result<(), u8> {
    let row = &s.register[64 * e.point..64 * e.point + 64];
    let method = row[54];
    let readings = &s.readings[s.point_bytes * e.point..s.point_bytes * (e.point + 1)];
    let start = s.clock.day_start(e.day) + e.first;
    let bases = &mut bases[..e.count];
    if !sums.complete(start, e.count) {
        return Err(8);
    }
    if method == 0 {
        let place = start.checked_sub(e.notice + 1).ok_or(8)?;
        let watts = reading(readings, place);
        if watts == MISSING {
            return Err(8);
        }
        bases.fill(watts as i64 * GRAINS_PER_WATT);
        return Ok(());
    }
    let adjusted = method == 2;
    if adjusted && (start < 24 || !sums.complete(start - 24, 12)) {
        return Err(8);
    }
    let category = s.calendar[e.day] as usize;
    let (x, y) = (s.pairs[2 * category] as usize, s.pairs[2 * category + 1] as usize);
    let looked = looked(s, e);
    let mask = u64_at(row, 32) | engaged | s.clock.bit;
    let days = reference_days(s, e, &looked, mask, adjusted, sums, x, y).ok_or(9)?;
    bases.fill(0);
    let mut windows = 0;
    for &day in &days[..x] {
        let day_start = s.clock.day_start(day);
        let from = day_start + looked.from;
        add_readings(&mut bases[..looked.count], readings, from);
        add_readings(&mut bases[looked.count..], readings, day_start + looked.then);
        if adjusted {
            windows += sums.sum(from - 24, 12);
        }
    }
    let each = GRAINS_PER_WATT / x as i64;
    let own = if adjusted { sums.sum(start - 24, 12) } else { 0 };
    let addend = own * (GRAINS_PER_WATT / 12) - windows * (GRAINS_PER_WATT / (12 * x as i64));
    for base in bases {
        *base = *base * each + addend;
    }
    Ok(())
}

/// The numbers of a row.
const ROW_WIDTH: usize = 5;

fn write_rows<const SPLITS: bool>(s: &Sections, e: &Engagement, bases: &[i64], out: &mut [i64]) {
    let row = &s.register[64 * e.point..64 * e.point + 64];
    let from = s.point_bytes * e.point + 4 * (s.clock.day_start(e.day) + e.first);
    let own = &s.readings[from..from + 4 * e.count];
    let most = u32_at(row, if e.down { 44 } else { 40 }) as i64 * GRAINS_PER_WATT;
    let requested = e.requested as i64 * GRAINS_PER_WATT;
    let sign = if e.down { -1 } else { 1 };
    for ((five, &base), bytes) in out.chunks_exact_mut(ROW_WIDTH).zip(bases).zip(own.chunks_exact(4)) {
        let level = i32::from_le_bytes(bytes.try_into().unwrap()) as i64 * GRAINS_PER_WATT;
        let delivered = (sign * (base - level)).clamp(0, most);
        let off_take = if SPLITS { (sign * (base.max(0) - level.max(0))).max(0).min(delivered) } else { delivered };
        five[0] = base;
        five[1] = delivered;
        five[2] = sign * off_take;
        five[3] = sign * (requested - delivered);
        five[4] = sign * (delivered - off_take);
    }
}

/// Settles a book into rows; how many rows.
pub fn settle(book: &[u8], rows: &mut [i64]) -> Result<usize, Refusal> {
    let s = sections(book)?;
    judge_tables(&s)?;
    judge_register(&s)?;
    judge_readings(&s)?;
    judge_engagements(&s)?;
    let count: usize = s.engagements.chunks_exact(16).map(|row| row[4] as usize).sum();
    // A refusal changes no buffer: where the rows might not be filled, they are filled apart.
    let mut apart = vec![0; ROW_WIDTH * count];
    let write_rows = if s.splits { write_rows::<true> } else { write_rows::<false> };
    let engaged = engaged_days(&s);
    let mut sums = DaySums { sums: vec![0; s.quarters + 1] };
    let mut bases = [0; 100];
    let (mut at, mut kept) = (0, usize::MAX);
    for (index, row) in s.engagements.chunks_exact(16).enumerate() {
        let e = engagement(row);
        if e.point != kept {
            sums.keep(&s.readings[s.point_bytes * e.point..s.point_bytes * (e.point + 1)]);
            kept = e.point;
        }
        if let Err(number) = settle_engagement(&s, &e, engaged[e.point], &sums, &mut bases) {
            return refused(number, index);
        }
        write_rows(&s, &e, &bases[..e.count], &mut apart[at..at + ROW_WIDTH * e.count]);
        at += ROW_WIDTH * e.count;
    }
    if rows.len() < apart.len() {
        return refused(10, 0);
    }
    rows[..apart.len()].copy_from_slice(&apart);
    Ok(count)
}
