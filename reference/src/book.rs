//! The month's book: its fields, its bytes, and refusals 1 to 7, of which C-12 leaves no 3.
//! The comments in quotation marks are sentences of document 01, or of document 02's request that they name.

use crate::calendar::{book_days, day_length, month_length};
use crate::refusal::{Refusal, refused};

pub const MISSING: i32 = i32::MIN;
pub const HEADER_LENGTH: usize = 56;
const MOST_WATTS: i64 = 1_000_000_000;

/// All fields of a book as they stand in its bytes; nothing here says that they are good.
#[derive(Clone, Debug, PartialEq, Eq)]
pub struct Book {
    pub version: u16,
    pub year: u16,
    pub month: u8,
    pub lead_days: u8,
    pub points: u16,
    pub engagement_count: u16,
    pub zeros: [u8; 6],
    pub pairs: [(u32, u32); 5],
    pub calendar: Vec<u8>,
    pub choices: Vec<Choice>,
    pub register: Vec<RegisterRow>,
    /// By point; each day's quarter-hours behind those of the day before.
    pub readings: Vec<Vec<i32>>,
    pub engagements: Vec<Engagement>,
    /// How many quarter-hours each day of the calendar has, which year, month and lead days tell.
    pub day_lengths: Vec<usize>,
}

fn day_lengths(year: u16, month: u8, lead_days: u8) -> Vec<usize> {
    book_days(year as i64, month as i64, lead_days as i64).into_iter().map(day_length).collect()
}

/// X and Y of a category.
#[derive(Clone, Copy, Debug, PartialEq, Eq)]
pub struct Choice {
    pub x: u8,
    pub y: u8,
}

#[derive(Clone, Copy, Debug, Default, PartialEq, Eq)]
pub struct RegisterRow {
    pub delivery_ean: u64,
    pub access_ean: u64,
    pub supplier: u64,
    pub fsp: u64,
    pub excluded_days: u64,
    pub largest_up: u32,
    pub largest_down: u32,
    pub source_party: u16,
    pub fsp_party: u16,
    pub situation: u8,
    pub supply: u8,
    pub method: u8,
    /// Byte 55.
    pub zero: u8,
    /// Bytes 56 and 57: a party from version 2 on, zero in version 1.
    pub injection_party: u16,
    /// Bytes 58 to 63.
    pub zeros: [u8; 6],
}

#[derive(Clone, Copy, Debug, Default, PartialEq, Eq)]
pub struct Engagement {
    pub point: u16,
    pub day: u8,
    pub first: u8,
    pub count: u8,
    pub direction: u8,
    pub notice: u8,
    pub zero: u8,
    pub requested: u32,
    pub zeros: u32,
}

impl Book {
    /// A good book of zeros: X and Y 1, delivery EANs 0, 1, 2 and so on, no engagement.
    pub fn plain(year: u16, month: u8, lead_days: u8, points: u16) -> Book {
        let day_lengths = day_lengths(year, month, lead_days);
        let row =
            |index: u16| RegisterRow { delivery_ean: index as u64, access_ean: index as u64, ..RegisterRow::default() };
        let mut book = Book {
            version: 1,
            year,
            month,
            lead_days,
            points,
            engagement_count: 0,
            zeros: [0; 6],
            pairs: [(0, 0); 5],
            calendar: vec![0; day_lengths.len()],
            choices: vec![Choice { x: 1, y: 1 }; 4],
            register: (0..points).map(row).collect(),
            readings: vec![vec![0; day_lengths.iter().sum()]; points as usize],
            engagements: Vec::new(),
            day_lengths,
        };
        book.lay_out();
        book
    }

    /// C-14: "Version 2 of the book puts the injection party in bytes 56 and 57 of the register row."
    pub fn has_injection_parties(&self) -> bool {
        self.version >= 2
    }

    /// N, the days of the calendar.
    pub fn days(&self) -> usize {
        self.lead_days as usize + self.month_days()
    }

    pub fn month_days(&self) -> usize {
        month_length(self.year as i64, self.month as i64) as usize
    }

    /// The quarter-hours of the whole calendar: the readings of a point.
    pub fn quarters(&self) -> usize {
        self.day_lengths.iter().sum()
    }

    /// The quarter-hours of the month.
    pub fn month_quarters(&self) -> usize {
        self.day_lengths[self.lead_days as usize..].iter().sum()
    }

    /// Quarter-hour `quarter` of a day, counted through the whole calendar: how many have passed before it.
    pub fn place(&self, day: usize, quarter: usize) -> usize {
        self.day_lengths[..day].iter().sum::<usize>() + quarter
    }

    /// The day on which such a quarter-hour lies.
    pub fn day_of(&self, place: usize) -> usize {
        (0..self.days()).rfind(|&day| self.place(day, 0) <= place).unwrap()
    }

    pub fn is_clock_change(&self, day: usize) -> bool {
        self.day_lengths[day] != 96
    }

    /// The reading of quarter-hour `place`, counted through the whole calendar; none if it is
    /// missing or before the calendar.
    pub fn reading(&self, point: usize, place: i64) -> Option<i64> {
        if place < 0 {
            return None;
        }
        match self.readings[point][place as usize] {
            MISSING => None,
            watts => Some(watts as i64),
        }
    }

    /// Sets the counts and the pairs of the header from the lists that the book has.
    pub fn lay_out(&mut self) {
        self.points = self.register.len() as u16;
        self.engagement_count = self.engagements.len() as u16;
        let readings: usize = self.readings.iter().map(|point| point.len()).sum();
        let lengths = [
            self.calendar.len(),
            2 * self.choices.len(),
            64 * self.register.len(),
            4 * readings,
            16 * self.engagements.len(),
        ];
        let mut offset = HEADER_LENGTH;
        for (pair, length) in self.pairs.iter_mut().zip(lengths) {
            *pair = (offset as u32, length as u32);
            offset += length;
        }
    }

    /// Gives each point so many readings, whatever its days have, and makes the layout anew.
    pub fn resize_readings(&mut self, each: usize) {
        for readings in &mut self.readings {
            readings.resize(each, 0);
        }
        self.lay_out();
    }

    /// The bytes of the fields as they are, good or bad. "Integers are little-endian."
    pub fn encode(&self) -> Vec<u8> {
        let mut bytes = Vec::new();
        bytes.extend(self.version.to_le_bytes());
        bytes.extend(self.year.to_le_bytes());
        bytes.push(self.month);
        bytes.push(self.lead_days);
        bytes.extend(self.points.to_le_bytes());
        bytes.extend(self.engagement_count.to_le_bytes());
        bytes.extend(self.zeros);
        for (offset, length) in self.pairs {
            bytes.extend(offset.to_le_bytes());
            bytes.extend(length.to_le_bytes());
        }
        assert_eq!(bytes.len(), HEADER_LENGTH);
        bytes.extend(&self.calendar);
        for choice in &self.choices {
            bytes.push(choice.x);
            bytes.push(choice.y);
        }
        for row in &self.register {
            bytes.extend(row.encode());
        }
        for readings in &self.readings {
            for watts in readings {
                bytes.extend(watts.to_le_bytes());
            }
        }
        for engagement in &self.engagements {
            bytes.extend(engagement.encode());
        }
        bytes
    }
}

impl RegisterRow {
    pub fn encode(&self) -> Vec<u8> {
        let mut bytes = Vec::new();
        bytes.extend(self.delivery_ean.to_le_bytes());
        bytes.extend(self.access_ean.to_le_bytes());
        bytes.extend(self.supplier.to_le_bytes());
        bytes.extend(self.fsp.to_le_bytes());
        bytes.extend(self.excluded_days.to_le_bytes());
        bytes.extend(self.largest_up.to_le_bytes());
        bytes.extend(self.largest_down.to_le_bytes());
        bytes.extend(self.source_party.to_le_bytes());
        bytes.extend(self.fsp_party.to_le_bytes());
        bytes.push(self.situation);
        bytes.push(self.supply);
        bytes.push(self.method);
        bytes.push(self.zero);
        bytes.extend(self.injection_party.to_le_bytes());
        bytes.extend(self.zeros);
        assert_eq!(bytes.len(), 64);
        bytes
    }

    pub fn decode(bytes: &[u8]) -> RegisterRow {
        RegisterRow {
            delivery_ean: u64_at(bytes, 0),
            access_ean: u64_at(bytes, 8),
            supplier: u64_at(bytes, 16),
            fsp: u64_at(bytes, 24),
            excluded_days: u64_at(bytes, 32),
            largest_up: u32_at(bytes, 40),
            largest_down: u32_at(bytes, 44),
            source_party: u16_at(bytes, 48),
            fsp_party: u16_at(bytes, 50),
            situation: bytes[52],
            supply: bytes[53],
            method: bytes[54],
            zero: bytes[55],
            injection_party: u16_at(bytes, 56),
            zeros: bytes[58..64].try_into().unwrap(),
        }
    }

    pub fn excludes(&self, day: usize) -> bool {
        self.excluded_days >> day & 1 == 1
    }
}

impl Engagement {
    pub fn encode(&self) -> Vec<u8> {
        let mut bytes = Vec::new();
        bytes.extend(self.point.to_le_bytes());
        bytes.extend([self.day, self.first, self.count, self.direction, self.notice, self.zero]);
        bytes.extend(self.requested.to_le_bytes());
        bytes.extend(self.zeros.to_le_bytes());
        assert_eq!(bytes.len(), 16);
        bytes
    }

    fn decode(bytes: &[u8]) -> Engagement {
        Engagement {
            point: u16_at(bytes, 0),
            day: bytes[2],
            first: bytes[3],
            count: bytes[4],
            direction: bytes[5],
            notice: bytes[6],
            zero: bytes[7],
            requested: u32_at(bytes, 8),
            zeros: u32_at(bytes, 12),
        }
    }
}

fn u16_at(bytes: &[u8], place: usize) -> u16 {
    u16::from_le_bytes(bytes[place..place + 2].try_into().unwrap())
}

fn u32_at(bytes: &[u8], place: usize) -> u32 {
    u32::from_le_bytes(bytes[place..place + 4].try_into().unwrap())
}

fn u64_at(bytes: &[u8], place: usize) -> u64 {
    u64::from_le_bytes(bytes[place..place + 8].try_into().unwrap())
}

/// The book of these bytes, or the first of refusals 1 to 7.
pub fn decode(bytes: &[u8]) -> Result<Book, Refusal> {
    let mut book = judge_header(bytes)?;
    judge_layout(bytes, &book)?;
    read_sections(bytes, &mut book);
    judge_calendar(&book)?;
    judge_register(&book)?;
    judge_readings(&book)?;
    judge_engagements(&book)?;
    Ok(book)
}

/// The refusal of 1 to 7, as number and item, or none.
pub fn judge(bytes: &[u8]) -> Option<(u8, u32)> {
    decode(bytes).err().map(|refusal| (refusal.number, refusal.item))
}

/// 1: "under 56 bytes, header out of range"; C-14: "Refusal 1 accepts versions 1 and 2." Gives the header's fields and
/// the days' lengths, the sections still empty.
fn judge_header(bytes: &[u8]) -> Result<Book, Refusal> {
    if bytes.len() < HEADER_LENGTH {
        return refused(1, 0);
    }
    let mut book = Book {
        version: u16_at(bytes, 0),
        year: u16_at(bytes, 2),
        month: bytes[4],
        lead_days: bytes[5],
        points: u16_at(bytes, 6),
        engagement_count: u16_at(bytes, 8),
        zeros: bytes[10..16].try_into().unwrap(),
        pairs: std::array::from_fn(|i| (u32_at(bytes, 16 + 8 * i), u32_at(bytes, 20 + 8 * i))),
        calendar: Vec::new(),
        choices: Vec::new(),
        register: Vec::new(),
        readings: Vec::new(),
        engagements: Vec::new(),
        day_lengths: Vec::new(),
    };
    let good = (1..=2).contains(&book.version)
        && (2018..=2099).contains(&book.year)
        && (1..=12).contains(&book.month)
        && (1..=33).contains(&book.lead_days)
        && (1..=256).contains(&book.points)
        && book.engagement_count <= 512
        && book.zeros == [0; 6];
    if !good {
        return refused(1, 0);
    }
    book.day_lengths = day_lengths(book.year, book.month, book.lead_days);
    Ok(book)
}

/// The lengths of the five sections. C-12: 92 or 100 readings "in the book's fourth section too".
fn section_lengths(book: &Book) -> [usize; 5] {
    let points = book.points as usize;
    [book.days(), 8, 64 * points, 4 * book.quarters() * points, 16 * book.engagement_count as usize]
}

/// 2: "a pair or the book's length is wrong". "The first section starts at 56, each next where the
/// last ended, the last ends with the book."
fn judge_layout(bytes: &[u8], book: &Book) -> Result<(), Refusal> {
    let mut offset = HEADER_LENGTH;
    for (pair, length) in book.pairs.iter().zip(section_lengths(book)) {
        if pair.0 as usize != offset || pair.1 as usize != length {
            return refused(2, 0);
        }
        offset += length;
    }
    if bytes.len() == offset { Ok(()) } else { refused(2, 0) }
}

fn read_sections(bytes: &[u8], book: &mut Book) {
    let section = |i: usize| {
        let (offset, length) = book.pairs[i];
        &bytes[offset as usize..offset as usize + length as usize]
    };
    let point_bytes = 4 * book.quarters();
    let calendar = section(0).to_vec();
    let choices = section(1).chunks(2).map(|pair| Choice { x: pair[0], y: pair[1] }).collect();
    let register = section(2).chunks(64).map(RegisterRow::decode).collect();
    let watts = |four: &[u8]| i32::from_le_bytes(four.try_into().unwrap());
    let readings = section(3).chunks(point_bytes).map(|point| point.chunks(4).map(watts).collect()).collect();
    let engagements = section(4).chunks(16).map(Engagement::decode).collect();
    book.calendar = calendar;
    book.choices = choices;
    book.register = register;
    book.readings = readings;
    book.engagements = engagements;
}

/// 4: "each day's category, 0 to 3"; "X 1 to 10, Y from X to 20".
fn judge_calendar(book: &Book) -> Result<(), Refusal> {
    let good_choice = |choice: &Choice| (1..=10).contains(&choice.x) && (choice.x..=20).contains(&choice.y);
    if book.calendar.iter().all(|&category| category <= 3) && book.choices.iter().all(good_choice) {
        Ok(())
    } else {
        refused(4, 0)
    }
}

/// 5: "first bad register row (of two, the later)".
fn judge_register(book: &Book) -> Result<(), Refusal> {
    for (index, row) in book.register.iter().enumerate() {
        let earlier = &book.register[..index];
        let rises = earlier.last().is_none_or(|last| last.delivery_ean < row.delivery_ean);
        let shares = earlier
            .iter()
            .filter(|other| other.access_ean == row.access_ean)
            .all(|other| other.supplier == row.supplier && other.supply == row.supply);
        if !(good_register_row(row, book) && rises && shares) {
            return refused(5, index);
        }
    }
    Ok(())
}

/// C-14: with an injection party "bytes 55 and 58 to 63 remain zero"; in version 1 all nine are.
fn good_register_row(row: &RegisterRow, book: &Book) -> bool {
    let ean_limit = 10u64.pow(18);
    let company_limit = 10u64.pow(10);
    row.delivery_ean < ean_limit
        && row.access_ean < ean_limit
        && row.supplier < company_limit
        && row.fsp < company_limit
        && (book.days()..64).all(|day| !row.excludes(day))
        && row.largest_up as i64 <= MOST_WATTS
        && row.largest_down as i64 <= MOST_WATTS
        && row.situation <= 3
        && row.supply <= 1
        && row.method <= 2
        && row.zero == 0
        && (book.has_injection_parties() || row.injection_party == 0)
        && row.zeros == [0; 6]
}

/// 6: "first reading out of range", named by its point.
fn judge_readings(book: &Book) -> Result<(), Refusal> {
    let good = |watts: &i32| *watts == MISSING || (-MOST_WATTS..=MOST_WATTS).contains(&(*watts as i64));
    for (point, readings) in book.readings.iter().enumerate() {
        if !readings.iter().all(good) {
            return refused(6, point);
        }
    }
    Ok(())
}

/// 7: "first bad engagement (of two, the later)".
fn judge_engagements(book: &Book) -> Result<(), Refusal> {
    for (index, row) in book.engagements.iter().enumerate() {
        let follows = index == 0 || may_follow(&book.engagements[index - 1], row);
        if !(good_engagement(row, book) && follows) {
            return refused(7, index);
        }
    }
    Ok(())
}

/// C-12: on a clock-change day "first is below that number, and first + count at most it", as elsewhere of 96.
fn good_engagement(row: &Engagement, book: &Book) -> bool {
    (row.point as usize) < book.register.len()
        && (book.lead_days as usize..book.days()).contains(&(row.day as usize))
        && (row.first as usize) < book.day_lengths[row.day as usize]
        && row.count >= 1
        && row.first as usize + row.count as usize <= book.day_lengths[row.day as usize]
        && row.direction <= 1
        && row.notice <= 96
        && row.zero == 0
        && (1..=MOST_WATTS).contains(&(row.requested as i64))
        && row.zeros == 0
}

/// "Rows rise by point, day, first; rows of one point and day don't overlap."
fn may_follow(last: &Engagement, row: &Engagement) -> bool {
    let rises = (last.point, last.day, last.first) < (row.point, row.day, row.first);
    let same_day = (last.point, last.day) == (row.point, row.day);
    let overlaps = same_day && (row.first as usize) < last.first as usize + last.count as usize;
    rises && !overlaps
}
