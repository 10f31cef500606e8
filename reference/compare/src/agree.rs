//! Each call of the proved library beside the reference: the answer, and every buffer afterwards.

use crate::books::{damaged_book, damaged_file, random_book};
use crate::calls::{self, Named};
use crate::lent::{Lent, Tally, near};
use crate::quick;
use reference::book::{Book, decode};
use reference::message::{self, FileRead};
use reference::message_cases::{CLOCK_CHANGE_POSITIONS, random_file};
use reference::random::Random;
use reference::refusal::Refusal;
use reference::series;
use reference::settle::{self, ROW_WIDTH};
use reference::sheet;

const LONG: usize = 1 << 22;

struct Comparison {
    random: Random,
    tally: Tally,
    split: Split,
}

/// What was met of both versions of the book.
#[derive(Default)]
struct Split {
    /// Rows of version 1, and of version 2 without delivery, to the off-take party, to the injection party, to both.
    rows: [usize; 5],
    /// Sheets of parties in the injection column, and of those that stand in no other.
    sheets: [usize; 2],
}

impl Split {
    fn count_rows(&mut self, version: u16, rows: &[i64]) {
        for row in rows.chunks(ROW_WIDTH) {
            let kind = 1 + (row[2] != 0) as usize + 2 * (row[4] != 0) as usize;
            self.rows[if version == 1 { 0 } else { kind }] += 1;
        }
    }

    fn count_sheet(&mut self, book: &Book, party: u16) {
        let injection = book.register.iter().any(|row| row.injection_party == party) && book.version > 1;
        let others = book.register.iter().any(|row| row.source_party == party || row.fsp_party == party);
        self.sheets[0] += injection as usize;
        self.sheets[1] += (injection && !others) as usize;
    }

    fn print(&self) {
        let [first, none, off_take, injection, both] = self.rows;
        println!("  rows of version 1: {first}");
        println!("  of version 2: {none} without delivery, {off_take} off-take, {injection} injection, {both} both");
        println!("  sheets of injection parties: {}, {} in no other column", self.sheets[0], self.sheets[1]);
    }
}

/// The seed's comparisons, so many rounds of them.
pub fn run(seed: u64, rounds: usize) {
    let mut comparison = Comparison { random: Random::new(seed), tally: Tally::default(), split: Split::default() };
    for round in 1..=rounds {
        comparison.round();
        if round % (rounds / 10).max(1) == 0 {
            println!("seed {seed}: {round} of {rounds} rounds, {} calls, all alike", comparison.tally.total());
        }
    }
    comparison.tally.print();
    comparison.split.print();
}

fn check(alike: bool, call: &str, what: &str, bytes: &[u8]) {
    if !alike {
        std::fs::write("differs.bin", bytes).unwrap();
        panic!("{call} differs: {what}; its bytes are in differs.bin");
    }
}

/// The library's own rule: fewer than eight facts lent are 10 with item 1, after the reader's refusals.
fn enough_facts(read: FileRead, lent: usize) -> Result<FileRead, Refusal> {
    if lent < 8 {
        return Err(Refusal { number: 10, item: 1 });
    }
    Ok(read)
}

impl Comparison {
    /// One book through all calls of a book, and a file through the reader and the writer.
    fn round(&mut self) {
        let book = random_book(&mut self.random);
        let bytes = if self.random.once_in(2) { damaged_book(&mut self.random, &book) } else { book.encode() };
        self.settle(&bytes);
        self.sheet(&bytes);
        self.file(&bytes);
        let case = random_file(&mut self.random);
        self.write(&case.id, &case.moment, case.kind, case.receiver, (case.year, case.month), &case.numbers);
    }

    fn settle(&mut self, bytes: &[u8]) {
        let needed = settle::settle(bytes, LONG).map_or(8, |rows| rows.len());
        let length = near(&mut self.random, needed);
        let expected = settle::settle(bytes, length);
        let count =
            |answer: &Result<Vec<i64>, Refusal>| answer.as_ref().map(|rows| rows.len() / ROW_WIDTH).map_err(|r| *r);
        for settle in [calls::settle, quick::settle] {
            let mut rows = Lent::new(&mut self.random, length, |n| n as i64);
            let answer = settle(bytes, rows.slice());
            check(answer == count(&expected) && rows.is_as(&expected), "settle", &format!("{answer:?}"), bytes);
        }
        self.tally.count("settle", &expected);
        if let Ok(rows) = &expected {
            self.split.count_rows(decode(bytes).unwrap().version, rows);
        }
    }

    fn sheet(&mut self, bytes: &[u8]) {
        let any = self.random.range(0, 9) as u16;
        let party = match decode(bytes) {
            Ok(book) if !self.random.once_in(6) => self.random.pick(&sheet::parties(&book)),
            _ => any,
        };
        let needed = sheet::sheet(bytes, party, LONG).map_or(8, |sums| sums.len());
        let length = near(&mut self.random, needed);
        let expected = sheet::sheet(bytes, party, length);
        let mut sums = Lent::new(&mut self.random, length, |n| n as i64);
        let answer = calls::sheet(bytes, party, sums.slice());
        let alike = answer == expected.as_ref().map(Vec::len).map_err(|r| *r) && sums.is_as(&expected);
        check(alike, "sheet", &format!("party {party}, {answer:?}"), bytes);
        self.tally.count("sheet", &expected);
        if expected.is_ok() {
            self.split.count_sheet(&decode(bytes).unwrap(), party);
        }
    }

    /// A kind, a receiver that is mostly in its role, and an ID and a moment that are mostly in form.
    fn named(&mut self, bytes: &[u8]) -> (u8, u64, Vec<u8>, Vec<u8>) {
        let kind = if self.random.once_in(12) { self.random.range(0, 5) } else { self.random.range(1, 3) } as u8;
        let any = self.random.pick(&[0, 1, 2, 3, 9_999_999_999, 10_000_000_000]);
        let receiver = match decode(bytes) {
            Ok(book) if !self.random.once_in(8) => {
                let row = book.register[self.random.range(0, book.register.len() as i64 - 1) as usize];
                if kind == 1 { row.fsp } else { row.supplier }
            }
            _ => any,
        };
        let case = random_file(&mut self.random);
        let id =
            if self.random.once_in(15) { self.random.pick(&[&b""[..], b"a_b", &[b'a'; 37]]).to_vec() } else { case.id };
        let mut moment = case.moment;
        if self.random.once_in(15) {
            moment = damaged_file(&mut self.random, &moment);
        }
        (kind, receiver, id, moment)
    }

    fn file(&mut self, bytes: &[u8]) {
        let (kind, receiver, id, moment) = self.named(bytes);
        let call = |rows, file| series::file_call(bytes, kind, receiver, &id, &moment, rows, file);
        let needed = call(LONG, LONG).map_or((8, 8), |filed| (filed.rows.len(), filed.file.len()));
        let lengths = (near(&mut self.random, needed.0), near(&mut self.random, needed.1));
        let expected = call(lengths.0, lengths.1);
        let mut rows = Lent::new(&mut self.random, lengths.0, |n| n as i64);
        let mut file = Lent::new(&mut self.random, lengths.1, |n| n as u8);
        let named = Named { kind, receiver, id: &id, moment: &moment };
        let answer = calls::file(bytes, named, rows.slice(), file.slice());
        let alike = answer == expected.as_ref().map(|filed| filed.file.len()).map_err(|r| *r)
            && rows.is_as(&expected.clone().map(|filed| filed.rows))
            && file.is_as(&expected.clone().map(|filed| filed.file));
        check(alike, "file", &format!("kind {kind}, receiver {receiver}, {answer:?}"), bytes);
        self.tally.count("file", &expected);
        if let Ok(filed) = expected {
            self.read(&filed.file);
            let read = message::read(&filed.file, LONG).unwrap();
            self.write(&id, &moment, kind, receiver, (read.year, read.month), &read.numbers);
        }
    }

    /// Kind, receiver, year, month, start and length of ID, start and length of moment.
    fn facts(read: &FileRead) -> Vec<u64> {
        let (id, moment) = (&read.id, &read.moment);
        let places = [id.start, id.len(), moment.start, moment.len()].map(|place| place as u64);
        [&[read.kind as u64, read.receiver, read.year, read.month][..], &places].concat()
    }

    /// A file as it is, and damaged some ways.
    fn read(&mut self, file: &[u8]) {
        self.read_once(file);
        for _ in 0..4 {
            let damaged = damaged_file(&mut self.random, file);
            self.read_once(&damaged);
        }
    }

    fn read_once(&mut self, file: &[u8]) {
        let needed = message::read(file, LONG).map_or(6, |read| read.numbers.len());
        let length = near(&mut self.random, needed);
        let facts_length = near(&mut self.random, 8);
        let expected = message::read(file, length).and_then(|read| enough_facts(read, facts_length));
        let mut rows = Lent::new(&mut self.random, length, |n| n);
        let mut facts = Lent::new(&mut self.random, facts_length, |n| n);
        let answer = calls::read(file, rows.slice(), facts.slice());
        let alike = answer == expected.as_ref().map(|read| read.numbers.len() / 6).map_err(|r| *r)
            && rows.is_as(&expected.clone().map(|read| read.numbers))
            && facts.is_as(&expected.as_ref().map(Comparison::facts).map_err(|r| *r));
        check(alike, "read", &format!("{answer:?}"), file);
        self.tally.count("read", &expected);
    }

    /// Rows as they are, and with a number or a word changed.
    fn write(&mut self, id: &[u8], moment: &[u8], kind: u8, receiver: u64, month: (u64, u64), numbers: &[u64]) {
        let named = Named { kind, receiver, id, moment };
        self.write_once(named, month, numbers);
        let mut changed = numbers.to_vec();
        if !changed.is_empty() {
            let place = self.random.range(0, changed.len() as i64 - 1) as usize;
            let number = changed[place];
            let others = [number.wrapping_add(1), number.wrapping_sub(1), 0, 1, number ^ 1 << 40, u64::MAX];
            let position = place % 6 == 3 && self.random.once_in(2);
            changed[place] = self.random.pick(if position { &CLOCK_CHANGE_POSITIONS } else { &others });
        }
        if self.random.once_in(10) {
            changed.pop();
        }
        self.write_once(named, month, &changed);
        let near_month = (month.0 + self.random.range(0, 1) as u64, month.1 + self.random.range(0, 1) as u64);
        let other = Named {
            kind: self.random.range(0, 4) as u8,
            receiver: self.random.pick(&[receiver, 10_000_000_000]),
            ..named
        };
        self.write_once(other, near_month, numbers);
        let (id, moment) = (damaged_file(&mut self.random, id), damaged_file(&mut self.random, moment));
        self.write_once(Named { id: &id, moment: &moment, ..named }, month, numbers);
    }

    fn write_once(&mut self, named: Named, (year, month): (u64, u64), numbers: &[u64]) {
        let call =
            |length| message::write(named.kind, named.receiver, year, month, numbers, named.id, named.moment, length);
        let needed = call(LONG).map_or(8, |file| file.len());
        let length = near(&mut self.random, needed);
        let expected = call(length);
        let mut file = Lent::new(&mut self.random, length, |n| n as u8);
        let answer = calls::write(named, year, month, numbers, file.slice());
        let alike = answer == expected.as_ref().map(Vec::len).map_err(|r| *r) && file.is_as(&expected);
        check(alike, "write", &format!("kind {}, month {year}-{month}, {answer:?}", named.kind), named.id);
        self.tally.count("write", &expected);
        if let Ok(file) = expected {
            self.read(&file);
        }
    }
}
