//! How long settling takes, against a settling in Rust that keeps each point's day sums.

use crate::{calls, quick};
use reference::book::{Book, Choice, Engagement};
use reference::random::Random;
use reference::refusal::Refusal;
use reference::settle::{self, ROW_WIDTH};
use std::time::Instant;

/// What a timed book has: its version, and engagements of one method, count and X and Y, on 64 days up to the end of a month.
#[derive(Clone, Copy)]
struct Shape {
    version: u16,
    month: (u16, u8),
    points: u16,
    engagements: u16,
    method: u8,
    count: u8,
}

/// The largest settling.
const LARGEST: Shape = Shape { version: 1, month: (2021, 8), points: 256, engagements: 512, method: 2, count: 48 };

/// A book with 33 lead days, X 10 and Y 20; of version 2 the same with an injection party.
fn month(seed: u64, shape: Shape) -> Book {
    let Shape { version, month: (year, month), points, engagements, method, count } = shape;
    let mut random = Random::new(seed);
    let mut book = Book::plain(year, month, 33, points);
    book.version = version;
    book.choices = vec![Choice { x: 10, y: 20 }; 4];
    for row in &mut book.register {
        (row.supplier, row.fsp, row.method) = (3, 7, method);
        (row.largest_up, row.largest_down) = (500_000, 500_000);
        (row.source_party, row.fsp_party) = (1, 2);
        row.injection_party = if book.version >= 2 { 3 } else { 0 };
    }
    for watts in book.readings.iter_mut().flatten() {
        *watts = random.range(-200_000, 1_000_000) as i32;
    }
    for (point, day) in places(&mut random, points, engagements) {
        let latest = book.day_lengths[day as usize] as i64 - count as i64;
        let (first, direction) = (random.range(0, latest) as u8, random.range(0, 1) as u8);
        let requested = random.range(1, 500_000) as u32;
        book.engagements.push(Engagement { point, day, first, count, direction, requested, ..Engagement::default() });
    }
    book.lay_out();
    book
}

/// Points and settled days in rising order, all different, the points taking turns.
fn places(random: &mut Random, points: u16, engagements: u16) -> Vec<(u16, u8)> {
    let mut places: Vec<(u16, u8)> = Vec::new();
    while places.len() < engagements as usize {
        let point = (places.len() % points as usize) as u16;
        let place = (point, random.range(33, 63) as u8);
        if !places.contains(&place) {
            places.push(place);
        }
    }
    places.sort();
    places
}

/// Each book is settled so often by each settling, some times in succession and then again: what slows the machine down
/// for a while, or a place in memory, then meets none alone.
const RUNS: usize = 60;
const AT_A_TIME: usize = 10;

type Settle = fn(&[u8], &mut [i64]) -> Result<usize, Refusal>;

/// A book's bytes, a buffer for its rows, the rows that the reference calculates, and the least times so far, in nanoseconds.
struct Timed {
    bytes: Vec<u8>,
    rows: Vec<i64>,
    expected: Vec<i64>,
    proved: u64,
    plain: u64,
}

impl Timed {
    fn new(seed: u64, shape: Shape) -> Timed {
        let bytes = month(seed, shape).encode();
        let expected = settle::settle(&bytes, usize::MAX).expect("the book is accepted");
        Timed { bytes, rows: vec![0; expected.len()], expected, proved: u64::MAX, plain: u64::MAX }
    }

    /// One settling's time, the rows cleared before and compared after.
    fn once(&mut self, settle: Settle) -> u64 {
        self.rows.fill(0);
        let begun = Instant::now();
        let answer = settle(&self.bytes, &mut self.rows);
        let spent = begun.elapsed().as_nanos() as u64;
        assert!(answer == Ok(self.rows.len() / ROW_WIDTH) && self.rows == self.expected, "the rows differ");
        spent
    }

    fn proved(&mut self) {
        self.proved = self.proved.min(self.once(calls::settle));
    }

    fn plain(&mut self) {
        self.plain = self.plain.min(self.once(quick::settle));
    }

    /// How many times as long as the Rust one the proved one takes.
    fn ratio(&self) -> f64 {
        self.proved as f64 / self.plain as f64
    }

    fn print(&self, what: &str, behind: &str) {
        let (proved, plain) = (self.proved as f64 / 1e6, self.plain as f64 / 1e6);
        println!("  {what:<16} proved {proved:>7.3} ms   Rust {plain:>7.3} ms   ratio {:.2}{behind}", self.ratio());
    }
}

fn in_turn(book: &mut Timed) {
    for _ in 0..AT_A_TIME {
        book.proved();
        book.plain();
    }
}

/// Without the other settling's use of the caches in between.
fn in_succession(book: &mut Timed) {
    (0..AT_A_TIME).for_each(|_| book.proved());
    (0..AT_A_TIME).for_each(|_| book.plain());
}

/// All runs of some books.
fn timed(books: impl Iterator<Item = (u64, Shape)>, runs: fn(&mut Timed)) -> Vec<Timed> {
    let mut all: Vec<Timed> = books.map(|(seed, shape)| Timed::new(seed, shape)).collect();
    for _ in 0..RUNS / AT_A_TIME {
        for book in &mut all {
            book.bytes = book.bytes.clone();
            runs(book);
        }
    }
    all
}

/// Books in which a number doubles; the greatest growth of the proved time, in succession and in turn.
fn doubling(what: &str, from: u16, shape: fn(u16) -> Shape) -> [f64; 2] {
    println!("twice as many {what}");
    let numbers = [from, 2 * from, 4 * from, 8 * from];
    let books = |runs| timed(numbers.into_iter().map(|number| (1, shape(number))), runs);
    let both: [Vec<Timed>; 2] = [books(in_succession), books(in_turn)];
    let mut most = [0.0; 2];
    for (k, number) in numbers.into_iter().enumerate() {
        let mut behind = String::new();
        if k > 0 {
            let growth = [0, 1].map(|way: usize| both[way][k].proved as f64 / both[way][k - 1].proved as f64);
            behind = format!("   growth {:.2}, in turn {:.2}", growth[0], growth[1]);
            most = [0, 1].map(|way| f64::max(most[way], growth[way]));
        }
        both[1][k].print(&format!("{number}"), &behind);
    }
    most
}

/// Seven of the largest books, of which none stays in the caches: all are settled by the one, then all by the other.
fn by_turns() -> Vec<Timed> {
    let mut books: Vec<Timed> = (1..=7).map(|seed| Timed::new(seed, LARGEST)).collect();
    for _ in 0..RUNS {
        books.iter_mut().for_each(Timed::proved);
        books.iter_mut().for_each(Timed::plain);
    }
    books
}

fn greatest_ratio(books: &[Timed]) -> f64 {
    books.iter().map(Timed::ratio).fold(0.0, f64::max)
}

/// The largest settling on seven books, of which the greatest ratio counts, and how the time grows.
pub fn run() {
    println!("64 days, X 10, Y 20; least of {RUNS} runs of each, rows cleared before and compared after");
    println!("256 points, 512 engagements of method 2, count 48, the two in turn");
    let books = timed((1..=7).map(|seed| (seed, LARGEST)), in_turn);
    for (book, seed) in books.iter().zip(1..) {
        book.print(&format!("book {seed}"), "");
    }
    println!(
        "  greatest ratio {:.2}; where the seven books take turns {:.2}",
        greatest_ratio(&books),
        greatest_ratio(&by_turns())
    );
    println!("the same by another method, and with eight engagements a point");
    let others = ["method 0", "method 1", "64 points"];
    let shapes = [Shape { method: 0, ..LARGEST }, Shape { method: 1, ..LARGEST }, Shape { points: 64, ..LARGEST }];
    for (what, book) in others.into_iter().zip(timed(shapes.into_iter().map(|shape| (1, shape)), in_turn)) {
        book.print(what, "");
    }
    println!("the same in October 2023, whose 29th has 100 quarter-hours");
    for book in timed([(1, Shape { month: (2023, 10), ..LARGEST })].into_iter(), in_turn) {
        book.print("book 1", "");
    }
    println!("the seven books of version 2");
    let books = timed((1..=7).map(|seed| (seed, Shape { version: 2, ..LARGEST })), in_turn);
    for (book, seed) in books.iter().zip(1..) {
        book.print(&format!("book {seed}"), "");
    }
    println!("  greatest ratio {:.2}", greatest_ratio(&books));
    let growths = [
        doubling("points", 32, |points| Shape { points, ..LARGEST }),
        doubling("engagements", 64, |engagements| Shape { engagements, ..LARGEST }),
        doubling("quarter-hours", 12, |count| Shape { count: count as u8, ..LARGEST }),
    ];
    let most = [0, 1].map(|way| growths.iter().map(|growth| growth[way]).fold(0.0, f64::max));
    println!("  greatest growth where one of them doubles {:.2}, in turn {:.2}", most[0], most[1]);
    let both =
        doubling("points, each of two engagements", 32, |points| Shape { points, engagements: 2 * points, ..LARGEST });
    println!("  greatest growth where points and engagements double {:.2}, in turn {:.2}", both[0], both[1]);
}
