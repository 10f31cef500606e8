//! Lent buffers with more memory behind them, so that every change outside an answer is seen.

use reference::random::Random;
use reference::refusal::Refusal;
use std::fmt::Debug;

const BEHIND: usize = 32;

/// A buffer of some length, and what it and the memory behind it held before a call.
pub struct Lent<T> {
    now: Vec<T>,
    before: Vec<T>,
    length: usize,
}

impl<T: Copy + PartialEq + Debug> Lent<T> {
    pub fn new(random: &mut Random, length: usize, from: fn(u64) -> T) -> Lent<T> {
        let before: Vec<T> = (0..length + BEHIND).map(|_| from(random.number())).collect();
        Lent { now: before.clone(), before, length }
    }

    pub fn slice(&mut self) -> &mut [T] {
        &mut self.now[..self.length]
    }

    /// The answer in front, and all else as it was.
    pub fn holds(&self, answer: &[T]) -> bool {
        answer.len() <= self.length
            && self.now[..answer.len()] == *answer
            && self.now[answer.len()..] == self.before[answer.len()..]
    }

    /// "A refusal changes no buffer".
    pub fn unchanged(&self) -> bool {
        self.now == self.before
    }

    pub fn is_as<E>(&self, expected: &Result<Vec<T>, E>) -> bool {
        match expected {
            Ok(answer) => self.holds(answer),
            Err(_) => self.unchanged(),
        }
    }
}

/// A length near the one that is needed: mostly enough, sometimes just not.
pub fn near(random: &mut Random, needed: usize) -> usize {
    match random.range(0, 9) {
        0 => needed.saturating_sub(1),
        1 => random.range(0, needed as i64) as usize,
        2 => needed + random.range(1, 50) as usize,
        _ => needed,
    }
}

/// How often each answer was given.
#[derive(Default)]
pub struct Tally(std::collections::BTreeMap<(&'static str, u8), usize>);

impl Tally {
    pub fn count<A>(&mut self, call: &'static str, answer: &Result<A, Refusal>) {
        let number = answer.as_ref().err().map_or(0, |refusal| refusal.number);
        *self.0.entry((call, number)).or_default() += 1;
    }

    pub fn print(&self) {
        for call in ["settle", "sheet", "file", "read", "write"] {
            let of_call = self.0.iter().filter(|((name, _), _)| *name == call);
            let words: Vec<String> = of_call
                .map(|((_, number), times)| match number {
                    0 => format!("accepted {times}"),
                    _ => format!("{number}: {times}"),
                })
                .collect();
            println!("  {call:<7} {}", words.join(", "));
        }
    }

    pub fn total(&self) -> usize {
        self.0.values().sum()
    }
}
