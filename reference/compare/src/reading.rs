//! How long reading and writing a large file take, against a scan of its bytes and against libxml2's SAX parser.

use crate::calls::{self, Named};
use reference::examples::{CASE_F_ID, CASE_F_MOMENT};
use reference::message;
use reference::random::Random;
use std::hint::black_box;
use std::process::Command;
use std::time::Instant;

const RUNS: usize = 60;
const NAMED: Named = Named { kind: 1, receiver: 7, id: CASE_F_ID, moment: CASE_F_MOMENT };
const MONTH: (u64, u64) = (2021, 8);

/// Six suppliers, up and down at every position of a month of 31 days: 35,712 rows.
fn rows() -> Vec<u64> {
    let mut random = Random::new(1);
    let mut rows = Vec::new();
    for supplier in 1..=6 {
        for direction in 0..=1 {
            for position in 1..=2976 {
                rows.extend([supplier, 0, direction, position, random.range(1, 9_999_999) as u64, 0]);
            }
        }
    }
    rows
}

/// Milliseconds, the least of some runs.
fn least<A>(mut run: impl FnMut() -> A) -> f64 {
    let mut least = f64::MAX;
    for _ in 0..RUNS {
        let begun = Instant::now();
        black_box(run());
        least = least.min(begun.elapsed().as_secs_f64() * 1e3);
    }
    least
}

/// How many bytes stand between tags: the least that a reader of any such text has to find.
fn between_tags(file: &[u8]) -> usize {
    let (mut inside, mut count) = (false, 0);
    for &byte in file {
        match byte {
            b'<' => inside = true,
            b'>' => inside = false,
            _ => count += !inside as usize,
        }
    }
    count
}

/// Milliseconds of a parse by libxml2 that judges nothing and keeps nothing, the mean of what `xmllint` says of some
/// ("100 iterations took 700 ms"); none where there is no `xmllint`.
fn libxml2(file: &[u8]) -> Option<f64> {
    let path = std::env::temp_dir().join(format!("compare-{}.xml", std::process::id()));
    std::fs::write(&path, file).ok()?;
    let output = Command::new("xmllint").args(["--sax", "--noout", "--repeat", "--timing"]).arg(&path).output();
    std::fs::remove_file(&path).ok()?;
    let text = String::from_utf8(output.ok()?.stderr).ok()?;
    let words: Vec<&str> = text.split_whitespace().collect();
    let [times, "iterations", "took", spent, "ms"] = words[..] else { return None };
    Some(spent.parse::<f64>().ok()? / times.parse::<f64>().ok()?)
}

fn line(what: &str, spent: f64, reading: f64) {
    println!("  {what:<34} {spent:>7.3} ms   reading takes {:.2} times as long", reading / spent);
}

/// The library's reading and writing of such a file, and others' way through its bytes.
pub fn run() {
    let (numbers, (year, month)) = (rows(), MONTH);
    let Named { kind, receiver, id, moment } = NAMED;
    let expected = message::write(kind, receiver, year, month, &numbers, id, moment, usize::MAX).unwrap();
    let mut file = vec![0; expected.len()];
    let writing = least(|| calls::write(NAMED, year, month, &numbers, &mut file).unwrap());
    assert!(file == expected, "the files differ");
    let (mut read, mut facts) = (vec![0; numbers.len()], [0; 8]);
    let reading = least(|| calls::read(&file, &mut read, &mut facts).unwrap());
    assert!(read == numbers, "the rows differ");
    println!("a file of {} bytes and {} rows, least of {RUNS} runs", file.len(), numbers.len() / 6);
    println!("  {:<34} {reading:>7.3} ms", "reading, in two passes");
    line("writing, in two passes", writing, reading);
    line("a scan, byte by byte", least(|| between_tags(black_box(&file))), reading);
    match libxml2(&file) {
        Some(spent) => line("libxml2's SAX parse, mean", spent, reading),
        None => println!("  libxml2: no xmllint here"),
    }
}
