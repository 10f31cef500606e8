//! Compares the proved library with the reference, and times it; see ../README.md.

mod agree;
mod books;
mod calls;
mod lent;
mod pool;
mod quick;
mod reading;
mod timing;

use std::process::ExitCode;

const USAGE: &str =
    "usage: compare agree [SEED [ROUNDS]]  all five calls on random and damaged input; 1 and 2000 if not given
       compare timing                 settling against one in Rust that keeps each point's day sums
       compare files                  a month's whole set of files of a pool of 180 points
       compare reading                reading and writing a large file against libxml2
see ../README.md
";

fn main() -> ExitCode {
    let words: Vec<String> = std::env::args().skip(1).collect();
    let words: Vec<&str> = words.iter().map(String::as_str).collect();
    if run(&words).is_none() {
        eprint!("{USAGE}");
        return ExitCode::from(2);
    }
    ExitCode::SUCCESS
}

/// Does what these words ask for; none if they ask for nothing.
fn run(words: &[&str]) -> Option<()> {
    match words {
        ["agree"] => agree::run(1, 2000),
        ["agree", seed] => agree::run(seed.parse().ok()?, 2000),
        ["agree", seed, rounds] => agree::run(seed.parse().ok()?, rounds.parse().ok()?),
        ["timing"] => timing::run(),
        ["files"] => pool::run(),
        ["reading"] => reading::run(),
        _ => return None,
    }
    Some(())
}
