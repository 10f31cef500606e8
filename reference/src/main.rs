//! Writes stored cases and their expected answers; see README.md.

use reference::{book_cases, calendar, case_text, message_cases, rank_cases, report_cases, settle_cases};
use std::io::{Read, Write};
use std::process::ExitCode;

const USAGE: &str = "usage: reference NAME-cases              the cases
       reference NAME-answers < CASES    the expected output for these cases
       reference book-random SEED COUNT  more random cases of that form
       reference settle-random SEED COUNT
       reference index                   what each line of all cases tests
       reference months                  the same lines as brussels.py prints
NAME is one of book, rank, settle, write, read, sheet, file, program; see README.md.
";

fn main() -> ExitCode {
    let words: Vec<String> = std::env::args().skip(1).collect();
    let words: Vec<&str> = words.iter().map(String::as_str).collect();
    let Some(output) = output(&words) else {
        eprint!("{USAGE}");
        return ExitCode::from(2);
    };
    std::io::stdout().write_all(output.as_bytes()).unwrap();
    ExitCode::SUCCESS
}

/// What these words ask for; none if they ask for nothing.
fn output(words: &[&str]) -> Option<String> {
    let text = match words {
        ["months"] => calendar::months_text(),
        ["index"] => index(),
        ["book-random", seed, count] => {
            let (seed, count) = (seed.parse().ok()?, count.parse().ok()?);
            book_cases::cases_text(&book_cases::random_cases(seed, count, &calendar::MONTHS))
        }
        ["settle-random", seed, count] => {
            let (seed, count) = (seed.parse().ok()?, count.parse().ok()?);
            settle_cases::cases_text(&settle_cases::random_cases(seed, count, settle_cases::random_book))
        }
        ["book-cases"] => book_cases::cases_text(&book_cases::cases()),
        ["book-answers"] => book_cases::answers(&input()),
        ["rank-cases"] => rank_cases::cases_text(&rank_cases::cases()),
        ["rank-answers"] => rank_cases::answers(&input()),
        ["settle-cases"] => settle_cases::cases_text(&settle_cases::cases()),
        ["settle-answers"] => settle_cases::answers(&input()),
        ["write-cases"] => message_cases::write_cases_text(),
        ["write-answers"] => message_cases::write_answers(&input()),
        ["read-cases"] => message_cases::read_cases_text(),
        ["read-answers"] => message_cases::read_answers(&input()),
        ["sheet-cases"] => report_cases::sheet_cases_text(),
        ["sheet-answers"] => report_cases::sheet_answers(&input()),
        ["file-cases"] => report_cases::file_cases_text(),
        ["file-answers"] => report_cases::file_answers(&input()),
        ["program-cases"] => report_cases::program_cases_text(),
        ["program-answers"] => report_cases::program_answers(&input()),
        _ => return None,
    };
    Some(text)
}

fn input() -> String {
    let mut text = String::new();
    std::io::stdin().read_to_string(&mut text).unwrap();
    text
}

/// What CASES.md holds.
fn index() -> String {
    let books = book_cases::cases().into_iter().map(|case| case.what);
    let rankings = rank_cases::cases().into_iter().map(|case| case.what);
    let settlings = settle_cases::cases().into_iter().map(|case| case.what);
    let writings = message_cases::write_cases().into_iter().map(|case| case.what);
    let readings = message_cases::read_whats().into_iter();
    let sheets = report_cases::sheet_cases().into_iter().map(|case| case.what);
    let files = report_cases::file_cases().into_iter().map(|case| case.what);
    let programs = report_cases::program_cases().into_iter().map(|case| case.what);
    let sections = [
        case_text::index("book-cases: refusals 1 to 7", books),
        case_text::index("rank-cases: the ranked reference days", rankings),
        case_text::index("settle-cases: the settling call", settlings),
        case_text::index("write-cases: writing from rows", writings),
        case_text::index("read-cases: the reader", readings),
        case_text::index("sheet-cases: the sheet call", sheets),
        case_text::index("file-cases: the file call", files),
        case_text::index("program-cases: the program", programs),
    ];
    "# What the stored cases test\n\nThe number is that of the case's line.\n\n".to_string() + &sections.join("\n")
}
