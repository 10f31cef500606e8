//! What the proved programs are run on and held to is what this crate makes.

use reference::{book_cases, message_cases, rank_cases, report_cases, settle_cases};

fn stored(program: &str, name: &str) -> String {
    std::fs::read_to_string(format!("../crates/{program}/{name}")).unwrap()
}

#[test]
fn book_vectors() {
    let cases = book_cases::cases_text(&book_cases::cases());
    assert!(stored("book_vectors", "stdin") == cases);
    assert!(stored("book_vectors", "stdout") == book_cases::answers(&cases));
}

#[test]
fn ranking_vectors() {
    let cases = rank_cases::cases_text(&rank_cases::cases());
    assert!(stored("ranking_vectors", "stdin") == cases);
    assert!(stored("ranking_vectors", "stdout") == rank_cases::answers(&cases));
}

#[test]
fn settle_vectors() {
    let cases = settle_cases::cases_text(&settle_cases::cases());
    assert!(stored("settle_vectors", "stdin") == cases);
    assert!(stored("settle_vectors", "stdout") == settle_cases::answers(&cases));
}

#[test]
fn sheet_vectors() {
    let cases = report_cases::sheet_cases_text();
    assert!(stored("sheet_vectors", "stdin") == cases);
    assert!(stored("sheet_vectors", "stdout") == report_cases::sheet_answers(&cases));
}

#[test]
fn message_vectors() {
    let (writing, reading) = (message_cases::write_cases_text(), message_cases::read_cases_text());
    assert!(stored("message_vectors", "stdin") == writing.clone() + &reading);
    let answers = message_cases::write_answers(&writing) + &message_cases::read_answers(&reading);
    assert!(stored("message_vectors", "stdout") == answers);
}

#[test]
fn file_vectors() {
    let cases = report_cases::file_cases_text();
    assert!(stored("file_vectors", "stdin") == cases);
    assert!(stored("file_vectors", "stdout") == report_cases::file_answers(&cases));
}
