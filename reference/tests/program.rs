//! What the program and the program that runs its stored cases are run on and held to is what this crate makes.

use reference::examples::{CASE_F_FILE, CASE_F_ID, CASE_F_MOMENT, case_f};
use reference::report_cases;

fn stored(program: &str, name: &str) -> Vec<u8> {
    std::fs::read(format!("../crates/{program}/{name}")).unwrap()
}

#[test]
fn toe() {
    let line = [b"01 0000000007 ", CASE_F_ID, b" ", CASE_F_MOMENT, b"\n"].concat();
    assert!(stored("toe", "stdin") == [line, case_f().encode()].concat());
    assert!(stored("toe", "stdout") == CASE_F_FILE.as_bytes());
}

#[test]
fn toe_vectors() {
    let cases = report_cases::program_cases_text();
    assert!(stored("toe_vectors", "stdin") == cases.as_bytes());
    assert!(stored("toe_vectors", "stdout") == report_cases::program_answers(&cases).as_bytes());
}

/// A good input of the greatest length, and bytes behind it that `toe` doesn't read to their end.
#[test]
fn toe_long() {
    let input = stored("toe_long", "stdin");
    assert!(input.len() > 65537);
    assert!(reference::program::output(&input[..65536]).starts_with(b"<AggregatedToEVolumesForFSP>"));
    assert!(stored("toe_long", "stdout") == reference::program::output(&input));
}
