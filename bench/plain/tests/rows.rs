//! Every test case of the repository, through the program itself.

use std::path::Path;
use std::process::Command;

/// Checks all rows against the program with these words.
fn check_rows(words: &[&str]) {
    let tests = Path::new(env!("CARGO_MANIFEST_DIR")).join("../../tests");
    let checked = Command::new(tests.join("check-rows"))
        .arg(env!("CARGO_BIN_EXE_plain-replay"))
        .args(words)
        .output()
        .expect("check-rows runs");
    let messages = String::from_utf8_lossy(&checked.stdout);
    assert!(checked.status.success(), "{messages}");
}

#[test]
fn every_row_is_answered_as_written() {
    check_rows(&[]);
}

#[test]
fn every_row_is_answered_as_written_without_journals() {
    check_rows(&["--no-journals"]);
}
