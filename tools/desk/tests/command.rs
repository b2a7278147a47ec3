//! The command itself: where it reads, where it writes, how it ends.

use std::fs;
use std::io::Write;
use std::path::PathBuf;
use std::process::{Command, Stdio};

const TEXT: &str = "district Mill 1\nitem docks at Mill = 5\nshow docks\n";
const SHEET: [u8; 10] = [1, 1, 1, 0, 0, 5, 0, 1, 7, 0];

/// Standard output, standard error and the exit code.
fn desk(arguments: &[&str], input: &[u8]) -> (Vec<u8>, String, i32) {
    let mut child = Command::new(env!("CARGO_BIN_EXE_desk"))
        .args(arguments)
        .stdin(Stdio::piped())
        .stdout(Stdio::piped())
        .stderr(Stdio::piped())
        .spawn()
        .expect("desk runs");
    // An input that is not wanted may not be read.
    let _ = child.stdin.take().expect("a pipe").write_all(input);
    let ended = child.wait_with_output().expect("desk ends");
    let errors = String::from_utf8(ended.stderr).expect("text");
    (ended.stdout, errors, ended.status.code().expect("a code"))
}

fn file(name: &str, content: &[u8]) -> String {
    let path = PathBuf::from(env!("CARGO_TARGET_TMPDIR")).join(name);
    fs::write(&path, content).expect("a file");
    path.to_str().expect("a plain path").to_string()
}

fn program(name: &str) -> String {
    format!("{}/tests/programs/{name}", env!("CARGO_MANIFEST_DIR"))
}

fn good(output: &[u8]) -> (Vec<u8>, String, i32) {
    (output.to_vec(), String::new(), 0)
}

fn bad(message: &str) -> (Vec<u8>, String, i32) {
    (Vec::new(), format!("{message}\n"), 1)
}

#[test]
fn write_takes_a_file_or_standard_input() {
    assert_eq!(desk(&["write"], TEXT.as_bytes()), good(&SHEET));
    assert_eq!(
        desk(&["write", &file("good.txt", TEXT.as_bytes())], b""),
        good(&SHEET)
    );
}

#[test]
fn a_wrong_line_writes_nothing_and_is_named_with_its_file() {
    let wrong = TEXT.to_string() + "hear 1 Mil\n";
    let path = file("wrong.txt", wrong.as_bytes());
    assert_eq!(
        desk(&["write", &path], b""),
        bad(&format!("{path}:4: no district is named Mil"))
    );
    assert_eq!(
        desk(&["write"], wrong.as_bytes()),
        bad("standard input:4: no district is named Mil")
    );
    assert_eq!(
        desk(&["play", "true", &path], b""),
        bad(&format!("{path}:4: no district is named Mil"))
    );
    assert_eq!(
        desk(&["write"], &SHEET),
        bad("standard input: this is not text; a binary sheet is for desk read")
    );
    let (_, errors, code) = desk(&["write", "no/such/file"], b"");
    assert!(errors.starts_with("cannot read no/such/file: "), "{errors}");
    assert_eq!(code, 1);
}

#[test]
fn read_takes_a_file_or_standard_input() {
    let text = b"district district0 1\nitem item0 at district0 = 5\nshow item0\n";
    assert_eq!(desk(&["read"], &SHEET), good(text));
    assert_eq!(
        desk(&["read", &file("good.sheet", &SHEET)], b""),
        good(text)
    );
}

#[test]
fn a_malformed_sheet_is_refused_with_number_and_place() {
    let path = file("short.sheet", &SHEET[..9]);
    assert_eq!(
        desk(&["read", &path], b""),
        bad(&format!(
            "{path}: sheet 13 9: the sheet ends early, in event 1 of 1"
        ))
    );
    assert_eq!(
        desk(&["read"], TEXT.as_bytes()),
        bad(
            "standard input: sheet 13 0: the count of districts is 100, not 1 to 8\n\
             this looks like text, which is for desk write"
        )
    );
}

#[test]
fn play_takes_text_and_bytes() {
    let store = program("store");
    assert_eq!(
        desk(&["play", &store], TEXT.as_bytes()),
        good(b"1 0 1 5:*   show docks: 5\nend\n")
    );
    assert_eq!(
        desk(&["play", &store], &SHEET),
        good(b"1 0 1 5:*   show item0: 5\nend\n")
    );
    let refusing = program("refusing");
    let said =
        b"sheet 13 9   refused at byte 9, counted from 0: the sheet ends early, in event 1 of 1\n";
    assert_eq!(desk(&["play", &refusing], &SHEET[..9]), good(said));
    assert_eq!(
        desk(&["play", &refusing], b"bytes 01 01 01 00 00 05 00 01 07"),
        good(said)
    );
}

#[test]
fn play_takes_no_bytes_as_a_sheet() {
    let message = "this sheet gets the line 'sheet 13 0' \
                   (the sheet ends early, at the count of districts), but line 1 is 'sheet 13 9'";
    let refusing = program("refusing");
    assert_eq!(
        desk(&["play", &refusing], b""),
        bad(&format!(
            "the output of {refusing} does not fit the sheet: {message}"
        ))
    );
}

#[test]
fn play_hands_the_program_the_sheet() {
    // 1 + 1 + 1 + 0 + 0 + 0 + 0 + 1 + 7 + 4 = 15
    let text = "district Mill 1\nitem docks at Mill = 0\nshow 4\n";
    let said = b"1 15   show 4: refused, the store's book is not sound\nend\n";
    assert_eq!(
        desk(&["play", &program("sum")], text.as_bytes()),
        good(said)
    );
}

#[test]
fn play_tells_output_that_does_not_fit_and_a_program_that_fails() {
    let (text, dead) = (TEXT.as_bytes(), program("dead"));
    let why = "line 1 should answer event 1, show docks, but the output ends before line 1";
    assert_eq!(
        desk(&["play", &dead], text),
        bad(&format!(
            "the output of {dead} does not fit the sheet: {why}\n{dead} ended with exit status: 3"
        ))
    );
    let half = program("half");
    let (output, errors, code) = desk(&["play", &half], text);
    assert_eq!(output, b"1 0 1 5:*   show docks: 5\n");
    assert!(errors.ends_with(
        "after the last event comes the line 'end', but the output ends before line 2\n"
    ));
    assert_eq!(code, 1);
    let (_, errors, code) = desk(&["play", "no/such/program"], text);
    assert!(
        errors.starts_with("cannot run no/such/program: "),
        "{errors}"
    );
    assert_eq!(code, 1);
}

#[test]
fn anything_else_gets_the_usage() {
    for arguments in [
        &[][..],
        &["play"],
        &["help"],
        &["write", "a", "b"],
        &["play", "a", "b", "c"],
    ] {
        let (output, errors, code) = desk(arguments, b"");
        assert_eq!((output.len(), code), (0, 1));
        assert!(errors.starts_with("desk write [FILE] "), "{errors}");
    }
}
