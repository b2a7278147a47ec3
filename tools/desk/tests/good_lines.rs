//! Texts and the bytes they stand for, worked out by hand from document 01.

use desk::print;
use desk::text::{read, Text};

fn bytes(text: &str) -> Vec<u8> {
    match read(text) {
        Ok(text) => text.bytes(),
        Err(wrong) => panic!("line {}: {}", wrong.line, wrong.why),
    }
}

fn hex(digits: &str) -> Vec<u8> {
    let pairs = digits.split_whitespace();
    pairs
        .map(|pair| u8::from_str_radix(pair, 16).unwrap())
        .collect()
}

/// Two districts, three items, then the lines.
fn events(lines: &str) -> Vec<u8> {
    let opening = "district Harbor 10\ndistrict Mill 11\n\
                   item docks at Harbor = 5\nitem docks at Mill = -2\nitem bikes at Mill = 0\n";
    let opening_bytes = hex("02 0A 0B 03 00 00 05 01 FF FE 01 00 00");
    let all = bytes(&format!("{opening}{lines}"));
    assert!(all.starts_with(&opening_bytes));
    all[opening_bytes.len()..].to_vec()
}

#[test]
fn each_event() {
    assert_eq!(events(""), hex("00 00"));
    assert_eq!(events("begin"), hex("00 01 01 00"));
    assert_eq!(events("ready 258 Mill"), hex("00 01 02 01 02 01"));
    assert_eq!(events("give up 1 Harbor"), hex("00 01 03 00 01 00"));
    assert_eq!(events("complete 65535"), hex("00 01 04 FF FF"));
    assert_eq!(events("abort 0"), hex("00 01 05 00 00"));
    assert_eq!(events("hear 1 Mill"), hex("00 01 06 00 01 01"));
    assert_eq!(events("show Mill docks"), hex("00 01 07 01"));
}

#[test]
fn each_step() {
    let step = |text: &str| events(&format!("begin {text}"))[4..].to_vec();
    assert_eq!(step("need 1 in bikes"), hex("01 02 00 01"));
    assert_eq!(step("add -1 to Harbor docks"), hex("02 00 FF FF"));
    assert_eq!(step("add +1 to Harbor docks"), hex("02 00 00 01"));
    assert_eq!(step("set Mill docks to 300"), hex("03 01 01 2C"));
    assert_eq!(step("copy Mill docks to Harbor docks"), hex("04 00 00 01"));
    assert_eq!(step("copy Harbor docks to bikes"), hex("04 02 00 00"));
    assert_eq!(step("copy bikes to Harbor docks"), hex("04 00 00 02"));
    assert_eq!(step("step 09 01 0a0B"), hex("09 01 0A 0B"));
    assert_eq!(
        events("begin need 1 in bikes;add 1 to bikes ; set bikes to 1"),
        hex("00 01 01 03 01 02 00 01 02 02 00 01 03 02 00 01")
    );
}

#[test]
fn numbers_stand_for_names_and_need_not_be_in_the_table() {
    assert_eq!(events("ready 1 1"), events("ready 1 Mill"));
    assert_eq!(events("show 2"), events("show bikes"));
    assert_eq!(events("show 1 docks"), events("show Mill docks"));
    assert_eq!(events("hear 1 255"), hex("00 01 06 00 01 FF"));
    assert_eq!(events("show 255"), hex("00 01 07 FF"));
    assert_eq!(
        events("begin copy 40 to 41"),
        hex("00 01 01 01 04 29 00 28")
    );
    assert_eq!(
        events("begin add 20000 to 0"),
        hex("00 01 01 01 02 00 4E 20")
    );
}

const ALL_KINDS: &str = "\
district \"Old Mill\" 1
district \"5\" 2
district Zürich-Süd 3
item \"to\" at \"Old Mill\" = 1
item \"#1; = x\" at \"5\" = 2
item at at 2 = 3
item 9am at Zürich-Süd = 4
item 9am at \"5\" = 5
";

const ALL_KINDS_EVENTS: [&str; 6] = [
    "begin copy \"to\" to \"#1; = x\"; copy at to \"to\"",
    "show \"to\"",
    "ready 1 \"5\"",
    "ready 1 5",
    "show Zürich-Süd 9am",
    "show \"5\" 9am",
];

#[test]
fn names_of_all_kinds() {
    let expected = hex(
        "03 01 02 03 05 00 00 01 01 00 02 02 00 03 02 00 04 01 00 05 00 06 \
         01 02 04 01 00 00 04 00 00 02 07 00 02 00 01 01 02 00 01 05 07 03 07 04",
    );
    let events = ALL_KINDS_EVENTS.join("\n");
    assert_eq!(bytes(&format!("{ALL_KINDS}{events}")), expected);
}

#[test]
fn names_of_all_kinds_are_printed_as_they_are_written() {
    let events = ALL_KINDS_EVENTS.join("\n");
    let Ok(Text::Sheet(sheet, names)) = read(&format!("{ALL_KINDS}{events}")) else {
        panic!("a good text");
    };
    let printed = sheet.events.iter().map(|event| print::event(&names, event));
    assert_eq!(printed.collect::<Vec<_>>(), ALL_KINDS_EVENTS);
}

#[test]
fn blanks_comments_and_line_ends_do_not_matter() {
    let plain = "district a 1\nitem i at a = 0\nshow i\n";
    let fancy =
        "\u{FEFF}# a comment\r\n\r\n\tdistrict  a 1# here\r\nitem i at a=0\r\n   # \"\r\nshow i";
    assert_eq!(bytes(fancy), bytes(plain));
}

#[test]
fn bytes_lines_are_the_bytes() {
    assert_eq!(bytes("bytes 02 0a # odd\n\nbytes\nbytes FF"), [2, 10, 255]);
    assert_eq!(bytes("bytes"), []);
}
