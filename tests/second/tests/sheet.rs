//! Sheets that are refused, with the place, and sheets that just are not.

mod common;

use common::*;
use second::sheet::{Event, Sheet};

/// Two districts, two items, a show: a good sheet of 14 bytes.
const GOOD: &str = "02 0A 0B 02 00 00 05 01 FF FE 00 01 07 00";

fn refusal(text: &str) -> String {
    printed(&hex(text))
}

/// One district, one item and this one event, which starts at place 8.
fn with_event(event: &str) -> String {
    refusal(&format!("01 01 01 00 00 00 00 01 {event}"))
}

#[test]
fn an_empty_sheet_ends_at_place_0() {
    assert_eq!(printed(&[]), "sheet 13 0\n");
}

#[test]
fn a_sheet_without_events_prints_only_end() {
    assert_eq!(refusal("01 01 01 00 00 00 00 00"), "end\n");
}

#[test]
fn cut_anywhere_a_sheet_is_refused_with_its_length() {
    let good = hex(GOOD);
    assert_eq!(printed(&good), "1 0 1 5:*\nend\n");
    for length in 0..good.len() {
        let expected = format!("sheet 13 {length}\n");
        assert_eq!(printed(&good[..length]), expected);
    }
}

#[test]
fn the_first_byte_left_over_is_named() {
    assert_eq!(refusal(&format!("{GOOD} 00 00")), "sheet 13 14\n");
    assert_eq!(refusal("01 01 01 00 00 00 00 00 07 00"), "sheet 13 8\n");
}

#[test]
fn counts_districts_and_codes_are_judged_in_reading_order() {
    assert_eq!(refusal("00"), "sheet 13 0\n");
    assert_eq!(refusal("09 01 02"), "sheet 13 0\n");
    assert_eq!(refusal("01 00 00"), "sheet 13 1\n");
    assert_eq!(refusal("02 05 05 00"), "sheet 13 2\n");
    assert_eq!(refusal("02 05 04"), "sheet 13 2\n");
    assert_eq!(refusal("03 01 FF FF"), "sheet 13 3\n");
    assert_eq!(refusal("01 FF 00"), "sheet 13 2\n");
    assert_eq!(refusal("01 FF 21"), "sheet 13 2\n");
    assert_eq!(refusal("01 FF 01 01 7F FF"), "sheet 13 3\n");
}

#[test]
fn a_value_out_of_range_is_the_fault_of_its_first_byte() {
    let with_value = |value: i16| {
        let [high, low] = value.to_be_bytes();
        printed(&[1, 1, 1, 0, high, low, 0, 0])
    };
    assert_eq!(with_value(9_999), "end\n");
    assert_eq!(with_value(-9_999), "end\n");
    for value in [10_000, -10_000, i16::MAX, i16::MIN] {
        assert_eq!(with_value(value), "sheet 13 4\n");
    }
    // Without its second byte the sheet ends early instead.
    assert_eq!(refusal("01 01 01 00 7F"), "sheet 13 5\n");
}

#[test]
fn unknown_events_are_refused_and_short_ones_end_early() {
    assert_eq!(with_event("00"), "sheet 13 8\n");
    assert_eq!(with_event("08"), "sheet 13 8\n");
    assert_eq!(with_event("FF 00"), "sheet 13 8\n");
    assert_eq!(with_event("01"), "sheet 13 9\n");
    assert_eq!(with_event("01 01 02 00 00"), "sheet 13 13\n");
    assert_eq!(with_event("02 00 01"), "sheet 13 11\n");
    assert_eq!(with_event("04 00"), "sheet 13 10\n");
    assert_eq!(with_event("07"), "sheet 13 9\n");
}

#[test]
fn what_events_hold_is_judged_by_the_events() {
    assert_eq!(with_event("01 00"), "1 3\nend\n");
    assert_eq!(with_event("02 FF FF FF"), "1 4\nend\n");
    assert_eq!(with_event("07 FF"), "1 2\nend\n");
    let long = format!("01 FF{}", " 02 00 00 00".repeat(255));
    assert_eq!(with_event(&long), "1 3\nend\n");
}

#[test]
fn over_32_768_bytes_come_before_all_other_faults() {
    assert_eq!(printed(&vec![0; 32_769]), "sheet 14 0\n");
    assert_eq!(printed(&vec![0; 32_768]), "sheet 13 0\n");
    let mut sheet = Sheet {
        district_codes: vec![1],
        items: vec![(0, 0)],
        events: vec![Event::Show(0); 16_380],
    };
    assert_eq!(sheet.write().len(), 32_768);
    assert!(printed(&sheet.write()).ends_with("16380 0 1 0:*\nend\n"));
    sheet.events[0] = Event::Complete(number(1));
    assert_eq!(printed(&sheet.write()), "sheet 14 0\n");
}
