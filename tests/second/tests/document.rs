//! The sample, the ten marked examples and "Run the rest" of document 01.

mod common;

use common::*;
use second::book::Book;
use second::conditions::{Condition, Outcome, Place};
use second::events::{self, Grant};
use second::refusal::Refusal;
use second::text::condition_text;

#[test]
fn the_sample_prints_byte_for_byte() {
    let sheet = hex(
        "02 0A 0B 02 00 00 05 01 00 02 00 08 01 03 01 00 00 01 02 00 FF FF \
         02 01 00 01 02 00 01 00 02 00 01 01 03 00 01 00 07 00 04 00 01 06 00 01 00 07 00",
    );
    let expected = "1 0 1 1\n2 0\n3 0\n4 0\n5 0 2 4:T1 5:!T1\n6 0\n7 0\n8 0 1 4:*\nend\n";
    assert_eq!(printed(&sheet), expected);
}

#[test]
fn the_sheets_on_file_print_what_is_on_file() {
    let directory = concat!(env!("CARGO_MANIFEST_DIR"), "/sheets");
    let mut sheets = 0;
    for entry in std::fs::read_dir(directory).expect("the directory of sheets") {
        let path = entry.expect("an entry").path();
        if path.extension().is_some_and(|kind| kind == "sheet") {
            let sheet = std::fs::read(&path).expect("a sheet");
            let expected = std::fs::read_to_string(path.with_extension("out"));
            assert_eq!(printed(&sheet), expected.expect("its output"), "{path:?}");
            sheets += 1;
        }
    }
    assert_eq!(sheets, 4);
}

/// Grant and pending value after one Add to a certain value.
fn add(value: i16, operand: i16) -> (Grant, String) {
    let mut book = one_item(value);
    let grant = begin(&mut book, &[(ADD, 0, operand)]);
    (grant, shown(&book, &book.items[0].pending))
}

#[test]
fn examples_1_to_4_add_at_the_limits() {
    assert_eq!(add(9_998, 1), (Grant::Always, "9999:*".into()));
    assert_eq!(add(9_999, 1), (Grant::Never, "9999:*".into()));
    assert_eq!(add(-9_999, -1), (Grant::Never, "-9999:*".into()));
    assert_eq!(add(1, -2), (Grant::Always, "-1:*".into()));
}

/// The item of examples 5 to 9: {4 if T1, 5 if !T1}.
fn four_or_five() -> Book {
    let mut book = one_item(5);
    begin(&mut book, &[(ADD, 0, -1)]);
    lose_link(&mut book, 1, 0);
    assert_eq!(shown(&book, &book.items[0].held), "4:T1 5:!T1");
    book
}

#[test]
fn example_5_need_and_add_on_a_polyvalue() {
    let mut book = four_or_five();
    let grant = begin(&mut book, &[(NEED, 0, 4), (ADD, 0, -4)]);
    assert_eq!(grant, Grant::Always);
    assert_eq!(shown(&book, &book.items[0].pending), "0:T1 1:!T1");
}

#[test]
fn example_6_grants_under_one_outcome_only() {
    let mut book = four_or_five();
    assert_eq!(begin(&mut book, &[(NEED, 0, 5)]), Grant::Sometimes);
}

#[test]
fn example_7_set_joins_into_one_pair() {
    let mut book = four_or_five();
    begin(&mut book, &[(SET, 0, 7)]);
    assert_eq!(shown(&book, &book.items[0].pending), "7:*");
}

#[test]
fn examples_8_and_9_a_second_lost_link_and_a_decision() {
    let mut book = four_or_five();
    begin(&mut book, &[(NEED, 0, 4), (ADD, 0, -4)]);
    lose_link(&mut book, 2, 0);
    assert_eq!(
        shown(&book, &book.items[0].held),
        "0:T1&T2 1:!T1&T2 4:T1&!T2 5:!T1&!T2"
    );
    complete(&mut book, 1);
    assert_eq!(events::hear(&mut book, number(1), 0), Ok(()));
    assert_eq!(shown(&book, &book.items[0].held), "0:T2 4:!T2");
}

#[test]
fn example_10_prints_the_superfluous_product_too() {
    let tag = |place, outcome| Condition::tag(Place(place), outcome);
    let first = tag(0, Outcome::Completed).and(tag(1, Outcome::Completed));
    let second = tag(0, Outcome::Aborted).and(tag(2, Outcome::Completed));
    let numbers = [1, 2, 3, 0, 0, 0].map(number);
    assert_eq!(
        condition_text(first.or(second), &numbers),
        "T1&T2|!T1&T3|T2&T3"
    );
}

#[test]
fn eight_values_have_room_for_nothing_new() {
    let mut book = one_item(0);
    for (transaction, operand) in [(1, 1), (2, 2), (3, 4)] {
        begin(&mut book, &[(ADD, 0, operand)]);
        lose_link(&mut book, transaction, 0);
    }
    let values: Vec<i16> = book.items[0]
        .held
        .pairs
        .iter()
        .map(|pair| pair.value)
        .collect();
    assert_eq!(values, [0, 1, 2, 3, 4, 5, 6, 7]);
    let before = book.clone();
    let refused = events::begin(&mut book, &steps(&[(ADD, 0, 1)]));
    assert_eq!(refused, Err(Refusal::TooManyValues));
    assert_eq!(book, before);
    assert_eq!(begin(&mut book, &[(ADD, 0, 0)]), Grant::Always);
}

#[test]
fn giving_up_while_computing_rules_out_complete() {
    let mut book = events::open(2, &[(0, 5), (1, 2)]);
    begin(&mut book, &[(ADD, 0, -1), (ADD, 1, 1)]);
    assert_eq!(events::ready(&mut book, number(1), 0), Ok(()));
    assert_eq!(events::give_up(&mut book, number(1), 1), Ok(()));
    let complete = events::decide(&mut book, number(1), Outcome::Completed);
    assert_eq!(complete, Err(Refusal::NotAllReady));
    let abort = events::decide(&mut book, number(1), Outcome::Aborted);
    assert_eq!(abort, Ok(()));
}

#[test]
fn a_closed_number_answers_4() {
    let mut book = one_item(3);
    begin(&mut book, &[(ADD, 0, 1)]);
    assert_eq!(events::ready(&mut book, number(1), 0), Ok(()));
    complete(&mut book, 1);
    assert_eq!(events::hear(&mut book, number(1), 0), Ok(()));
    assert_eq!(shown(&book, &book.items[0].held), "4:*");
    let again = events::hear(&mut book, number(1), 0);
    assert_eq!(again, Err(Refusal::NotOpen));
}
