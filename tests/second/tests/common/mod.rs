//! Helpers shared by the tests. Each test file uses some of them.
#![allow(dead_code)]

use second::book::{Book, TransactionNumber};
use second::conditions::{Condition, Outcome};
use second::events::{self, Grant};
use second::play;
use second::polyvalue::Polyvalue;
pub use second::program::steps;
use second::text;

pub const NEED: u8 = 1;
pub const ADD: u8 = 2;
pub const SET: u8 = 3;
pub const COPY: u8 = 4;

pub fn hex(text: &str) -> Vec<u8> {
    text.split_whitespace()
        .map(|byte| u8::from_str_radix(byte, 16).expect("two hex digits"))
        .collect()
}

pub fn printed(sheet: &[u8]) -> String {
    let mut out = Vec::new();
    play::play(sheet, &mut out).expect("writing to a list");
    String::from_utf8(out).expect("text")
}

pub fn number(number: u16) -> TransactionNumber {
    TransactionNumber(number)
}

/// One district with one item.
pub fn one_item(value: i16) -> Book {
    events::open(1, &[(0, value)])
}

/// Begins and returns the grant.
pub fn begin(book: &mut Book, program: &[(u8, u8, i16)]) -> Grant {
    events::begin(book, &steps(program))
        .expect("a begin that is accepted")
        .grant
}

/// The district reports ready and then gives up while waiting.
pub fn lose_link(book: &mut Book, transaction: u16, district: u8) {
    assert_eq!(events::ready(book, number(transaction), district), Ok(()));
    assert_eq!(events::give_up(book, number(transaction), district), Ok(()));
}

pub fn complete(book: &mut Book, transaction: u16) {
    let answer = events::decide(book, number(transaction), Outcome::Completed);
    assert_eq!(answer, Ok(()));
}

/// The pairs without their count, as the document writes them.
pub fn shown(book: &Book, polyvalue: &Polyvalue) -> String {
    let line = text::pairs_line(&polyvalue.pairs, &book.numbers());
    line.split_once(' ').map_or("", |(_, pairs)| pairs).into()
}

/// The condition with these assignments as members.
pub fn condition_of(members: impl Fn(u8) -> bool) -> Condition {
    (0..64)
        .filter(|&assignment| members(assignment))
        .fold(Condition::NEVER, |sum, assignment| {
            sum.or(Condition(1 << assignment))
        })
}
