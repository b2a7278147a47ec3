//! Each clause of "Sound books" broken alone, and answer 15.

mod common;

use common::*;
use second::book::{sound, Book, DistrictSet, Phase, TransactionNumber};
use second::conditions::{Condition, Outcome};
use second::events;
use second::polyvalue::{Pair, Polyvalue};
use second::refusal::Refusal;

/// Districts 0 idle, 1 computing and 2 waiting on number 2 (place 1), and 3
/// idle with {0 if T1, 1 if !T1}; number 1 (place 0) is completed.
fn busy_book() -> Book {
    let mut book = events::open(4, &[(0, 5), (1, 6), (2, 7), (3, 1)]);
    begin(&mut book, &[(ADD, 3, -1)]);
    lose_link(&mut book, 1, 3);
    complete(&mut book, 1);
    begin(&mut book, &[(ADD, 1, 1), (ADD, 2, 1)]);
    assert_eq!(events::ready(&mut book, number(2), 2), Ok(()));
    assert!(sound(&book));
    book
}

fn either(place_condition: u64) -> Polyvalue {
    Polyvalue {
        pairs: vec![
            Pair {
                value: 0,
                condition: Condition(place_condition),
            },
            Pair {
                value: 1,
                condition: Condition(!place_condition),
            },
        ],
    }
}

const AFTER_T1: u64 = 0xAAAA_AAAA_AAAA_AAAA;
const AFTER_T2: u64 = 0xCCCC_CCCC_CCCC_CCCC;
const AFTER_FREE: u64 = 0xFFFF_FFFF_0000_0000;

fn set_both(book: &mut Book, item: usize, polyvalue: Polyvalue) {
    book.items[item].held = polyvalue.clone();
    book.items[item].pending = polyvalue;
}

/// A change that breaks one clause, and what it is.
type Break = (&'static str, fn(&mut Book));

/// Each change alone makes the book unsound.
fn refused(breaks: &[Break]) {
    for (what, spoil) in breaks {
        let mut book = busy_book();
        spoil(&mut book);
        assert!(!sound(&book), "{what}");
    }
}

#[test]
fn each_clause_counts() {
    refused(&[
        ("no districts", |book| book.districts.clear()),
        ("nine districts", |book| {
            book.districts.resize(9, Default::default())
        }),
        ("no items", |book| book.items.clear()),
        ("33 items", |book| {
            let item = book.items[0].clone();
            book.items.resize(33, item)
        }),
        ("item of no district", |book| book.items[0].district = 4),
        ("value too large", |book| {
            set_both(book, 0, Polyvalue::certain(10_000))
        }),
        ("no pairs", |book| {
            set_both(book, 0, Polyvalue { pairs: Vec::new() })
        }),
        ("values not rising", |book| {
            book.items[3].held.pairs.reverse();
            book.items[3].pending.pairs.reverse();
        }),
        ("equal values", |book| {
            let mut pairs = either(AFTER_T1);
            pairs.pairs[1].value = 0;
            set_both(book, 0, pairs)
        }),
        ("empty condition", |book| set_both(book, 0, either(0))),
        ("assignment in no condition", |book| {
            let mut gap = Polyvalue::certain(5);
            gap.pairs[0].condition = Condition(!1);
            set_both(book, 0, gap)
        }),
        ("assignment in two conditions", |book| {
            let mut twice = either(AFTER_T1);
            twice.pairs[1].condition = Condition::ALWAYS;
            set_both(book, 0, twice)
        }),
        ("free place not zero", |book| {
            book.places[3].touched = DistrictSet(1)
        }),
        ("free place decided", |book| {
            book.places[3].decision = Some(Outcome::Aborted)
        }),
        ("depends on a free place", |book| {
            set_both(book, 0, either(AFTER_FREE))
        }),
        ("open numbers equal", |book| {
            book.places[0].number = number(2)
        }),
        ("open number not given yet", |book| book.last = number(1)),
        ("idle on a transaction", |book| {
            book.districts[0].on = number(2)
        }),
        ("decided and not in use", |book| {
            set_both(book, 3, Polyvalue::certain(0))
        }),
        ("busy on no transaction", |book| {
            book.districts[0].phase = Phase::Waiting
        }),
        ("busy where not touched", |book| {
            book.districts[0].compute(number(2))
        }),
        ("waiting and not ready", |book| {
            book.places[1].ready = DistrictSet(0)
        }),
        ("computing and ready", |book| {
            book.places[1].ready = DistrictSet(6)
        }),
        ("computing and gave up", |book| {
            book.places[1].gave_up = DistrictSet(2)
        }),
        ("ready where not touched", |book| {
            book.places[1].ready = DistrictSet(5)
        }),
        ("idle with something pending", |book| {
            book.items[0].pending = Polyvalue::certain(0)
        }),
        ("pending depends on its own transaction", |book| {
            book.items[2].pending = either(AFTER_T2)
        }),
    ]);
}

#[test]
fn sets_of_districts_are_apart_within_touched_and_below_the_count() {
    refused(&[
        ("ready and gave up", |book| {
            book.places[1].gave_up = DistrictSet(4)
        }),
        ("touches a district past the count", |book| {
            book.places[1].touched = DistrictSet(0b10110)
        }),
        ("completed with a touched district not ready", |book| {
            book.places[0].touched = DistrictSet(0b1001)
        }),
        ("gave up where not touched", |book| {
            book.places[0].gave_up = DistrictSet(1)
        }),
    ]);
}

#[test]
fn a_busy_item_has_at_most_8_values_together() {
    let numbered = |from: i16| Polyvalue {
        pairs: (0..8)
            .map(|nth| Pair {
                value: from + nth,
                // The assignments whose places 0, 2 and 3 spell `nth`.
                condition: condition_of(|a| (a & 1) | (a >> 1 & 6) == nth as u8),
            })
            .collect(),
    };
    let mut book = busy_book();
    // Places 2 and 3 have to be open for values to depend on them.
    book.last = number(9);
    book.places[2].number = number(8);
    book.places[3].number = number(9);
    book.items[1].held = numbered(0);
    book.items[1].pending = numbered(0);
    assert!(sound(&book));
    book.items[1].pending = numbered(1);
    assert!(!sound(&book));
}

#[test]
fn the_opened_book_is_sound_and_the_zero_book_is_not() {
    assert!(sound(&one_item(0)));
    assert!(!sound(&Book::default()));
}

#[test]
fn every_call_on_an_unsound_book_answers_15_first() {
    let zero = Book::default();
    let mut book = zero.clone();
    let none = TransactionNumber::NONE;
    let unsound = Refusal::BookNotSound;
    assert_eq!(events::begin(&mut book, &[]), Err(unsound));
    assert_eq!(events::ready(&mut book, none, 0), Err(unsound));
    assert_eq!(events::give_up(&mut book, none, 0), Err(unsound));
    assert_eq!(events::hear(&mut book, none, 0), Err(unsound));
    for outcome in [Outcome::Completed, Outcome::Aborted] {
        assert_eq!(events::decide(&mut book, none, outcome), Err(unsound));
    }
    assert_eq!(events::show(&book, 0, &mut []), Err(unsound));
    assert_eq!(book, zero);
}
