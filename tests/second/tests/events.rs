//! The orders of refusals, the slips to guard against and what a sheet cannot
//! reach: 7 and 16.

mod common;

use common::*;
use second::book::TransactionNumber;
use second::conditions::Outcome;
use second::events::{self, Grant};
use second::refusal::Refusal;

#[test]
fn begin_judges_all_steps_for_3_before_2() {
    let mut book = one_item(0);
    let mut answer = |program: &[(u8, u8, i16)]| {
        events::begin(&mut book, &steps(program)).map_err(Refusal::number)
    };
    assert_eq!(answer(&[]), Err(3));
    assert_eq!(answer(&[(ADD, 0, 0); 9]), Err(3));
    assert_eq!(answer(&[(ADD, 9, 0), (0, 0, 0)]), Err(3));
    assert_eq!(answer(&[(COPY, 0, -1), (5, 0, 0)]), Err(3));
    assert_eq!(answer(&[(NEED, 9, 10_000)]), Err(3));
    assert_eq!(answer(&[(SET, 0, -10_000)]), Err(3));
    assert_eq!(answer(&[(ADD, 1, 0)]), Err(2));
    assert_eq!(answer(&[(COPY, 0, 1)]), Err(2));
    assert_eq!(answer(&[(COPY, 0, -1)]), Err(2));
    assert_eq!(answer(&[(COPY, 0, 10_000)]), Err(2));
    assert_eq!(answer(&[(COPY, 0, i16::MIN)]), Err(2));
    assert!(answer(&[(COPY, 0, 0)]).is_ok());
}

#[test]
fn bytes_that_are_no_multiple_of_4_are_no_program() {
    let mut book = one_item(0);
    for length in [1, 2, 3, 5, 31, 33] {
        let refused = events::begin(&mut book, &vec![1; length]);
        assert_eq!(refused, Err(Refusal::BadProgram));
    }
}

#[test]
fn begin_refuses_5_before_6_before_7() {
    let mut book = events::open(7, &[0, 1, 2, 3, 4, 5, 6].map(|district| (district, 0)));
    for item in 0..6 {
        begin(&mut book, &[(ADD, item, 1)]);
    }
    let mut last_given = book.clone();
    last_given.last = TransactionNumber::LAST;
    let busy = steps(&[(NEED, 6, 0), (COPY, 6, 0)]);
    let free = steps(&[(NEED, 6, 0)]);
    for book in [&mut book, &mut last_given] {
        assert_eq!(
            events::begin(book, &busy),
            Err(Refusal::TouchedDistrictBusy)
        );
        assert_eq!(events::begin(book, &free), Err(Refusal::SixAreOpen));
    }
    let aborted = events::decide(&mut last_given, number(1), Outcome::Aborted);
    assert_eq!(aborted, Ok(()));
    assert_eq!(events::hear(&mut last_given, number(1), 0), Ok(()));
    assert_eq!(
        events::begin(&mut last_given, &free),
        Err(Refusal::NumbersUsedUp)
    );
}

#[test]
fn number_65_535_is_given_and_then_no_more() {
    let mut book = events::open(2, &[(0, 0), (1, 0)]);
    book.last = number(65_534);
    let begun = events::begin(&mut book, &steps(&[(ADD, 0, 1)]));
    assert_eq!(begun.map(|begun| begun.number), Ok(number(65_535)));
    let refused = events::begin(&mut book, &steps(&[(ADD, 1, 1)]));
    assert_eq!(refused, Err(Refusal::NumbersUsedUp));
}

#[test]
fn a_decline_undoes_the_steps_before_it_and_still_touches_what_follows() {
    let mut book = events::open(3, &[(0, 1), (1, 2), (2, 3)]);
    let program = [(SET, 0, 9), (NEED, 1, 3), (ADD, 2, 1)];
    assert_eq!(begin(&mut book, &program), Grant::Never);
    assert_eq!(shown(&book, &book.items[0].pending), "1:*");
    assert!(book.districts.iter().all(|district| !district.is_idle()));
}

#[test]
fn hearing_reduces_pending_values_of_other_transactions_too() {
    let mut book = one_item(5);
    begin(&mut book, &[(ADD, 0, 1)]);
    lose_link(&mut book, 1, 0);
    begin(&mut book, &[(ADD, 0, 10)]);
    complete(&mut book, 1);
    assert_eq!(events::hear(&mut book, number(1), 0), Ok(()));
    assert_eq!(shown(&book, &book.items[0].held), "6:*");
    assert_eq!(shown(&book, &book.items[0].pending), "16:*");
}

#[test]
fn a_place_stays_taken_while_another_district_depends_on_it() {
    let mut book = events::open(2, &[(0, 1), (1, 1)]);
    begin(&mut book, &[(ADD, 0, -1), (ADD, 1, 1)]);
    lose_link(&mut book, 1, 0);
    lose_link(&mut book, 1, 1);
    complete(&mut book, 1);
    assert_eq!(events::hear(&mut book, number(1), 0), Ok(()));
    assert_eq!(events::hear(&mut book, number(1), 0), Ok(()));
    assert_eq!(shown(&book, &book.items[1].held), "1:!T1 2:T1");
    assert_eq!(events::hear(&mut book, number(1), 1), Ok(()));
    assert_eq!(events::hear(&mut book, number(1), 1), Err(Refusal::NotOpen));
}

#[test]
fn installing_one_transaction_can_close_another() {
    let mut book = one_item(5);
    begin(&mut book, &[(ADD, 0, 1)]);
    lose_link(&mut book, 1, 0);
    complete(&mut book, 1);
    begin(&mut book, &[(SET, 0, 0)]);
    assert_eq!(events::ready(&mut book, number(2), 0), Ok(()));
    complete(&mut book, 2);
    assert!(book.place_of(number(1)).is_ok());
    assert_eq!(events::hear(&mut book, number(2), 0), Ok(()));
    assert_eq!(book.place_of(number(1)), Err(Refusal::NotOpen));
    assert_eq!(book.place_of(number(2)), Err(Refusal::NotOpen));
}

#[test]
fn events_on_a_transaction_refuse_4_before_1_before_the_rest() {
    let mut book = one_item(0);
    let calls: [fn(&mut _, _, _) -> _; 3] = [events::ready, events::give_up, events::hear];
    for call in calls {
        assert_eq!(call(&mut book, number(0), 9), Err(Refusal::NotOpen));
        assert_eq!(call(&mut book, number(1), 9), Err(Refusal::NotOpen));
    }
    begin(&mut book, &[(ADD, 0, 1)]);
    for call in calls {
        assert_eq!(call(&mut book, number(1), 1), Err(Refusal::NoSuchDistrict));
    }
    let early = events::hear(&mut book, number(1), 0);
    assert_eq!(early, Err(Refusal::NotDecided));
    assert_eq!(events::ready(&mut book, number(1), 0), Ok(()));
    let again = events::ready(&mut book, number(1), 0);
    assert_eq!(again, Err(Refusal::DistrictNotOnIt));
    complete(&mut book, 1);
    for outcome in [Outcome::Completed, Outcome::Aborted] {
        let again = events::decide(&mut book, number(1), outcome);
        assert_eq!(again, Err(Refusal::AlreadyDecided));
    }
}

#[test]
fn show_writes_the_line_and_nothing_else_or_refuses() {
    let book = one_item(-7);
    let mut buffer = [b'x'; 8];
    assert_eq!(events::show(&book, 1, &mut []), Err(Refusal::NoSuchItem));
    let refused = events::show(&book, 0, &mut buffer[..5]);
    assert_eq!(refused, Err(Refusal::BufferTooShort));
    assert_eq!(&buffer, b"xxxxxxxx");
    assert_eq!(events::show(&book, 0, &mut buffer[..6]), Ok(6));
    assert_eq!(&buffer, b"1 -7:*xx");
}
