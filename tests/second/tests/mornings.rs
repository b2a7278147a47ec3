//! Generated sheets against the demands and against a plainer begin.

mod common;

use common::printed;
use second::book::Book;
use second::conditions::Condition;
use second::demand3::History;
use second::events::Grant;
use second::generator;
use second::play::{self, Accepted, BUFFER_BYTES};
use second::polyvalue::{value_under, Pair, Polyvalue};
use second::program::{Program, MOST_ITEMS};
use second::sheet::{Event, Sheet};

const SEED: u64 = 1979;

fn sheets(count: u64) -> impl Iterator<Item = Sheet> {
    (0..count)
        .filter_map(|index| Sheet::read(&generator::sheet(SEED, index)).ok())
        .filter(|sheet| sheet.events.len() < 1_000)
}

#[test]
fn demand_3_holds_after_every_event() {
    let mut buffer = vec![0; BUFFER_BYTES];
    for sheet in sheets(60) {
        let mut book = play::open(&sheet);
        let mut history = History::of_opened(&book);
        assert_eq!(history.check(&book), Ok(()));
        for event in &sheet.events {
            let checked = history.apply_checked(&mut book, event, &mut buffer);
            assert_eq!(checked, Ok(()), "{event:?}");
        }
    }
}

#[test]
fn demand_3_notices_a_wrong_value() {
    let sheet = Sheet {
        district_codes: vec![1, 2],
        items: vec![(0, 5), (1, 6)],
        events: Vec::new(),
    };
    let mut book = play::open(&sheet);
    let mut history = History::of_opened(&book);
    let begin = Event::Begin(vec![2, 0, 0, 1]);
    assert_eq!(history.apply_checked(&mut book, &begin, &mut []), Ok(()));
    let wrong = |spoil: fn(&mut Book)| {
        let mut book = book.clone();
        spoil(&mut book);
        history.check(&book).is_err()
    };
    assert!(!wrong(|_| ()));
    assert!(wrong(|book| book.items[1].held = Polyvalue::certain(5)));
    assert!(wrong(|book| book.items[0].held = Polyvalue::certain(6)));
    assert!(wrong(|book| book.items[0].pending = Polyvalue::certain(5)));
    assert!(wrong(|book| book.items[0].held.pairs.clear()));
}

/// A begin worked out assignment by assignment, as the document puts it.
#[test]
fn begin_is_as_if_run_64_times() {
    let mut buffer = vec![0; BUFFER_BYTES];
    for sheet in sheets(60) {
        let mut book = play::open(&sheet);
        for event in &sheet.events {
            let before = book.clone();
            let answer = play::apply(&mut book, event, &mut buffer);
            if let (Event::Begin(steps), Ok(Accepted::Begun(begun))) = (event, answer) {
                assert_begun(&before, &book, steps, begun.grant);
            }
        }
    }
}

fn assert_begun(before: &Book, after: &Book, steps: &[u8], grant: Grant) {
    let program = Program::read(steps, before.items.len()).expect("it was accepted");
    let mut alternatives = vec![Vec::new(); before.items.len()];
    let mut declined = 0;
    for assignment in 0..64 {
        let mut values = [0; MOST_ITEMS];
        for (value, item) in values.iter_mut().zip(&before.items) {
            *value = value_under(&item.held.pairs, assignment).expect("one pair applies");
        }
        let results = program.run(values).unwrap_or_else(|| {
            declined += 1;
            values
        });
        for (list, value) in alternatives.iter_mut().zip(results) {
            let condition = Condition(1 << assignment);
            list.push(Pair { value, condition });
        }
    }
    let expected_grant = match declined {
        0 => Grant::Always,
        64 => Grant::Never,
        _ => Grant::Sometimes,
    };
    assert_eq!(grant, expected_grant);
    for item in program.touched_items() {
        let expected = Polyvalue::joined(alternatives[item].iter().copied());
        assert_eq!(after.items[item].pending, expected);
        assert_eq!(after.items[item].held, before.items[item].held);
    }
}

#[test]
fn good_sheets_survive_being_read_and_written() {
    for index in 0..100 {
        let bytes = generator::sheet(SEED, index);
        assert_eq!(bytes, generator::sheet(SEED, index));
        match Sheet::read(&bytes) {
            Ok(sheet) => {
                assert_eq!(sheet.write(), bytes);
                assert!(printed(&bytes).ends_with("end\n"));
            }
            Err(_) => assert_eq!(printed(&bytes).lines().count(), 1),
        }
    }
}
