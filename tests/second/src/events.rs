//! The events. Each call judges first, in the order the document gives, and
//! changes the book only when nothing is left to refuse.

use crate::book::{
    sound, Book, District, DistrictSet, Item, Phase, Transaction, TransactionNumber,
};
use crate::conditions::{Condition, Outcome, Place};
use crate::polyvalue::{Pair, Polyvalue, MOST_PAIRS};
use crate::program::{Program, Values, MOST_ITEMS};
use crate::refusal::Refusal;
use crate::text;

/// Opens a book: certain values, all idle, none open. The sheet has seen to
/// the counts, the districts and the values.
pub fn open(districts: usize, items: &[(u8, i16)]) -> Book {
    Book {
        districts: vec![District::default(); districts],
        items: items
            .iter()
            .map(|&(district, value)| Item {
                district: usize::from(district),
                held: Polyvalue::certain(value),
                pending: Polyvalue::certain(value),
            })
            .collect(),
        ..Book::default()
    }
}

#[derive(Clone, Copy, Debug, PartialEq, Eq)]
pub enum Grant {
    Never = 0,
    Always = 1,
    Sometimes = 2,
}

#[derive(Clone, Copy, Debug, PartialEq, Eq)]
pub struct Begun {
    pub number: TransactionNumber,
    pub grant: Grant,
}

/// Refusals in order: 15, 3, 2, 5, 6, 7, 8.
pub fn begin(book: &mut Book, bytes: &[u8]) -> Result<Begun, Refusal> {
    check_sound(book)?;
    let program = Program::read(bytes, book.items.len())?;
    let items = program.touched_items();
    let districts = touched_districts(book, &items)?;
    let place = book.lowest_free_place()?;
    if book.last == TransactionNumber::LAST {
        return Err(Refusal::NumbersUsedUp);
    }
    let (results, grant) = work_out(book, &program, &items);
    let too_many = |(&item, pending): (&usize, &Polyvalue)| {
        book.items[item].held.values_together(pending) > MOST_PAIRS
    };
    if items.iter().zip(&results).any(too_many) {
        return Err(Refusal::TooManyValues);
    }

    let number = TransactionNumber(book.last.0 + 1);
    book.last = number;
    book[place] = Transaction {
        number,
        touched: districts,
        ..Transaction::default()
    };
    for (&item, pending) in items.iter().zip(results) {
        book.items[item].pending = pending;
        let district = book.items[item].district;
        book.districts[district].compute(number);
    }
    forget(book);
    Ok(Begun { number, grant })
}

/// What an event at a district names. Refusals in order: 15, 4, 1.
fn named(book: &Book, number: TransactionNumber, district: u8) -> Result<(Place, usize), Refusal> {
    check_sound(book)?;
    Ok((book.place_of(number)?, book.district(district)?))
}

/// Refusals in order: 15, 4, 1, 9.
pub fn ready(book: &mut Book, number: TransactionNumber, district: u8) -> Result<(), Refusal> {
    let (place, district) = named(book, number, district)?;
    let record = &mut book.districts[district];
    if !record.is_busy_on(number) || record.phase != Phase::Computing {
        return Err(Refusal::DistrictNotOnIt);
    }

    record.wait();
    book[place].ready.insert(district);
    forget(book);
    Ok(())
}

/// Refusals in order: 15, 4, 1, 9.
pub fn give_up(book: &mut Book, number: TransactionNumber, district: u8) -> Result<(), Refusal> {
    let (place, district) = named(book, number, district)?;
    if !book.districts[district].is_busy_on(number) {
        return Err(Refusal::DistrictNotOnIt);
    }

    if book.districts[district].phase == Phase::Computing {
        drop_pending(book, district);
        book[place].gave_up.insert(district);
    } else {
        // It stays in the ready set: the outcome is only not known here.
        for item in book.items_of(district) {
            item.held = Polyvalue::chosen_by(place, &item.pending, &item.held);
            item.pending = item.held.clone();
        }
    }
    book.districts[district].rest();
    forget(book);
    Ok(())
}

/// Refusals in order: 15, 4, 10, and 11 if complete is asked.
pub fn decide(book: &mut Book, number: TransactionNumber, outcome: Outcome) -> Result<(), Refusal> {
    check_sound(book)?;
    let place = book.place_of(number)?;
    let transaction = &mut book[place];
    if transaction.decision.is_some() {
        return Err(Refusal::AlreadyDecided);
    }
    let all_ready = transaction.touched.is_within(transaction.ready);
    if outcome == Outcome::Completed && !all_ready {
        return Err(Refusal::NotAllReady);
    }

    transaction.decision = Some(outcome);
    forget(book);
    Ok(())
}

/// Refusals in order: 15, 4, 1, 12.
pub fn hear(book: &mut Book, number: TransactionNumber, district: u8) -> Result<(), Refusal> {
    let (place, district) = named(book, number, district)?;
    let outcome = book[place].decision.ok_or(Refusal::NotDecided)?;

    if book.districts[district].is_busy_on(number) {
        match outcome {
            Outcome::Completed => install_pending(book, district),
            Outcome::Aborted => drop_pending(book, district),
        }
        book.districts[district].rest();
    }
    for item in book.items_of(district) {
        item.held.reduce(place, outcome);
        item.pending.reduce(place, outcome);
    }
    forget(book);
    Ok(())
}

/// Writes the line from the count of pairs on into the buffer's start and
/// returns its length. Refusals in order: 15, 2, 16.
///
/// A sound book has nothing to forget, so this event need not change it.
pub fn show(book: &Book, item: u8, buffer: &mut [u8]) -> Result<usize, Refusal> {
    check_sound(book)?;
    let item = book
        .items
        .get(usize::from(item))
        .ok_or(Refusal::NoSuchItem)?;
    let line = text::pairs_line(&item.held.pairs, &book.numbers());
    buffer
        .get_mut(..line.len())
        .ok_or(Refusal::BufferTooShort)?
        .copy_from_slice(line.as_bytes());
    Ok(line.len())
}

fn check_sound(book: &Book) -> Result<(), Refusal> {
    if sound(book) {
        Ok(())
    } else {
        Err(Refusal::BookNotSound)
    }
}

fn touched_districts(book: &Book, items: &[usize]) -> Result<DistrictSet, Refusal> {
    let mut touched = DistrictSet::default();
    for &item in items {
        let district = book.items[item].district;
        if !book.districts[district].is_idle() {
            return Err(Refusal::TouchedDistrictBusy);
        }
        touched.insert(district);
    }
    Ok(touched)
}

/// Runs the program under all 64 assignments. Those that choose the same held
/// values for all touched items give the same result, so each such group is
/// run once. Returns the results in the order of `items`.
fn work_out(book: &Book, program: &Program, items: &[usize]) -> (Vec<Polyvalue>, Grant) {
    let mut groups = groups_of_assignments(book, items);
    let mut declined = Condition::NEVER;
    for (condition, values) in &mut groups {
        match program.run(*values) {
            Some(after) => *values = after,
            None => declined = declined.or(*condition),
        }
    }
    let result = |&item: &usize| {
        Polyvalue::joined(groups.iter().map(|&(condition, values)| Pair {
            value: values[item],
            condition,
        }))
    };
    let grant = match declined {
        Condition::NEVER => Grant::Always,
        Condition::ALWAYS => Grant::Never,
        _ => Grant::Sometimes,
    };
    (items.iter().map(result).collect(), grant)
}

/// The 64 assignments, grouped by the held values they choose for `items`.
fn groups_of_assignments(book: &Book, items: &[usize]) -> Vec<(Condition, Values)> {
    let mut groups = vec![(Condition::ALWAYS, [0; MOST_ITEMS])];
    for &item in items {
        let mut finer = Vec::with_capacity(groups.len());
        for (condition, values) in groups {
            for pair in &book.items[item].held.pairs {
                let both = condition.and(pair.condition);
                if !both.is_empty() {
                    let mut values = values;
                    values[item] = pair.value;
                    finer.push((both, values));
                }
            }
        }
        groups = finer;
    }
    groups
}

fn install_pending(book: &mut Book, district: usize) {
    for item in book.items_of(district) {
        item.held = item.pending.clone();
    }
}

fn drop_pending(book: &mut Book, district: usize) {
    for item in book.items_of(district) {
        item.pending = item.held.clone();
    }
}

/// At the end of each accepted event: a decided transaction that no district
/// is on and no polyvalue depends on is closed and its place freed.
fn forget(book: &mut Book) {
    for place in Place::all() {
        if book[place].decision.is_some() && !book.is_in_use(place) {
            book[place] = Transaction::default();
        }
    }
}
