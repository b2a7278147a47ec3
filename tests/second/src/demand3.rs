//! Demand 3 by brute force: beside a book its history is kept, and after each
//! event every guess of outcomes is played serially and compared.

use std::collections::HashMap;

use crate::book::{sound, Book, Phase, TransactionNumber};
use crate::conditions::{Outcome, Place, PLACES};
use crate::play::{apply, Accepted};
use crate::polyvalue::value_under;
use crate::program::{Program, Values, MOST_ITEMS};
use crate::sheet::Event;

struct Begun {
    number: TransactionNumber,
    program: Program,
    /// A district gave it up before that district was ready.
    given_up_early: bool,
}

/// What has happened to a book since it was opened, from the accepted events
/// alone: nothing is taken from the book's own sets and decisions.
pub struct History {
    /// The opening values, after the settled transactions at the front.
    values: Values,
    /// Accepted begins in their order, from the first not settled one on.
    begun: Vec<Begun>,
    decided: HashMap<TransactionNumber, Outcome>,
}

impl History {
    /// `book` is newly opened: every item has one certain value.
    pub fn of_opened(book: &Book) -> History {
        let mut values = [0; MOST_ITEMS];
        for (value, item) in values.iter_mut().zip(&book.items) {
            *value = item.held.pairs[0].value;
        }
        History {
            values,
            begun: Vec::new(),
            decided: HashMap::new(),
        }
    }

    /// Applies the event and checks what the demands say of any book: a
    /// refused call left it as it was, it is sound, and demand 3 holds.
    pub fn apply_checked(
        &mut self,
        book: &mut Book,
        event: &Event,
        buffer: &mut [u8],
    ) -> Result<(), String> {
        let before = book.clone();
        match apply(book, event, buffer) {
            Ok(accepted) => self.record(&before, event, accepted),
            Err(_) if *book != before => return Err("a refused call changed the book".into()),
            Err(_) => {}
        }
        if !sound(book) {
            return Err("the book is not sound".into());
        }
        self.check(book)
    }

    fn record(&mut self, before: &Book, event: &Event, accepted: Accepted) {
        match (event, accepted) {
            (Event::Begin(steps), Accepted::Begun(begun)) => {
                if let Ok(program) = Program::read(steps, before.items.len()) {
                    self.begun.push(Begun {
                        number: begun.number,
                        program,
                        given_up_early: false,
                    });
                }
            }
            (&Event::Complete(number), _) => self.decide(number, Outcome::Completed),
            (&Event::Abort(number), _) => self.decide(number, Outcome::Aborted),
            (&Event::GiveUp(number, district), _) => {
                let was = before.districts[usize::from(district)].phase;
                for begun in &mut self.begun {
                    begun.given_up_early |= begun.number == number && was == Phase::Computing;
                }
            }
            _ => {}
        }
    }

    /// Decided transactions that nothing undecided goes before run the same
    /// in every guess; running them once keeps long mornings checkable.
    fn decide(&mut self, number: TransactionNumber, outcome: Outcome) {
        self.decided.insert(number, outcome);
        let settled = self
            .begun
            .iter()
            .take_while(|begun| self.decided.contains_key(&begun.number))
            .count();
        for begun in self.begun.drain(..settled) {
            if self.decided[&begun.number] == Outcome::Completed {
                self.values = begun.program.run(self.values).unwrap_or(self.values);
            }
        }
    }

    /// Demand 3, for every guess. Only undecided transactions are guessed,
    /// and at most six are, since only decided ones are closed.
    pub fn check(&self, book: &Book) -> Result<(), String> {
        let free: Vec<TransactionNumber> = self
            .begun
            .iter()
            .filter(|begun| !begun.given_up_early && !self.decided.contains_key(&begun.number))
            .map(|begun| begun.number)
            .collect();
        if free.len() > PLACES {
            return Err(format!("{} transactions are undecided", free.len()));
        }
        (0..1u8 << free.len()).try_for_each(|bits| {
            let completes = |number| match self.decided.get(&number) {
                Some(&outcome) => outcome == Outcome::Completed,
                None => free
                    .iter()
                    .position(|&other| other == number)
                    .is_some_and(|at| bits >> at & 1 == 1),
            };
            self.check_guess(book, &completes)
        })
    }

    /// `completes` is the guess; of number 0, so of a free place, it says no.
    fn check_guess(
        &self,
        book: &Book,
        completes: &impl Fn(TransactionNumber) -> bool,
    ) -> Result<(), String> {
        let serial = self
            .begun
            .iter()
            .filter(|begun| completes(begun.number))
            .fold(self.values, |values, begun| {
                begun.program.run(values).unwrap_or(values)
            });
        let assignment = Place::all()
            .filter(|&place| completes(book[place].number))
            .fold(0, |sum, place| sum | 1u8 << place.0);

        for (at, item) in book.items.iter().enumerate() {
            let district = book.districts[item.district];
            let held = value_under(&item.held.pairs, assignment);
            let value = if !district.is_idle() && completes(district.on) {
                held.and(value_under(&item.pending.pairs, assignment))
            } else {
                held
            };
            if value != Ok(serial[at]) {
                return Err(format!(
                    "item {at} under assignment {assignment}: {value:?}, but serially {}",
                    serial[at]
                ));
            }
        }
        Ok(())
    }
}
