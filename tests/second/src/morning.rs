//! A morning made event by event on a book, so that most events are valid and
//! the polyvalues grow rich.

use crate::book::{Book, Phase, Transaction, TransactionNumber};
use crate::conditions::Place;
use crate::play;
use crate::program::steps;
use crate::rng::Rng;
use crate::sheet::{Event, Sheet};

const NEED: u8 = 1;
const ADD: u8 = 2;
const SET: u8 = 3;
const COPY: u8 = 4;

/// How often, against the other numbers, a morning takes each action.
#[derive(Clone, Copy)]
pub struct Habits {
    pub begin: usize,
    pub ready: usize,
    /// Give up while waiting: the link is lost, polyvalues come up.
    pub lose_link: usize,
    /// Give up while computing: the transaction cannot complete any more.
    pub quit: usize,
    pub decide: usize,
    pub hear: usize,
    pub show: usize,
    pub wrong: usize,
    pub programs: Programs,
}

impl Habits {
    pub const USUAL: Habits = Habits {
        begin: 20,
        ready: 30,
        lose_link: 16,
        quit: 3,
        decide: 7,
        hear: 12,
        show: 12,
        wrong: 3,
        programs: Programs::Usual,
    };
}

#[derive(Clone, Copy)]
pub enum Programs {
    /// Small operands, mostly holds across two districts.
    Usual,
    /// Made for many values and for conditions over many places.
    Widening,
    /// Operands, items, kinds and step counts at and over their limits.
    Edge,
}

/// How large the book is and what its opening values are like.
#[derive(Clone, Copy)]
pub struct Layout {
    districts: usize,
    items: usize,
    edge_values: bool,
}

impl Layout {
    pub const USUAL: Layout = Layout {
        districts: 8,
        items: 32,
        edge_values: false,
    };
    /// About as many items as districts.
    pub const EVEN: Layout = Layout {
        items: 10,
        ..Layout::USUAL
    };
    /// Few items, so that many transactions meet in one.
    pub const SMALL: Layout = Layout {
        districts: 3,
        items: 4,
        ..Layout::USUAL
    };
    pub const EDGE: Layout = Layout {
        items: 12,
        edge_values: true,
        ..Layout::USUAL
    };
}

pub struct Morning<'a> {
    rng: &'a mut Rng,
    sheet: Sheet,
    book: Book,
    length: usize,
}

impl<'a> Morning<'a> {
    /// The layout gives the most districts and items; fewer are drawn.
    pub fn open(rng: &'a mut Rng, layout: Layout) -> Morning<'a> {
        let districts = 1 + rng.below(layout.districts);
        let items = 1 + rng.below(layout.items);
        let mut sheet = Sheet::default();
        let mut code = 0;
        for _ in 0..districts {
            code += 1 + rng.below(30) as u8;
            sheet.district_codes.push(code);
        }
        for _ in 0..items {
            let value = match layout.edge_values {
                true => rng.one_of([-9_999, -9_998, -1, 0, 1, 9_998, 9_999]),
                false => rng.between(-1..=4),
            };
            sheet.items.push((rng.below(districts) as u8, value));
        }
        Morning {
            length: sheet.write().len(),
            book: play::open(&sheet),
            rng,
            sheet,
        }
    }

    pub fn length(&self) -> usize {
        self.length
    }

    pub fn into_bytes(self) -> Vec<u8> {
        self.sheet.write()
    }

    pub fn act_times(&mut self, habits: &Habits, times: usize) {
        for _ in 0..times {
            self.act(habits);
        }
    }

    /// One event by the habits; a show if the action is not possible now.
    pub fn act(&mut self, habits: &Habits) {
        let action = self.rng.weighted([
            habits.begin,
            habits.ready,
            habits.lose_link,
            habits.quit,
            habits.decide,
            habits.hear,
            habits.wrong,
            habits.show,
        ]);
        let event = match action {
            0 => Some(self.begin(habits.programs)),
            1 => self.ready(),
            2 => self.give_up(Phase::Waiting),
            3 => self.give_up(Phase::Computing),
            4 => self.decide(),
            5 => self.hear(),
            6 => Some(self.wrong()),
            _ => None,
        };
        let event = event.unwrap_or_else(|| self.show());
        self.push(event);
    }

    /// Several transactions, one after the other, each ready everywhere and
    /// then without its link everywhere; none is decided.
    pub fn lose_many_links(&mut self) {
        for _ in 0..self.rng.one_of([2, 3, 4, 5, 6, 6, 7]) {
            let steps = self.widening_program();
            self.push(Event::Begin(steps));
            let number = self.book.last;
            for (on, district) in self.busy(Phase::Computing) {
                if on == number {
                    self.push(Event::Ready(number, district));
                }
            }
            for (on, district) in self.busy(Phase::Waiting) {
                if on == number && !self.rng.chance(3) {
                    self.push(Event::GiveUp(number, district));
                }
            }
            if self.rng.chance(30) {
                self.show_any();
            }
        }
    }

    /// Tries to add to the item with the most values.
    pub fn overfill(&mut self) {
        let more = self.rng.one_of([0, 1, 2, 100]);
        let item = self.widest_item();
        self.push(Event::Begin(steps(&[(ADD, item, more)])));
    }

    pub fn show_all(&mut self) {
        for item in 0..self.book.items.len() {
            self.push(Event::Show(item as u8));
        }
    }

    pub fn show_any(&mut self) {
        let event = self.show();
        self.push(event);
    }

    pub fn complete_any(&mut self) {
        let number = self.any_number();
        self.push(Event::Complete(number));
    }

    /// Shows are not played: they change nothing.
    fn push(&mut self, event: Event) {
        if !matches!(event, Event::Show(_)) {
            // What it answers does not matter, the book is right either way.
            let _ = play::apply(&mut self.book, &event, &mut []);
        }
        let mut bytes = Vec::new();
        event.write(&mut bytes);
        self.length += bytes.len();
        self.sheet.events.push(event);
    }

    fn begin(&mut self, programs: Programs) -> Event {
        let steps = match programs {
            Programs::Usual if self.rng.chance(3) => self.edge_program(),
            Programs::Usual => self.usual_program(),
            Programs::Widening => self.widening_program(),
            Programs::Edge => self.edge_program(),
        };
        Event::Begin(steps)
    }

    fn ready(&mut self) -> Option<Event> {
        let (number, district) = self.rng.pick(&self.busy(Phase::Computing))?;
        Some(Event::Ready(number, district))
    }

    fn give_up(&mut self, phase: Phase) -> Option<Event> {
        let (number, district) = self.rng.pick(&self.busy(phase))?;
        Some(Event::GiveUp(number, district))
    }

    fn decide(&mut self) -> Option<Event> {
        let undecided: Vec<Transaction> = self
            .open_transactions()
            .filter(|transaction| transaction.decision.is_none())
            .copied()
            .collect();
        let transaction = self.rng.pick(&undecided)?;
        let all_ready = transaction.touched == transaction.ready;
        let complete = self.rng.chance(if all_ready { 65 } else { 30 });
        Some(match complete {
            true => Event::Complete(transaction.number),
            false => Event::Abort(transaction.number),
        })
    }

    /// Mostly where it makes a difference, but anywhere is allowed.
    fn hear(&mut self) -> Option<Event> {
        let decided: Vec<Place> = Place::all()
            .filter(|&place| self.book[place].decision.is_some())
            .collect();
        let place = self.rng.pick(&decided)?;
        let number = self.book[place].number;
        let concerned: Vec<u8> = (0..self.book.districts.len())
            .filter(|&district| {
                self.book.districts[district].is_busy_on(number)
                    || self.book.items.iter().any(|item| {
                        item.district == district
                            && (item.held.depends_on(place) || item.pending.depends_on(place))
                    })
            })
            .map(|district| district as u8)
            .collect();
        let district = match self.rng.pick(&concerned) {
            Some(district) if self.rng.chance(75) => district,
            _ => self.rng.below(self.book.districts.len()) as u8,
        };
        Some(Event::Hear(number, district))
    }

    fn show(&mut self) -> Event {
        let unsure: Vec<u8> = (0..self.book.items.len())
            .filter(|&item| self.book.items[item].held.pairs.len() > 1)
            .map(|item| item as u8)
            .collect();
        match self.rng.pick(&unsure) {
            Some(item) if self.rng.chance(80) => Event::Show(item),
            _ => Event::Show(self.rng.below(self.book.items.len()) as u8),
        }
    }

    /// An event with any number, district and item; some are even right.
    fn wrong(&mut self) -> Event {
        let number = self.any_number();
        let district = match self.rng.below(8) {
            0 => self.rng.byte(),
            1 => self.book.districts.len() as u8,
            _ => self.rng.below(self.book.districts.len()) as u8,
        };
        match self.rng.below(8) {
            0 => Event::Ready(number, district),
            1 => Event::GiveUp(number, district),
            2 => Event::Complete(number),
            3 => Event::Abort(number),
            4 | 5 => Event::Hear(number, district),
            6 => Event::Show(match self.rng.below(3) {
                0 => self.rng.byte(),
                1 => self.book.items.len() as u8,
                _ => self.rng.below(self.book.items.len()) as u8,
            }),
            _ => Event::Begin(self.edge_program()),
        }
    }

    /// Open, closed, never given, or 0.
    fn any_number(&mut self) -> TransactionNumber {
        let open: Vec<TransactionNumber> =
            self.open_transactions().map(|open| open.number).collect();
        let last = self.book.last.0;
        match self.rng.below(12) {
            0 => TransactionNumber(self.rng.draw() as u16),
            1 => TransactionNumber(last + 1),
            2 => TransactionNumber(self.rng.below(usize::from(last) + 1) as u16),
            // A tag place is not a number; here it is passed for one.
            3 => TransactionNumber(self.rng.below(6) as u16),
            _ => self.rng.pick(&open).unwrap_or_default(),
        }
    }

    fn open_transactions(&self) -> impl Iterator<Item = &Transaction> {
        self.book.places.iter().filter(|row| row.is_open())
    }

    /// The districts in this phase, with the transaction they are on.
    fn busy(&self, phase: Phase) -> Vec<(TransactionNumber, u8)> {
        self.book
            .districts
            .iter()
            .zip(0..)
            .filter(|(record, _)| record.phase == phase)
            .map(|(record, district)| (record.on, district))
            .collect()
    }

    /// Mostly an item of an idle district.
    fn usable_item(&mut self) -> u8 {
        let idle: Vec<u8> = self
            .book
            .items
            .iter()
            .zip(0..)
            .filter(|(item, _)| self.book.districts[item.district].is_idle())
            .map(|(_, number)| number)
            .collect();
        match self.rng.pick(&idle) {
            Some(item) if self.rng.chance(95) => item,
            _ => self.rng.below(self.book.items.len()) as u8,
        }
    }

    /// A usable item, in another district if one is soon found.
    fn item_elsewhere(&mut self, item: u8) -> u8 {
        let district_of =
            |morning: &Self, number: u8| morning.book.items[usize::from(number)].district;
        let here = district_of(self, item);
        let mut other = self.usable_item();
        for _ in 0..8 {
            if district_of(self, other) != here {
                break;
            }
            other = self.usable_item();
        }
        other
    }

    fn usual_program(&mut self) -> Vec<u8> {
        let from = self.usable_item();
        let to = self.item_elsewhere(from);
        let small = self.rng.between(-2..=5);
        match self.rng.below(10) {
            // Take a dock in one district and give one back in another.
            0..=3 => steps(&[(NEED, from, 1), (ADD, from, -1), (ADD, to, 1)]),
            4 => steps(&[(ADD, from, -1), (ADD, to, 1)]),
            5 => steps(&[(ADD, from, small)]),
            6 => steps(&[(NEED, from, small), (SET, to, small)]),
            7 => steps(&[(COPY, to, i16::from(from)), (ADD, to, small)]),
            8 => steps(&[(SET, from, small), (NEED, to, 2)]),
            _ => {
                let count = 1 + self.rng.below(8);
                let drawn: Vec<_> = (0..count)
                    .map(|_| {
                        let item = self.rng.one_of([from, to]);
                        match self.rng.below(4) {
                            0 => (NEED, item, self.rng.between(-1..=2)),
                            1 => (ADD, item, self.rng.between(-2..=2)),
                            2 => (SET, item, self.rng.between(0..=4)),
                            _ => (COPY, item, i16::from(self.rng.one_of([from, to]))),
                        }
                    })
                    .collect();
                steps(&drawn)
            }
        }
    }

    /// Adding 1, 2 and 4 makes eight values; the other programs keep values
    /// few while their conditions come to depend on many places.
    fn widening_program(&mut self) -> Vec<u8> {
        let item = self.usable_item();
        let other = self.item_elsewhere(item);
        let small = self.rng.between(0..=7);
        match self.rng.below(10) {
            0 => {
                let most = self.rng.one_of([1, 4, 100, 9_000]);
                steps(&[(NEED, other, 0), (ADD, self.widest_item(), most)])
            }
            1 | 2 => steps(&[(ADD, item, self.rng.one_of([1, 1, 1, -1, 2, 4]))]),
            3 => {
                let unlike = self.rng.one_of([1, 2, 4, 8, 3]);
                steps(&[(ADD, item, unlike), (ADD, other, -unlike)])
            }
            4 | 5 => steps(&[(NEED, item, 1), (ADD, item, -1), (ADD, other, 1)]),
            6 => steps(&[(NEED, item, small), (SET, other, small)]),
            7 => steps(&[(NEED, item, small), (SET, item, small)]),
            8 => steps(&[(COPY, other, i16::from(item))]),
            _ => self.usual_program(),
        }
    }

    /// The item with the most values, to be given more than it has room for.
    fn widest_item(&self) -> u8 {
        let pairs = |&number: &usize| self.book.items[number].held.pairs.len();
        (0..self.book.items.len()).max_by_key(pairs).unwrap_or(0) as u8
    }

    fn edge_program(&mut self) -> Vec<u8> {
        let count = match self.rng.below(40) {
            0 => 0,
            1 => 9,
            2 => self.rng.one_of([10, 16, 64, 255]),
            3..=20 => 1,
            _ => 1 + self.rng.below(8),
        };
        let drawn: Vec<_> = (0..count).map(|_| self.edge_step()).collect();
        steps(&drawn)
    }

    fn edge_step(&mut self) -> (u8, u8, i16) {
        let items = self.book.items.len();
        let item = match self.rng.below(50) {
            0 => items as u8,
            1 => self.rng.one_of([31, 32, 255]),
            _ => self.usable_item(),
        };
        let kind = match self.rng.below(60) {
            0 => self.rng.one_of([0, 5, 255]),
            _ => self.rng.one_of([NEED, ADD, ADD, SET, COPY]),
        };
        let operand = match (kind, self.rng.below(30)) {
            (COPY, 0) => self.rng.one_of([items as i16, 32, 255, 256, 9_999, 10_000]),
            (COPY, 1) => self.rng.one_of([-1, -10_000, i16::MIN]),
            (COPY, _) => i16::from(self.usable_item()),
            (_, 0) => self.rng.one_of([10_000, -10_000, i16::MAX, i16::MIN]),
            (_, 1..=12) => self.rng.one_of([9_999, -9_999, 9_998, -9_998]),
            _ => self.rng.between(-2..=2),
        };
        (kind, item, operand)
    }
}
