//! The book and when it is sound.

use crate::conditions::{Outcome, Place, PLACES};
use crate::polyvalue::{Polyvalue, MOST_PAIRS};
use crate::program::MOST_ITEMS;
use crate::refusal::Refusal;

pub const MOST_DISTRICTS: usize = 8;

/// A transaction number. Given once, never again; 0 names none.
#[derive(Clone, Copy, Debug, Default, PartialEq, Eq, Hash)]
pub struct TransactionNumber(pub u16);

impl TransactionNumber {
    pub const NONE: TransactionNumber = TransactionNumber(0);
    pub const LAST: TransactionNumber = TransactionNumber(u16::MAX);
}

/// A set of districts: bit d is set if district d is a member.
#[derive(Clone, Copy, Debug, Default, PartialEq, Eq)]
pub struct DistrictSet(pub u8);

impl DistrictSet {
    pub fn contains(self, district: usize) -> bool {
        district < MOST_DISTRICTS && self.0 >> district & 1 == 1
    }

    /// `district` is below the count, and so below 8.
    pub fn insert(&mut self, district: usize) {
        self.0 |= 1 << district;
    }

    pub fn is_within(self, other: DistrictSet) -> bool {
        self.0 & !other.0 == 0
    }

    pub fn is_apart_from(self, other: DistrictSet) -> bool {
        self.0 & other.0 == 0
    }

    pub fn first(count: usize) -> DistrictSet {
        let mut set = DistrictSet::default();
        (0..count.min(MOST_DISTRICTS)).for_each(|district| set.insert(district));
        set
    }
}

#[derive(Clone, Copy, Debug, Default, PartialEq, Eq)]
pub enum Phase {
    #[default]
    Idle,
    Computing,
    Waiting,
}

/// A district's record: what it is doing, and for which transaction.
#[derive(Clone, Copy, Debug, Default, PartialEq, Eq)]
pub struct District {
    pub phase: Phase,
    pub on: TransactionNumber,
}

impl District {
    pub fn is_idle(&self) -> bool {
        self.phase == Phase::Idle
    }

    pub fn is_busy_on(&self, number: TransactionNumber) -> bool {
        !self.is_idle() && self.on == number
    }

    pub fn compute(&mut self, number: TransactionNumber) {
        self.phase = Phase::Computing;
        self.on = number;
    }

    pub fn wait(&mut self) {
        self.phase = Phase::Waiting;
    }

    pub fn rest(&mut self) {
        self.phase = Phase::Idle;
        self.on = TransactionNumber::NONE;
    }
}

#[derive(Clone, Debug, PartialEq, Eq)]
pub struct Item {
    pub district: usize,
    pub held: Polyvalue,
    pub pending: Polyvalue,
}

/// The row of a tag place; number 0 marks a free place, all zeros.
#[derive(Clone, Copy, Debug, Default, PartialEq, Eq)]
pub struct Transaction {
    pub number: TransactionNumber,
    pub touched: DistrictSet,
    pub ready: DistrictSet,
    pub gave_up: DistrictSet,
    pub decision: Option<Outcome>,
}

impl Transaction {
    pub fn is_open(&self) -> bool {
        self.number != TransactionNumber::NONE
    }
}

/// The counts of districts and items are the lengths of their lists, so there
/// are no rows past the counts. The default is the all-zero book.
#[derive(Clone, Debug, Default, PartialEq, Eq)]
pub struct Book {
    pub districts: Vec<District>,
    pub items: Vec<Item>,
    pub places: [Transaction; PLACES],
    pub last: TransactionNumber,
}

impl Book {
    /// The place of the open transaction with this number.
    pub fn place_of(&self, number: TransactionNumber) -> Result<Place, Refusal> {
        Place::all()
            .find(|&place| self[place].is_open() && self[place].number == number)
            .ok_or(Refusal::NotOpen)
    }

    pub fn lowest_free_place(&self) -> Result<Place, Refusal> {
        Place::all()
            .find(|&place| !self[place].is_open())
            .ok_or(Refusal::SixAreOpen)
    }

    pub fn district(&self, number: u8) -> Result<usize, Refusal> {
        let district = usize::from(number);
        if district < self.districts.len() {
            Ok(district)
        } else {
            Err(Refusal::NoSuchDistrict)
        }
    }

    pub fn items_of(&mut self, district: usize) -> impl Iterator<Item = &mut Item> {
        self.items
            .iter_mut()
            .filter(move |item| item.district == district)
    }

    /// The transaction numbers that the tags of a condition print as.
    pub fn numbers(&self) -> [TransactionNumber; PLACES] {
        self.places.map(|transaction| transaction.number)
    }

    /// Is a district on it, or does a polyvalue depend on its place?
    pub fn is_in_use(&self, place: Place) -> bool {
        let number = self[place].number;
        self.districts
            .iter()
            .any(|district| district.is_busy_on(number))
            || self.any_polyvalue_depends_on(place)
    }

    fn any_polyvalue_depends_on(&self, place: Place) -> bool {
        self.items
            .iter()
            .any(|item| item.held.depends_on(place) || item.pending.depends_on(place))
    }
}

impl std::ops::Index<Place> for Book {
    type Output = Transaction;

    fn index(&self, place: Place) -> &Transaction {
        &self.places[place.0]
    }
}

impl std::ops::IndexMut<Place> for Book {
    fn index_mut(&mut self, place: Place) -> &mut Transaction {
        &mut self.places[place.0]
    }
}

/// The paragraph "Sound books", clause by clause. What the types already say
/// (six places, phases, decisions, numbers of 16 bits) needs no clause.
pub fn sound(book: &Book) -> bool {
    counts_are_right(book)
        && items_are_right(book)
        && free_places_are_right(book)
        && open_numbers_are_right(book)
        && Place::all()
            .filter(|&place| book[place].is_open())
            .all(|place| open_transaction_is_right(book, place))
        && book
            .districts
            .iter()
            .enumerate()
            .all(|(number, district)| district_is_right(book, number, district))
}

fn counts_are_right(book: &Book) -> bool {
    (1..=MOST_DISTRICTS).contains(&book.districts.len())
        && (1..=MOST_ITEMS).contains(&book.items.len())
}

fn items_are_right(book: &Book) -> bool {
    book.items.iter().all(|item| {
        item.district < book.districts.len() && item.held.is_proper() && item.pending.is_proper()
    })
}

/// Free places hold zeros; nothing depends on a free place.
fn free_places_are_right(book: &Book) -> bool {
    Place::all()
        .filter(|&place| !book[place].is_open())
        .all(|place| book[place] == Transaction::default() && !book.any_polyvalue_depends_on(place))
}

/// Open numbers differ, are at least 1 and none exceeds the last given.
fn open_numbers_are_right(book: &Book) -> bool {
    let open = || book.places.iter().filter(|row| row.is_open());
    open().all(|row| row.number.0 <= book.last.0)
        && open()
            .enumerate()
            .all(|(at, row)| open().skip(at + 1).all(|other| other.number != row.number))
}

fn open_transaction_is_right(book: &Book, place: Place) -> bool {
    let transaction = &book[place];
    // A decided open transaction has a district on it or a polyvalue that
    // depends on its place.
    (transaction.decision.is_none() || book.is_in_use(place))
        // Ready and gave-up sets are apart and within touched.
        && transaction.ready.is_apart_from(transaction.gave_up)
        && transaction.ready.is_within(transaction.touched)
        && transaction.gave_up.is_within(transaction.touched)
        && transaction.touched.is_within(DistrictSet::first(book.districts.len()))
        // A completed transaction has every touched district ready.
        && (transaction.decision != Some(Outcome::Completed)
            || transaction.touched.is_within(transaction.ready))
}

fn district_is_right(book: &Book, number: usize, district: &District) -> bool {
    let mut items = book.items.iter().filter(|item| item.district == number);
    if district.is_idle() {
        // An idle record names transaction 0; pending equals held.
        return district.on == TransactionNumber::NONE
            && items.all(|item| item.pending == item.held);
    }
    // A busy district is on an open transaction that touches it.
    let Ok(place) = book.place_of(district.on) else {
        return false;
    };
    let transaction = &book[place];
    let ready = transaction.ready.contains(number);
    let gave_up = transaction.gave_up.contains(number);
    let phase_is_right = match district.phase {
        // Waiting districts are in its ready set, computing ones in neither.
        Phase::Waiting => ready,
        _ => !ready && !gave_up,
    };
    // Neither depends on its own transaction, and held and pending of an item
    // have at most 8 different values together.
    transaction.touched.contains(number)
        && phase_is_right
        && items.all(|item| {
            !item.held.depends_on(place)
                && !item.pending.depends_on(place)
                && item.held.values_together(&item.pending) <= MOST_PAIRS
        })
}
