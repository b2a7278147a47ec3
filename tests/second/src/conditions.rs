//! Conditions: sets of assignments, and the products of tags within them.

/// Tag places, and so transactions open at once.
pub const PLACES: usize = 6;
/// An assignment says completed or aborted for each place.
pub const ASSIGNMENTS: u8 = 1 << PLACES;
/// Each place is absent, completed or aborted in a product: 3 to the power 6.
pub const PRODUCTS: u16 = 729;

/// A tag place, 0 to 5. Never to be taken for a transaction number.
#[derive(Clone, Copy, Debug, PartialEq, Eq)]
pub struct Place(pub usize);

impl Place {
    pub fn all() -> impl Iterator<Item = Place> {
        (0..PLACES).map(Place)
    }
}

/// What became, or may become, of a transaction.
#[derive(Clone, Copy, Debug, PartialEq, Eq)]
pub enum Outcome {
    Completed,
    Aborted,
}

/// A set of assignments: bit n is set if assignment n is a member.
#[derive(Clone, Copy, Debug, PartialEq, Eq)]
pub struct Condition(pub u64);

impl Condition {
    pub const NEVER: Condition = Condition(0);
    pub const ALWAYS: Condition = Condition(u64::MAX);

    /// The assignments that give this place this outcome.
    pub fn tag(place: Place, outcome: Outcome) -> Condition {
        match outcome {
            Outcome::Completed => Condition(COMPLETED[place.0]),
            Outcome::Aborted => Condition(!COMPLETED[place.0]),
        }
    }

    pub fn is_empty(self) -> bool {
        self == Condition::NEVER
    }

    /// Membership of an assignment; numbers over 63 are members of nothing.
    pub fn contains(self, assignment: u8) -> bool {
        assignment < ASSIGNMENTS && self.0 >> assignment & 1 == 1
    }

    pub fn and(self, other: Condition) -> Condition {
        Condition(self.0 & other.0)
    }

    pub fn or(self, other: Condition) -> Condition {
        Condition(self.0 | other.0)
    }

    /// Can changing that place alone change membership?
    pub fn depends_on(self, place: Place) -> bool {
        let apart = 1 << place.0;
        (self.0 ^ self.0 >> apart) & !COMPLETED[place.0] != 0
    }

    /// The assignments that are members once `place` is set to `outcome`.
    pub fn with_place_set(self, place: Place, outcome: Outcome) -> Condition {
        let apart = 1 << place.0;
        let half = self.and(Condition::tag(place, outcome)).0;
        match outcome {
            Outcome::Completed => Condition(half | half >> apart),
            Outcome::Aborted => Condition(half | half << apart),
        }
    }

    /// All prime products of the condition, by rising number.
    pub fn primes(self) -> impl Iterator<Item = Product> {
        (0..PRODUCTS)
            .map(Product)
            .filter(move |product| product.is_prime_of(self))
    }
}

/// A product of tags by its number: place i counts 0 (absent), 1 (completed)
/// or 2 (aborted) times 3 to the power i.
#[derive(Clone, Copy, Debug, PartialEq, Eq)]
pub struct Product(pub u16);

impl Product {
    /// The product of no tags; it allows every assignment.
    pub const EMPTY: Product = Product(0);

    /// The assignments that the product allows.
    pub fn allows(self) -> Condition {
        Condition(ALLOWED[usize::from(self.0)])
    }

    pub fn within(self, condition: Condition) -> bool {
        self.allows().and(condition) == self.allows()
    }

    pub fn is_prime_of(self, condition: Condition) -> bool {
        self.within(condition) && self.with_one_tag_fewer().all(|p| !p.within(condition))
    }

    /// The tags of the product, in place order.
    pub fn tags(self) -> impl Iterator<Item = (Place, Outcome)> {
        Place::all().filter_map(move |place| match self.digit(place) {
            0 => None,
            1 => Some((place, Outcome::Completed)),
            _ => Some((place, Outcome::Aborted)),
        })
    }

    fn with_one_tag_fewer(self) -> impl Iterator<Item = Product> {
        Place::all().filter_map(move |place| match self.digit(place) {
            0 => None,
            digit => Some(Product(self.0 - digit * WEIGHTS[place.0])),
        })
    }

    fn digit(self, place: Place) -> u16 {
        self.0 / WEIGHTS[place.0] % 3
    }
}

const WEIGHTS: [u16; PLACES] = [1, 3, 9, 27, 81, 243];
const COMPLETED: [u64; PLACES] = completed_sets();
static ALLOWED: [u64; PRODUCTS as usize] = allowed_sets();

/// For each place, the assignments whose number has that place's bit.
const fn completed_sets() -> [u64; PLACES] {
    let mut sets = [0; PLACES];
    let mut place = 0;
    while place < PLACES {
        let mut assignment = 0;
        while assignment < ASSIGNMENTS {
            if assignment >> place & 1 == 1 {
                sets[place] |= 1 << assignment;
            }
            assignment += 1;
        }
        place += 1;
    }
    sets
}

/// A product is the product without its highest tag, narrowed by that tag.
const fn allowed_sets() -> [u64; PRODUCTS as usize] {
    let mut sets = [u64::MAX; PRODUCTS as usize];
    let mut place = 0;
    while place < PLACES {
        let weight = WEIGHTS[place] as usize;
        let mut lower = 0;
        while lower < weight {
            sets[weight + lower] = sets[lower] & COMPLETED[place];
            sets[2 * weight + lower] = sets[lower] & !COMPLETED[place];
            lower += 1;
        }
        place += 1;
    }
    sets
}
