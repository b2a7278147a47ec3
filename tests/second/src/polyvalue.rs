//! Polyvalues: the values an item may have, each with its condition.

use crate::conditions::{Condition, Outcome, Place, ASSIGNMENTS};
use crate::refusal::Refusal;

pub const LEAST: i16 = -9_999;
pub const GREATEST: i16 = 9_999;
pub const MOST_PAIRS: usize = 8;

pub fn is_value(number: i16) -> bool {
    (LEAST..=GREATEST).contains(&number)
}

#[derive(Clone, Copy, Debug, PartialEq, Eq)]
pub struct Pair {
    pub value: i16,
    pub condition: Condition,
}

/// The field is open so that `is_proper` has something to judge: a book
/// handed in may hold anything.
#[derive(Clone, Debug, PartialEq, Eq)]
pub struct Polyvalue {
    pub pairs: Vec<Pair>,
}

impl Polyvalue {
    /// One pair that always applies.
    pub fn certain(value: i16) -> Polyvalue {
        Polyvalue {
            pairs: vec![Pair {
                value,
                condition: Condition::ALWAYS,
            }],
        }
    }

    /// Equal values join into one pair with the union of conditions, empty
    /// conditions go, values rise. The result may have more than 8 pairs;
    /// only a begin can come to that, and it refuses then.
    pub fn joined(alternatives: impl IntoIterator<Item = Pair>) -> Polyvalue {
        let mut pairs: Vec<Pair> = Vec::new();
        for new in alternatives {
            if new.condition.is_empty() {
                continue;
            }
            match pairs.binary_search_by_key(&new.value, |pair| pair.value) {
                Ok(at) => pairs[at].condition = pairs[at].condition.or(new.condition),
                Err(at) => pairs.insert(at, new),
            }
        }
        Polyvalue { pairs }
    }

    /// `completed` where the place completes, `aborted` where it aborts.
    pub fn chosen_by(place: Place, completed: &Polyvalue, aborted: &Polyvalue) -> Polyvalue {
        let narrowed = |polyvalue: &Polyvalue, outcome| -> Vec<Pair> {
            let tag = Condition::tag(place, outcome);
            polyvalue
                .pairs
                .iter()
                .map(|pair| Pair {
                    value: pair.value,
                    condition: pair.condition.and(tag),
                })
                .collect()
        };
        Polyvalue::joined(
            narrowed(completed, Outcome::Completed)
                .into_iter()
                .chain(narrowed(aborted, Outcome::Aborted)),
        )
    }

    /// The value under an assignment becomes the old one with `place` set to
    /// `outcome`. Pairs that only the other outcome allowed become empty.
    pub fn reduce(&mut self, place: Place, outcome: Outcome) {
        for pair in &mut self.pairs {
            pair.condition = pair.condition.with_place_set(place, outcome);
        }
        self.pairs.retain(|pair| !pair.condition.is_empty());
    }

    pub fn depends_on(&self, place: Place) -> bool {
        self.pairs
            .iter()
            .any(|pair| pair.condition.depends_on(place))
    }

    /// How many different values the two have together.
    pub fn values_together(&self, other: &Polyvalue) -> usize {
        let new = |pair: &&Pair| !self.pairs.iter().any(|own| own.value == pair.value);
        self.pairs.len() + other.pairs.iter().filter(new).count()
    }

    /// 1 to 8 pairs, values in range and strictly rising, no condition empty,
    /// each assignment in exactly one condition.
    pub fn is_proper(&self) -> bool {
        let mut covered = Condition::NEVER;
        for pair in &self.pairs {
            let apart = covered.and(pair.condition).is_empty();
            if !is_value(pair.value) || pair.condition.is_empty() || !apart {
                return false;
            }
            covered = covered.or(pair.condition);
        }
        (1..=MOST_PAIRS).contains(&self.pairs.len())
            && self.pairs.windows(2).all(|two| two[0].value < two[1].value)
            && covered == Condition::ALWAYS
    }
}

/// The value of a lent list of pairs, any list, under one assignment.
pub fn value_under(pairs: &[Pair], assignment: u8) -> Result<i16, Refusal> {
    if assignment >= ASSIGNMENTS {
        return Err(Refusal::NoSuchItem);
    }
    let mut applying = pairs
        .iter()
        .filter(|pair| pair.condition.contains(assignment));
    match (applying.next(), applying.next()) {
        (Some(pair), None) => Ok(pair.value),
        _ => Err(Refusal::NoSuchItem),
    }
}
