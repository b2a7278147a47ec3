//! Counts what printed sheets reached, from their text alone.

use std::collections::BTreeSet;
use std::fmt;

use crate::conditions::PLACES;
use crate::polyvalue::MOST_PAIRS;

/// All but 7, which takes more begins than a sheet can hold, and 15 and 16,
/// which no sheet can bring about.
const ANSWERS: [usize; 14] = [0, 1, 2, 3, 4, 5, 6, 8, 9, 10, 11, 12, 13, 14];

#[derive(Default)]
pub struct Tally {
    answers: [u64; 17],
    /// Shown polyvalues by their count of pairs.
    pairs: [u64; MOST_PAIRS + 1],
    /// Shown conditions by how many different tags they print.
    tags: [u64; PLACES + 1],
}

impl Tally {
    /// So many things have to come up.
    pub const CHECKS: usize = ANSWERS.len() + MOST_PAIRS;

    /// Counts one sheet by what is printed for it.
    pub fn count(&mut self, printed: &str) {
        for line in printed.lines() {
            let mut fields = line.split(' ').skip(1);
            let Some(answer) = fields.next().and_then(|field| field.parse().ok()) else {
                continue;
            };
            add_one(&mut self.answers, answer);
            // Only the fields of a show have a colon.
            let conditions: Vec<&str> = fields
                .filter_map(|field| field.split_once(':'))
                .map(|(_, condition)| condition)
                .collect();
            if !conditions.is_empty() {
                add_one(&mut self.pairs, conditions.len());
            }
            for condition in conditions {
                add_one(&mut self.tags, different_tags(condition));
            }
        }
    }

    /// What never came up.
    pub fn missing(&self) -> Vec<String> {
        let answers = ANSWERS
            .iter()
            .filter(|&&answer| self.answers[answer] == 0)
            .map(|answer| format!("answer {answer}"));
        let pairs = (1..=MOST_PAIRS)
            .filter(|&count| self.pairs[count] == 0)
            .map(|count| format!("a show of {count} pairs"));
        answers.chain(pairs).collect()
    }
}

impl fmt::Display for Tally {
    fn fmt(&self, f: &mut fmt::Formatter) -> fmt::Result {
        let list = |counts: &[u64], from: usize| -> String {
            counts
                .iter()
                .enumerate()
                .skip(from)
                .map(|(at, count)| format!(" {at}:{count}"))
                .collect()
        };
        writeln!(f, "answers{}", list(&self.answers, 0))?;
        writeln!(f, "pairs shown{}", list(&self.pairs, 1))?;
        write!(f, "tags in a condition shown{}", list(&self.tags, 0))
    }
}

fn add_one(counts: &mut [u64], at: usize) {
    if let Some(count) = counts.get_mut(at) {
        *count += 1;
    }
}

fn different_tags(condition: &str) -> usize {
    condition
        .split(['|', '&'])
        .map(|tag| tag.trim_start_matches('!'))
        .filter(|&tag| tag != "*")
        .collect::<BTreeSet<_>>()
        .len()
}
