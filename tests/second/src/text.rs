//! Conditions and polyvalues as text.

use crate::book::TransactionNumber;
use crate::conditions::{Condition, Outcome, Product, PLACES};
use crate::polyvalue::Pair;

/// The line of a show: the count of pairs, then each `value:condition`.
pub fn pairs_line(pairs: &[Pair], numbers: &[TransactionNumber; PLACES]) -> String {
    let mut line = pairs.len().to_string();
    for pair in pairs {
        line.push(' ');
        line.push_str(&pair.value.to_string());
        line.push(':');
        push_condition(&mut line, pair.condition, numbers);
    }
    line
}

/// All prime products by rising number, joined by `|`.
pub fn condition_text(condition: Condition, numbers: &[TransactionNumber; PLACES]) -> String {
    let mut text = String::new();
    push_condition(&mut text, condition, numbers);
    text
}

fn push_condition(text: &mut String, condition: Condition, numbers: &[TransactionNumber; PLACES]) {
    for (at, product) in condition.primes().enumerate() {
        if at > 0 {
            text.push('|');
        }
        push_product(text, product, numbers);
    }
}

/// The tags in place order, joined by `&`; the empty product is `*`.
fn push_product(text: &mut String, product: Product, numbers: &[TransactionNumber; PLACES]) {
    if product == Product::EMPTY {
        text.push('*');
    }
    for (at, (place, outcome)) in product.tags().enumerate() {
        if at > 0 {
            text.push('&');
        }
        if outcome == Outcome::Aborted {
            text.push('!');
        }
        text.push('T');
        text.push_str(&numbers[place.0].0.to_string());
    }
}
