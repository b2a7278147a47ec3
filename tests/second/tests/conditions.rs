//! Conditions, products, polyvalues and their text, against the definitions
//! written out assignment by assignment.

mod common;

use common::*;
use second::conditions::{Condition, Outcome, Place, Product, PRODUCTS};
use second::polyvalue::{value_under, Pair, Polyvalue};
use second::refusal::Refusal;
use second::rng::Rng;
use second::text::condition_text;

/// Conditions of all sorts: random, sparse, dense, and of few places.
fn conditions() -> Vec<Condition> {
    let mut rng = Rng::new(10);
    let mut conditions = vec![Condition::NEVER, Condition::ALWAYS];
    for _ in 0..100 {
        let (a, b, c) = (rng.draw(), rng.draw(), rng.draw());
        conditions.extend([a, a & b & c, a | b | c].map(Condition));
        let places = rng.below(64) as u8;
        conditions.push(condition_of(|assignment| {
            a >> (assignment & places) & 1 == 1
        }));
    }
    conditions
}

fn completes(assignment: u8, place: Place) -> bool {
    assignment >> place.0 & 1 == 1
}

/// The digit of the place in the product's number, by repeated division.
fn digit(product: u16, place: Place) -> u16 {
    (0..place.0).fold(product, |number, _| number / 3) % 3
}

fn allows(product: u16, assignment: u8) -> bool {
    Place::all().all(|place| match digit(product, place) {
        0 => true,
        1 => completes(assignment, place),
        _ => !completes(assignment, place),
    })
}

#[test]
fn a_product_allows_what_its_number_says() {
    for product in 0..PRODUCTS {
        let allowed = condition_of(|assignment| allows(product, assignment));
        assert_eq!(Product(product).allows(), allowed);
    }
}

#[test]
fn primes_are_the_products_that_cannot_lose_a_tag() {
    let within = |product: u16, condition: Condition| {
        (0..64).all(|assignment| !allows(product, assignment) || condition.contains(assignment))
    };
    for condition in conditions() {
        let expected: Vec<Product> = (0..PRODUCTS)
            .filter(|&product| {
                within(product, condition)
                    && Place::all().all(|place| {
                        let digit = digit(product, place);
                        let shorter = product - digit * 3u16.pow(place.0 as u32);
                        digit == 0 || !within(shorter, condition)
                    })
            })
            .map(Product)
            .collect();
        assert_eq!(condition.primes().collect::<Vec<_>>(), expected);
    }
}

#[test]
fn dependence_and_setting_a_place_are_as_defined() {
    for condition in conditions() {
        for place in Place::all() {
            let flip = 1 << place.0;
            let depends = (0..64).any(|assignment| {
                condition.contains(assignment) != condition.contains(assignment ^ flip)
            });
            assert_eq!(condition.depends_on(place), depends);
            let completed = condition_of(|assignment| condition.contains(assignment | flip));
            let aborted = condition_of(|assignment| condition.contains(assignment & !flip));
            let set = |outcome| condition.with_place_set(place, outcome);
            assert_eq!(set(Outcome::Completed), completed);
            assert_eq!(set(Outcome::Aborted), aborted);
        }
    }
}

#[test]
fn conditions_print_their_primes() {
    let numbers = [11, 2, 65_535, 4, 5, 6].map(number);
    let text = |condition| condition_text(condition, &numbers);
    assert_eq!(text(Condition::ALWAYS), "*");
    // Nothing is within the empty set, so nothing is printed.
    assert_eq!(text(Condition::NEVER), "");
    assert_eq!(text(Condition(1)), "!T11&!T2&!T65535&!T4&!T5&!T6");
    assert_eq!(text(Condition(1 << 63)), "T11&T2&T65535&T4&T5&T6");
    assert_eq!(
        text(Condition(!1)),
        "T11|T2|T65535|T4|T5|T6",
        "by rising number: 1, 3, 9, 27, 81, 243"
    );
    let exactly_one_of_two =
        condition_of(|assignment| (assignment & 1 == 1) != (assignment >> 5 & 1 == 1));
    // Numbers 2 + 243 and 1 + 486.
    assert_eq!(text(exactly_one_of_two), "!T11&T6|T11&!T6");
}

#[test]
fn a_lent_list_of_pairs_is_asked_for_its_value() {
    let pair = |value, condition| Pair {
        value,
        condition: Condition(condition),
    };
    let list = [pair(3, 0b01), pair(-3, 0b10), pair(3, 0b110), pair(0, 0)];
    assert_eq!(value_under(&list, 0), Ok(3));
    assert_eq!(value_under(&list, 1), Err(Refusal::NoSuchItem), "two apply");
    assert_eq!(value_under(&list, 2), Ok(3));
    assert_eq!(value_under(&list, 3), Err(Refusal::NoSuchItem), "none");
    assert_eq!(value_under(&[], 0), Err(Refusal::NoSuchItem));
    let certain = Polyvalue::certain(1).pairs;
    assert_eq!(value_under(&certain, 63), Ok(1));
    for over in [64, 65, 128, 255] {
        assert_eq!(value_under(&certain, over), Err(Refusal::NoSuchItem));
    }
}
