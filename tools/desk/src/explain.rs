//! What an event and its answer mean, in a sentence for the desk.

use std::collections::HashSet;

use crate::answer::{Answer, Pair};
use crate::names::Names;
use crate::print;
use crate::program::{missing_item, not_a_program};
use crate::sheet::Event;

/// Tells the events of one sheet in turn. A district gives up in two ways, and
/// only its answers before say which: it had reported ready or it had not.
pub struct Teller<'a> {
    names: &'a Names,
    /// Hold and district, for each ready that was accepted.
    ready: HashSet<(u16, u8)>,
}

impl Teller<'_> {
    pub fn new(names: &Names) -> Teller<'_> {
        Teller {
            names,
            ready: HashSet::new(),
        }
    }

    /// `None` if the event, with this sheet's districts and items, never gives
    /// this answer.
    pub fn tell(&mut self, event: &Event, answer: &Answer) -> Option<String> {
        let said = match *answer {
            Answer::Done => self.done(event)?,
            Answer::Begun { hold, grant } => begun(hold, grant),
            Answer::Shown(ref pairs) => shown(pairs),
            Answer::Refused(number) => format!("refused, {}", refused(self.names, event, number)?),
        };
        Some(format!("{}: {said}", print::event(self.names, event)))
    }

    fn done(&mut self, event: &Event) -> Option<String> {
        let name = |district| self.names.district(district);
        Some(match *event {
            Event::Begin(_) | Event::Show { .. } => return None,
            Event::Ready { hold, district } => {
                self.ready.insert((hold, district));
                format!("{} waits to hear of hold {hold}", name(district))
            }
            Event::GiveUp { hold, district } if self.ready.contains(&(hold, district)) => {
                format!(
                    "{} goes on with both outcomes of hold {hold}",
                    name(district)
                )
            }
            Event::GiveUp { hold, district } => {
                format!(
                    "{} drops hold {hold}, which can only be aborted",
                    name(district)
                )
            }
            Event::Complete { hold } => format!("hold {hold} is completed"),
            Event::Abort { hold } => format!("hold {hold} is aborted"),
            Event::Hear { hold, district } => {
                format!("{} knows the outcome of hold {hold}", name(district))
            }
        })
    }
}

fn begun(hold: u16, grant: u8) -> String {
    match grant {
        0 => format!("hold {hold} begins, but it is declined"),
        1 => format!("hold {hold} begins, granted"),
        _ => format!("hold {hold} begins, granted or declined as other holds turn out"),
    }
}

/// "4 if hold 1 completes, 5 if it does not".
fn shown(pairs: &[Pair]) -> String {
    if let [pair] = pairs {
        return pair.value.to_string();
    }
    if let Some(said) = two_ways(pairs) {
        return said;
    }
    let said: Vec<_> = pairs
        .iter()
        .map(|pair| format!("{} if {}", pair.value, pair.condition.words()))
        .collect();
    // A comma inside a pair needs a stronger mark between the pairs.
    let comma_inside = said.iter().any(|said| said.contains(','));
    said.join(if comma_inside { "; " } else { ", " })
}

/// Two values that hang on one hold.
fn two_ways(pairs: &[Pair]) -> Option<String> {
    let [first, second] = pairs else {
        return None;
    };
    let tag = first.condition.only_tag()?;
    let other = second.condition.only_tag()?;
    if tag.hold != other.hold || tag.completes == other.completes {
        return None;
    }
    let otherwise = if other.completes { "does" } else { "does not" };
    Some(format!(
        "{} if {}, {} if it {otherwise}",
        first.value,
        first.condition.words(),
        second.value
    ))
}

/// Document 01's table, for the events that each row can come from.
fn refused(names: &Names, event: &Event, number: u8) -> Option<String> {
    Some(match (number, event) {
        (
            1,
            Event::Ready { district, .. }
            | Event::GiveUp { district, .. }
            | Event::Hear { district, .. },
        ) if !names.has_district(*district) => format!("there is no district {district}"),
        (2, Event::Begin(steps)) => missing_item(names, steps)?,
        (2, Event::Show { item }) if !names.has_item(i16::from(*item)) => {
            format!("there is no item {item}")
        }
        (3, Event::Begin(steps)) => not_a_program(steps)?,
        (
            4,
            Event::Ready { hold, .. }
            | Event::GiveUp { hold, .. }
            | Event::Complete { hold }
            | Event::Abort { hold }
            | Event::Hear { hold, .. },
        ) => format!("no open hold has number {hold}"),
        (5, Event::Begin(_)) => "a district it touches is busy".to_string(),
        (6, Event::Begin(_)) => "six holds are open already".to_string(),
        (7, Event::Begin(_)) => "the last number, 65535, has been given".to_string(),
        (8, Event::Begin(_)) => "an item would have more than 8 values".to_string(),
        (9, Event::Ready { hold, district }) => {
            format!(
                "{} is not computing on hold {hold}",
                names.district(*district)
            )
        }
        (9, Event::GiveUp { hold, district }) => {
            format!("{} is not busy on hold {hold}", names.district(*district))
        }
        (10, Event::Complete { hold } | Event::Abort { hold }) => {
            format!("hold {hold} is decided already")
        }
        (11, Event::Complete { hold }) => {
            format!("a district that hold {hold} touches has not reported ready")
        }
        (12, Event::Hear { hold, .. }) => format!("hold {hold} is not decided yet"),
        (15, _) => "the store's book is not sound".to_string(),
        (16, Event::Show { .. }) => "the line is too long to print".to_string(),
        _ => return None,
    })
}
