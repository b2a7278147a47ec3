//! An event's line and its steps, and what to say of a line that has no form.

use crate::fields::{find_district, find_hold, find_item, find_operand, hex};
use crate::names::Names;
use crate::sheet::{Event, Step};
use crate::words::Word;
use Word::{Bare, Mark};

/// Any line that is not a good district, item or bytes line.
pub fn event(names: &Names, words: &[Word]) -> Result<Event, String> {
    Ok(match *words {
        [Bare("begin")] => Event::Begin(Vec::new()),
        [Bare("begin"), ref steps @ ..] => {
            let steps: Result<Vec<_>, _> = steps
                .split(|&word| word == Mark(";"))
                .map(|words| step(names, words))
                .collect();
            begin(steps?)?
        }
        [Bare("ready"), hold, district] => Event::Ready {
            hold: find_hold(hold)?,
            district: find_district(names, district)?,
        },
        [Bare("give"), Bare("up"), hold, district] => Event::GiveUp {
            hold: find_hold(hold)?,
            district: find_district(names, district)?,
        },
        [Bare("complete"), hold] => Event::Complete {
            hold: find_hold(hold)?,
        },
        [Bare("abort"), hold] => Event::Abort {
            hold: find_hold(hold)?,
        },
        [Bare("hear"), hold, district] => Event::Hear {
            hold: find_hold(hold)?,
            district: find_district(names, district)?,
        },
        [Bare("show"), ref item @ ..] => Event::Show {
            item: find_item(names, item)?,
        },
        _ => return Err(no_line(words)),
    })
}

/// The sheet counts the steps in one byte. The store takes 8 and refuses more.
fn begin(steps: Vec<Step>) -> Result<Event, String> {
    if steps.len() > 255 {
        let count = steps.len();
        return Err(format!(
            "a begin with {count} steps: 255 are the most a sheet can hold"
        ));
    }
    Ok(Event::Begin(steps))
}

fn step(names: &Names, words: &[Word]) -> Result<Step, String> {
    let (kind, item, operand) = match *words {
        [Bare("need"), count, Bare("in"), ref item @ ..] => {
            (Step::NEED, item, find_operand(count)?)
        }
        [Bare("add"), count, Bare("to"), ref item @ ..] => (Step::ADD, item, find_operand(count)?),
        [Bare("set"), ref item @ .., Bare("to"), count] => (Step::SET, item, find_operand(count)?),
        [Bare("copy"), ref source @ .., Bare("to"), _]
        | [Bare("copy"), ref source @ .., Bare("to"), _, _] => {
            let item = &words[1 + source.len() + 1..];
            (Step::COPY, item, i16::from(find_item(names, source)?))
        }
        [Bare("step"), kind, item, operand] => {
            return Ok(Step {
                kind: hex(kind, 2)? as u8,
                item: hex(item, 2)? as u8,
                operand: hex(operand, 4)? as i16,
            })
        }
        _ => return Err(no_step(words)),
    };
    Ok(Step {
        kind,
        item: find_item(names, item)?,
        operand,
    })
}

/// The forms of the lines whose words are counted, each with an example.
const FORMS: [(&str, &str); 7] = [
    ("district", "district Harbor 10"),
    ("item", "item docks at Harbor = 5"),
    ("ready", "ready 1 Harbor"),
    ("give", "give up 1 Harbor"),
    ("complete", "complete 1"),
    ("abort", "abort 1"),
    ("hear", "hear 1 Harbor"),
];

fn no_line(words: &[Word]) -> String {
    let form = FORMS.iter().find(|(first, _)| words[0] == Bare(first));
    match form {
        Some((_, example)) => format!("this line should look like: {example}"),
        None => format!(
            "a line starts with district, item, begin, ready, give up, complete, abort, hear, \
             show or bytes, not with {}",
            words[0]
        ),
    }
}

const STEP_FORMS: [(&str, &str); 5] = [
    ("need", "need 1 in Harbor docks"),
    ("add", "add -1 to Harbor docks"),
    ("set", "set Harbor docks to 5"),
    ("copy", "copy Mill docks to Harbor docks"),
    ("step", "step 02 00 FFFF"),
];

fn no_step(words: &[Word]) -> String {
    let Some(&first) = words.first() else {
        return "a step is missing before or after ;".to_string();
    };
    match STEP_FORMS.iter().find(|(word, _)| first == Bare(word)) {
        Some((_, example)) => format!("this step should look like: {example}"),
        None => format!("a step starts with need, add, set, copy or step, not with {first}"),
    }
}
