//! The words of a line that are names or numbers.

use std::ops::RangeInclusive;

use crate::names::Names;
use crate::words::{is_number, Word, RESERVED};
use Word::{Bare, Mark, Quoted};

pub fn new_name<'a>(word: Word<'a>) -> Result<&'a str, String> {
    match word {
        Quoted(name) => Ok(name),
        Bare(name) if is_number(name) || name == RESERVED => {
            Err(format!("to be a name, {name} has to stand in quotes"))
        }
        Bare(name) => Ok(name),
        Mark(mark) => Err(format!("a name is missing before {mark}")),
    }
}

pub fn find_hold(word: Word) -> Result<u16, String> {
    Ok(number(word, "a hold is", 0..=65_535)? as u16)
}

pub fn find_operand(word: Word) -> Result<i16, String> {
    Ok(number(word, "a step takes", -32_768..=32_767)? as i16)
}

pub fn find_district(names: &Names, word: Word) -> Result<u8, String> {
    match word {
        Bare(text) if is_number(text) => {
            Ok(number(word, "a district is a name or", 0..=255)? as u8)
        }
        _ => names.find_district(word.text()),
    }
}

/// A number, a name, or a district and a name.
pub fn find_item(names: &Names, words: &[Word]) -> Result<u8, String> {
    match *words {
        [word @ Bare(text)] if is_number(text) => {
            Ok(number(word, "an item is a name or", 0..=255)? as u8)
        }
        [name] => names.find_item(name.text()),
        [district, name] => {
            let district = find_district(names, district)?;
            names.find_item_at(district, name.text())
        }
        [] => Err("an item is missing".to_string()),
        _ => Err(format!(
            "an item is a name, a district and a name, or a number, not: {}",
            joined(words)
        )),
    }
}

/// The message reads "`what` a number from .. to .., not ..".
pub fn number(word: Word, what: &str, range: RangeInclusive<i64>) -> Result<i64, String> {
    let number = match word {
        Bare(text) if is_number(text) => text.parse().ok(),
        _ => None,
    };
    number
        .filter(|number| range.contains(number))
        .ok_or_else(|| {
            let (first, last) = (range.start(), range.end());
            format!("{what} a number from {first} to {last}, not {word}")
        })
}

pub fn hex(word: Word, digits: usize) -> Result<u16, String> {
    let text = word.text();
    if text.len() == digits && text.bytes().all(|byte| byte.is_ascii_hexdigit()) {
        if let Ok(number) = u16::from_str_radix(text, 16) {
            return Ok(number);
        }
    }
    Err(format!("{digits} hex digits together are wanted, not `{word}`"))
}

fn joined(words: &[Word]) -> String {
    let texts: Vec<_> = words.iter().map(Word::to_string).collect();
    texts.join(" ")
}
