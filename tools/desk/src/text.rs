//! The text of a sheet, read line by line. README.md has the grammar.

use crate::fields::{find_district, hex, new_name, number};
use crate::lines::event;
use crate::names::Names;
use crate::sheet::{Event, Item, Sheet, LONGEST_SHEET, MOST_DISTRICTS, MOST_ITEMS, VALUES};
use crate::words::{words, Word};
use Word::{Bare, Mark};

#[derive(Clone, Debug, PartialEq, Eq)]
pub enum Text {
    Sheet(Sheet, Names),
    /// The text has `bytes` lines, for a sheet that need not be a good one.
    Bytes(Vec<u8>),
}

#[derive(Clone, Debug, PartialEq, Eq)]
pub struct Wrong {
    /// Counted from 1.
    pub line: usize,
    pub why: String,
}

impl Text {
    pub fn bytes(&self) -> Vec<u8> {
        match self {
            Text::Sheet(sheet, _) => sheet.bytes(),
            Text::Bytes(bytes) => bytes.clone(),
        }
    }
}

/// The bytes as text, if that is what they are. Text has no control characters
/// but the blank ones, and a good sheet starts with one: its count of
/// districts, 1 to 8.
pub fn as_text(bytes: &[u8]) -> Option<&str> {
    let text = std::str::from_utf8(bytes).ok()?;
    let blank = |character| matches!(character, '\t' | '\n' | '\r');
    let plain = |character: char| !character.is_control() || blank(character);
    text.chars().all(plain).then_some(text)
}

/// No bytes at all could be either. They are taken as a sheet, which the store
/// has an answer for.
pub fn looks_like_text(bytes: &[u8]) -> bool {
    !bytes.is_empty() && as_text(bytes).is_some()
}

/// The first wrong line ends the reading.
pub fn read(text: &str) -> Result<Text, Wrong> {
    let mut reader = Reader::default();
    let mut last = 1;
    // Some editors put a mark before the first line.
    let text = text.strip_prefix('\u{FEFF}').unwrap_or(text);
    for (line, content) in (1..).zip(text.lines()) {
        let read = words(content).and_then(|words| reader.line(&words));
        read.map_err(|why| Wrong { line, why })?;
        last = line;
    }
    reader.end().map_err(|why| Wrong { line: last, why })
}

const BYTES_ALONE: &str = "a text with bytes lines has no other lines";

#[derive(Default)]
struct Reader {
    sheet: Sheet,
    names: Names,
    /// How long the events are in bytes.
    events_length: usize,
    bytes: Option<Vec<u8>>,
}

impl Reader {
    fn line(&mut self, words: &[Word]) -> Result<(), String> {
        match *words {
            [] => Ok(()),
            [Bare("bytes"), ref bytes @ ..] => self.bytes(bytes),
            _ if self.bytes.is_some() => Err(BYTES_ALONE.to_string()),
            [Bare("district"), name, code] => self.district(name, code),
            [Bare("item"), name, Bare("at"), district, Mark("="), value] => {
                self.item(name, district, value)
            }
            _ => {
                let event = event(&self.names, words)?;
                self.event(event)
            }
        }
    }

    fn bytes(&mut self, words: &[Word]) -> Result<(), String> {
        if self.sheet != Sheet::default() {
            return Err(BYTES_ALONE.to_string());
        }
        let bytes = self.bytes.get_or_insert_default();
        for &word in words {
            bytes.push(hex(word, 2)? as u8);
        }
        Ok(())
    }

    fn district(&mut self, name: Word, code: Word) -> Result<(), String> {
        if !self.sheet.items.is_empty() || !self.sheet.events.is_empty() {
            return Err("districts stand before the first item".to_string());
        }
        if self.sheet.district_codes.len() == MOST_DISTRICTS {
            return Err(format!("{MOST_DISTRICTS} districts are the most"));
        }
        let code = number(code, "a district's code is", 1..=255)? as u8;
        if let Some(&before) = self.sheet.district_codes.last() {
            if code <= before {
                return Err(format!(
                    "codes rise from line to line: {code} is not over {before}"
                ));
            }
        }
        self.names.add_district(new_name(name)?)?;
        self.sheet.district_codes.push(code);
        Ok(())
    }

    fn item(&mut self, name: Word, district: Word, value: Word) -> Result<(), String> {
        if !self.sheet.events.is_empty() {
            return Err("items stand before the first event".to_string());
        }
        if self.sheet.items.len() == MOST_ITEMS {
            return Err(format!("{MOST_ITEMS} items are the most"));
        }
        let district = find_district(&self.names, district)?;
        if usize::from(district) >= self.sheet.district_codes.len() {
            return Err(format!("there is no district {district}"));
        }
        let values = i64::from(*VALUES.start())..=i64::from(*VALUES.end());
        let value = number(value, "an item's value is", values)? as i16;
        self.names.add_item(district, new_name(name)?)?;
        self.sheet.items.push(Item { district, value });
        Ok(())
    }

    fn event(&mut self, event: Event) -> Result<(), String> {
        self.declared()?;
        self.events_length += event.bytes().len();
        self.sheet.events.push(event);
        let counts = 1 + 1 + 2;
        let length = counts
            + self.sheet.district_codes.len()
            + 3 * self.sheet.items.len()
            + self.events_length;
        if length > LONGEST_SHEET {
            return Err(format!(
                "the sheet gets longer than {LONGEST_SHEET} bytes here"
            ));
        }
        Ok(())
    }

    fn declared(&self) -> Result<(), String> {
        if self.sheet.district_codes.is_empty() {
            return Err("a sheet needs at least one district".to_string());
        }
        if self.sheet.items.is_empty() {
            return Err("a sheet needs at least one item".to_string());
        }
        Ok(())
    }

    fn end(self) -> Result<Text, String> {
        if let Some(bytes) = self.bytes {
            return Ok(Text::Bytes(bytes));
        }
        self.declared()?;
        Ok(Text::Sheet(self.sheet, self.names))
    }
}
