//! A line of text split into its words.

use std::fmt;

#[derive(Clone, Copy, Debug, PartialEq, Eq)]
pub enum Word<'a> {
    /// As it stands: a word of the grammar, a number or a name.
    Bare(&'a str),
    /// In double quotes: always a name.
    Quoted(&'a str),
    /// `;` or `=`, which need no blanks around them.
    Mark(&'a str),
}

impl<'a> Word<'a> {
    /// Without the quotes.
    pub fn text(self) -> &'a str {
        match self {
            Word::Bare(text) | Word::Quoted(text) | Word::Mark(text) => text,
        }
    }
}

/// As the line has it, for messages.
impl fmt::Display for Word<'_> {
    fn fmt(&self, f: &mut fmt::Formatter) -> fmt::Result {
        match self {
            Word::Quoted(text) => write!(f, "\"{text}\""),
            Word::Bare(text) | Word::Mark(text) => f.write_str(text),
        }
    }
}

/// The words before the comment, if there is one.
pub fn words(line: &str) -> Result<Vec<Word<'_>>, String> {
    let mut words = Vec::new();
    let mut rest = line.trim_start();
    while let Some(first) = rest.chars().next() {
        let (word, after) = match first {
            '#' => break,
            ';' | '=' => {
                let (mark, after) = rest.split_at(1);
                (Word::Mark(mark), after)
            }
            '"' => quoted(&rest[1..])?,
            _ => {
                let (bare, after) = rest.split_at(rest.find(ends_bare).unwrap_or(rest.len()));
                (Word::Bare(bare), after)
            }
        };
        words.push(word);
        rest = after.trim_start();
    }
    Ok(words)
}

/// The word after an opening quote, and what follows the closing one.
fn quoted(rest: &str) -> Result<(Word<'_>, &str), String> {
    match rest.split_once('"') {
        None => Err("a quoted name has no closing quote".to_string()),
        Some(("", _)) => Err("a name in quotes is empty".to_string()),
        Some((name, after)) => Ok((Word::Quoted(name), after)),
    }
}

fn ends_bare(character: char) -> bool {
    character.is_whitespace() || matches!(character, '"' | '#' | ';' | '=')
}

/// Digits, with a sign or without one. Such a word is never a name.
pub fn is_number(text: &str) -> bool {
    let digits = text.strip_prefix(['-', '+']).unwrap_or(text);
    !digits.is_empty() && digits.bytes().all(|byte| byte.is_ascii_digit())
}

/// The one word of the grammar that could stand where an item's name does:
/// `copy A to B`.
pub const RESERVED: &str = "to";

/// A name as the text has to have it: quoted if its bare form would be
/// something else.
pub fn name_as_text(name: &str) -> String {
    if name == RESERVED || is_number(name) || name.contains(ends_bare) {
        format!("\"{name}\"")
    } else {
        name.to_string()
    }
}
