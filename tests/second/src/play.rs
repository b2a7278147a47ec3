//! A sheet played from its first byte to the line `end`.

use std::io::{self, Write};

use crate::book::Book;
use crate::conditions::Outcome;
use crate::events::{self, Begun};
use crate::refusal::Refusal;
use crate::sheet::{Event, Sheet, SheetRefusal};

/// What the program lends to a show.
pub const BUFFER_BYTES: usize = 65_536;

/// What an accepted event answers besides 0.
#[derive(Clone, Copy, Debug, PartialEq, Eq)]
pub enum Accepted {
    Done,
    Begun(Begun),
    /// So many bytes of the lent buffer are the line.
    Shown(usize),
}

pub type Answer = Result<Accepted, Refusal>;

pub fn open(sheet: &Sheet) -> Book {
    events::open(sheet.district_codes.len(), &sheet.items)
}

pub fn apply(book: &mut Book, event: &Event, buffer: &mut [u8]) -> Answer {
    let done = |()| Accepted::Done;
    match *event {
        Event::Begin(ref steps) => events::begin(book, steps).map(Accepted::Begun),
        Event::Ready(number, district) => events::ready(book, number, district).map(done),
        Event::GiveUp(number, district) => events::give_up(book, number, district).map(done),
        Event::Complete(number) => events::decide(book, number, Outcome::Completed).map(done),
        Event::Abort(number) => events::decide(book, number, Outcome::Aborted).map(done),
        Event::Hear(number, district) => events::hear(book, number, district).map(done),
        Event::Show(item) => events::show(book, item, buffer).map(Accepted::Shown),
    }
}

/// What the program prints for these bytes.
pub fn play(bytes: &[u8], out: &mut impl Write) -> io::Result<()> {
    let sheet = match Sheet::read(bytes) {
        Ok(sheet) => sheet,
        Err(refused) => return write_sheet_refusal(&refused, out),
    };
    let mut book = open(&sheet);
    let mut buffer = vec![0; BUFFER_BYTES];
    for (at, event) in sheet.events.iter().enumerate() {
        let answer = apply(&mut book, event, &mut buffer);
        write_answer(at + 1, answer, &buffer, out)?;
    }
    writeln!(out, "end")
}

fn write_sheet_refusal(refused: &SheetRefusal, out: &mut impl Write) -> io::Result<()> {
    writeln!(out, "sheet {} {}", refused.refusal.number(), refused.place)
}

fn write_answer(
    position: usize,
    answer: Answer,
    buffer: &[u8],
    out: &mut impl Write,
) -> io::Result<()> {
    match answer {
        Err(refusal) => writeln!(out, "{position} {}", refusal.number()),
        Ok(Accepted::Done) => writeln!(out, "{position} 0"),
        Ok(Accepted::Begun(Begun { number, grant })) => {
            writeln!(out, "{position} 0 {} {}", number.0, grant as u8)
        }
        Ok(Accepted::Shown(length)) => {
            write!(out, "{position} 0 ")?;
            out.write_all(&buffer[..length])?;
            writeln!(out)
        }
    }
}
