//! The sheet: read whole, before any event.

use crate::book::{TransactionNumber, MOST_DISTRICTS};
use crate::polyvalue::is_value;
use crate::program::MOST_ITEMS;
use crate::refusal::Refusal;

pub const LONGEST_SHEET: usize = 32_768;

#[derive(Clone, Debug, PartialEq, Eq)]
pub enum Event {
    /// The bytes of the steps; their number is judged by the event.
    Begin(Vec<u8>),
    Ready(TransactionNumber, u8),
    GiveUp(TransactionNumber, u8),
    Complete(TransactionNumber),
    Abort(TransactionNumber),
    Hear(TransactionNumber, u8),
    Show(u8),
}

#[derive(Clone, Debug, Default, PartialEq, Eq)]
pub struct Sheet {
    /// Only their number matters to the book.
    pub district_codes: Vec<u8>,
    /// District number and opening value of each item.
    pub items: Vec<(u8, i16)>,
    pub events: Vec<Event>,
}

/// Refusals 13 and 14 come with a place.
#[derive(Clone, Copy, Debug, PartialEq, Eq)]
pub struct SheetRefusal {
    pub refusal: Refusal,
    pub place: usize,
}

impl Sheet {
    pub fn read(bytes: &[u8]) -> Result<Sheet, SheetRefusal> {
        if bytes.len() > LONGEST_SHEET {
            return Err(SheetRefusal {
                refusal: Refusal::SheetTooLong,
                place: 0,
            });
        }
        let mut reader = Reader { bytes, at: 0 };
        let district_codes = reader.district_codes()?;
        let items = reader.items(district_codes.len())?;
        let events = reader.events()?;
        reader.nothing_left()?;
        Ok(Sheet {
            district_codes,
            items,
            events,
        })
    }

    /// The bytes of the sheet, for the generator. Step bytes are taken to be
    /// a multiple of 4, at most 255 steps.
    pub fn write(&self) -> Vec<u8> {
        let mut bytes = vec![self.district_codes.len() as u8];
        bytes.extend(&self.district_codes);
        bytes.push(self.items.len() as u8);
        for &(district, value) in &self.items {
            bytes.push(district);
            bytes.extend(value.to_be_bytes());
        }
        bytes.extend((self.events.len() as u16).to_be_bytes());
        self.events.iter().for_each(|event| event.write(&mut bytes));
        bytes
    }
}

impl Event {
    pub fn write(&self, bytes: &mut Vec<u8>) {
        let mut push = |kind: u8, number: &TransactionNumber, district: Option<&u8>| {
            bytes.push(kind);
            bytes.extend(number.0.to_be_bytes());
            bytes.extend(district);
        };
        match self {
            Event::Begin(steps) => {
                bytes.extend([1, (steps.len() / 4) as u8]);
                bytes.extend(steps);
            }
            Event::Ready(number, district) => push(2, number, Some(district)),
            Event::GiveUp(number, district) => push(3, number, Some(district)),
            Event::Complete(number) => push(4, number, None),
            Event::Abort(number) => push(5, number, None),
            Event::Hear(number, district) => push(6, number, Some(district)),
            Event::Show(item) => bytes.extend([7, *item]),
        }
    }
}

struct Reader<'a> {
    bytes: &'a [u8],
    at: usize,
}

impl<'a> Reader<'a> {
    fn district_codes(&mut self) -> Result<Vec<u8>, SheetRefusal> {
        let count = self.byte_where(|count| (1..=MOST_DISTRICTS).contains(&usize::from(count)))?;
        let mut codes = Vec::new();
        let mut last = 0;
        for _ in 0..count {
            // Rising from 0, so that the first code is at least 1.
            last = self.byte_where(|code| code > last)?;
            codes.push(last);
        }
        Ok(codes)
    }

    fn items(&mut self, districts: usize) -> Result<Vec<(u8, i16)>, SheetRefusal> {
        let count = self.byte_where(|count| (1..=MOST_ITEMS).contains(&usize::from(count)))?;
        (0..count)
            .map(|_| {
                let district = self.byte_where(|number| usize::from(number) < districts)?;
                Ok((district, self.value()?))
            })
            .collect()
    }

    fn events(&mut self) -> Result<Vec<Event>, SheetRefusal> {
        let count = self.two_bytes()?;
        (0..u16::from_be_bytes(count))
            .map(|_| self.event())
            .collect()
    }

    fn event(&mut self) -> Result<Event, SheetRefusal> {
        let kind = self.byte_where(|kind| (1..=7).contains(&kind))?;
        Ok(match kind {
            1 => {
                let steps = usize::from(self.byte()?);
                Event::Begin(self.take(4 * steps)?.to_vec())
            }
            2 => Event::Ready(self.number()?, self.byte()?),
            3 => Event::GiveUp(self.number()?, self.byte()?),
            4 => Event::Complete(self.number()?),
            5 => Event::Abort(self.number()?),
            6 => Event::Hear(self.number()?, self.byte()?),
            _ => Event::Show(self.byte()?),
        })
    }

    fn number(&mut self) -> Result<TransactionNumber, SheetRefusal> {
        self.two_bytes()
            .map(|bytes| TransactionNumber(u16::from_be_bytes(bytes)))
    }

    /// Out of range is the fault of the first byte, once both are there.
    fn value(&mut self) -> Result<i16, SheetRefusal> {
        let first = self.at;
        let value = i16::from_be_bytes(self.two_bytes()?);
        if is_value(value) {
            Ok(value)
        } else {
            Err(malformed(first))
        }
    }

    fn two_bytes(&mut self) -> Result<[u8; 2], SheetRefusal> {
        Ok([self.byte()?, self.byte()?])
    }

    fn byte_where(&mut self, good: impl Fn(u8) -> bool) -> Result<u8, SheetRefusal> {
        let place = self.at;
        let byte = self.byte()?;
        if good(byte) {
            Ok(byte)
        } else {
            Err(malformed(place))
        }
    }

    fn byte(&mut self) -> Result<u8, SheetRefusal> {
        let byte = self.bytes.get(self.at).ok_or(self.ends_early())?;
        self.at += 1;
        Ok(*byte)
    }

    fn take(&mut self, count: usize) -> Result<&'a [u8], SheetRefusal> {
        let taken = self
            .bytes
            .get(self.at..self.at + count)
            .ok_or(self.ends_early())?;
        self.at += count;
        Ok(taken)
    }

    fn nothing_left(&self) -> Result<(), SheetRefusal> {
        if self.at == self.bytes.len() {
            Ok(())
        } else {
            Err(malformed(self.at))
        }
    }

    fn ends_early(&self) -> SheetRefusal {
        malformed(self.bytes.len())
    }
}

fn malformed(place: usize) -> SheetRefusal {
    SheetRefusal {
        refusal: Refusal::SheetMalformed,
        place,
    }
}
