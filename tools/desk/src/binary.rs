//! A binary sheet read whole, or refused as document 01 says (13 or 14, and
//! the place), with a sentence that says why.

use crate::sheet::{Event, Item, Sheet, Step, LONGEST_SHEET, MOST_DISTRICTS, MOST_ITEMS, VALUES};

#[derive(Clone, Debug, PartialEq, Eq)]
pub struct Refused {
    pub number: u8,
    /// Counted from 0.
    pub place: usize,
    pub why: String,
}

pub fn read(bytes: &[u8]) -> Result<Sheet, Refused> {
    if bytes.len() > LONGEST_SHEET {
        return Err(Refused {
            number: 14,
            place: 0,
            why: format!(
                "the sheet has {} bytes, and {LONGEST_SHEET} are the most",
                bytes.len()
            ),
        });
    }
    let mut reader = Reader { bytes, at: 0 };
    let district_codes = reader.district_codes()?;
    let items = reader.items(district_codes.len())?;
    let events = reader.events()?;
    reader.nothing_left()?;
    Ok(Sheet {
        district_codes,
        items,
        events,
    })
}

struct Reader<'a> {
    bytes: &'a [u8],
    at: usize,
}

impl Reader<'_> {
    fn district_codes(&mut self) -> Result<Vec<u8>, Refused> {
        let count = self.count("districts", MOST_DISTRICTS)?;
        let mut codes = Vec::new();
        let mut before = 0;
        for district in 0..count {
            let place = self.at;
            let code = self.byte(|| format!("at the code of district {district}"))?;
            if code == 0 {
                let why = format!("the code of district {district} is 0, not 1 to 255");
                return Err(malformed(place, why));
            }
            if code <= before {
                let why = format!(
                    "the code of district {district} is {code}, \
                     not over {before}, the code before it"
                );
                return Err(malformed(place, why));
            }
            codes.push(code);
            before = code;
        }
        Ok(codes)
    }

    fn items(&mut self, districts: usize) -> Result<Vec<Item>, Refused> {
        let count = self.count("items", MOST_ITEMS)?;
        (0..count).map(|item| self.item(item, districts)).collect()
    }

    fn item(&mut self, item: u8, districts: usize) -> Result<Item, Refused> {
        let place = self.at;
        let district = self.byte(|| format!("at the district of item {item}"))?;
        if usize::from(district) >= districts {
            let last = districts - 1;
            let why =
                format!("item {item} is in district {district}, and the last district is {last}");
            return Err(malformed(place, why));
        }
        let place = self.at;
        let value = i16::from_be_bytes(self.two(|| format!("at the value of item {item}"))?);
        if !VALUES.contains(&value) {
            let why = format!("the value of item {item} is {value}, not from -9999 to 9999");
            return Err(malformed(place, why));
        }
        Ok(Item { district, value })
    }

    fn events(&mut self) -> Result<Vec<Event>, Refused> {
        let count = u16::from_be_bytes(self.two(|| "at the count of events".to_string())?);
        (1..=count)
            .map(|position| self.event(position, count))
            .collect()
    }

    fn event(&mut self, position: u16, count: u16) -> Result<Event, Refused> {
        let inside = || format!("in event {position} of {count}");
        let place = self.at;
        Ok(match self.byte(inside)? {
            1 => {
                let count = self.byte(inside)?;
                let steps: Result<_, _> = (0..count).map(|_| self.step(inside)).collect();
                Event::Begin(steps?)
            }
            2 => Event::Ready {
                hold: self.hold(inside)?,
                district: self.byte(inside)?,
            },
            3 => Event::GiveUp {
                hold: self.hold(inside)?,
                district: self.byte(inside)?,
            },
            4 => Event::Complete {
                hold: self.hold(inside)?,
            },
            5 => Event::Abort {
                hold: self.hold(inside)?,
            },
            6 => Event::Hear {
                hold: self.hold(inside)?,
                district: self.byte(inside)?,
            },
            7 => Event::Show {
                item: self.byte(inside)?,
            },
            kind => {
                let why = format!("event {position} is of kind {kind:02X}, not 01 to 07");
                return Err(malformed(place, why));
            }
        })
    }

    fn step(&mut self, inside: impl Fn() -> String) -> Result<Step, Refused> {
        Ok(Step {
            kind: self.byte(&inside)?,
            item: self.byte(&inside)?,
            operand: i16::from_be_bytes(self.two(&inside)?),
        })
    }

    fn hold(&mut self, inside: impl Fn() -> String) -> Result<u16, Refused> {
        Ok(u16::from_be_bytes(self.two(inside)?))
    }

    fn count(&mut self, what: &str, most: usize) -> Result<u8, Refused> {
        let place = self.at;
        let count = self.byte(|| format!("at the count of {what}"))?;
        if (1..=most).contains(&usize::from(count)) {
            Ok(count)
        } else {
            let why = format!("the count of {what} is {count}, not 1 to {most}");
            Err(malformed(place, why))
        }
    }

    fn two(&mut self, inside: impl Fn() -> String) -> Result<[u8; 2], Refused> {
        Ok([self.byte(&inside)?, self.byte(&inside)?])
    }

    fn byte(&mut self, inside: impl Fn() -> String) -> Result<u8, Refused> {
        match self.bytes.get(self.at) {
            Some(&byte) => {
                self.at += 1;
                Ok(byte)
            }
            None => {
                let why = format!("the sheet ends early, {}", inside());
                Err(malformed(self.bytes.len(), why))
            }
        }
    }

    fn nothing_left(&self) -> Result<(), Refused> {
        match self.bytes.len() - self.at {
            0 => Ok(()),
            1 => {
                let why = "a byte is left over after the last event".to_string();
                Err(malformed(self.at, why))
            }
            left => {
                let why = format!("{left} bytes are left over after the last event");
                Err(malformed(self.at, why))
            }
        }
    }
}

fn malformed(place: usize, why: String) -> Refused {
    Refused {
        number: 13,
        place,
        why,
    }
}
