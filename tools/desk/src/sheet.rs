//! A sheet, and its bytes as document 01 lays them out.

use std::ops::RangeInclusive;

pub const MOST_DISTRICTS: usize = 8;
pub const MOST_ITEMS: usize = 32;
pub const LONGEST_SHEET: usize = 32_768;
pub const VALUES: RangeInclusive<i16> = -9_999..=9_999;

#[derive(Clone, Debug, Default, PartialEq, Eq)]
pub struct Sheet {
    pub district_codes: Vec<u8>,
    pub items: Vec<Item>,
    pub events: Vec<Event>,
}

#[derive(Clone, Copy, Debug, PartialEq, Eq)]
pub struct Item {
    pub district: u8,
    pub value: i16,
}

/// Holds, districts and items in events may be any number that fits: the
/// store judges them, not the sheet.
#[derive(Clone, Debug, PartialEq, Eq)]
pub enum Event {
    Begin(Vec<Step>),
    Ready { hold: u16, district: u8 },
    GiveUp { hold: u16, district: u8 },
    Complete { hold: u16 },
    Abort { hold: u16 },
    Hear { hold: u16, district: u8 },
    Show { item: u8 },
}

/// The four bytes of a step, of whatever kind.
#[derive(Clone, Copy, Debug, PartialEq, Eq)]
pub struct Step {
    pub kind: u8,
    pub item: u8,
    pub operand: i16,
}

impl Step {
    pub const NEED: u8 = 1;
    pub const ADD: u8 = 2;
    pub const SET: u8 = 3;
    pub const COPY: u8 = 4;
}

impl Sheet {
    /// The counts have to fit their fields: at most 8 districts, 32 items and
    /// as many events as `LONGEST_SHEET` bytes hold.
    pub fn bytes(&self) -> Vec<u8> {
        let mut bytes = vec![self.district_codes.len() as u8];
        bytes.extend(&self.district_codes);
        bytes.push(self.items.len() as u8);
        for item in &self.items {
            bytes.push(item.district);
            bytes.extend(item.value.to_be_bytes());
        }
        bytes.extend((self.events.len() as u16).to_be_bytes());
        bytes.extend(self.events.iter().flat_map(Event::bytes));
        bytes
    }
}

impl Event {
    /// A begin has at most 255 steps, which its count byte holds.
    pub fn bytes(&self) -> Vec<u8> {
        match *self {
            Event::Begin(ref steps) => {
                let mut bytes = vec![1, steps.len() as u8];
                bytes.extend(steps.iter().flat_map(|step| step.bytes()));
                bytes
            }
            Event::Ready { hold, district } => on_hold(2, hold, Some(district)),
            Event::GiveUp { hold, district } => on_hold(3, hold, Some(district)),
            Event::Complete { hold } => on_hold(4, hold, None),
            Event::Abort { hold } => on_hold(5, hold, None),
            Event::Hear { hold, district } => on_hold(6, hold, Some(district)),
            Event::Show { item } => vec![7, item],
        }
    }
}

impl Step {
    pub fn bytes(self) -> [u8; 4] {
        let [high, low] = self.operand.to_be_bytes();
        [self.kind, self.item, high, low]
    }
}

fn on_hold(kind: u8, hold: u16, district: Option<u8>) -> Vec<u8> {
    let [high, low] = hold.to_be_bytes();
    let mut bytes = vec![kind, high, low];
    bytes.extend(district);
    bytes
}
