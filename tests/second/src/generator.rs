//! Sheets from a seed. Most are mornings, played on a book while they are
//! made; the rest are long, too long or damaged.

use crate::morning::{Habits, Layout, Morning, Programs};
use crate::rng::Rng;
use crate::sheet::LONGEST_SHEET;

/// The sheet with this index of this seed. The first of every seed stand at
/// the limits of a sheet's length.
pub fn sheet(seed: u64, index: u64) -> Vec<u8> {
    let mut rng = Rng::new(Rng::new(seed).draw() ^ Rng::new(index).draw());
    match index {
        0 => return Vec::new(),
        1 => return long_morning(&mut rng, LONGEST_SHEET),
        2 => return long_morning(&mut rng, LONGEST_SHEET + 1),
        _ => {}
    }
    match rng.below(100) {
        0..=34 => broken_links(&mut rng),
        35..=54 => deep_conditions(&mut rng),
        55..=66 => edge_programs(&mut rng),
        67..=76 => wrong_events(&mut rng),
        77 => long(&mut rng),
        78 => over_long(&mut rng),
        _ => damaged(&mut rng),
    }
}

/// Habits differ: late decisions let transactions pile up, early ones make
/// places be used again.
fn broken_links(rng: &mut Rng) -> Vec<u8> {
    let habits = Habits {
        decide: rng.one_of([1, 4, 7, 14]),
        hear: rng.one_of([4, 10, 20]),
        quit: rng.one_of([0, 1, 4]),
        wrong: rng.one_of([0, 1, 4]),
        ..Habits::USUAL
    };
    let events = 20 + rng.below(140);
    let layout = rng.one_of([Layout::USUAL, Layout::EVEN, Layout::SMALL]);
    let mut morning = Morning::open(rng, layout);
    morning.act_times(&habits, events);
    morning.show_all();
    morning.into_bytes()
}

/// Up to six transactions lose their links before any is decided; then the
/// decisions are heard here and there, with shows in between.
fn deep_conditions(rng: &mut Rng) -> Vec<u8> {
    let aftermath = Habits {
        begin: rng.one_of([3, 10]),
        decide: rng.one_of([4, 12]),
        hear: 20,
        show: 20,
        programs: Programs::Widening,
        ..Habits::USUAL
    };
    let rounds = 1 + rng.below(4);
    let mut morning = Morning::open(rng, Layout::SMALL);
    for _ in 0..rounds {
        morning.lose_many_links();
        morning.overfill();
        morning.show_all();
        morning.act_times(&aftermath, 25);
        morning.show_all();
    }
    morning.into_bytes()
}

/// The districts are made free again quickly, so that it is the programs and
/// not busy districts that decide the answers.
fn edge_programs(rng: &mut Rng) -> Vec<u8> {
    let habits = Habits {
        begin: 40,
        decide: 15,
        hear: 20,
        programs: Programs::Edge,
        ..Habits::USUAL
    };
    let events = 20 + rng.below(80);
    let mut morning = Morning::open(rng, Layout::EDGE);
    morning.act_times(&habits, events);
    morning.show_all();
    morning.into_bytes()
}

fn wrong_events(rng: &mut Rng) -> Vec<u8> {
    let habits = Habits {
        wrong: 60,
        ..Habits::USUAL
    };
    let events = 20 + rng.below(150);
    let mut morning = Morning::open(rng, Layout::USUAL);
    morning.act_times(&habits, events);
    morning.into_bytes()
}

/// Up to and exactly at the longest sheet that is read.
fn long(rng: &mut Rng) -> Vec<u8> {
    let length = LONGEST_SHEET - rng.one_of([0, 0, 1, 2, 3, 40]);
    long_morning(rng, length)
}

/// Too long: by one byte, in good order or not.
fn over_long(rng: &mut Rng) -> Vec<u8> {
    let length = LONGEST_SHEET + rng.one_of([1, 1, 2, 500]);
    if rng.chance(40) {
        return long_morning(rng, length);
    }
    let filler = if rng.chance(50) { 0 } else { rng.byte() };
    let mut bytes = broken_links(rng);
    bytes.resize(length.max(bytes.len()), filler);
    bytes
}

fn long_morning(rng: &mut Rng, length: usize) -> Vec<u8> {
    let habits = Habits {
        begin: 30,
        decide: 20,
        hear: 25,
        show: 4,
        programs: rng.one_of([Programs::Usual, Programs::Edge]),
        ..Habits::USUAL
    };
    let layout = rng.one_of([Layout::USUAL, Layout::SMALL]);
    let mut morning = Morning::open(rng, layout);
    // Far from the end also with the longest begin, of 255 steps.
    while morning.length() + 2_000 < length {
        morning.act(&habits);
    }
    // Two bytes a show; an odd byte too many goes into a complete.
    if (length - morning.length()) % 2 == 1 {
        morning.complete_any();
    }
    while morning.length() < length {
        morning.show_any();
    }
    morning.into_bytes()
}

fn damaged(rng: &mut Rng) -> Vec<u8> {
    let events = rng.below(40);
    let layout = rng.one_of([Layout::USUAL, Layout::SMALL, Layout::EDGE]);
    let mut morning = Morning::open(rng, layout);
    morning.act_times(&Habits::USUAL, events);
    let mut bytes = morning.into_bytes();
    match rng.below(20) {
        0 => random_bytes(rng),
        1..=3 => {
            bytes.truncate(place_in(rng, &bytes));
            bytes
        }
        4 => {
            let more = 1 + rng.below(5);
            bytes.extend((0..more).map(|_| rng.one_of([0, 1, 7, 255])));
            bytes
        }
        5..=7 => with_bytes_changed(rng, bytes),
        8 => with_event_count_changed(rng, bytes),
        9 | 10 => with_value_spoilt(rng, bytes),
        11 => with_event_kind_spoilt(rng, bytes),
        _ => with_header_spoilt(rng, bytes),
    }
}

fn random_bytes(rng: &mut Rng) -> Vec<u8> {
    let length = rng.below(64);
    (0..length).map(|_| rng.byte()).collect()
}

fn with_bytes_changed(rng: &mut Rng, mut bytes: Vec<u8>) -> Vec<u8> {
    let places: Vec<usize> = (0..1 + rng.below(3))
        .map(|_| place_in(rng, &bytes))
        .collect();
    for place in places {
        bytes[place] = match rng.below(4) {
            0 => rng.byte(),
            1 => rng.one_of([0, 1, 7, 8, 9, 32, 33, 255]),
            2 => bytes[place].wrapping_add(1),
            _ => bytes[place].wrapping_sub(1),
        };
    }
    bytes
}

/// Any place of a good sheet, with the counts, districts and items more often
/// than the events.
fn place_in(rng: &mut Rng, bytes: &[u8]) -> usize {
    let header = event_count_at(bytes) + 3;
    let bound = if rng.chance(50) { header } else { bytes.len() };
    rng.below(bound.min(bytes.len()))
}

/// `bytes` is a good sheet.
fn event_count_at(bytes: &[u8]) -> usize {
    let districts = usize::from(bytes[0]);
    let items = usize::from(bytes[1 + districts]);
    2 + districts + 3 * items
}

fn with_event_count_changed(rng: &mut Rng, mut bytes: Vec<u8>) -> Vec<u8> {
    let at = event_count_at(&bytes);
    let count = u16::from_be_bytes([bytes[at], bytes[at + 1]]);
    let wrong = rng.one_of([0, u16::MAX, count + 1, count.wrapping_sub(1)]);
    bytes[at..at + 2].copy_from_slice(&wrong.to_be_bytes());
    bytes
}

fn with_value_spoilt(rng: &mut Rng, mut bytes: Vec<u8>) -> Vec<u8> {
    let districts = usize::from(bytes[0]);
    let item = rng.below(usize::from(bytes[1 + districts]));
    let at = 3 + districts + 3 * item;
    let value: i16 = rng.one_of([10_000, -10_000, i16::MAX, i16::MIN]);
    bytes[at..at + 2].copy_from_slice(&value.to_be_bytes());
    // Cut inside the value it is not the first byte's fault any more.
    if rng.chance(25) {
        bytes.truncate(at + 1);
    }
    bytes
}

/// The first event of a good sheet becomes one of an unknown kind. Some of
/// its lengths fit what follows, should the kind be taken for a known one.
fn with_event_kind_spoilt(rng: &mut Rng, mut bytes: Vec<u8>) -> Vec<u8> {
    let at = event_count_at(&bytes) + 2;
    if at < bytes.len() {
        bytes[at] = rng.one_of([0, 8, 9, 10, 128, 255]);
    }
    bytes
}

/// A count, a code or an item's district just past what is allowed.
fn with_header_spoilt(rng: &mut Rng, mut bytes: Vec<u8>) -> Vec<u8> {
    let districts = usize::from(bytes[0]);
    let items_at = 1 + districts;
    let item = rng.below(usize::from(bytes[items_at]));
    match rng.below(6) {
        0 => bytes[0] = rng.one_of([0, 9, 255]),
        1 => bytes[items_at] = rng.one_of([0, 33, 255]),
        2 => bytes[1] = 0,
        3 if districts > 1 => {
            let code = 2 + rng.below(districts - 1);
            bytes[code] = bytes[code - 1] - rng.one_of([0, 1]);
        }
        _ => bytes[items_at + 1 + 3 * item] = rng.one_of([districts as u8, 8, 255]),
    }
    bytes
}
