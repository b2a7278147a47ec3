//! Sheets for the round trips, from a fixed seed.

/// splitmix64: a seed names its sheets for good.
pub struct Rng(pub u64);

impl Rng {
    fn draw(&mut self) -> u64 {
        self.0 = self.0.wrapping_add(0x9E37_79B9_7F4A_7C15);
        let mut mixed = self.0;
        mixed = (mixed ^ mixed >> 30).wrapping_mul(0xBF58_476D_1CE4_E5B9);
        mixed = (mixed ^ mixed >> 27).wrapping_mul(0x94D0_49BB_1331_11EB);
        mixed ^ mixed >> 31
    }

    pub fn below(&mut self, bound: usize) -> usize {
        (self.draw() % bound as u64) as usize
    }

    pub fn byte(&mut self) -> u8 {
        self.draw() as u8
    }

    /// Mostly a small byte, which is likelier to mean something.
    fn likely_byte(&mut self) -> u8 {
        match self.below(4) {
            0 => self.byte(),
            _ => self.byte() % 8,
        }
    }
}

/// The bytes of a good sheet, with events of all kinds and oddities.
pub fn good_sheet(rng: &mut Rng) -> Vec<u8> {
    let districts = 1 + rng.below(8);
    let mut bytes = vec![districts as u8];
    let mut code = 0;
    for _ in 0..districts {
        code += 1 + rng.below(31);
        bytes.push(code as u8);
    }
    let items = 1 + rng.below(32);
    bytes.push(items as u8);
    for _ in 0..items {
        bytes.push(rng.below(districts) as u8);
        let value = rng.below(19_999) as i16 - 9_999;
        bytes.extend(value.to_be_bytes());
    }
    let events = rng.below(20);
    bytes.extend([0, events as u8]);
    for _ in 0..events {
        event(rng, &mut bytes);
    }
    bytes
}

fn event(rng: &mut Rng, bytes: &mut Vec<u8>) {
    let kind = 1 + rng.below(7) as u8;
    bytes.push(kind);
    let fields = match kind {
        1 => {
            let steps = match rng.below(20) {
                0 => 255,
                1 => 9,
                2 => 0,
                _ => 1 + rng.below(8),
            };
            bytes.push(steps as u8);
            4 * steps
        }
        4 | 5 => 2,
        7 => 1,
        _ => 3,
    };
    bytes.extend((0..fields).map(|_| rng.likely_byte()));
}

/// One byte changed, or the sheet cut off, or bytes put at its end.
pub fn damage(rng: &mut Rng, bytes: &mut Vec<u8>) {
    let at = rng.below(bytes.len());
    match rng.below(4) {
        0 => bytes.truncate(at),
        1 => bytes.extend((0..=at % 3).map(|_| rng.byte())),
        // The opening is short, and most of what can be wrong stands there.
        2 => {
            let early = at % bytes.len().min(16);
            bytes[early] = rng.byte();
        }
        _ => bytes[at] = rng.byte(),
    }
}
