//! The numbered refusals.

/// The rows 1 to 16 of "Answer numbers". Row 0, accepted, is `Ok`.
#[derive(Clone, Copy, Debug, PartialEq, Eq)]
#[repr(u8)]
pub enum Refusal {
    NoSuchDistrict = 1,
    /// Also a list of pairs of which not exactly one applies.
    NoSuchItem = 2,
    BadProgram = 3,
    NotOpen = 4,
    TouchedDistrictBusy = 5,
    SixAreOpen = 6,
    NumbersUsedUp = 7,
    TooManyValues = 8,
    DistrictNotOnIt = 9,
    AlreadyDecided = 10,
    NotAllReady = 11,
    NotDecided = 12,
    SheetMalformed = 13,
    SheetTooLong = 14,
    BookNotSound = 15,
    BufferTooShort = 16,
}

impl Refusal {
    pub fn number(self) -> u8 {
        self as u8
    }
}
