//! Document 01's answer numbers, each in this one place.

/// What an event is answered; the number is document 01's.
#[derive(Clone, Copy, Debug, PartialEq, Eq, PartialOrd, Ord)]
pub enum Answer {
    Done = 0,
    Clock = 1,
    SmallBuffer = 2,
    BadFace = 3,
    TooLong = 4,
    Malformed = 5,
    Unsupported = 6,
    HopLimit = 7,
    Scope = 8,
    Loop = 9,
    NoRoute = 10,
    NoRoom = 11,
    Unsolicited = 12,
    StaleNack = 13,
    FaceOpen = 14,
    BadSetting = 15,
    TableFull = 16,
}

impl Answer {
    /// The answer's number.
    pub fn number(self) -> u8 {
        self as u8
    }
}
