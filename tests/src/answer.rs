//! Document 01, "Answer numbers"; from document 02, 10 is #101's and 11 is #104's.

#[derive(Clone, Copy, Debug, PartialEq, Eq)]
pub enum Answer {
    Done = 0,
    BadEnd = 1,
    NoRegister = 2,
    ReadOnly = 3,
    Blocked = 4,
    BadSymbol = 5,
    BadHealth = 6,
    BadLength = 7,
    NotFound = 8,
    NotAcceptable = 9,
    ReadOnlyBits = 10,
    BadRecord = 11,
}

impl Answer {
    pub fn number(self) -> u8 {
        self as u8
    }
}
