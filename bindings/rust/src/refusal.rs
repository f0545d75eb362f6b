use crate::LONGEST;
use std::error::Error;
use std::fmt;

/// Why a text is not cut. They are checked in this order.
#[derive(Clone, Copy, Debug, PartialEq, Eq, Hash)]
pub enum Refusal {
    /// The digit mode is above 2.
    Mode,
    /// The text is over [`LONGEST`] bytes.
    TooLong,
    /// The text is not UTF-8; `at` is the first byte of the first ill-formed sequence.
    NotUtf8 { at: usize },
    /// The start is past the end of a text of `len` bytes.
    PastEnd { len: usize },
    /// The start is inside the character whose first byte is `at`.
    InsideCharacter { at: usize },
}

impl Refusal {
    /// The refusal's number, 1 to 5.
    pub fn number(self) -> u32 {
        match self {
            Refusal::Mode => 1,
            Refusal::TooLong => 2,
            Refusal::NotUtf8 { .. } => 3,
            Refusal::PastEnd { .. } => 4,
            Refusal::InsideCharacter { .. } => 5,
        }
    }

    /// The place that is given with the number.
    pub fn place(self) -> usize {
        match self {
            Refusal::Mode => 0,
            Refusal::TooLong => LONGEST,
            Refusal::NotUtf8 { at } => at,
            Refusal::PastEnd { len } => len,
            Refusal::InsideCharacter { at } => at,
        }
    }

    /// The refusal of a number and place; `Ok` of number 0.
    pub(crate) fn of(number: u32, place: usize) -> Result<(), Refusal> {
        match number {
            0 => Ok(()),
            1 => Err(Refusal::Mode),
            2 => Err(Refusal::TooLong),
            3 => Err(Refusal::NotUtf8 { at: place }),
            4 => Err(Refusal::PastEnd { len: place }),
            5 => Err(Refusal::InsideCharacter { at: place }),
            _ => unreachable!("the library gives no refusal {number} of a text"),
        }
    }

    fn reason(self) -> &'static str {
        match self {
            Refusal::Mode => "the digit mode is above 2",
            Refusal::TooLong => "the text is over 1,048,576 bytes",
            Refusal::NotUtf8 { .. } => "the text is not UTF-8",
            Refusal::PastEnd { .. } => "the start is past the end",
            Refusal::InsideCharacter { .. } => "the start is inside a character",
        }
    }
}

impl fmt::Display for Refusal {
    fn fmt(&self, f: &mut fmt::Formatter<'_>) -> fmt::Result {
        write!(
            f,
            "refused {} at {}: {}",
            self.number(),
            self.place(),
            self.reason()
        )
    }
}

impl Error for Refusal {}
