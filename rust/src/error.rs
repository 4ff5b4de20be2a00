//! Why a call is refused.

use std::{error, fmt};

/// A refusal: nothing has changed. The published enum's other errors are the interpreter's own, and are not here.
#[derive(Debug, Clone, Copy, PartialEq, Eq)]
pub enum InterpError {
    /// Question 5: this amount is not above 0.
    CannotAllocSize(i64),
    /// Question 8: base and offset lead to no cell.
    InvalidMemoryAccess(usize, i64),
    /// Another question of document 01, by its number.
    Refused(u8),
}

impl InterpError {
    /// The number of the question that got a no.
    #[must_use]
    pub const fn question(&self) -> u8 {
        match *self {
            Self::CannotAllocSize(_) => 5,
            Self::InvalidMemoryAccess(..) => 8,
            Self::Refused(question) => question,
        }
    }

    /// What a no to this question of document 01 says; docs/QUESTIONS.md has what to do about it.
    #[must_use]
    pub const fn text(question: u8) -> Option<&'static str> {
        Some(match question {
            1 => "sizes are out of bounds, or not those of the image",
            2 => "the image is not well formed",
            3 => "a root or value is no valid cell, or there are more than 4,096 roots",
            4 => "scratch is too short",
            5 => "the amount is not above 0",
            6 => "a live pointer into the nursery has no allocation",
            7 => "no room in the elder generation",
            8 => "the pointer leads to no cell",
            9 => "an index or offset is beyond i64",
            10 => "a count would fall below 0",
            11 => "a count or counter would exceed its bound",
            12 => "a command is unknown, cut short or has a register above 15, or the file is above 65,536 bytes",
            13 => "the pointer register holds no pointer",
            14 => "there is no heap yet, or this is a second new",
            15 => "no finite Float with a figure of at most 999999.999 either way",
            _ => return None,
        })
    }
}

impl fmt::Display for InterpError {
    fn fmt(&self, f: &mut fmt::Formatter<'_>) -> fmt::Result {
        match self {
            Self::CannotAllocSize(amount) => write!(f, "cannot allocate `{amount}` entries"),
            Self::InvalidMemoryAccess(base, offset) => {
                write!(f, "Uninitialized heap location `{base}` and/or illegal offset `{offset}`")
            }
            Self::Refused(question) => {
                let text = Self::text(*question).unwrap_or("there is no such question");
                write!(f, "refused by question {question}: {text}")
            }
        }
    }
}

impl error::Error for InterpError {}
