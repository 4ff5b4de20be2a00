//! The accuracy figure of a tender.

use crate::c;
use crate::error::InterpError;
use std::fmt;

/// A Float as thousandths, rounded once, a tie to the even one. Prints with three decimals.
#[derive(Debug, Clone, Copy, PartialEq, Eq)]
pub struct Figure {
    /// Never set for zero
    pub negative: bool,
    /// At most 999,999,999
    pub thousandths: u64,
}

impl Figure {
    /// The figure of a Float.
    ///
    /// # Errors
    /// 15, where it is not finite, or its figure above 999999.999 either way.
    pub fn of(number: f64) -> Result<Self, InterpError> {
        let mut out = [0; 2];
        match c::figure(number.to_bits(), &mut out) {
            0 => Ok(Self { negative: out[0] == 1, thousandths: out[1] }),
            question => Err(InterpError::Refused(question as u8)),
        }
    }
}

impl fmt::Display for Figure {
    fn fmt(&self, f: &mut fmt::Formatter<'_>) -> fmt::Result {
        let sign = if self.negative { "-" } else { "" };
        write!(f, "{sign}{}.{:03}", self.thousandths / 1000, self.thousandths % 1000)
    }
}
