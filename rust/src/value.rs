//! Values and pointers, and a value as the three words of a cell.

use crate::c::Cell;
use crate::error::InterpError;
use std::fmt;
use std::ops::Deref;

/// A value in the interpreter.
#[derive(Debug, Default, Clone, Copy)]
pub enum Value {
    /// A 64 bit integer
    Int(i64),
    /// A boolean
    Bool(bool),
    /// A 64 bit floating point number, whose bits are kept
    Float(f64),
    /// A Unicode scalar
    Char(char),
    /// A pointer into the heap
    Pointer(Pointer),
    /// A value that has not been initialized
    #[default]
    Uninitialized,
}

/// A pointer into the heap.
#[derive(Debug, Clone, PartialEq, Eq, Copy, Hash)]
pub struct Pointer {
    /// 0 for the nursery, 1 for the elder generation
    pub heap_id: u8,
    /// Names the allocation
    pub base: usize,
    /// The offset from the base
    pub offset: i64,
}

impl Pointer {
    /// The pointer with so much more offset.
    ///
    /// # Panics
    /// Where the sum is beyond i64, in every build. [`Self::try_add`] refuses instead.
    #[inline]
    #[must_use]
    pub const fn add(&self, offset: i64) -> Self {
        match self.try_add(offset) {
            Ok(pointer) => pointer,
            Err(_) => panic!("offset beyond i64"),
        }
    }

    /// The pointer with so much more offset.
    ///
    /// # Errors
    /// 9, where the sum is beyond i64.
    #[inline]
    pub const fn try_add(&self, offset: i64) -> Result<Self, InterpError> {
        match self.offset.checked_add(offset) {
            Some(offset) => Ok(Self { offset, ..*self }),
            None => Err(InterpError::Refused(9)),
        }
    }

    /// Of a cell that holds this pointer.
    #[inline]
    #[must_use]
    pub const fn to_words(self) -> Cell {
        [POINTER + ((self.heap_id as u64) << 8), self.base as u64, self.offset as u64]
    }

    /// Of a cell that is known to hold a pointer.
    #[inline]
    pub(crate) const fn in_words([tag, base, offset]: Cell) -> Self {
        Self { heap_id: (tag >> 8) as u8, base: base as usize, offset: offset as i64 }
    }
}

const UNINITIALIZED: u64 = 0;
const INT: u64 = 1;
const BOOL: u64 = 2;
const FLOAT: u64 = 3;
const CHAR: u64 = 4;
const POINTER: u64 = 5;

impl Value {
    /// The three words of a cell with this value.
    #[inline]
    #[must_use]
    pub const fn to_words(self) -> Cell {
        match self {
            Self::Uninitialized => [UNINITIALIZED, 0, 0],
            Self::Int(number) => [INT, number as u64, 0],
            Self::Bool(truth) => [BOOL, truth as u64, 0],
            Self::Float(number) => [FLOAT, number.to_bits(), 0],
            Self::Char(scalar) => [CHAR, scalar as u64, 0],
            Self::Pointer(pointer) => pointer.to_words(),
        }
    }

    /// The value of a cell with these words, if they are one: question 3.
    #[inline]
    #[must_use]
    pub fn from_words(cell: Cell) -> Option<Self> {
        match cell {
            [INT, number, 0] => Some(Self::Int(number as i64)),
            [FLOAT, bits, 0] => Some(Self::Float(f64::from_bits(bits))),
            [BOOL, truth @ (0 | 1), 0] => Some(Self::Bool(truth == 1)),
            [CHAR, scalar, 0] => u32::try_from(scalar).ok().and_then(char::from_u32).map(Self::Char),
            [UNINITIALIZED, 0, 0] => Some(Self::Uninitialized),
            [tag, ..] if tag & !0x100 == POINTER => Some(Self::Pointer(Pointer::in_words(cell))),
            _ => None,
        }
    }
}

/// What a read gives: the value, by `*`. The published `read` gives a reference into the heap; here cells are words.
#[derive(Debug, Clone, Copy)]
pub struct Loaded(Value);

impl Deref for Loaded {
    type Target = Value;

    #[inline]
    fn deref(&self) -> &Value {
        &self.0
    }
}

impl From<Value> for Loaded {
    fn from(value: Value) -> Self {
        Self(value)
    }
}

impl From<Loaded> for Value {
    fn from(loaded: Loaded) -> Self {
        loaded.0
    }
}

impl fmt::Display for Value {
    fn fmt(&self, f: &mut fmt::Formatter<'_>) -> fmt::Result {
        match self {
            Self::Int(number) => write!(f, "{number}"),
            Self::Bool(truth) => write!(f, "{truth}"),
            Self::Float(number) if *number == f64::INFINITY => write!(f, "Infinity"),
            Self::Float(number) if *number == f64::NEG_INFINITY => write!(f, "-Infinity"),
            Self::Float(number) => write!(f, "{number:.17}"),
            Self::Char(scalar) => write!(f, "{scalar}"),
            Self::Pointer(pointer) => write!(f, "{pointer:?}"),
            Self::Uninitialized => write!(f, "uninitialized"),
        }
    }
}

/// The conversions by which an interpreter takes its arguments. As in the published crate, another kind of value is the caller's
/// mistake, and a panic.
macro_rules! taken_from_value {
    ($($kind:ident($of:ty)),*) => {$(
        impl From<&Value> for $of {
            fn from(value: &Value) -> Self {
                match value {
                    Value::$kind(content) => *content,
                    other => unreachable!("expected {} but got {other:?}", stringify!($kind)),
                }
            }
        }
    )*};
}

taken_from_value!(Int(i64), Bool(bool), Float(f64), Char(char));

impl<'a> From<&'a Value> for &'a Pointer {
    fn from(value: &'a Value) -> Self {
        match value {
            Value::Pointer(pointer) => pointer,
            other => unreachable!("expected Pointer but got {other:?}"),
        }
    }
}

impl From<&Self> for Value {
    fn from(value: &Self) -> Self {
        *value
    }
}
