//! Stands in for the absent crate of this name.

pub enum Literal {
    Int(i64),
    Bool(bool),
    Float(f64),
    Char(char),
}
