//! Stands in for the published error.rs: of its errors, the two that the heap's calls return.

pub enum InterpError {
    CannotAllocSize(i64),
    InvalidMemoryAccess(usize, i64),
}
