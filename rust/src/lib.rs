//! The heap of the published crate `gc`, proved.
//!
//! The names and signatures are the published ones as far as they can be kept (docs/DIFFERENCES.md has what could not); the heap
//! behind them is the Rattle crate `heap_c`. A refused call is an `Err` with the number of document 01's question, and changes nothing.
//!
//! ```
//! use gc::{Collector, MemoryManager, Value};
//!
//! let mut heap = Collector::default();
//! let mut roots = [heap.alloc(2, &mut [])?];
//! let Value::Pointer(array) = roots[0] else { unreachable!() };
//! heap.write(&array.add(1), Value::Int(7))?;
//! heap.alloc(2048, &mut roots)?; // fills the nursery: the array is moved, and its root changed
//! let Value::Pointer(array) = roots[0] else { unreachable!() };
//! assert!(matches!(*heap.read(&array.add(1))?, Value::Int(7)));
//! assert_eq!(heap.read(&array.add(2)).unwrap_err().question(), 8);
//! # Ok::<(), gc::error::InterpError>(())
//! ```

pub mod c;
mod collector;
pub mod error;
mod figure;
mod stats;
mod value;

pub use collector::{Collector, Counts, Sizes};
pub use figure::Figure;
pub use stats::{GenStats, MemStats};
pub use value::{Loaded, Pointer, Value};

use error::InterpError;

/// An object which manages the interpreter's heap.
pub trait MemoryManager {
    /// Allocates an array of so many values and answers a pointer to it. Roots that point to an array that was moved are changed.
    ///
    /// # Errors
    /// If it cannot be allocated.
    fn alloc(&mut self, amount: i64, roots: &mut [Value]) -> Result<Value, InterpError>;

    /// Marks an array as able to be freed. A memory manager need not do anything with it.
    ///
    /// # Errors
    /// A memory manager may refuse a pointer that is invalid.
    fn free(&mut self, key: &Pointer) -> Result<(), InterpError>;

    /// Writes a value to where a pointer leads.
    ///
    /// # Errors
    /// If the pointer is invalid.
    fn write(&mut self, key: &Pointer, val: Value) -> Result<(), InterpError>;

    /// The value where a pointer leads.
    ///
    /// # Errors
    /// If the pointer is invalid.
    fn read(&self, key: &Pointer) -> Result<Loaded, InterpError>;

    /// The statistics; then everything is collected.
    fn test(&mut self) -> MemStats;
}
