//! The first steps with the heap, as the repository's README shows them.
//!
//! `cargo run --release --example start`

use gc::error::InterpError;
use gc::{Collector, Figure, MemoryManager, Sizes, Value};

fn main() -> Result<(), InterpError> {
    // with the threshold above the elder's slots, what was moved there is never collected
    let sizes = Sizes { nursery_cells: 4, threshold: 9, elder_slots: 8, elder_cells: 16 };
    let mut heap = Collector::try_new(sizes)?;

    // the roots of every alloc: a collection changes them where their arrays are moved
    let mut roots = [heap.alloc(2, &mut [])?];
    let Value::Pointer(array) = roots[0] else { unreachable!() };
    heap.write(&array.add(0), Value::Int(7))?;
    heap.write(&array.add(1), Value::Float(0.25))?;

    // two cells of the nursery are free, and an amount must be below that: the array is moved to the elder
    heap.alloc(2, &mut roots)?;
    let Value::Pointer(array) = roots[0] else { unreachable!() };
    assert_eq!(array.heap_id, 1);

    // the figure of a tender, from a Float on the heap
    let Value::Float(accuracy) = *heap.read(&array.add(1))? else { unreachable!() };
    assert_eq!(Figure::of(accuracy)?.to_string(), "0.250");

    // a refused call has changed nothing
    let refusal = heap.alloc(100, &mut roots).unwrap_err();
    assert_eq!(refusal.question(), 7);
    assert_eq!(refusal.to_string(), "refused by question 7: no room in the elder generation");

    println!("{}", heap.try_test()?);
    Ok(())
}
