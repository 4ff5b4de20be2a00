//! A small interpreter whose registers are the heap's roots. Its program pushes numbers on a list, through many collections, and
//! reads them back.
//!
//! `cargo run --release --example list`

use gc::error::InterpError;
use gc::{Collector, MemoryManager, Pointer, Sizes, Value};

const LENGTH: i64 = 1000;
const SIZES: Sizes = Sizes { nursery_cells: 64, threshold: 8192, elder_slots: 1024, elder_cells: 4096 };

/// Operands are numbers of registers, but for constants, places in an array and targets of jumps.
#[derive(Clone, Copy)]
enum Op {
    Const { to: usize, number: i64 },
    Copy { to: usize, from: usize },
    Add { to: usize, left: usize, right: usize },
    Alloc { to: usize, amount: i64 },
    Load { to: usize, array: usize, at: i64 },
    Store { from: usize, array: usize, at: i64 },
    JumpIfLess { left: usize, right: usize, target: usize },
    JumpIfPointer { tested: usize, target: usize },
}

const LIST: usize = 0;
const NUMBER: usize = 1;
const NODE: usize = 2;
const ONE: usize = 3;
const END: usize = 4;
const SUM: usize = 5;
const REGISTERS: usize = 6;

/// A node is a number and the rest of the list. An empty list is a register that was never set.
const PROGRAM: [Op; 14] = [
    Op::Const { to: NUMBER, number: 0 },
    Op::Const { to: ONE, number: 1 },
    Op::Const { to: END, number: LENGTH },
    // push
    Op::Alloc { to: NODE, amount: 2 },
    Op::Store { from: NUMBER, array: NODE, at: 0 },
    Op::Store { from: LIST, array: NODE, at: 1 },
    Op::Copy { to: LIST, from: NODE },
    Op::Add { to: NUMBER, left: NUMBER, right: ONE },
    Op::JumpIfLess { left: NUMBER, right: END, target: 3 },
    // read back
    Op::Const { to: SUM, number: 0 },
    Op::Load { to: NUMBER, array: LIST, at: 0 },
    Op::Add { to: SUM, left: SUM, right: NUMBER },
    Op::Load { to: LIST, array: LIST, at: 1 },
    Op::JumpIfPointer { tested: LIST, target: 10 },
];

fn run(heap: &mut impl MemoryManager, registers: &mut [Value; REGISTERS]) -> Result<(), InterpError> {
    let mut at = 0;
    while let Some(op) = PROGRAM.get(at) {
        at += 1;
        match *op {
            Op::Const { to, number } => registers[to] = Value::Int(number),
            Op::Copy { to, from } => registers[to] = registers[from],
            Op::Add { to, left, right } => {
                registers[to] = Value::Int(i64::from(&registers[left]) + i64::from(&registers[right]));
            }
            Op::Alloc { to, amount } => registers[to] = heap.alloc(amount, registers)?,
            Op::Load { to, array, at } => {
                registers[to] = *heap.read(&<&Pointer>::from(&registers[array]).try_add(at)?)?;
            }
            Op::Store { from, array, at } => {
                heap.write(&<&Pointer>::from(&registers[array]).try_add(at)?, registers[from])?;
            }
            Op::JumpIfLess { left, right, target } => {
                if i64::from(&registers[left]) < i64::from(&registers[right]) {
                    at = target;
                }
            }
            Op::JumpIfPointer { tested, target } => {
                if let Value::Pointer(_) = registers[tested] {
                    at = target;
                }
            }
        }
    }
    Ok(())
}

fn main() -> Result<(), InterpError> {
    let mut heap = Collector::try_new(SIZES)?;
    let mut registers = [Value::default(); REGISTERS];
    run(&mut heap, &mut registers)?;
    println!("a list of {LENGTH} numbers, read back: their sum is {}", registers[SUM]);
    assert_eq!(i64::from(&registers[SUM]), LENGTH * (LENGTH - 1) / 2);
    print!("{}", heap.test());
    Ok(())
}
