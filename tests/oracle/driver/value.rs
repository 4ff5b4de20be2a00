//! Values as document 01's words: kind, heap, payload, offset.

use crate::command::VALUE_BYTES;
use gc::{Pointer, Value};

const HEAPS: u8 = 2;

/// The value of a set command, or `None` where question 3 gets a no.
pub fn from_bytes(bytes: &[u8; VALUE_BYTES]) -> Option<Value> {
    let [kind, heap, words @ ..] = bytes;
    let (payload, offset) = words.split_at(8);
    let payload = u64::from_le_bytes(payload.try_into().unwrap());
    let offset = u64::from_le_bytes(offset.try_into().unwrap());
    if *kind == 5 {
        let pointer = Pointer { heap_id: *heap, base: payload as usize, offset: offset as i64 };
        return (*heap < HEAPS).then_some(Value::Pointer(pointer));
    }
    if *heap != 0 || offset != 0 {
        return None;
    }
    match (kind, payload) {
        (0, 0) => Some(Value::Uninitialized),
        (1, _) => Some(Value::Int(payload as i64)),
        (2, 0 | 1) => Some(Value::Bool(payload == 1)),
        (3, _) => Some(Value::Float(f64::from_bits(payload))),
        (4, _) => u32::try_from(payload).ok().and_then(char::from_u32).map(Value::Char),
        _ => None,
    }
}

/// Kind, heap, payload, offset, as a load line shows them.
pub fn words(value: &Value) -> [u64; 4] {
    match *value {
        Value::Uninitialized => [0; 4],
        Value::Int(number) => [1, 0, number as u64, 0],
        Value::Bool(truth) => [2, 0, u64::from(truth), 0],
        Value::Float(number) => [3, 0, number.to_bits(), 0],
        Value::Char(scalar) => [4, 0, u64::from(scalar), 0],
        Value::Pointer(p) => [5, u64::from(p.heap_id), p.base as u64, p.offset as u64],
    }
}
