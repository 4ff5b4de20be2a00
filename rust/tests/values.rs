//! Values, pointers and statistics as text, and their conversions.

use gc::{GenStats, Loaded, MemStats, Pointer, Value};

const POINTER: Pointer = Pointer { heap_id: 1, base: 2, offset: -3 };

#[test]
fn text_of_values() {
    let text = |value: Value| value.to_string();
    assert_eq!(text(Value::Int(-7)), "-7");
    assert_eq!(text(Value::Bool(true)), "true");
    assert_eq!(text(Value::Float(0.5)), "0.50000000000000000");
    assert_eq!(text(Value::Float(f64::INFINITY)), "Infinity");
    assert_eq!(text(Value::Float(f64::NEG_INFINITY)), "-Infinity");
    assert_eq!(text(Value::Char('é')), "é");
    assert_eq!(text(Value::Pointer(POINTER)), "Pointer { heap_id: 1, base: 2, offset: -3 }");
    assert_eq!(text(Value::Uninitialized), "uninitialized");
}

#[test]
fn content_of_values() {
    assert_eq!(i64::from(&Value::Int(-7)), -7);
    assert!(bool::from(&Value::Bool(true)));
    assert_eq!(f64::from(&Value::Float(0.5)), 0.5);
    assert_eq!(char::from(&Value::Char('é')), 'é');
    assert_eq!(<&Pointer>::from(&Value::Pointer(POINTER)), &POINTER);
    assert_eq!(Value::from(&Value::Int(3)).to_words(), [1, 3, 0]);
    assert_eq!(Value::from(Loaded::from(Value::Int(3))).to_words(), [1, 3, 0]);
}

#[test]
#[should_panic(expected = "expected Int but got Bool(true)")]
fn content_of_another_kind() {
    let _ = i64::from(&Value::Bool(true));
}

#[test]
#[should_panic(expected = "offset beyond i64")]
fn sum_beyond_i64() {
    let _ = Pointer { offset: i64::MIN, ..POINTER }.add(-1);
}

#[test]
fn text_of_statistics() {
    let generation = GenStats { num_collections: 1, num_size: 2, num_remembered_set: 3, ..GenStats::default() };
    let text = MemStats { gen_stats: vec![generation], memory_leak: false }.to_string();
    let lines =
        ["g0: [", "\tNumber of collections: 1", "\tNumber of values: 2", "\tRemembered Set: 3", "\tFree space: 0"];
    assert!(text.starts_with(&lines.join("\n")));
    assert!(text.ends_with("\tValues allocated: 0\n\tNumber of promotions: 0\n]\n"));
}
