//! Each refusal of the collector has its number, changes nothing, and is no panic.

use gc::error::InterpError;
use gc::{Collector, Figure, MemoryManager, Pointer, Sizes, Value};

const SIZES: Sizes = Sizes { nursery_cells: 4, threshold: 8, elder_slots: 8, elder_cells: 16 };
const MOST: u64 = u32::MAX as u64;

fn heap() -> Collector {
    Collector::try_new(SIZES).unwrap().checking()
}

fn pointer(heap_id: u8, base: usize, offset: i64) -> Pointer {
    Pointer { heap_id, base, offset }
}

fn root(heap_id: u8, base: usize, offset: i64) -> Value {
    Value::Pointer(pointer(heap_id, base, offset))
}

fn words(values: &[Value]) -> Vec<[u64; 3]> {
    values.iter().map(|value| value.to_words()).collect()
}

/// The heap that `change` makes of this one's image.
fn changed(heap: &Collector, change: impl FnOnce(&mut [u64])) -> Result<Collector, InterpError> {
    let mut words = heap.words().to_vec();
    change(&mut words);
    Collector::from_words(words).map(Collector::checking)
}

/// The error of an alloc that must change neither image nor roots.
fn refused_alloc(heap: &mut Collector, amount: i64, roots: &[Value]) -> InterpError {
    let (image, mut left) = (heap.words().to_vec(), roots.to_vec());
    let error = heap.alloc(amount, &mut left).unwrap_err();
    assert_eq!(heap.words(), image);
    assert_eq!(words(&left), words(roots));
    error
}

fn refused_write(heap: &mut Collector, key: Pointer, value: Value) -> InterpError {
    let image = heap.words().to_vec();
    let error = heap.write(&key, value).unwrap_err();
    assert_eq!(heap.words(), image);
    error
}

#[test]
fn sizes_out_of_bounds() {
    let most = Sizes::LARGEST;
    for sizes in [
        Sizes { nursery_cells: 2049, ..most },
        Sizes { threshold: 8193, ..most },
        Sizes { elder_slots: 8193, ..most },
        Sizes { elder_cells: 65537, ..most },
        Sizes { elder_cells: usize::MAX, ..most },
    ] {
        assert_eq!(Collector::try_new(sizes).err(), Some(InterpError::Refused(1)));
    }
    assert_eq!(Collector::try_new(most).unwrap().sizes(), most);
    assert_eq!(Collector::from_words(vec![0; 3]).err(), Some(InterpError::Refused(1)));
}

#[test]
fn the_published_constructor_cuts_its_sizes() {
    let most = Sizes::LARGEST;
    assert_eq!(Collector::new(usize::MAX, 0, usize::MAX).sizes(), most);
    assert_eq!(Collector::new(7, 0, 9).sizes(), Sizes { nursery_cells: 7, threshold: 9, ..most });
    assert_eq!(Collector::default().sizes(), Sizes { nursery_cells: 2048, threshold: 8192, ..most });
}

#[test]
fn image_that_is_not_formed() {
    let refused = |place: usize, word| changed(&heap(), |words| words[place] = word).err();
    assert_eq!(refused(4, 4), Some(InterpError::Refused(2))); // the cursor at N
    assert_eq!(refused(9, 2), Some(InterpError::Refused(2))); // a flag
    assert_eq!(refused(10, 1), Some(InterpError::Refused(2))); // a count of an absent barrier
    assert_eq!(refused(5, MOST + 1), Some(InterpError::Refused(2))); // a counter
    assert_eq!(refused(5, MOST), None);
}

#[test]
fn roots_and_values_that_are_no_cells() {
    let mut heap = heap();
    assert_eq!(refused_alloc(&mut heap, 1, &[root(2, 0, 0)]), InterpError::Refused(3));
    assert_eq!(refused_alloc(&mut heap, 0, &[root(255, 0, 0)]), InterpError::Refused(3)); // before 5
    assert_eq!(refused_write(&mut heap, pointer(0, 0, 9), root(2, 0, 0)), InterpError::Refused(3)); // before 8
    assert_eq!(refused_alloc(&mut heap, 1, &vec![root(1, 0, 0); 4097]), InterpError::Refused(3));
    heap.alloc(1, &mut vec![root(1, 0, 0); 4096]).unwrap();
    // other values are no roots of the library's
    heap.alloc(1, &mut vec![Value::Int(7); 5000]).unwrap();
}

#[test]
fn amounts_that_are_not_above_zero() {
    for amount in [0, -1, i64::MIN] {
        let error = refused_alloc(&mut heap(), amount, &[]);
        assert_eq!(error, InterpError::CannotAllocSize(amount));
        assert_eq!(error.question(), 5);
        assert_eq!(error.to_string(), format!("cannot allocate `{amount}` entries"));
    }
}

#[test]
fn live_pointer_without_allocation() {
    assert_eq!(refused_alloc(&mut heap(), 4, &[root(0, 1, 0)]), InterpError::Refused(6));
}

#[test]
fn no_room_in_the_elder() {
    let mut heap = heap();
    assert_eq!(refused_alloc(&mut heap, 17, &[]), InterpError::Refused(7));
    assert_eq!(refused_alloc(&mut heap, i64::MAX, &[]), InterpError::Refused(7));
    heap.alloc(16, &mut []).unwrap();
    assert_eq!(refused_alloc(&mut heap, 4, &[]), InterpError::Refused(7));
}

#[test]
fn access_outside() {
    let mut heap = heap();
    for key in [pointer(0, 0, 4), pointer(0, 0, -1), pointer(1, 0, 0), pointer(2, 0, 0), pointer(255, 0, 0)] {
        let error = heap.read(&key).unwrap_err();
        assert_eq!(error, InterpError::InvalidMemoryAccess(key.base, key.offset));
        assert_eq!(error.question(), 8);
        assert_eq!(refused_write(&mut heap, key, Value::Int(7)), error);
    }
    let text = heap.read(&pointer(1, 3, -2)).unwrap_err().to_string();
    assert_eq!(text, "Uninitialized heap location `3` and/or illegal offset `-2`");
    heap.read(&pointer(0, usize::MAX, 1)).unwrap(); // the first cell
}

#[test]
fn index_or_offset_beyond_i64() {
    let mut heap = heap();
    let key = pointer(0, i64::MAX as usize, 1);
    assert_eq!(heap.read(&key).unwrap_err(), InterpError::Refused(9));
    assert_eq!(refused_write(&mut heap, key, Value::Int(7)), InterpError::Refused(9));
    assert_eq!(pointer(1, 0, i64::MAX).try_add(1), Err(InterpError::Refused(9)));
    assert_eq!(pointer(1, 2, i64::MAX).try_add(-1), Ok(pointer(1, 2, i64::MAX - 1)));
}

/// Document 01's case C11.
#[test]
fn count_that_would_fall_below_zero() {
    let mut heap = heap();
    heap.alloc(2, &mut []).unwrap();
    heap.write(&pointer(0, 0, 0), root(1, 5, 0)).unwrap();
    heap.alloc(2, &mut []).unwrap();
    heap.write(&pointer(0, 0, 1), root(1, 6, 0)).unwrap();
    assert_eq!(refused_write(&mut heap, pointer(0, 0, 0), Value::Int(7)), InterpError::Refused(10));
}

#[test]
fn count_or_counter_at_its_bound() {
    let mut full = changed(&heap(), |words| words[5] = MOST).unwrap();
    full.alloc(3, &mut []).unwrap();
    assert_eq!(refused_alloc(&mut full, 1, &[]), InterpError::Refused(11));
    let mut full = changed(&heap(), |words| (words[8], words[10]) = (1, MOST)).unwrap();
    assert_eq!(refused_write(&mut full, pointer(0, 0, 0), root(1, 256, 0)), InterpError::Refused(11));
}

#[test]
fn report_that_is_refused() {
    let mut full = changed(&heap(), |words| words[7] = MOST).unwrap();
    let image = full.words().to_vec();
    assert_eq!(full.try_test(), Err(InterpError::Refused(11)));
    assert!(full.test().memory_leak);
    assert_eq!(full.words(), image);
}

#[test]
fn figures() {
    let text = |number| Figure::of(number).unwrap().to_string();
    assert_eq!(text(0.0625), "0.062");
    assert_eq!(text(0.1875), "0.188");
    assert_eq!(text(-0.0625), "-0.062");
    assert_eq!(text(-0.0004), "0.000");
    assert_eq!(text(-1.5), "-1.500");
    assert_eq!(text(999_999.999_4), "999999.999");
    for number in [f64::NAN, f64::INFINITY, 999_999.999_6, -1e300] {
        assert_eq!(Figure::of(number), Err(InterpError::Refused(15)));
    }
}

/// Document 01's case C1.
#[test]
fn answers() {
    let mut heap = Collector::try_new(Sizes { threshold: 2, ..SIZES }).unwrap().checking();
    let mut roots = [heap.alloc(2, &mut []).unwrap(), Value::Int(7), Value::Uninitialized];
    heap.write(&pointer(0, 0, 1), roots[1]).unwrap();
    let (second, counts) = heap.alloc_counted(2, &mut roots).unwrap();
    assert_eq!(second, pointer(0, 0, 0));
    assert_eq!([counts.nursery_collections, counts.nursery_visits], [1, 1]);
    assert_eq!([counts.elder_collections, counts.elder_visits], [0, 0]);
    assert_eq!(words(&roots), words(&[root(1, 0, 0), Value::Int(7), Value::Uninitialized]));
    for key in [pointer(1, 0, 1), pointer(0, 0, 1)] {
        assert_eq!(heap.read(&key).unwrap().to_words(), Value::Int(7).to_words());
    }
    assert_eq!(heap.read(&pointer(1, 0, 2)).unwrap_err().question(), 8);
    heap.free(&second).unwrap();
    let stats = heap.test();
    let [nursery, elder] = &stats.gen_stats[..] else { panic!("two generations") };
    assert!(!stats.memory_leak);
    assert_eq!([nursery.num_collections, nursery.num_size, nursery.values_allocated], [1, 1, 2]);
    assert_eq!([nursery.num_remembered_set, nursery.free_space, nursery.num_promotions], [0, 2, 1]);
    assert_eq!([elder.num_collections, elder.num_size, elder.values_allocated, elder.num_remembered_set], [0, 1, 2, 0]);
}

#[test]
fn values_and_words() {
    let values = [
        Value::Uninitialized,
        Value::Int(-7),
        Value::Bool(true),
        Value::Float(f64::from_bits(0x7FF8_0000_0000_0001)),
        Value::Char('\u{10FFFF}'),
        root(1, usize::MAX, -1),
    ];
    for value in values {
        assert_eq!(Value::from_words(value.to_words()).unwrap().to_words(), value.to_words());
    }
    for cell in
        [[0, 1, 0], [1, 0, 1], [2, 2, 0], [4, 0xD800, 0], [4, 1 << 32, 0], [6, 0, 0], [256, 0, 0], [5 + 512, 0, 0]]
    {
        assert!(Value::from_words(cell).is_none());
    }
}
