//! The published collector's heap as document 01's words, and back.

use crate::form::{self, Cell, Parts, COUNTS, CURSOR, PRESENT};
use gc::hooks::{self, Content};
use gc::{Collector, GenStats, Pointer, Value};

/// The image of a heap, and the eleven numbers of its report.
pub fn picture(collector: &Collector, sizes: [u64; 4]) -> (Vec<u64>, [u64; 11]) {
    let [(nursery, young), (elder, old)] = hooks::content(collector);
    let parts = Parts::of(sizes);
    let mut image = vec![0; form::image_length(sizes) as usize];
    image[..4].copy_from_slice(&sizes);
    image[CURSOR] = young.values_allocated as u64;
    image[form::COLLECTIONS] = nursery.collections as u64;
    image[form::PROMOTIONS] = nursery.promotions as u64;
    image[form::SWEEPS] = elder.collections as u64;
    draw(&mut image, PRESENT, [parts.nursery_counts, parts.nursery_lengths, parts.nursery_cells], &nursery);
    draw(&mut image, PRESENT + 1, [parts.elder_counts, parts.elder_lengths, parts.elder_cells], &elder);
    (image, report(&young, &old))
}

fn draw(image: &mut [u64], present: usize, parts: [std::ops::Range<usize>; 3], content: &Content) {
    let [counts, lengths, cells] = parts;
    image[present] = u64::from(content.counts.is_some());
    for (word, count) in image[counts].iter_mut().zip(content.counts.iter().flatten()) {
        *word = *count as u64;
    }
    for &(base, length) in &content.lengths {
        image[lengths.clone()][base] = length as u64;
    }
    for (words, value) in image[cells].chunks_exact_mut(3).zip(&content.cells) {
        words.copy_from_slice(&words_of(value));
    }
}

/// In document 01's order.
pub fn report(young: &GenStats, old: &GenStats) -> [u64; 11] {
    [
        young.num_collections,
        young.num_size,
        young.values_allocated,
        young.num_remembered_set,
        young.free_space,
        young.num_promotions,
        old.num_collections,
        old.num_size,
        old.values_allocated,
        old.num_remembered_set,
        0,
    ]
    .map(|number| number as u64)
}

/// The collector whose heap a formed image is.
pub fn collector_of(image: &[u64]) -> Collector {
    let sizes = *image.first_chunk().expect("a formed image");
    let parts = Parts::of(sizes);
    let counters = [form::COLLECTIONS, form::PROMOTIONS, form::SWEEPS].map(|place| image[place] as usize);
    let nursery = Content {
        collections: counters[0],
        promotions: counters[1],
        ..content(
            image[PRESENT],
            &image[parts.nursery_counts],
            &image[parts.nursery_lengths],
            &image[parts.nursery_cells],
        )
    };
    let elder = Content {
        collections: counters[2],
        ..content(
            image[PRESENT + 1],
            &image[parts.elder_counts],
            &image[parts.elder_lengths],
            &image[parts.elder_cells],
        )
    };
    hooks::collector_with(nursery, elder, sizes[1] as usize)
}

fn content(present: u64, counts: &[u64], lengths: &[u64], cells: &[u64]) -> Content {
    let allocated = lengths.iter().enumerate().filter(|(_, &length)| length > 0);
    let mut counted = [0; COUNTS];
    for (count, &word) in counted.iter_mut().zip(counts) {
        *count = word as usize;
    }
    Content {
        lengths: allocated.map(|(base, &length)| (base, length as usize)).collect(),
        cells: values_of(cells),
        counts: (present == 1).then_some(counted),
        ..Content::default()
    }
}

pub fn values_of(words: &[u64]) -> Vec<Value> {
    words.chunks_exact(3).map(|cell| value_of([cell[0], cell[1], cell[2]])).collect()
}

/// Of a valid cell.
pub fn value_of([tag, payload, offset]: Cell) -> Value {
    match tag {
        0 => Value::Uninitialized,
        1 => Value::Int(payload as i64),
        2 => Value::Bool(payload == 1),
        3 => Value::Float(f64::from_bits(payload)),
        4 => Value::Char(char::from_u32(payload as u32).expect("a valid cell")),
        _ => Value::Pointer(Pointer { heap_id: (tag >> 8) as u8, base: payload as usize, offset: offset as i64 }),
    }
}

pub fn words_of(value: &Value) -> Cell {
    match *value {
        Value::Uninitialized => [0; 3],
        Value::Int(number) => [1, number as u64, 0],
        Value::Bool(truth) => [2, u64::from(truth), 0],
        Value::Float(number) => [3, number.to_bits(), 0],
        Value::Char(scalar) => [4, u64::from(scalar), 0],
        Value::Pointer(p) => [form::POINTER + (u64::from(p.heap_id) << 8), p.base as u64, p.offset as u64],
    }
}
