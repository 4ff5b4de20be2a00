//! The workloads. Each prepares a heap, and then makes calls, which are timed; it answers a sum over what the calls answered.

use crate::random::Random;
use crate::side::Side;
use std::time::{Duration, Instant};

/// What a workload did.
pub struct Done {
    pub calls: u64,
    pub sum: u64,
    pub time: Duration,
}

#[derive(Clone, Copy)]
pub struct Scale {
    pub sizes: [usize; 4],
    /// Root registers of the workloads that let few arrays survive.
    pub few: usize,
    /// Arrays that live at a time, for the others.
    pub many: usize,
    /// How often the loops go round.
    pub turns: usize,
}

pub const PROGRAM: Scale = Scale { sizes: [128, 64, 128, 512], few: 4, many: 24, turns: 20_000 };
pub const LARGEST: Scale = Scale { sizes: [2048, 8192, 8192, 65536], few: 16, many: 512, turns: 40_000 };

impl Done {
    const NOTHING: Self = Self { calls: 0, sum: 0, time: Duration::ZERO };

    /// Times what is run.
    fn time(&mut self, run: impl FnOnce(&mut Self)) {
        let start = Instant::now();
        run(self);
        self.time += start.elapsed();
    }

    fn note(&mut self, answer: u64) {
        self.calls += 1;
        self.sum = self.sum.wrapping_mul(31).wrapping_add(answer);
    }
}

/// Small arrays, of which the newest few survive.
pub fn churn<S: Side>(scale: &Scale) -> Done {
    let (mut heap, mut random, mut done) = (S::new(scale.sizes), Random::new(1, 0), Done::NOTHING);
    let mut roots = vec![S::Value::default(); scale.few];
    done.time(|done| {
        for turn in 0..scale.turns {
            let array = heap.alloc(random.between(1, 4) as i64, &mut roots);
            roots[turn % scale.few] = array;
            done.note(S::trace(array));
            heap.write(array, 0, S::int(turn as i64));
            done.note(0);
        }
    });
    done
}

/// Lists that survive as a whole, each built in a fresh heap and read back.
pub fn list<S: Side>(scale: &Scale) -> Done {
    const LENGTH: i64 = 4;
    let mut done = Done::NOTHING;
    // the elder is not collected while a list is built
    let nodes = scale.sizes[1] - scale.sizes[1] / 16;
    for _ in 0..scale.turns.div_ceil(8 * nodes) {
        let mut heap = S::new(scale.sizes);
        done.time(|done| {
            let mut roots = [S::Value::default()];
            for number in 0..nodes {
                let node = heap.alloc(LENGTH, &mut roots);
                for cell in 1..LENGTH {
                    heap.write(node, cell, S::int(number as i64));
                }
                heap.write(node, 0, roots[0]);
                roots[0] = node;
                done.calls += 1 + LENGTH as u64;
            }
            let mut node = roots[0];
            while S::is_pointer(node) {
                done.note(S::trace(heap.read(node, 1)));
                node = heap.read(node, 0);
                done.note(S::trace(node));
            }
        });
    }
    done
}

/// Arrays of four pointers to one another, rewritten at random; now and then a new one takes an old one's place.
///
/// Only arrays in the elder are rewritten, and no old elder pointer in a new array: that would meet document 01's question 10.
pub fn graph<S: Side>(scale: &Scale) -> Done {
    const DEGREE: usize = 4;
    let (mut heap, mut random, mut done) = (S::new(scale.sizes), Random::new(3, 0), Done::NOTHING);
    let nodes = scale.many;
    let mut roots = vec![S::Value::default(); nodes];
    let place = |heap: &mut S, random: &mut Random, roots: &mut Vec<S::Value>, at: usize| {
        roots[at] = heap.alloc(DEGREE as i64, roots);
        for cell in 0..DEGREE as i64 {
            if !S::is_elder(heap.read(roots[at], cell)) {
                heap.write(roots[at], cell, roots[random.below(nodes)]);
            }
        }
    };
    for at in (0..nodes).chain(0..nodes) {
        place(&mut heap, &mut random, &mut roots, at);
    }
    done.time(|done| {
        for turn in 0..scale.turns {
            let (from, to, cell) = (random.below(nodes), random.below(nodes), random.below(DEGREE) as i64);
            if turn % (nodes * DEGREE / 2) == 0 {
                place(&mut heap, &mut random, &mut roots, to);
                done.calls += 1 + 2 * DEGREE as u64;
            }
            done.note(S::trace(heap.read(roots[from], cell)));
            if S::is_elder(roots[from]) {
                heap.write(roots[from], cell, roots[to]);
                done.calls += 1;
            }
        }
    });
    done
}

/// Arrays that survive the nursery and die in the elder generation, which is collected again and again.
pub fn elder<S: Side>(scale: &Scale) -> Done {
    let (mut heap, mut random, mut done) = (S::new(scale.sizes), Random::new(4, 0), Done::NOTHING);
    let mut roots = vec![S::Value::default(); scale.many];
    done.time(|done| {
        for turn in 0..scale.turns {
            let array = heap.alloc(random.between(1, 4) as i64, &mut roots);
            roots[turn % scale.many] = array;
            done.note(S::trace(array));
            heap.write(array, 0, S::int(turn as i64));
            done.note(0);
        }
    });
    done
}

/// Reads and writes of numbers in both generations.
pub fn numbers<S: Side>(scale: &Scale) -> Done {
    access::<S>(scale, |_, _, number| S::int(number))
}

/// Reads and writes in both generations; every other write is of a pointer to any of the arrays.
pub fn pointers<S: Side>(scale: &Scale) -> Done {
    access::<S>(scale, |random, arrays, number| match number & 1 {
        0 => S::int(number),
        _ => arrays[random.below(arrays.len())],
    })
}

fn access<S: Side>(scale: &Scale, value: impl Fn(&mut Random, &[S::Value], i64) -> S::Value) -> Done {
    const LENGTH: usize = 4;
    let (mut heap, mut random, mut done) = (S::new(scale.sizes), Random::new(5, 0), Done::NOTHING);
    let mut arrays = Vec::new();
    for _ in 0..2 * scale.many {
        let array = heap.alloc(LENGTH as i64, &mut arrays);
        arrays.push(array);
        for cell in 0..LENGTH as i64 {
            heap.write(array, cell, S::int(0));
        }
    }
    done.time(|done| {
        for number in 0..2 * scale.turns as i64 {
            let (array, cell) = (arrays[random.below(arrays.len())], random.below(LENGTH) as i64);
            done.note(S::trace(heap.read(array, cell)));
            let (array, cell) = (arrays[random.below(arrays.len())], random.below(LENGTH) as i64);
            heap.write(array, cell, value(&mut random, &arrays, number));
            done.calls += 1;
        }
    });
    done
}

/// Reports, each after a few arrays that stay in the nursery.
pub fn reports<S: Side>(scale: &Scale) -> Done {
    const ARRAYS: usize = 8;
    let (mut heap, mut done) = (S::new(scale.sizes), Done::NOTHING);
    done.time(|done| {
        for _ in 0..scale.turns / 20 {
            for _ in 0..ARRAYS {
                done.note(S::trace(heap.alloc(4, &mut [])));
            }
            done.note(heap.test());
        }
    });
    done
}
