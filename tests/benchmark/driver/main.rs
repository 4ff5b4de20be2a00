//! The Rust front end and the published collector on the same workloads: `benchmark [REPETITIONS [WORKLOAD [N]]]` prints a table, of
//! one workload, by how its name begins, and one nursery size, if they are given.
//!
//! Both sides run in turn; of each the shortest time counts.

#[path = "../../one_process/driver/random.rs"]
#[allow(dead_code)]
mod random;
mod side;
mod workloads;

use side::{Ours, Published};
use std::time::Duration;
use workloads::{churn, elder, graph, list, numbers, pointers, reports, Done, Scale, LARGEST, PROGRAM};

type Run = fn(&Scale) -> Done;

/// Name, ours, published.
const WORKLOADS: [(&str, Run, Run); 7] = [
    ("allocation churn, few survivors", churn::<Ours>, churn::<Published>),
    ("long list that survives", list::<Ours>, list::<Published>),
    ("pointer-dense graph, rewritten", graph::<Ours>, graph::<Published>),
    ("elder churn with collections", elder::<Ours>, elder::<Published>),
    ("reads and writes of numbers", numbers::<Ours>, numbers::<Published>),
    ("reads and writes, also of pointers", pointers::<Ours>, pointers::<Published>),
    ("reports of young heaps", reports::<Ours>, reports::<Published>),
];

fn main() {
    let mut words = std::env::args().skip(1);
    let repetitions = words.next().map_or(15, |number| number.parse().expect("a number of repetitions"));
    let only = words.next().unwrap_or_default();
    let nursery = words.next().map(|number| number.parse().expect("128 or 2048"));
    println!("| workload | sizes N, T, S, C | calls | published, ns a call | ours, ns a call | published / ours |");
    println!("|---|---|---|---|---|---|");
    for (name, ours, published) in WORKLOADS.into_iter().filter(|(name, ..)| name.starts_with(&only)) {
        for scale in [PROGRAM, LARGEST].into_iter().filter(|scale| nursery.is_none_or(|n: usize| n == scale.sizes[0])) {
            let (calls, [published, ours]) = compare([published, ours], &scale, repetitions);
            let sizes = scale.sizes.map(|size| size.to_string()).join(", ");
            let each = [published, ours].map(|time| time.as_nanos() as f64 / calls as f64);
            let ratio = each[0] / each[1];
            let places = if ratio < 0.1 { 4 } else { 2 };
            println!("| {name} | {sizes} | {calls} | {:.1} | {:.1} | {ratio:.places$} |", each[0], each[1]);
        }
    }
}

/// The shortest times. Both sides must have answered the same.
fn compare(sides: [Run; 2], scale: &Scale, repetitions: usize) -> (u64, [Duration; 2]) {
    let mut best = [Duration::MAX; 2];
    let mut calls = 0;
    for _ in 0..repetitions {
        let done = sides.map(|run| run(scale));
        assert!(done[0].sum == done[1].sum && done[0].calls == done[1].calls, "the two sides answer differently");
        calls = done[0].calls;
        for (best, done) in best.iter_mut().zip(&done) {
            *best = done.time.min(*best);
        }
    }
    (calls, best)
}
