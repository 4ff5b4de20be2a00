//! What the repository's README shows: its program is `examples/start.rs`; its sizes take the memory that it says.

use gc::{Collector, Sizes};

const README: &str = include_str!("../../README.md");
const EXAMPLE: &str = include_str!("../examples/start.rs");

#[test]
fn the_program_shown_is_the_example() {
    let (_, program) = EXAMPLE.split_once("\n\n").expect("a remark, then the program");
    assert!(README.contains(&format!("```rust\n{program}```\n")));
}

/// 1,234,567
fn grouped(number: u64) -> String {
    match number {
        0..=999 => number.to_string(),
        _ => format!("{},{:03}", grouped(number / 1000), number % 1000),
    }
}

#[test]
fn the_memory_shown_is_what_sizes_take() {
    let program = Sizes { nursery_cells: 128, threshold: 64, elder_slots: 128, elder_cells: 512 };
    for sizes in [program, Sizes::LARGEST] {
        let heap = Collector::try_new(sizes).unwrap();
        let numbers = [sizes.nursery_cells, sizes.threshold, sizes.elder_slots, sizes.elder_cells];
        let row = format!("| {}:", numbers.map(|number| grouped(number as u64)).join(", "));
        let bytes = [8 * heap.words().len() as u64, sizes.bytes().unwrap()].map(grouped);
        let shown = README.lines().find(|line| line.starts_with(&row)).expect("a row of these sizes");
        assert!(shown.ends_with(&format!("| {} | {} |", bytes[0], bytes[1])), "{shown}");
    }
    assert_eq!(Collector::default().sizes(), Sizes::LARGEST);
    assert_eq!(Sizes { nursery_cells: 2049, ..Sizes::LARGEST }.bytes(), None);
}
