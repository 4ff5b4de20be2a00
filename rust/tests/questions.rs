//! The texts of docs/QUESTIONS.md, row by row, and the refusals that no command file gets.

use gc::c;
use gc::error::InterpError;
use std::collections::BTreeMap;

const DOCUMENT: &str = include_str!("../../docs/QUESTIONS.md");
const SIZES: [u64; 4] = [4, 8, 8, 16];
const CURSOR: usize = 4;
const NURSERY_COLLECTIONS: usize = 5;

/// Of each row its number, and its fourth column's first sentence, without the asterisks.
fn rows() -> BTreeMap<u8, &'static str> {
    let mut found = BTreeMap::new();
    for line in DOCUMENT.lines() {
        let cells: Vec<_> = line.split('|').map(str::trim).collect();
        let Some(number) = cells.get(1).and_then(|cell| cell.parse().ok()) else { continue };
        let text = cells[4].strip_prefix('*').and_then(|rest| rest.split_once("*. ")).map(|(text, _)| text);
        let text = text.unwrap_or_else(|| panic!("row {number} has no text in italics"));
        assert!(found.insert(number, text).is_none(), "question {number} has two rows");
    }
    found
}

#[test]
fn each_question_has_a_row_and_each_row_a_text() {
    let rows = rows();
    for question in 0..=u8::MAX {
        assert_eq!(rows.get(&question).copied(), InterpError::text(question), "question {question}: row, then text");
    }
}

#[test]
fn refusals_print_their_text() {
    for (question, text) in rows() {
        assert_eq!(InterpError::Refused(question).to_string(), format!("refused by question {question}: {text}"));
    }
}

fn fresh() -> Vec<u64> {
    let mut image = vec![0; c::words(SIZES) as usize];
    assert_eq!(c::new(&mut image, SIZES), 0);
    image
}

#[test]
fn question_2() {
    let mut image = fresh();
    image[CURSOR] = SIZES[0];
    assert_eq!(c::read(&image, 0, 0, 0, &mut [0; 3]), 2);
}

#[test]
fn question_4() {
    let mut image = fresh();
    let mut scratch = vec![0; c::scratch(SIZES, 0) as usize];
    let short = scratch.len() - 1;
    assert_eq!(c::alloc(&mut image, &mut [], &mut scratch[..short], 1, &mut [0; 7]), 4);
    assert_eq!(c::alloc(&mut image, &mut [], &mut scratch, 1, &mut [0; 7]), 0);
}

#[test]
fn question_11() {
    let mut image = fresh();
    image[NURSERY_COLLECTIONS] = u64::from(u32::MAX);
    let mut scratch = vec![0; c::scratch(SIZES, 0) as usize];
    assert_eq!(c::alloc(&mut image, &mut [], &mut scratch, 4, &mut [0; 7]), 11);
}
