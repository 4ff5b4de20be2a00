//! The functions that take words of any content: lengths one short, and `out` on a refusal.

use gc::c;

const SIZES: [u64; 4] = [4, 8, 8, 16];
const FILL: u64 = 0x0123_4567_89AB_CDEF;

fn root() -> [u64; 3] {
    [5, 0, 0]
}

/// A fresh image of the length that its sizes ask for.
fn fresh() -> Vec<u64> {
    let mut image = vec![FILL; c::words(SIZES) as usize];
    assert_eq!(c::new(&mut image, SIZES), 0);
    image
}

/// Scratch for one root.
fn scratch() -> Vec<u64> {
    vec![FILL; c::scratch(SIZES, 1) as usize]
}

/// The answer of an alloc; image, roots and `out` are unchanged where it is refused.
fn alloc(image: &mut [u64], roots: &mut [u64], scratch: &mut [u64], amount: i64) -> u64 {
    let (before, given, mut out) = (image.to_vec(), roots.to_vec(), [FILL; 7]);
    let question = c::alloc(image, roots, scratch, amount, &mut out);
    if question != 0 {
        assert_eq!((&*image, &*roots, out), (&before[..], &given[..], [FILL; 7]));
    }
    question
}

#[test]
fn lengths_of_images() {
    assert_eq!(c::words(SIZES), 522 + 4 * 4 + 8 + 3 * 16);
    assert_eq!(c::words([2049, 0, 0, 0]), 0);
    assert_eq!(c::scratch(SIZES, 1), c::words(SIZES) + 4 * (1 + 2 * 4) + 3 * (1 + 8 + 16));
    assert_eq!(c::scratch(SIZES, 4097), 0);
}

#[test]
fn new_one_short() {
    let mut image = vec![FILL; c::words(SIZES) as usize - 1];
    assert_eq!(c::new(&mut image, SIZES), 1);
    assert!(image.iter().all(|&word| word == FILL));
}

#[test]
fn image_one_short() {
    let image = fresh();
    let mut short = image[..image.len() - 1].to_vec();
    assert_eq!(alloc(&mut short, &mut [], &mut scratch(), 1), 1);
    let mut cell = [FILL; 3];
    assert_eq!(c::read(&short, 0, 0, 0, &mut cell), 1);
    assert_eq!(cell, [FILL; 3]);
    assert_eq!(c::write(&mut short, 0, 0, 0, &[1, 7, 0]), 1);
    let mut report = [FILL; 11];
    assert_eq!(c::report(&mut short, &mut report), 1);
    assert_eq!(report, [FILL; 11]);
    assert_eq!(short, image[..image.len() - 1]);
}

#[test]
fn image_that_is_not_formed() {
    let mut image = fresh();
    image[4] = 4; // the cursor at N
    let damaged = image.clone();
    assert_eq!(alloc(&mut image, &mut [], &mut scratch(), 1), 2);
    let mut cell = [FILL; 3];
    assert_eq!(c::read(&image, 0, 0, 0, &mut cell), 2);
    assert_eq!(cell, [FILL; 3]);
    assert_eq!(c::write(&mut image, 0, 0, 0, &[1, 7, 0]), 2);
    let mut report = [FILL; 11];
    assert_eq!(c::report(&mut image, &mut report), 2);
    assert_eq!(report, [FILL; 11]);
    assert_eq!(image, damaged);
}

#[test]
fn roots_and_value_one_short() {
    let mut image = fresh();
    assert_eq!(alloc(&mut image, &mut root()[..2], &mut scratch(), 1), 3);
    assert_eq!(c::write(&mut image, 0, 0, 0, &[1, 7]), 3);
    assert_eq!(c::write(&mut image, 0, 0, 0, &[1, 7, 0, 0]), 3);
    assert_eq!(image, fresh());
}

#[test]
fn scratch_one_short() {
    let mut image = fresh();
    let mut short = vec![FILL; c::scratch(SIZES, 1) as usize - 1];
    assert_eq!(alloc(&mut image, &mut root(), &mut short, 1), 4);
    assert_eq!(alloc(&mut image, &mut root(), &mut short, 0), 4); // before 5
    assert_eq!(alloc(&mut image, &mut root(), &mut scratch(), 1), 0);
}

#[test]
fn refused_later_than_by_a_length() {
    let mut image = fresh();
    assert_eq!(alloc(&mut image, &mut root(), &mut scratch(), 0), 5);
    assert_eq!(alloc(&mut image, &mut root(), &mut scratch(), 4), 6);
    assert_eq!(alloc(&mut image, &mut [], &mut scratch(), 17), 7);
    let mut cell = [FILL; 3];
    assert_eq!(c::read(&image, 0, 0, 4, &mut cell), 8);
    assert_eq!(c::read(&image, 0, i64::MAX as u64, 1, &mut cell), 9);
    assert_eq!(cell, [FILL; 3]);
    let mut figure = [FILL; 2];
    assert_eq!(c::figure(f64::NAN.to_bits(), &mut figure), 15);
    assert_eq!(figure, [FILL; 2]);
    assert_eq!(image, fresh());
}

#[test]
fn images_over_words() {
    assert!(c::Image::of(fresh().into_boxed_slice()).is_ok());
    assert_eq!(c::Image::of(vec![FILL; 600].into_boxed_slice()).err(), Some(1));
    let mut image = fresh();
    image[8] = 2;
    assert_eq!(c::Image::of(image.into_boxed_slice()).err(), Some(2));
}
