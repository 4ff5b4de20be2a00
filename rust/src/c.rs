//! The heap for C (`crates/heap_c`): its functions, declared by hand, under safe ones. No other file has unsafe code.
//!
//! The free functions take words of any content. An [`Image`] has passed questions 1 and 2, and its methods ask neither. Each call
//! answers 0 or the number of the question that got a no; then nothing but scratch has changed.
#![allow(unsafe_code)]

/// Heap, base, offset; then nursery collections, nursery visits, elder collections, elder visits.
pub type Allocation = [u64; 7];
/// Kind + 256 × heap, payload, offset.
pub type Cell = [u64; 3];
/// Nursery collections, allocations, cells, count sum, free cells, promotions; elder collections, allocations, cells, count sum; leak.
pub type Report = [u64; 11];
/// Sign (0 or 1), thousandths.
pub type Figure = [u64; 2];

mod declared {
    use super::{Allocation, Cell, Figure, Report};

    extern "C" {
        pub fn heap_words(n: u64, t: u64, s: u64, c: u64) -> u64;
        pub fn heap_scratch(n: u64, s: u64, c: u64, r: u64) -> u64;
        pub fn heap_new(image: *mut u64, length: u64, n: u64, t: u64, s: u64, c: u64) -> u64;
        pub fn heap_alloc(
            image: *mut u64,
            length: u64,
            roots: *mut u64,
            roots_length: u64,
            scratch: *mut u64,
            scratch_length: u64,
            amount: i64,
            out: *mut Allocation,
        ) -> u64;
        pub fn heap_alloc_formed(
            image: *mut u64,
            length: u64,
            roots: *mut u64,
            roots_length: u64,
            scratch: *mut u64,
            scratch_length: u64,
            amount: i64,
            out: *mut Allocation,
        ) -> u64;
        pub fn heap_read(image: *const u64, length: u64, heap: u8, base: u64, offset: i64, out: *mut Cell) -> u64;
        pub fn heap_read_formed(
            image: *const u64,
            length: u64,
            heap: u8,
            base: u64,
            offset: i64,
            out: *mut Cell,
        ) -> u64;
        pub fn heap_write(
            image: *mut u64,
            length: u64,
            heap: u8,
            base: u64,
            offset: i64,
            cell: *const u64,
            cell_length: u64,
        ) -> u64;
        pub fn heap_write_formed(
            image: *mut u64,
            length: u64,
            heap: u8,
            base: u64,
            offset: i64,
            cell: *const u64,
            cell_length: u64,
        ) -> u64;
        pub fn heap_report(image: *mut u64, length: u64, out: *mut Report) -> u64;
        pub fn heap_report_formed(image: *mut u64, length: u64, out: *mut Report) -> u64;
        pub fn heap_figure(bits: u64, out: *mut Figure) -> u64;
    }
}

// SAFETY, of every call below: pointer and count are those of a slice or array that is borrowed for the call; what is borrowed for
// writing overlaps with nothing. Words of any content are taken, but by the functions named `_formed`: these get an `Image`'s.

/// The words of an image of sizes N, T, S and C; 0 if one is out of bounds.
#[must_use]
pub fn words([n, t, s, c]: [u64; 4]) -> u64 {
    unsafe { declared::heap_words(n, t, s, c) }
}

/// The words of scratch that so many root cells want; 0 if a size, or they, are out of bounds.
#[must_use]
pub fn scratch([n, _, s, c]: [u64; 4], roots: u64) -> u64 {
    unsafe { declared::heap_scratch(n, s, c, roots) }
}

/// A fresh heap of sizes N, T, S and C.
#[must_use]
pub fn new(image: &mut [u64], [n, t, s, c]: [u64; 4]) -> u64 {
    unsafe { declared::heap_new(image.as_mut_ptr(), image.len() as u64, n, t, s, c) }
}

/// An allocation, over words of any content.
#[must_use]
pub fn alloc(image: &mut [u64], roots: &mut [u64], scratch: &mut [u64], amount: i64, out: &mut Allocation) -> u64 {
    unsafe {
        declared::heap_alloc(
            image.as_mut_ptr(),
            image.len() as u64,
            roots.as_mut_ptr(),
            roots.len() as u64,
            scratch.as_mut_ptr(),
            scratch.len() as u64,
            amount,
            out,
        )
    }
}

/// The cell at a pointer, over words of any content.
#[must_use]
pub fn read(image: &[u64], heap: u8, base: u64, offset: i64, out: &mut Cell) -> u64 {
    unsafe { declared::heap_read(image.as_ptr(), image.len() as u64, heap, base, offset, out) }
}

/// A cell's words stored at a pointer, over words of any content.
#[must_use]
pub fn write(image: &mut [u64], heap: u8, base: u64, offset: i64, cell: &[u64]) -> u64 {
    let length = image.len() as u64;
    unsafe { declared::heap_write(image.as_mut_ptr(), length, heap, base, offset, cell.as_ptr(), cell.len() as u64) }
}

/// The statistics, then both generations collected; over words of any content.
#[must_use]
pub fn report(image: &mut [u64], out: &mut Report) -> u64 {
    unsafe { declared::heap_report(image.as_mut_ptr(), image.len() as u64, out) }
}

/// The figure of a Float, by its bits.
#[must_use]
pub fn figure(bits: u64, out: &mut Figure) -> u64 {
    unsafe { declared::heap_figure(bits, out) }
}

/// Words that have passed questions 1 and 2. They are changed by the heap's functions alone, which leave such words again.
#[derive(Clone)]
pub struct Image {
    words: Box<[u64]>,
}

impl Image {
    /// A fresh heap of sizes N, T, S and C.
    ///
    /// # Errors
    /// 1.
    pub fn fresh(sizes: [u64; 4]) -> Result<Self, u64> {
        let mut words = vec![0; words(sizes) as usize].into_boxed_slice();
        match new(&mut words, sizes) {
            0 => Ok(Self { words }),
            question => Err(question),
        }
    }

    /// The heap that these words are the image of.
    ///
    /// # Errors
    /// 1 and 2.
    pub fn of(words: Box<[u64]>) -> Result<Self, u64> {
        const NO_HEAP: u8 = 2;
        match read(&words, NO_HEAP, 0, 0, &mut [0; 3]) {
            question @ (1 | 2) => Err(question),
            _ => Ok(Self { words }),
        }
    }

    /// All of them.
    #[must_use]
    pub fn words(&self) -> &[u64] {
        &self.words
    }

    /// An allocation.
    #[must_use]
    pub fn alloc(&mut self, roots: &mut [u64], scratch: &mut [u64], amount: i64, out: &mut Allocation) -> u64 {
        unsafe {
            declared::heap_alloc_formed(
                self.words.as_mut_ptr(),
                self.words.len() as u64,
                roots.as_mut_ptr(),
                roots.len() as u64,
                scratch.as_mut_ptr(),
                scratch.len() as u64,
                amount,
                out,
            )
        }
    }

    /// The cell at a pointer.
    #[must_use]
    pub fn read(&self, heap: u8, base: u64, offset: i64, out: &mut Cell) -> u64 {
        unsafe { declared::heap_read_formed(self.words.as_ptr(), self.words.len() as u64, heap, base, offset, out) }
    }

    /// A cell's words stored at a pointer.
    #[must_use]
    pub fn write(&mut self, heap: u8, base: u64, offset: i64, cell: &Cell) -> u64 {
        let (image, length) = (self.words.as_mut_ptr(), self.words.len() as u64);
        unsafe { declared::heap_write_formed(image, length, heap, base, offset, cell.as_ptr(), cell.len() as u64) }
    }

    /// The statistics, then both generations collected.
    #[must_use]
    pub fn report(&mut self, out: &mut Report) -> u64 {
        unsafe { declared::heap_report_formed(self.words.as_mut_ptr(), self.words.len() as u64, out) }
    }
}
