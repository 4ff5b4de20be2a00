//! Document 01's image and its questions 1 to 5, written for this comparison alone.

use std::ops::Range;

pub const MOST: u64 = 4_294_967_295;
pub const LIMITS: [u64; 4] = [2048, 8192, 8192, 65536];
pub const MOST_ROOTS: usize = 4096;
pub const COUNTS: usize = 256;
pub const HEADER: usize = 10;

pub const CURSOR: usize = 4;
pub const COLLECTIONS: usize = 5;
pub const PROMOTIONS: usize = 6;
pub const SWEEPS: usize = 7;
/// Of the nursery's barrier; the elder's is next.
pub const PRESENT: usize = 8;

pub const POINTER: u64 = 5;
pub const ELDER: u64 = 256;

pub type Cell = [u64; 3];

/// Where the parts of an image stand.
pub struct Parts {
    pub nursery_counts: Range<usize>,
    pub elder_counts: Range<usize>,
    pub nursery_lengths: Range<usize>,
    pub elder_lengths: Range<usize>,
    pub nursery_cells: Range<usize>,
    pub elder_cells: Range<usize>,
}

impl Parts {
    pub fn of([n, _, s, c]: [u64; 4]) -> Self {
        let [n, s, c] = [n, s, c].map(|size| size as usize);
        let mut end = HEADER;
        let mut next = |length| {
            let start = end;
            end += length;
            start..end
        };
        Self {
            nursery_counts: next(COUNTS),
            elder_counts: next(COUNTS),
            nursery_lengths: next(n),
            elder_lengths: next(s),
            nursery_cells: next(3 * n),
            elder_cells: next(3 * c),
        }
    }
}

pub fn in_bounds(sizes: [u64; 4]) -> bool {
    sizes.iter().zip(LIMITS).all(|(&size, limit)| size <= limit)
}

pub fn image_length([n, _, s, c]: [u64; 4]) -> u64 {
    522 + 4 * n + s + 3 * c
}

pub fn scratch_length(sizes: [u64; 4], roots: u64) -> u64 {
    let [n, _, s, c] = sizes;
    image_length(sizes) + 4 * (roots + 2 * n) + 3 * (roots + s + c)
}

/// N, T, S and C of an image, or `None` where question 1 gets a no.
pub fn sizes(image: &[u64]) -> Option<[u64; 4]> {
    let sizes = *image.first_chunk()?;
    (in_bounds(sizes) && image_length(sizes) == image.len() as u64).then_some(sizes)
}

/// Question 2, of an image with these sizes.
pub fn is_formed(image: &[u64], sizes: [u64; 4]) -> bool {
    let parts = Parts::of(sizes);
    let held: u128 = image[parts.elder_lengths].iter().map(|&length| u128::from(length)).sum();
    if held > u128::from(sizes[3]) {
        return false;
    }
    let (in_use, unused) = image[parts.elder_cells].split_at(3 * held as usize);
    image[COLLECTIONS..PRESENT].iter().all(|&counter| counter <= MOST)
        && is_barrier(image[PRESENT], &image[parts.nursery_counts])
        && is_barrier(image[PRESENT + 1], &image[parts.elder_counts])
        && is_filled(&image[parts.nursery_lengths], image[CURSOR])
        && are_cells(&image[parts.nursery_cells])
        && are_cells(in_use)
        && unused.iter().all(|&word| word == 0)
}

fn is_barrier(present: u64, counts: &[u64]) -> bool {
    let most = [0, MOST].get(present as usize).copied().filter(|_| present < 2);
    most.is_some_and(|most| counts.iter().all(|&count| count <= most))
}

/// Whether allocations fill 0 to the cursor without gaps.
fn is_filled(lengths: &[u64], cursor: u64) -> bool {
    let below = cursor < lengths.len() as u64 || (lengths.is_empty() && cursor == 0);
    let mut base = 0;
    below
        && lengths.iter().enumerate().all(|(place, &length)| {
            let is_base = place as u64 == base && base < cursor;
            if is_base {
                base = base.saturating_add(length);
            }
            is_base == (length > 0)
        })
        && base == cursor
}

/// Question 3 of roots or value, but for the number of roots.
pub fn are_cells(words: &[u64]) -> bool {
    let cells = words.chunks_exact(3);
    cells.remainder().is_empty() && cells.map(|cell| [cell[0], cell[1], cell[2]]).all(is_cell)
}

fn is_cell([tag, payload, offset]: Cell) -> bool {
    match tag {
        5 | 0x105 => true,
        0..=4 if offset != 0 => false,
        0 => payload == 0,
        1 | 3 => true,
        2 => payload < 2,
        4 => payload < 0xD800 || (0xE000..0x11_0000).contains(&payload),
        _ => false,
    }
}

/// The first no among 1 and 2.
pub fn opened(image: &[u64]) -> Result<[u64; 4], u8> {
    let sizes = sizes(image).ok_or(1)?;
    if is_formed(image, sizes) {
        Ok(sizes)
    } else {
        Err(2)
    }
}

/// The first no among 3 to 5.
pub fn alloc_asked(sizes: [u64; 4], roots: &[u64], scratch: usize, amount: i64) -> Result<(), u8> {
    if !are_cells(roots) || roots.len() > 3 * MOST_ROOTS {
        return Err(3);
    }
    if (scratch as u64) < scratch_length(sizes, roots.len() as u64 / 3) {
        return Err(4);
    }
    if amount <= 0 {
        return Err(5);
    }
    Ok(())
}
