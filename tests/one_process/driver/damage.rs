//! Images of any words: a lived heap's, damaged or prepared, and arbitrary ones; and calls on them.

use crate::form::{self, Cell, Parts, COUNTS, CURSOR, ELDER, HEADER, LIMITS, MOST, MOST_ROOTS, POINTER, PRESENT};
use crate::lists::{Player, Reached, Setting};
use crate::random::Random;
use crate::words::Asked;
use gc::Pointer;

const ODD: [u64; 10] = [0, 1, 2, 3, MOST - 1, MOST, MOST + 1, i64::MAX as u64, 1 << 63, u64::MAX];
const NO_CELLS: [Cell; 7] =
    [[0, 1, 0], [1, 0, 1], [2, 2, 0], [4, 0xD800, 0], [4, 0x11_0000, 0], [6, 0, 0], [POINTER + 2 * ELDER, 0, 0]];

/// An image, and pointers that mean something in it.
pub struct Scene {
    pub image: Vec<u64>,
    sizes: [u64; 4],
    pointers: Vec<Cell>,
}

impl Scene {
    pub fn new(random: &mut Random) -> Result<Self, String> {
        let mut scene = if random.percent(80) { Self::lived(random)? } else { Self::arbitrary(random) };
        match random.below(10) {
            0..=1 => {}
            2..=4 => scene.brink(random),
            5..=6 => scene.repoint(random),
            7 => scene.uncount(),
            _ => scene.harm(random),
        }
        Ok(scene)
    }

    fn lived(random: &mut Random) -> Result<Self, String> {
        let setting = match random.below(400) {
            0 => Setting::large(random, 48),
            1..=40 => Setting::middle(random),
            _ => Setting::small(random),
        };
        let count = random.between(1, 60);
        let mut reached = Reached::default();
        let mut player = Player::new(random, setting, &mut reached);
        player.play(count)?;
        let session = player.session;
        let registers = (0..session.registers()).map(|number| session.register(number));
        let pointers = registers.filter(|cell| cell[0] == POINTER || cell[0] == POINTER + ELDER).collect();
        Ok(Self { image: session.words().to_vec(), sizes: setting.sizes, pointers })
    }

    /// The right length or another; zeros, or one odd word all over; sizes in front, and a few more words.
    fn arbitrary(random: &mut Random) -> Self {
        let sizes = Setting::small(random).sizes;
        let right = form::image_length(sizes) as usize;
        let short = random.below(12);
        let length = random.pick(&[right, right, right, right + 1, right - 1, short]);
        let mut image = vec![if random.percent(60) { 0 } else { random.pick(&ODD) }; length];
        for (word, size) in image.iter_mut().zip(sizes) {
            *word = if random.percent(95) { size } else { random.pick(&ODD) };
        }
        for _ in 0..random.below(6) {
            let place = if random.percent(70) { random.below(HEADER) } else { random.below(length) };
            if let Some(word) = image.get_mut(place) {
                *word = random.pick(&ODD);
            }
        }
        Self { image, sizes, pointers: vec![] }
    }

    /// A counter or counts at the bound, or just below it.
    fn brink(&mut self, random: &mut Random) {
        if random.percent(50) {
            let counter = random.pick(&[form::COLLECTIONS, form::PROMOTIONS, form::SWEEPS]);
            self.put(counter, MOST - random.below(3) as u64);
            return;
        }
        let heap = random.below(2);
        self.put(PRESENT + heap, 1);
        for base in 0..random.between(1, 8) {
            self.put(HEADER + COUNTS * heap + base, MOST - random.below(2) as u64);
        }
    }

    /// Cells that hold other pointers, which nothing has counted.
    fn repoint(&mut self, random: &mut Random) {
        let parts = Parts::of(self.sizes);
        for _ in 0..random.between(1, 6) {
            let cells = if random.percent(50) { parts.nursery_cells.clone() } else { parts.elder_cells.clone() };
            let place = cells.start + 3 * random.below(cells.len() / 3);
            if place < cells.end && place + 3 <= self.image.len() {
                let cell = self.pointer(random);
                self.image[place..place + 3].copy_from_slice(&cell);
            }
        }
    }

    /// Counts of zero, though the cells are there.
    fn uncount(&mut self) {
        for place in HEADER..HEADER + 2 * COUNTS {
            self.put(place, 0);
        }
    }

    /// Words that mostly make the image one that is not formed.
    fn harm(&mut self, random: &mut Random) {
        let parts = Parts::of(self.sizes);
        for _ in 0..random.between(1, 2) {
            let part = match random.below(6) {
                0 => 0..HEADER,
                1 => HEADER..parts.nursery_lengths.start,
                2 => parts.nursery_lengths.clone(),
                3 => parts.elder_lengths.clone(),
                4 => parts.nursery_cells.clone(),
                _ => parts.elder_cells.clone(),
            };
            let place = part.start + random.below(part.len());
            let before = self.image.get(place).copied().unwrap_or(0);
            let near = random.pick(&[
                before.wrapping_add(1),
                before.wrapping_sub(1),
                POINTER,
                POINTER + ELDER,
                POINTER + 2 * ELDER,
            ]);
            let word = if random.percent(50) { near } else { random.pick(&ODD) };
            self.put(place, word);
        }
    }

    fn put(&mut self, place: usize, word: u64) {
        if let Some(old) = self.image.get_mut(place) {
            *old = word;
        }
    }

    fn pointer(&self, random: &mut Random) -> Cell {
        if !self.pointers.is_empty() && random.percent(70) {
            return random.pick(&self.pointers);
        }
        let base = if random.percent(90) { random.below(8) as u64 } else { random.pick(&ODD) };
        let offset = if random.percent(90) { random.pick(&[0, 0, 0, 1, 2, u64::MAX]) } else { random.pick(&ODD) };
        [POINTER + ELDER * random.below(2) as u64, base, offset]
    }

    fn cell(&self, random: &mut Random) -> Vec<u64> {
        match random.below(10) {
            0..=5 => self.pointer(random).to_vec(),
            6..=7 => {
                random.pick(&[[0, 0, 0], [1, u64::MAX, 0], [2, 1, 0], [3, 1 << 63, 0], [4, 0x10_FFFF, 0]]).to_vec()
            }
            8 => random.pick(&NO_CELLS).to_vec(),
            _ => vec![1; random.below(7)],
        }
    }

    pub fn asked(&self, random: &mut Random) -> Asked {
        match random.below(10) {
            0..=3 => self.alloc(random),
            4..=5 => Asked::Read { pointer: self.target(random) },
            6..=7 => Asked::Write { pointer: self.target(random), cell: self.cell(random) },
            8 => Asked::Report,
            _ => {
                let mut sizes = self.sizes;
                if random.percent(30) {
                    let which = random.below(4);
                    sizes[which] = random.pick(&[sizes[which] + 1, LIMITS[which] + 1, u64::MAX]);
                }
                Asked::New { sizes }
            }
        }
    }

    fn alloc(&self, random: &mut Random) -> Asked {
        let mut cells = self.pointers.clone();
        cells.retain(|_| random.percent(80));
        if random.percent(15) {
            cells.push(self.pointer(random));
        }
        if random.percent(5) {
            cells.push(random.pick(&NO_CELLS));
        }
        let mut roots = cells.concat();
        match random.below(40) {
            0 => roots.resize(3 * (MOST_ROOTS + random.below(2)), 0),
            1 => roots.push(0),
            _ => {}
        }
        let right = form::scratch_length(self.sizes, roots.len() as u64 / 3) as usize;
        let scratch = random.pick(&[right, right, right, right, right + 5, right - 1]);
        let free = self.sizes[0].saturating_sub(*self.image.get(CURSOR).unwrap_or(&0)) as i64;
        let amount = match random.below(10) {
            0..=2 => random.between(1, 3) as i64,
            3..=8 => (free + random.below(3) as i64 - 1).max(1),
            _ => random.pick(&[0, -1, i64::MIN, i64::MAX, self.sizes[3] as i64, self.sizes[0] as i64]),
        };
        Asked::Alloc { roots, scratch, amount }
    }

    fn target(&self, random: &mut Random) -> Pointer {
        if random.percent(2) {
            // an index beyond i64, or just not
            return Pointer { heap_id: 0, base: i64::MAX as usize, offset: random.below(2) as i64 };
        }
        let [tag, base, offset] = self.pointer(random);
        let heap_id = if random.percent(95) { (tag >> 8) as u8 } else { random.pick(&[2, 255]) };
        let added = random.pick(&[0, 0, 0, 1, 2]);
        Pointer { heap_id, base: base as usize, offset: (offset as i64).wrapping_add(added) }
    }
}
