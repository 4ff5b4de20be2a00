//! The collector: it owns an image, and nobody else writes it.

use crate::c::{self, Image};
use crate::error::InterpError;
use crate::stats::MemStats;
use crate::value::{Loaded, Pointer, Value};
use crate::MemoryManager;

const MOST_ROOTS: u64 = 4096;
const CELL_WORDS: usize = 3;

/// What a heap has room for.
#[derive(Debug, Clone, Copy, PartialEq, Eq)]
pub struct Sizes {
    /// N: the nursery's cells, at most 2,048
    pub nursery_cells: usize,
    /// T: the elder generation is collected when it holds so many allocations and another is moved to it; at most 8,192. Above
    /// `elder_slots` it never is, and so drops or replaces no live array (docs/DIFFERENCES.md, "From the Handbook", 6 and 7).
    pub threshold: usize,
    /// S: the elder's allocations, at most 8,192
    pub elder_slots: usize,
    /// C: the elder's cells, at most 65,536
    pub elder_cells: usize,
}

impl Sizes {
    /// The bounds of document 01.
    pub const LARGEST: Self = Self { nursery_cells: 2048, threshold: 8192, elder_slots: 8192, elder_cells: 65536 };

    /// The bytes that a heap of these sizes takes, with its scratch; none where one is out of bounds.
    #[must_use]
    pub fn bytes(self) -> Option<u64> {
        match c::words(self.words()) {
            0 => None,
            image => Some(8 * (image + c::scratch(self.words(), MOST_ROOTS))),
        }
    }

    const fn words(self) -> [u64; 4] {
        [self.nursery_cells as u64, self.threshold as u64, self.elder_slots as u64, self.elder_cells as u64]
    }
}

/// What an allocation cost: collections, and pointers visited in them.
#[derive(Debug, Default, Clone, Copy, PartialEq, Eq)]
pub struct Counts {
    /// Of the nursery: 0 or 1
    pub nursery_collections: u64,
    /// At most the roots and twice the nursery's cells
    pub nursery_visits: u64,
    /// Of the elder generation
    pub elder_collections: u64,
    /// Of all of them together
    pub elder_visits: u64,
}

/// The generational collector.
pub struct Collector {
    image: Image,
    sizes: Sizes,
    /// The pointers among an alloc's roots
    roots: Vec<u64>,
    scratch: Box<[u64]>,
    checking: bool,
}

impl Collector {
    /// A nursery of `g0_size` cells, and an elder generation that is collected when it holds `g2_size` allocations, with as much room
    /// as there can be. A size above its bound is cut to it. The second size is not used, as in the published crate.
    #[must_use]
    pub fn new(g0_size: usize, _g1_size: usize, g2_size: usize) -> Self {
        let most = Sizes::LARGEST;
        let within =
            Sizes { nursery_cells: g0_size.min(most.nursery_cells), threshold: g2_size.min(most.threshold), ..most };
        Self::try_new(within).expect("sizes within bounds")
    }

    /// A fresh heap of these sizes.
    ///
    /// # Errors
    /// 1, where one is out of bounds.
    pub fn try_new(sizes: Sizes) -> Result<Self, InterpError> {
        Image::fresh(sizes.words()).map(Self::over).map_err(refused)
    }

    /// The heap that these words are the image of, as [`Self::words`] has given them.
    ///
    /// # Errors
    /// 1 or 2.
    pub fn from_words(words: Vec<u64>) -> Result<Self, InterpError> {
        Image::of(words.into_boxed_slice()).map(Self::over).map_err(refused)
    }

    fn over(image: Image) -> Self {
        let [n, t, s, c] = [0, 1, 2, 3].map(|index| image.words()[index]);
        Self {
            sizes: Sizes {
                nursery_cells: n as usize,
                threshold: t as usize,
                elder_slots: s as usize,
                elder_cells: c as usize,
            },
            // whatever an alloc brings is enough; what is never used costs no memory
            scratch: vec![0; c::scratch([n, t, s, c], MOST_ROOTS) as usize].into_boxed_slice(),
            roots: Vec::new(),
            checking: false,
            image,
        }
    }

    /// The debug mode: each call is also made on a copy of the image, by the function that takes words of any content.
    ///
    /// A call then panics where the two do not answer alike or leave different words, which would be a fault of the library.
    #[must_use]
    pub fn checking(self) -> Self {
        Self { checking: true, ..self }
    }

    /// As they are, cut to the bounds by [`Self::new`].
    #[must_use]
    pub const fn sizes(&self) -> Sizes {
        self.sizes
    }

    /// The heap's image.
    #[must_use]
    pub fn words(&self) -> &[u64] {
        self.image.words()
    }

    /// Allocates as [`MemoryManager::alloc`] does, and says what it cost.
    ///
    /// # Errors
    /// 3, 5, 6, 7, 10 or 11. Roots are then unchanged.
    pub fn alloc_counted(&mut self, amount: i64, roots: &mut [Value]) -> Result<(Pointer, Counts), InterpError> {
        self.roots.clear();
        let pointers = roots.iter().filter_map(|root| match root {
            Value::Pointer(pointer) => Some(pointer),
            _ => None,
        });
        // one too many is refused as all of them would be, by 3
        for pointer in pointers.take(MOST_ROOTS as usize + 1) {
            self.roots.extend_from_slice(&pointer.to_words());
        }
        let [heap, base, offset, nursery_collections, nursery_visits, elder_collections, elder_visits] =
            self.alloc_in_image(amount).map_err(|question| match question {
                5 => InterpError::CannotAllocSize(amount),
                _ => refused(question),
            })?;
        if nursery_collections > 0 {
            self.change_roots(roots);
        }
        let pointer = Pointer { heap_id: heap as u8, base: base as usize, offset: offset as i64 };
        Ok((pointer, Counts { nursery_collections, nursery_visits, elder_collections, elder_visits }))
    }

    /// The pointers among them, from the words that an alloc left.
    fn change_roots(&self, roots: &mut [Value]) {
        let pointers = roots.iter_mut().filter_map(|root| match root {
            Value::Pointer(pointer) => Some(pointer),
            _ => None,
        });
        for (pointer, words) in pointers.zip(self.roots.chunks_exact(CELL_WORDS)) {
            *pointer = Pointer::in_words([words[0], words[1], words[2]]);
        }
    }

    /// The statistics; then everything is collected.
    ///
    /// # Errors
    /// 10 or 11.
    pub fn try_test(&mut self) -> Result<MemStats, InterpError> {
        let twin = self.twin();
        let mut out = [0; 11];
        let question = self.image.report(&mut out);
        if let Some(mut image) = twin {
            let mut checked = [0; 11];
            agree((c::report(&mut image, &mut checked), &checked), (question, &out));
            self.agree_on(&image);
        }
        answer(question, out).map(|out| MemStats::of(&out)).map_err(refused)
    }

    // Each of the three calls by the door for an owner, and in debug mode by the other.

    fn alloc_in_image(&mut self, amount: i64) -> Result<c::Allocation, u64> {
        let twin = self.twin().map(|image| (image, self.roots.clone()));
        let mut out = [0; 7];
        let question = self.image.alloc(&mut self.roots, &mut self.scratch, amount, &mut out);
        if let Some((mut image, mut roots)) = twin {
            let mut checked = [0; 7];
            let mut scratch = vec![0; self.scratch.len()];
            let asked = c::alloc(&mut image, &mut roots, &mut scratch, amount, &mut checked);
            agree((asked, &checked), (question, &out));
            assert!(roots == self.roots, "the two doors leave different roots");
            self.agree_on(&image);
        }
        answer(question, out)
    }

    fn read_in_image(&self, key: &Pointer) -> Result<c::Cell, u64> {
        let mut out = [0; 3];
        let question = self.image.read(key.heap_id, key.base as u64, key.offset, &mut out);
        if self.checking {
            let mut checked = [0; 3];
            let asked = c::read(self.words(), key.heap_id, key.base as u64, key.offset, &mut checked);
            agree((asked, &checked), (question, &out));
        }
        answer(question, out)
    }

    fn write_in_image(&mut self, key: &Pointer, cell: &c::Cell) -> Result<(), u64> {
        let twin = self.twin();
        let question = self.image.write(key.heap_id, key.base as u64, key.offset, cell);
        if let Some(mut image) = twin {
            let asked = c::write(&mut image, key.heap_id, key.base as u64, key.offset, cell);
            agree((asked, &[]), (question, &[]));
            self.agree_on(&image);
        }
        answer(question, ())
    }

    /// In debug mode, a copy of the image.
    fn twin(&self) -> Option<Vec<u64>> {
        self.checking.then(|| self.words().to_vec())
    }

    fn agree_on(&self, image: &[u64]) {
        assert!(image == self.words(), "the two doors leave different images");
    }
}

/// An answered call's words, or the question's number.
fn answer<T>(question: u64, out: T) -> Result<T, u64> {
    match question {
        0 => Ok(out),
        _ => Err(question),
    }
}

fn agree(checked: (u64, &[u64]), formed: (u64, &[u64])) {
    assert!(checked == formed, "{checked:?} for any words, {formed:?} for a formed image");
}

fn refused(question: u64) -> InterpError {
    InterpError::Refused(question as u8)
}

fn refused_access(question: u64, key: &Pointer) -> InterpError {
    match question {
        8 => InterpError::InvalidMemoryAccess(key.base, key.offset),
        _ => refused(question),
    }
}

impl Default for Collector {
    /// The published sizes.
    fn default() -> Self {
        Self::new(2048, 4096, 8192)
    }
}

impl Clone for Collector {
    fn clone(&self) -> Self {
        Self { checking: self.checking, ..Self::over(self.image.clone()) }
    }
}

impl MemoryManager for Collector {
    fn alloc(&mut self, amount: i64, roots: &mut [Value]) -> Result<Value, InterpError> {
        self.alloc_counted(amount, roots).map(|(pointer, _)| Value::Pointer(pointer))
    }

    /// Does nothing, as published.
    fn free(&mut self, _: &Pointer) -> Result<(), InterpError> {
        Ok(())
    }

    fn write(&mut self, key: &Pointer, val: Value) -> Result<(), InterpError> {
        self.write_in_image(key, &val.to_words()).map_err(|question| refused_access(question, key))
    }

    fn read(&self, key: &Pointer) -> Result<Loaded, InterpError> {
        let cell = self.read_in_image(key).map_err(|question| refused_access(question, key))?;
        // an image that is formed has no other cells
        Value::from_words(cell).map(Loaded::from).ok_or(InterpError::Refused(2))
    }

    /// [`Collector::try_test`]; a refusal is a record of zeros with `memory_leak` set.
    fn test(&mut self) -> MemStats {
        self.try_test().unwrap_or_else(|_| MemStats::refused())
    }
}
