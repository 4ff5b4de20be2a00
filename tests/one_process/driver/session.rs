//! Both heaps under the same calls. After every call both must have answered alike and be the same, word for word.

use crate::form::{Cell, MOST_ROOTS};
use crate::heaps::{picture, value_of, words_of};
use gc::hooks::{self, answered, Limits};
use gc::MemoryManager as _;
use ours::MemoryManager as _;

/// Operands are numbers of registers, but for amounts, added offsets and cells.
#[derive(Clone, Copy, Debug)]
pub enum Call {
    /// The roots are the registers, and the destination's old value so many times more.
    Alloc {
        to: usize,
        amount: i64,
        copies: usize,
    },
    Set {
        to: usize,
        cell: Cell,
    },
    Load {
        to: usize,
        through: usize,
        added: i64,
    },
    Store {
        from: usize,
        through: usize,
        added: i64,
    },
    Report,
}

/// An answer's words, or the number of the question that got a no.
pub type Answer = Result<Vec<u64>, u8>;

const NO_POINTER: u8 = 13;

pub struct Session {
    pub sizes: [u64; 4],
    ours: Ours,
    theirs: Theirs,
    /// A copy of our image, for its report.
    copy: Vec<u64>,
}

/// Our collector and its registers.
struct Ours {
    heap: ours::Collector,
    registers: Vec<ours::Value>,
}

/// The published collector and its registers.
struct Theirs {
    heap: gc::Collector,
    registers: Vec<gc::Value>,
    /// Free cells of the nursery, and cells of the elder's allocations.
    free: usize,
    held: u64,
}

impl Session {
    pub fn new(sizes: [u64; 4], registers: usize, checking: bool) -> Self {
        let [nursery_cells, threshold, elder_slots, elder_cells] = sizes.map(|size| size as usize);
        let heap = ours::Collector::try_new(ours::Sizes { nursery_cells, threshold, elder_slots, elder_cells })
            .expect("sizes within bounds");
        Self {
            sizes,
            copy: Vec::with_capacity(heap.words().len()),
            ours: Ours {
                heap: if checking { heap.checking() } else { heap },
                registers: vec![ours::Value::Uninitialized; registers],
            },
            theirs: Theirs {
                heap: gc::Collector::new(nursery_cells, 0, threshold),
                registers: vec![gc::Value::Uninitialized; registers],
                free: nursery_cells,
                held: 0,
            },
        }
    }

    pub fn words(&self) -> &[u64] {
        self.ours.heap.words()
    }

    pub fn registers(&self) -> usize {
        self.ours.registers.len()
    }

    pub fn register(&self, number: usize) -> Cell {
        words_of(&self.theirs.registers[number])
    }

    pub fn pointer_in(&self, number: usize) -> Option<gc::Pointer> {
        self.theirs.pointer_in(number).ok()
    }

    pub fn free(&self) -> usize {
        self.theirs.free
    }

    pub fn held(&self) -> u64 {
        self.theirs.held
    }

    /// Makes the call on both heaps. An error says what differs.
    pub fn take(&mut self, call: Call) -> Result<Answer, String> {
        hooks::begin_call(Limits { slots: self.sizes[2] as usize, cells: self.sizes[3] as usize });
        let (ours, theirs) = (&mut self.ours, &mut self.theirs);
        let (answer, expected) = match call {
            Call::Alloc { to, amount, copies } => (ours.alloc(to, amount, copies), theirs.alloc(to, amount, copies)),
            Call::Set { to, cell } => {
                ours.registers[to] = heap_value(cell);
                theirs.registers[to] = value_of(cell);
                (Ok(vec![]), Ok(vec![]))
            }
            Call::Load { to, through, added } => (ours.load(to, through, added), theirs.load(to, through, added)),
            Call::Store { from, through, added } => {
                (ours.store(from, through, added), theirs.store(from, through, added))
            }
            Call::Report => (ours.report(), theirs.report()),
        };
        if answer != expected {
            return Err(format!("ours answered {answer:?}, the published {expected:?}"));
        }
        self.compare().map(|()| answer)
    }

    fn compare(&mut self) -> Result<(), String> {
        let (image, numbers) = picture(&self.theirs.heap, self.sizes);
        (self.theirs.free, self.theirs.held) = (numbers[4] as usize, numbers[8]);
        if *self.words() != image {
            let differs = |&(_, (ours, theirs)): &(usize, (&u64, &u64))| ours != theirs;
            let first = self.words().iter().zip(&image).enumerate().find(differs);
            return Err(format!("place, ours and the published of the first word that differs: {first:?}"));
        }
        for number in 0..self.registers() {
            let (ours, theirs) = (self.ours.registers[number].to_words(), self.register(number));
            if ours != theirs {
                return Err(format!("register {number}: ours {ours:?}, the published {theirs:?}"));
            }
        }
        self.copy.clear();
        self.copy.extend_from_slice(self.ours.heap.words());
        let mut out = [0; 11];
        let question = ours::c::report(&mut self.copy, &mut out);
        if (question, out) != (0, numbers) {
            return Err(format!("statistics: ours {question} {out:?}, the published {numbers:?}"));
        }
        Ok(())
    }
}

/// Also of a pointer into a heap that is none.
fn heap_value(cell: Cell) -> ours::Value {
    match value_of(cell) {
        gc::Value::Pointer(gc::Pointer { heap_id, base, offset }) => {
            ours::Value::Pointer(ours::Pointer { heap_id, base, offset })
        }
        _ => ours::Value::from_words(cell).expect("a valid cell"),
    }
}

fn question(error: ours::error::InterpError) -> u8 {
    error.question()
}

impl Ours {
    fn alloc(&mut self, to: usize, amount: i64, copies: usize) -> Answer {
        let mut roots = self.registers.clone();
        roots.resize(roots.len() + copies, self.registers[to]);
        let answer = self.heap.alloc_counted(amount, &mut roots).map_err(question);
        let left: Vec<_> = roots.iter().flat_map(|root| root.to_words()).collect();
        roots.truncate(self.registers.len());
        self.registers = roots;
        let (p, counts) = answer?;
        self.registers[to] = ours::Value::Pointer(p);
        let place = [p.heap_id.into(), p.base as u64, p.offset as u64];
        let nursery = [counts.nursery_collections, counts.nursery_visits];
        let elder = [counts.elder_collections, counts.elder_visits];
        Ok([&place[..], &nursery, &elder, &left].concat())
    }

    fn pointer_in(&self, register: usize) -> Result<ours::Pointer, u8> {
        match self.registers[register] {
            ours::Value::Pointer(pointer) => Ok(pointer),
            _ => Err(NO_POINTER),
        }
    }

    fn load(&mut self, to: usize, through: usize, added: i64) -> Answer {
        let target = self.pointer_in(through)?.try_add(added).map_err(question)?;
        self.registers[to] = *self.heap.read(&target).map_err(question)?;
        Ok(self.registers[to].to_words().to_vec())
    }

    fn store(&mut self, from: usize, through: usize, added: i64) -> Answer {
        let target = self.pointer_in(through)?.try_add(added).map_err(question)?;
        self.heap.write(&target, self.registers[from]).map_err(question)?;
        Ok(vec![])
    }

    fn report(&mut self) -> Answer {
        let stats = self.heap.try_test().map_err(question)?;
        let generations = stats.gen_stats.iter().flat_map(|g| {
            [g.num_collections, g.num_size, g.num_remembered_set, g.free_space, g.values_allocated, g.num_promotions]
        });
        Ok(generations.chain([stats.memory_leak.into()]).map(|number| number as u64).collect())
    }
}

impl Theirs {
    /// 3 is judged here; 7 by the hooks; the rest is the published collector's.
    fn alloc(&mut self, to: usize, amount: i64, copies: usize) -> Answer {
        let mut roots = self.registers.clone();
        roots.resize(roots.len() + copies, self.registers[to]);
        let pointers = roots.iter().filter(|root| matches!(root, gc::Value::Pointer(_))).count();
        if pointers > MOST_ROOTS || !roots.iter().all(is_valid) {
            return Err(3);
        }
        // a refusal comes in the middle of a call that collects
        let before = (amount >= self.free as i64).then(|| self.heap.clone());
        let answer = answered(|| self.heap.alloc(amount, &mut roots));
        if let (Err(_), Some(before)) = (&answer, before) {
            self.heap = before;
        }
        let gc::Value::Pointer(p) = answer? else { panic!("an alloc answers with a pointer") };
        let left: Vec<_> = roots.iter().flat_map(words_of).collect();
        roots.truncate(self.registers.len());
        self.registers = roots;
        self.registers[to] = gc::Value::Pointer(p);
        let counts = hooks::counts();
        let place = [p.heap_id.into(), p.base as u64, p.offset as u64];
        let nursery = [counts.collections[0], counts.visits[0]];
        let elder = [counts.collections[1], counts.visits[1]];
        Ok([&place[..], &nursery, &elder, &left].concat())
    }

    fn pointer_in(&self, register: usize) -> Result<gc::Pointer, u8> {
        match self.registers[register] {
            gc::Value::Pointer(pointer) => Ok(pointer),
            _ => Err(NO_POINTER),
        }
    }

    fn target(&self, through: usize, added: i64) -> Result<gc::Pointer, u8> {
        let pointer = self.pointer_in(through)?;
        answered(|| Ok(pointer.add(added)))
    }

    fn load(&mut self, to: usize, through: usize, added: i64) -> Answer {
        let target = self.target(through, added)?;
        self.registers[to] = answered(|| self.heap.read(&target).copied())?;
        Ok(words_of(&self.registers[to]).to_vec())
    }

    /// A write that panics has changed nothing yet.
    fn store(&mut self, from: usize, through: usize, added: i64) -> Answer {
        let target = self.target(through, added)?;
        if !is_valid(&self.registers[from]) {
            return Err(3);
        }
        answered(|| self.heap.write(&target, self.registers[from]))?;
        Ok(vec![])
    }

    fn report(&mut self) -> Answer {
        let stats = answered(|| Ok(self.heap.test()))?;
        let generations = stats.gen_stats.iter().flat_map(|g| {
            [g.num_collections, g.num_size, g.num_remembered_set, g.free_space, g.values_allocated, g.num_promotions]
        });
        Ok(generations.chain([stats.memory_leak.into()]).map(|number| number as u64).collect())
    }
}

fn is_valid(value: &gc::Value) -> bool {
    !matches!(value, gc::Value::Pointer(pointer) if pointer.heap_id > 1)
}
