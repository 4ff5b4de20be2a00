//! What the edits hook into the published collector: the counts of a call, its limits, a heap's content, copies of a heap, and
//! events that show what a set of calls reaches.

use crate::error::InterpError;
use crate::generation::{CopyingGen, ElderGen, Generation};
use crate::{Collector, GenStats, Pointer, Value};
use std::any::Any;
use std::cell::{Cell, RefCell};
use std::collections::{BTreeMap, HashMap};
use std::panic::{catch_unwind, resume_unwind, AssertUnwindSafe};

const NURSERY: u8 = 0;
const ELDER: u8 = 1;

/// For the benchmark: the hooks do nothing, and there are no limits.
const QUIET: bool = cfg!(quiet);

/// By heap id: the collections of a call and the pointers entered in them.
#[derive(Clone, Copy, Default)]
pub struct Counts {
    pub collections: [u64; 2],
    pub visits: [u64; 2],
    moves: u64,
}

/// Elder slots and elder cells.
#[derive(Clone, Copy, Default)]
pub struct Limits {
    pub slots: usize,
    pub cells: usize,
}

/// Unwinds out of a call that question 7 or 11 refuses.
struct Refused(u8);

/// Of each count and counter.
const MOST: usize = 4_294_967_295;

thread_local! {
    static COUNTS: Cell<Counts> = const { Cell::new(Counts { collections: [0; 2], visits: [0; 2], moves: 0 }) };
    static LIMITS: Cell<Limits> = const { Cell::new(Limits { slots: 0, cells: 0 }) };
    static EVENTS: RefCell<BTreeMap<&'static str, u64>> = const { RefCell::new(BTreeMap::new()) };
}

/// Before each call.
pub fn begin_call(limits: Limits) {
    LIMITS.set(limits);
    COUNTS.take();
}

/// Of the call since `begin_call`.
pub fn counts() -> Counts {
    COUNTS.get()
}

/// How often each event was seen in this process.
pub fn events() -> BTreeMap<&'static str, u64> {
    EVENTS.with_borrow(Clone::clone)
}

fn note(event: &'static str, seen: bool) {
    if seen && !QUIET {
        EVENTS.with_borrow_mut(|events| *events.entry(event).or_default() += 1);
    }
}

fn change_counts(change: impl FnOnce(&mut Counts)) {
    if QUIET {
        return;
    }
    let mut counts = COUNTS.get();
    change(&mut counts);
    COUNTS.set(counts);
}

pub(crate) fn collects(heap: u8, collections: usize) {
    in_bounds(collections);
    let moves = COUNTS.get().moves;
    note("elder collection after a move of the same call", heap == ELDER && moves > 0);
    change_counts(|counts| counts.collections[usize::from(heap)] += 1);
}

pub(crate) fn visits(heap: u8, member: Pointer) {
    note("foreign member in the nursery", heap == NURSERY && member.heap_id != heap);
    note("foreign member in the elder", heap == ELDER && member.heap_id != heap);
    change_counts(|counts| counts.visits[usize::from(heap)] += 1);
}

pub(crate) fn leads_on(heap: u8, member: Pointer) {
    note("foreign member leads on in the nursery", heap == NURSERY && member.heap_id != heap);
    note("foreign member leads on in the elder", heap == ELDER && member.heap_id != heap);
}

pub(crate) fn starts(mask: usize, base: usize) {
    note("start by mask 0", mask == 0);
    note("start by the mask of its own base", mask == base);
    note("start by a mask above 0 of another base", mask != 0 && mask != base);
}

pub(crate) fn promotes(roots: &[Pointer], survivors: &[(Pointer, &[Value])]) {
    if QUIET {
        return;
    }
    let rooted = roots.iter().any(|root| root.heap_id == NURSERY);
    note("young array kept alive by elder cells alone", !rooted && !survivors.is_empty());
    let neighbours = || survivors.windows(2).map(|pair| (pair[0].0, pair[1].0)).filter(|(a, b)| a.base == b.base);
    note("several pointers into one array", neighbours().next().is_some());
    note("offsets of both signs into one array", neighbours().any(|(a, b)| a.offset < 0 && b.offset >= 0));
}

/// Question 7, of a new allocation or a moved one.
pub(crate) fn ask_room(allocations: &HashMap<usize, Box<[Value]>>, amount: usize) {
    if QUIET {
        return;
    }
    let limits = LIMITS.get();
    let base = allocations.len();
    let held: usize = allocations.values().map(|cells| cells.len()).sum();
    let replaced = allocations.get(&base).map_or(0, |cells| cells.len());
    let needed = held - replaced + amount;
    note("no slot left", base >= limits.slots);
    note("no cells left", base < limits.slots && needed > limits.cells);
    if base >= limits.slots || needed > limits.cells {
        resume_unwind(Box::new(Refused(7)));
    }
    note("last slot taken", base + 1 == limits.slots);
    note("last cell taken", needed == limits.cells);
    note("allocation replaced", replaced > 0);
    note("room of a replaced allocation needed", needed + replaced > limits.cells);
    change_counts(|counts| counts.moves += 1);
}

/// Question 11, of a count or counter that was just raised.
pub(crate) fn in_bounds(count: usize) {
    if count > MOST && !QUIET {
        resume_unwind(Box::new(Refused(11)));
    }
}

/// What the collector's call returned, its errors and panics as document 01's numbers.
pub fn answered<T>(call: impl FnOnce() -> Result<T, InterpError>) -> Result<T, u8> {
    match catch_unwind(AssertUnwindSafe(call)) {
        Ok(Ok(answer)) => Ok(answer),
        Ok(Err(InterpError::CannotAllocSize(_))) => Err(5),
        Ok(Err(InterpError::InvalidMemoryAccess(..))) => Err(8),
        Err(panic) => match question_of(&*panic) {
            Some(question) => Err(question),
            None => resume_unwind(panic),
        },
    }
}

/// The question that a panic stands for. Any other panic is a failure of the oracle.
pub fn question_of(panic: &(dyn Any + Send)) -> Option<u8> {
    if let Some(Refused(question)) = panic.downcast_ref() {
        return Some(*question);
    }
    match *panic.downcast_ref::<&str>()? {
        "called `Option::unwrap()` on a `None` value" => Some(6),
        "attempt to add with overflow" => Some(9),
        "attempt to subtract with overflow" => Some(10),
        _ => None,
    }
}

/// A generation, all of it.
#[derive(Default)]
pub struct Content {
    /// At each allocated base its length, in base order.
    pub lengths: Vec<(usize, usize)>,
    /// Of the nursery every cell, of the elder those of its allocations, in base order.
    pub cells: Vec<Value>,
    /// Of pointers into the other heap, where the barrier is present.
    pub counts: Option<[usize; 256]>,
    pub collections: usize,
    pub promotions: usize,
}

/// The nursery and the elder, each with what `test` would report of it.
pub fn content(collector: &Collector) -> [(Content, GenStats); 2] {
    [NURSERY, ELDER].map(|heap| {
        let generation = &collector.gens[usize::from(heap)];
        let (num_size, values_allocated) = generation.len();
        let statistics = GenStats {
            num_collections: generation.num_collections(),
            num_size,
            num_remembered_set: generation.num_remembered(),
            free_space: generation.free_space(),
            values_allocated,
            num_promotions: generation.num_promotions(),
        };
        (generation.content(), statistics)
    })
}

/// The collector with this content.
pub fn collector_with(nursery: Content, elder: Content, threshold: usize) -> Collector {
    Collector { gens: [Box::new(CopyingGen::with(nursery)), Box::new(ElderGen::with(elder, threshold))] }
}

/// Lets a boxed generation be copied.
pub trait Copied {
    fn copied(&self) -> Box<dyn Generation>;
}

impl<G: Generation + Clone + 'static> Copied for G {
    fn copied(&self) -> Box<dyn Generation> {
        Box::new(self.clone())
    }
}

impl Clone for Box<dyn Generation> {
    fn clone(&self) -> Self {
        (**self).copied()
    }
}
