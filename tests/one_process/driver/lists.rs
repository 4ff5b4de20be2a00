//! Random lists of calls. The player looks at registers and free cells to aim; nothing is judged by what it sees.

use crate::form::{Cell, Parts, ELDER, LIMITS, MOST_ROOTS, POINTER};
use crate::random::Random;
use crate::session::{Call, Session};
use std::collections::BTreeMap;

/// What a list is played on.
#[derive(Clone, Copy)]
pub struct Setting {
    pub sizes: [u64; 4],
    pub registers: usize,
    /// Of a call's array, in most cases.
    most_amount: usize,
    /// Most nodes that are pushed in a row.
    most_nodes: usize,
    /// No pointer without an allocation is made or left in a new array: nothing is refused by 6, and more lives.
    tidy: bool,
    pub checking: bool,
}

impl Setting {
    pub fn small(random: &mut Random) -> Self {
        let (n, s) = (random.between(0, 24), random.between(0, 16));
        let c = random.between(s, 60);
        Self::of(random, [n, 8, s, c], 12)
    }

    /// Within the program's limits.
    pub fn middle(random: &mut Random) -> Self {
        let (n, s) = (random.between(16, 128), random.between(16, 128));
        let c = random.between(64, 512);
        Self::of(random, [n, 64, s, c], 16)
    }

    /// The largest nursery; the largest elder, or one of a sixteenth.
    pub fn large(random: &mut Random, most_threshold: usize) -> Self {
        let [n, _, s, c] = LIMITS.map(|limit| limit as usize);
        let part = random.pick(&[1, 16, 16]);
        Self::of(random, [n, most_threshold, s / part, c / part], 32)
    }

    /// T is the most that it may be.
    fn of(random: &mut Random, [n, t, s, c]: [usize; 4], most_registers: usize) -> Self {
        let threshold = if random.percent(30) { random.between(0, 3) } else { random.between(0, t) };
        Self {
            sizes: [n, threshold, s, c].map(|size| size as u64),
            registers: random.between(2, most_registers),
            most_amount: 2 + n / random.pick(&[4, 16, 64]),
            most_nodes: 12 + n / 10,
            tidy: random.percent(50),
            checking: random.percent(30),
        }
    }
}

/// What lists have reached.
#[derive(Default)]
pub struct Reached {
    /// How often a call was answered (0) or refused, by the question's number.
    pub answered: BTreeMap<u8, u64>,
    /// Nursery and elder.
    pub collections: [u64; 2],
    /// Most pointers visited in a call, nursery and elder.
    pub visits: [u64; 2],
    /// Most elder cells at a time.
    pub held: u64,
}

pub struct Player<'a> {
    random: &'a mut Random,
    setting: Setting,
    pub session: Session,
    pub calls: Vec<Call>,
    reached: &'a mut Reached,
    /// Allocs in a row that were refused.
    stuck: usize,
}

impl<'a> Player<'a> {
    pub fn new(random: &'a mut Random, setting: Setting, reached: &'a mut Reached) -> Self {
        let session = Session::new(setting.sizes, setting.registers, setting.checking);
        Self { random, setting, session, calls: Vec::new(), reached, stuck: 0 }
    }

    /// Plays so many calls or a few more. An error says what differs after the last one.
    pub fn play(&mut self, count: usize) -> Result<(), String> {
        while self.calls.len() < count {
            match self.random.below(100) {
                0..=29 => self.alloc()?,
                30..=59 => self.store()?,
                60..=73 => self.load()?,
                74..=83 => self.set()?,
                84..=91 => self.push()?,
                92..=95 => self.cycle()?,
                96..=98 => self.brim()?,
                _ => {
                    if self.random.percent(20) {
                        self.take(Call::Report)?;
                    }
                }
            }
        }
        Ok(())
    }

    /// The number of the question that got a no, or 0.
    fn take(&mut self, call: Call) -> Result<u8, String> {
        self.calls.push(call);
        let answer = self.session.take(call)?;
        if let (Call::Alloc { .. }, Ok([_, _, _, young, young_visits, old, old_visits, ..])) = (call, answer.as_deref())
        {
            self.reached.collections = [self.reached.collections[0] + young, self.reached.collections[1] + old];
            self.reached.visits = [self.reached.visits[0].max(*young_visits), self.reached.visits[1].max(*old_visits)];
            self.reached.held = self.reached.held.max(self.session.held());
        }
        let question = answer.err().unwrap_or(0);
        *self.reached.answered.entry(question).or_default() += 1;
        Ok(question)
    }

    fn any_register(&mut self) -> usize {
        self.random.below(self.session.registers())
    }

    /// One that holds a pointer, if there is one.
    fn pointer_register(&mut self) -> usize {
        let (first, count) = (self.any_register(), self.session.registers());
        let mut from_there = (0..count).map(|step| (first + step) % count);
        from_there.find(|&number| self.session.pointer_in(number).is_some()).unwrap_or(first)
    }

    // Calls.

    fn alloc(&mut self) -> Result<(), String> {
        let (to, amount) = (self.any_register(), self.amount());
        self.alloc_of(to, amount)
    }

    fn alloc_of(&mut self, to: usize, amount: i64) -> Result<(), String> {
        let many = self.random.below(400) == 0;
        let copies = if many { MOST_ROOTS - self.random.below(2 * self.session.registers()) } else { 0 };
        let question = self.take(Call::Alloc { to, amount, copies })?;
        if !matches!(question, 0 | 5) {
            return self.relieve();
        }
        self.stuck = 0;
        if question == 0 && self.setting.tidy {
            self.tidy(to, amount)?;
        }
        Ok(())
    }

    /// Writes over what an earlier array has left in a new one, where it points into the nursery.
    fn tidy(&mut self, array: usize, amount: i64) -> Result<(), String> {
        let Some(gc::Pointer { heap_id: 0, base, .. }) = self.session.pointer_in(array) else { return Ok(()) };
        let cells = Parts::of(self.setting.sizes).nursery_cells.start + 3 * base;
        for added in 0..amount {
            if self.session.words()[cells + 3 * added as usize] == POINTER {
                let from = self.any_register();
                self.take(Call::Store { from, through: array, added })?;
            }
        }
        Ok(())
    }

    /// After a refusal: fewer roots, and at last an empty heap.
    fn relieve(&mut self) -> Result<(), String> {
        self.stuck += 1;
        for to in 0..self.session.registers() {
            if self.session.pointer_in(to).is_some() && self.random.percent(50) {
                self.take(Call::Set { to, cell: [1, 7, 0] })?;
            }
        }
        if self.stuck > 8 {
            self.stuck = 0;
            self.take(Call::Report)?;
        }
        Ok(())
    }

    fn store(&mut self) -> Result<(), String> {
        let (from, through, added) = (self.any_register(), self.pointer_register(), self.added());
        self.take(Call::Store { from, through, added }).map(drop)
    }

    fn load(&mut self) -> Result<(), String> {
        let (to, through, added) = (self.any_register(), self.pointer_register(), self.added());
        self.take(Call::Load { to, through, added }).map(drop)
    }

    fn set(&mut self) -> Result<(), String> {
        let (to, cell) = (self.any_register(), self.cell());
        self.take(Call::Set { to, cell }).map(drop)
    }

    // Scenes.

    /// A node of an own array and what a register holds, which then holds the node.
    fn push(&mut self) -> Result<(), String> {
        let (list, node) = (self.any_register(), self.any_register());
        for _ in 0..self.random.between(1, self.setting.most_nodes) {
            self.alloc_of(node, 2)?;
            self.take(Call::Store { from: list, through: node, added: 1 })?;
            let cell = self.session.register(node);
            self.take(Call::Set { to: list, cell })?;
        }
        Ok(())
    }

    /// Two arrays that point to each other.
    fn cycle(&mut self) -> Result<(), String> {
        let (one, other) = (self.pointer_register(), self.pointer_register());
        self.take(Call::Store { from: one, through: other, added: 0 })?;
        self.take(Call::Store { from: other, through: one, added: 0 }).map(drop)
    }

    /// The nursery filled to its last cell but one, then asked for the last.
    fn brim(&mut self) -> Result<(), String> {
        let to = self.any_register();
        self.alloc_of(to, self.session.free() as i64 - 1)?;
        let to = self.any_register();
        self.alloc_of(to, 1)
    }

    // Operands.

    fn amount(&mut self) -> i64 {
        let (free, [n, _, _, c]) = (self.session.free() as i64, self.setting.sizes.map(|size| size as i64));
        let near = self.random.below(3) as i64 - 1;
        match self.random.below(100) {
            0..=54 => self.random.between(1, 4) as i64,
            55..=79 => self.random.between(1, self.setting.most_amount) as i64,
            80..=91 => (free + near).max(1),
            92..=96 => (n + near).max(1),
            97..=98 => self.random.pick(&[0, -1, i64::MIN]),
            _ => self.random.pick(&[c, c + 1, 1 << 32, i64::MAX]),
        }
    }

    fn added(&mut self) -> i64 {
        match self.random.below(100) {
            0..=89 => self.random.between(0, 3) as i64,
            90..=98 => self.random.pick(&[-1, 4, 5, 17, 255, 256]),
            _ => self.random.pick(&[i64::MAX, i64::MIN, i64::MAX - 1, 1 << 40]),
        }
    }

    fn cell(&mut self) -> Cell {
        match self.random.below(100) {
            0..=39 => self.plain(),
            40..=79 => {
                // what another register points to, at an offset near by
                let from = self.pointer_register();
                let [tag, payload, offset] = self.session.register(from);
                let moved = if tag & 0xFF == POINTER { self.random.pick(&[0, 0, 0, 1, 1, 2, u64::MAX]) } else { 0 };
                [tag, payload, offset.wrapping_add(moved)]
            }
            80..=96 => {
                // an array of the elder, allocated or not
                let most = self.random.pick(&[4, 16, 300]);
                [POINTER + ELDER, self.random.below(most) as u64, self.random.pick(&[0, 0, 0, 1])]
            }
            _ if self.setting.tidy => self.plain(),
            _ => self.wild(),
        }
    }

    fn plain(&mut self) -> Cell {
        match self.random.below(5) {
            0 => [0, 0, 0],
            1 => [1, self.random.next(), 0],
            2 => [2, self.random.below(2) as u64, 0],
            3 => [3, self.random.next(), 0],
            _ => [4, self.random.pick(&[0, 0xD7FF, 0xE000, 0x10_FFFF]), 0],
        }
    }

    /// A pointer that leads nowhere, or into a heap that is none.
    fn wild(&mut self) -> Cell {
        let heap = self.random.pick(&[0, 0, 0, 1, 1, 2, 255]);
        let base = self.random.pick(&[0, 1, 3, 255, 256, 2047, i64::MAX as u64, 1 << 63, u64::MAX]);
        let offset = self.random.pick(&[0, 0, 1, u64::MAX, i64::MAX as u64, 1 << 63]);
        [POINTER + ELDER * heap, base, offset]
    }
}

/// Whether these calls, on fresh heaps, end in a difference; then at the last of them.
fn difference(setting: Setting, calls: &[Call]) -> Option<String> {
    let mut session = Session::new(setting.sizes, setting.registers, setting.checking);
    calls.iter().find_map(|&call| session.take(call).err())
}

/// A list that still differs, without calls that it can spare, and what differs.
pub fn shortened(setting: Setting, mut calls: Vec<Call>) -> (Vec<Call>, String) {
    let mut part = calls.len() / 2;
    while part > 0 {
        let mut at = 0;
        while at < calls.len() {
            let mut fewer = calls.clone();
            fewer.drain(at..(at + part).min(calls.len()));
            if difference(setting, &fewer).is_some() {
                calls = fewer;
            } else {
                at += part;
            }
        }
        part /= 2;
    }
    let what = difference(setting, &calls).unwrap_or_else(|| "it differs no longer".into());
    (calls, what)
}
