//! One run of a command file: sixteen registers over the published collector, a line for each command.

use crate::command::{Command, Reader, LONGEST_FILE, REGISTERS};
use crate::{figure, value};
use gc::hooks::{self, answered, Limits};
use gc::{Collector, MemoryManager, Pointer, Value};

/// The number of the first question that got a no.
type Refusal = u8;

const MALFORMED: Refusal = 12;
const MOST_NURSERY: u16 = 128;
const MOST_THRESHOLD: u16 = 8192;
const MOST_SLOTS: u16 = 128;
const MOST_CELLS: u16 = 512;

/// The lines of a file, up to the end, the first 12, or the first call in which the published collector panicked.
pub fn listing(file: &[u8]) -> String {
    if file.len() > LONGEST_FILE {
        return line(1, Err(MALFORMED));
    }
    let mut session = Session::default();
    let mut reader = Reader::new(file);
    let mut lines = String::new();
    let mut number = 0;
    while !reader.at_end() {
        number += 1;
        let answer = reader.next().ok_or(MALFORMED).and_then(|command| session.run(command));
        let ended = matches!(answer, Err(6 | 9 | 10 | MALFORMED));
        lines += &line(number, answer);
        if ended {
            break;
        }
    }
    lines
}

fn line(number: usize, answer: Result<String, Refusal>) -> String {
    match answer {
        Ok(text) => format!("{number} {text}\n"),
        Err(question) => format!("{number} no {question}\n"),
    }
}

struct Heap {
    collector: Collector,
    limits: Limits,
}

#[derive(Default)]
struct Session {
    heap: Option<Heap>,
    registers: [Value; REGISTERS],
}

impl Session {
    fn run(&mut self, command: Command) -> Result<String, Refusal> {
        match command {
            Command::New { nursery, threshold, slots, cells } => self.new_heap(nursery, threshold, slots, cells),
            Command::Alloc { to, amount } => self.alloc(to, amount),
            Command::Set { to, value } => {
                self.registers[to] = value::from_bytes(&value).ok_or(3)?;
                Ok("set".into())
            }
            Command::Load { to, pointer, added } => self.load(to, pointer, added),
            Command::Store { from, pointer, added } => self.store(from, pointer, added),
            Command::Report => self.report(),
            Command::Figure { of } => match self.registers[of] {
                Value::Float(number) => Ok(format!("figure {}", figure::figure(number).ok_or(15)?)),
                _ => Err(15),
            },
        }
    }

    fn new_heap(&mut self, nursery: u16, threshold: u16, slots: u16, cells: u16) -> Result<String, Refusal> {
        if self.heap.is_some() {
            return Err(14);
        }
        if nursery > MOST_NURSERY || threshold > MOST_THRESHOLD || slots > MOST_SLOTS || cells > MOST_CELLS {
            return Err(1);
        }
        self.heap = Some(Heap {
            collector: Collector::new(nursery.into(), 0, threshold.into()),
            limits: Limits { slots: slots.into(), cells: cells.into() },
        });
        Ok("new".into())
    }

    fn alloc(&mut self, to: usize, amount: i64) -> Result<String, Refusal> {
        let Heap { collector, limits } = self.heap.as_mut().ok_or(14)?;
        // a refusal by 7 comes in the middle of the call: go on with the copies only if it is answered
        let (mut changed, mut roots) = (collector.clone(), self.registers);
        hooks::begin_call(*limits);
        let Value::Pointer(p) = answered(|| changed.alloc(amount, &mut roots))? else {
            fail("alloc answered with no pointer");
        };
        *collector = changed;
        self.registers = roots;
        self.registers[to] = Value::Pointer(p);
        let [nursery, elder] = hooks::counts().collections;
        let [nursery_visits, elder_visits] = hooks::counts().visits;
        Ok(format!("alloc {} {} {} {nursery} {nursery_visits} {elder} {elder_visits}", p.heap_id, p.base, p.offset))
    }

    fn load(&mut self, to: usize, pointer: usize, added: i64) -> Result<String, Refusal> {
        let collector = &self.heap.as_ref().ok_or(14)?.collector;
        let pointer = pointer_in(&self.registers[pointer])?;
        let value = answered(|| collector.read(&pointer.add(added)).copied())?;
        self.registers[to] = value;
        let [kind, heap, payload, offset] = value::words(&value);
        Ok(format!("load {kind} {heap} {payload} {offset}"))
    }

    fn store(&mut self, from: usize, pointer: usize, added: i64) -> Result<String, Refusal> {
        let collector = &mut self.heap.as_mut().ok_or(14)?.collector;
        let pointer = pointer_in(&self.registers[pointer])?;
        answered(|| collector.write(&pointer.add(added), self.registers[from]))?;
        Ok("store".into())
    }

    fn report(&mut self) -> Result<String, Refusal> {
        let Heap { collector, limits } = self.heap.as_mut().ok_or(14)?;
        hooks::begin_call(*limits);
        let stats = answered(|| Ok(collector.test()))?;
        let [nursery, elder] = &stats.gen_stats[..] else {
            fail("a report over other than two generations");
        };
        let fields = [
            nursery.num_collections,
            nursery.num_size,
            nursery.values_allocated,
            nursery.num_remembered_set,
            nursery.free_space,
            nursery.num_promotions,
            elder.num_collections,
            elder.num_size,
            elder.values_allocated,
            elder.num_remembered_set,
            usize::from(stats.memory_leak),
        ];
        Ok(format!("report {}", fields.map(|field| field.to_string()).join(" ")))
    }
}

fn pointer_in(register: &Value) -> Result<Pointer, Refusal> {
    match register {
        Value::Pointer(pointer) => Ok(*pointer),
        _ => Err(13),
    }
}

fn fail(problem: &str) -> ! {
    eprintln!("oracle: not what document 01 says of the Rust: {problem}");
    std::process::exit(1)
}
