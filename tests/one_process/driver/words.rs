//! Calls on words of any content, each buffer between guard words, against document 01's questions 1 to 5 and the published collector.

use crate::form::{self, Cell};
use crate::heaps::{collector_of, picture, value_of, values_of, words_of};
use gc::hooks::{self, answered, Limits};
use gc::{MemoryManager as _, Pointer};
use ours::c;

const GUARDS: usize = 8;
const GUARD: u64 = 0x9191_A2A2_B3B3_C4C4;
/// Of `out` and scratch before a call.
const FILL: u64 = 0x0707_0707_0707_0707;

#[derive(Clone, Debug)]
pub enum Asked {
    New { sizes: [u64; 4] },
    Alloc { roots: Vec<u64>, scratch: usize, amount: i64 },
    Read { pointer: Pointer },
    Write { pointer: Pointer, cell: Vec<u64> },
    Report,
}

impl Asked {
    /// The words of its `out`.
    fn out(&self) -> Vec<u64> {
        let length = match self {
            Self::New { .. } | Self::Write { .. } => 0,
            Self::Alloc { .. } => 7,
            Self::Read { .. } => 3,
            Self::Report => 11,
        };
        vec![FILL; length]
    }

    fn roots(&self) -> Vec<u64> {
        match self {
            Self::Alloc { roots, .. } => roots.clone(),
            _ => vec![],
        }
    }
}

/// What a call answers and leaves.
#[derive(PartialEq)]
pub struct Left {
    /// 0 if it is answered.
    pub question: u8,
    pub out: Vec<u64>,
    pub image: Vec<u64>,
    pub roots: Vec<u64>,
}

/// Judged without our library.
pub fn expected(image: &[u64], asked: &Asked) -> Left {
    let unchanged = |question| Left { question, out: asked.out(), image: image.to_vec(), roots: asked.roots() };
    judged(image, asked).unwrap_or_else(unchanged)
}

fn judged(image: &[u64], asked: &Asked) -> Result<Left, u8> {
    if let Asked::New { sizes } = *asked {
        if !form::in_bounds(sizes) || form::image_length(sizes) != image.len() as u64 {
            return Err(1);
        }
        let mut fresh = vec![0; image.len()];
        fresh[..4].copy_from_slice(&sizes);
        return Ok(Left { question: 0, out: vec![], image: fresh, roots: vec![] });
    }
    let sizes = form::opened(image)?;
    hooks::begin_call(Limits { slots: sizes[2] as usize, cells: sizes[3] as usize });
    match asked {
        Asked::Alloc { roots, scratch, amount } => {
            form::alloc_asked(sizes, roots, *scratch, *amount)?;
            let (mut collector, mut roots) = (collector_of(image), values_of(roots));
            let place = words_of(&answered(|| collector.alloc(*amount, &mut roots))?);
            let counts = hooks::counts();
            let nursery = [counts.collections[0], counts.visits[0]];
            let elder = [counts.collections[1], counts.visits[1]];
            let out = [&[place[0] >> 8, place[1], place[2]][..], &nursery, &elder].concat();
            let roots = roots.iter().flat_map(words_of).collect();
            Ok(Left { question: 0, out, image: picture(&collector, sizes).0, roots })
        }
        Asked::Read { pointer } => {
            let out = words_of(&answered(|| collector_of(image).read(pointer).copied())?).to_vec();
            Ok(Left { question: 0, out, image: image.to_vec(), roots: vec![] })
        }
        Asked::Write { pointer, cell } => {
            let cell: Cell = cell[..].try_into().ok().filter(|cell: &Cell| form::are_cells(cell)).ok_or(3)?;
            let mut collector = collector_of(image);
            answered(|| collector.write(pointer, value_of(cell)))?;
            Ok(Left { question: 0, out: vec![], image: picture(&collector, sizes).0, roots: vec![] })
        }
        Asked::Report | Asked::New { .. } => {
            let mut collector = collector_of(image);
            let (_, numbers) = picture(&collector, sizes);
            answered(|| Ok(collector.test()))?;
            Ok(Left { question: 0, out: numbers.to_vec(), image: picture(&collector, sizes).0, roots: vec![] })
        }
    }
}

/// Words that are lent, between guard words.
struct Lent {
    words: Vec<u64>,
}

impl Lent {
    fn new(content: &[u64]) -> Self {
        Self { words: [&[GUARD; GUARDS], content, &[GUARD; GUARDS]].concat() }
    }

    fn lend(&mut self) -> &mut [u64] {
        let end = self.words.len() - GUARDS;
        &mut self.words[GUARDS..end]
    }

    fn lend_out<const LENGTH: usize>(&mut self) -> &mut [u64; LENGTH] {
        self.lend().try_into().expect("the call's length")
    }

    fn content(&self) -> Vec<u64> {
        self.words[GUARDS..self.words.len() - GUARDS].to_vec()
    }

    fn is_guarded(&self) -> bool {
        let (before, behind) = (&self.words[..GUARDS], &self.words[self.words.len() - GUARDS..]);
        before.iter().chain(behind).all(|&word| word == GUARD)
    }
}

/// By the functions that take words of any content. An error says what was written outside of what was lent.
pub fn by_checked(image: &[u64], asked: &Asked) -> Result<Left, String> {
    let mut image = Lent::new(image);
    let (mut out, mut roots) = (Lent::new(&asked.out()), Lent::new(&asked.roots()));
    let mut other = Lent::new(&match asked {
        Asked::Alloc { scratch, .. } => vec![FILL; *scratch],
        Asked::Write { cell, .. } => cell.clone(),
        _ => vec![],
    });
    let question = match asked {
        Asked::New { sizes } => c::new(image.lend(), *sizes),
        Asked::Alloc { amount, .. } => c::alloc(image.lend(), roots.lend(), other.lend(), *amount, out.lend_out()),
        Asked::Read { pointer: p } => c::read(image.lend(), p.heap_id, p.base as u64, p.offset, out.lend_out()),
        Asked::Write { pointer: p, .. } => c::write(image.lend(), p.heap_id, p.base as u64, p.offset, other.lend()),
        Asked::Report => c::report(image.lend(), out.lend_out()),
    };
    if ![&image, &out, &roots, &other].iter().all(|lent| lent.is_guarded()) {
        return Err("a guard word was written".into());
    }
    if matches!(asked, Asked::Write { cell, .. } if *cell != other.content()) {
        return Err("the value to write was written".into());
    }
    Ok(Left { question: question as u8, out: out.content(), image: image.content(), roots: roots.content() })
}

/// By the functions for an owner; `None` where the image is not formed, by our library.
pub fn by_formed(image: &[u64], asked: &Asked) -> Option<Left> {
    let mut image = c::Image::of(image.into()).ok()?;
    let (mut out, mut roots) = (Lent::new(&asked.out()), asked.roots());
    let question = match asked {
        Asked::New { .. } => return None,
        Asked::Alloc { scratch, amount, .. } => {
            image.alloc(&mut roots, &mut vec![FILL; *scratch], *amount, out.lend_out())
        }
        Asked::Read { pointer: p } => image.read(p.heap_id, p.base as u64, p.offset, out.lend_out()),
        // the type has no value of another length
        Asked::Write { pointer: p, cell } => image.write(p.heap_id, p.base as u64, p.offset, cell[..].try_into().ok()?),
        Asked::Report => image.report(out.lend_out()),
    };
    Some(Left { question: question as u8, out: out.content(), image: image.words().to_vec(), roots })
}
