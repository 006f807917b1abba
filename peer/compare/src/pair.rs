//! Two heaps that carry out the same calls on memory of their own: after each
//! call the answers and every word of the two memories have to be equal.

use std::fmt::{self, Display};

use peer::{Buffers, Call};

use crate::memory::{Lengths, Memory, Place};
use crate::proved::Numbers;

pub type Heap = fn(&Call, Buffers<'_>) -> Numbers;

/// The two heaps that are compared.
#[derive(Clone, Copy)]
pub struct Pair {
    pub plain: Heap,
    pub proved: Heap,
}

/// At most so many differing words are shown.
const SHOWN_WORDS: usize = 8;

/// A call after which the two sides differ.
pub struct Difference {
    /// How many calls were made before it.
    pub step: u64,
    pub pages: u64,
    pub call: Call,
    pub lengths: Lengths,
    pub plain: Numbers,
    pub proved: Numbers,
    /// Place, plain word, proved word.
    pub words: Vec<(Place, u64, u64)>,
}

impl Display for Difference {
    fn fmt(&self, out: &mut fmt::Formatter<'_>) -> fmt::Result {
        writeln!(out, "call {}: {:?}", self.step, self.call)?;
        writeln!(out, "on a heap of {} pages, lent lengths {:?}", self.pages, self.lengths)?;
        writeln!(out, "answers, refusal first: plain {:?}, proved {:?}", self.plain, self.proved)?;
        for (place, plain, proved) in &self.words {
            writeln!(out, "{place}: plain {plain:#x}, proved {proved:#x}")?;
        }
        Ok(())
    }
}

/// The memories of the two sides, with heaps of so many pages.
#[derive(Clone)]
pub struct Memories {
    pub plain: Memory,
    proved: Memory,
    pages: u64,
    /// How many calls were made.
    calls: u64,
}

impl Memories {
    /// Both sides begin on the same memory.
    pub fn new(pages: u64, memory: Memory) -> Memories {
        Memories { plain: memory.clone(), proved: memory, pages, calls: 0 }
    }

    /// Changes the same word on both sides.
    pub fn set(&mut self, place: Place, value: u64) {
        self.plain.set(place, value);
        self.proved.set(place, value);
    }

    /// Carries a call out on both sides; gives the answer, or what differs.
    pub fn carry_out(
        &mut self,
        call: &Call,
        lengths: Lengths,
        pair: &Pair,
    ) -> Result<Numbers, Box<Difference>> {
        let plain = (pair.plain)(call, self.plain.lend(lengths));
        let proved = (pair.proved)(call, self.proved.lend(lengths));
        let step = self.calls;
        self.calls += 1;
        if plain == proved && self.plain == self.proved {
            return Ok(plain);
        }
        let differences = self.plain.differences(&self.proved).take(SHOWN_WORDS);
        let words = differences.map(|p| (p, self.plain.get(p), self.proved.get(p))).collect();
        let (pages, call) = (self.pages, *call);
        Err(Box::new(Difference { step, pages, call, lengths, plain, proved, words }))
    }
}
