//! What the tests share: buffers that they own, lists of calls written as
//! text, seeds from the environment, and a harness that carries calls out and
//! holds everything that happens against the ledger and the slow heap.

#![allow(dead_code)]

pub mod slow;

use peer::ledger::{Broken, Checker};
use peer::random::Random;
use peer::trace::{call_of, read_line};
use peer::{layout, Answer, Buffers, Call};

/// Four buffers of any lengths.
#[derive(Clone, Debug, PartialEq, Eq)]
pub struct Owned {
    pub arena: Vec<u64>,
    pub table: Vec<u32>,
    pub bitmaps: Vec<u64>,
    pub roots: Vec<u64>,
}

impl Owned {
    /// All zero, of the lengths that P asks for.
    pub fn zero(pages: u64) -> Owned {
        Owned {
            arena: vec![0; layout::arena_words(pages)],
            table: vec![0; layout::table_numbers(pages)],
            bitmaps: vec![0; layout::bitmap_words(pages)],
            roots: vec![0; layout::ROOT_WORDS],
        }
    }

    /// Any content, of the lengths that P asks for.
    pub fn random(pages: u64, random: &mut Random) -> Owned {
        let mut owned = Owned::zero(pages);
        owned.arena.fill_with(|| random.wild());
        owned.table.fill_with(|| random.wild() as u32);
        owned.bitmaps.fill_with(|| random.number());
        owned.roots.fill_with(|| random.wild());
        owned
    }

    /// The buffers after these calls on zero buffers.
    pub fn after(pages: u64, text: &str) -> Owned {
        let mut owned = Owned::zero(pages);
        for call in calls(pages, text) {
            let _ = peer::apply(&call, owned.lend());
        }
        owned
    }

    pub fn lend(&mut self) -> Buffers<'_> {
        Buffers {
            arena: &mut self.arena,
            table: &mut self.table,
            bitmaps: &mut self.bitmaps,
            roots: &mut self.roots,
        }
    }

    pub fn pages(&self) -> u64 {
        (self.table.len() / layout::ENTRY_NUMBERS) as u64
    }

    pub fn audit(&mut self) -> bool {
        let pages = self.pages();
        peer::apply(&Call::Audit { pages }, self.lend()).is_ok()
    }
}

/// Calls written as trace lines with slashes between them.
pub fn calls(pages: u64, text: &str) -> Vec<Call> {
    let call = |line: &str| call_of(pages, &read_line(line.as_bytes())?);
    text.split('/').map(|line| call(line).unwrap_or_else(|| panic!("{line:?}"))).collect()
}

/// Each of the nineteen calls with small numbers.
pub fn every_call(pages: u64) -> Vec<Call> {
    let text = "H 1/A 0 0 17 1/M 0 1 0/Z 0 0/L 0 0 0 0/S 0 0 0 0/W 0 0 1 7/R 0 0 1/G 0 0 0/\
                P 0 0 0/O 1/C 0/T/K 0/Q/N/F/E";
    let mut all = calls(pages, text);
    all.push(Call::Audit { pages });
    all
}

/// The refusal's number, or 0.
pub fn refusal(answer: &Answer) -> u64 {
    answer.map_or_else(|refusal| refusal.number(), |_| 0)
}

/// The seed of a test: its own, or PEER_SEED. It is printed.
pub fn seed(own: u64) -> u64 {
    let seed = from_environment("PEER_SEED").unwrap_or(own);
    println!("seed {seed}");
    seed
}

/// How often a test repeats itself: PEER_TIMES multiplies the usual count.
pub fn times(usual: u64) -> u64 {
    usual * from_environment("PEER_TIMES").unwrap_or(1)
}

fn from_environment(name: &str) -> Option<u64> {
    std::env::var(name).ok()?.parse().ok()
}

/// What gave a heap away.
#[derive(Clone, Debug, PartialEq, Eq)]
pub enum Caught {
    /// A clause about refused calls or about the whole list does not hold.
    Ledger(Broken),
    /// The two audits differ.
    Audit,
    /// The answer is not the other heap's, which is this one.
    Answer(slow::Outcome),
    /// The buffers are not the other heap's.
    Buffers,
}

/// What a heap is held against, besides the ledger.
enum Judge {
    Nothing,
    SlowHeap,
    RightHeap,
}

pub type HeapUnderTest = fn(&Call, Buffers<'_>) -> Answer;

/// A heap under test with its buffers.
pub struct Harness {
    pub owned: Owned,
    heap: HeapUnderTest,
    checker: Checker,
    judge: Judge,
}

impl Harness {
    /// Tests a heap by the ledger and by the slow heap.
    pub fn new(owned: Owned, heap: HeapUnderTest) -> Harness {
        Harness { owned, heap, checker: Checker::default(), judge: Judge::SlowHeap }
    }

    /// Tests a heap by the ledger alone.
    pub fn ledger_only(owned: Owned, heap: HeapUnderTest) -> Harness {
        Harness { judge: Judge::Nothing, ..Harness::new(owned, heap) }
    }

    /// Tests a wrong heap by the ledger and by the right one, which is quicker
    /// than the slow one.
    pub fn beside_right_heap(owned: Owned, heap: HeapUnderTest) -> Harness {
        Harness { judge: Judge::RightHeap, ..Harness::new(owned, heap) }
    }

    pub fn step(&mut self, call: &Call) -> Result<Answer, Caught> {
        let mut before = self.owned.clone();
        let answer = (self.heap)(call, self.owned.lend());
        let checked = self.checker.after(call, &answer, &before.lend(), self.owned.lend());
        checked.map_err(Caught::Ledger)?;
        let (outcome, after) = match self.judge {
            Judge::Nothing => return Ok(answer),
            Judge::SlowHeap => {
                if self.owned.audit() != slow::broken_clause(&self.owned).is_none() {
                    return Err(Caught::Audit);
                }
                slow::predict(call, &before)
            }
            Judge::RightHeap => {
                let right = peer::apply(call, before.lend());
                (right.map_err(|refusal| refusal.number()), before)
            }
        };
        if outcome != answer.map_err(|refusal| refusal.number()) {
            return Err(Caught::Answer(outcome));
        }
        if self.owned != after {
            return Err(Caught::Buffers);
        }
        Ok(answer)
    }

    /// Carries a whole list out; stops where the heap is caught.
    pub fn list(&mut self, calls: &[Call]) -> Result<(), (usize, Caught)> {
        for (place, call) in calls.iter().enumerate() {
            if let Err(caught) = self.step(call) {
                return Err((place, caught));
            }
        }
        Ok(())
    }
}
