//! Timing a call on both heaps: they take turns on the same memory, and what the
//! call changes is undone outside of the time.

use std::hint::black_box;
use std::time::Instant;

use compare::damage::Change;
use compare::memory::{lengths, Memory};
use compare::proved::proved_apply;
use peer::{apply, Answer, Buffers, Call};

const MAX_BLOCK_CALLS: usize = 20_000;

type Heap = fn(&Call, Buffers<'_>) -> Answer;

/// A call on a heap that is always brought back to the same state.
pub struct Prepared {
    pages: u64,
    call: Call,
    memory: Memory,
    pub answer: Answer,
    /// What brings it back; nothing if the call leaves it as it finds it.
    undo: Vec<Change>,
}

impl Prepared {
    /// Prepares a call whose changes are undone each time.
    pub fn undone(call: Call, before: Memory) -> Prepared {
        let pages = call.pages();
        let mut after = before.clone();
        let answer = apply(&call, after.lend(lengths(pages)));
        let undo = before.differences(&after).map(|place| (place, before.get(place))).collect();
        Prepared { pages, call, memory: before, answer, undo }
    }

    /// The same, but a call that the first time leaves what it then finds and
    /// answers the same again needs no undoing.
    pub fn new(call: Call, before: Memory) -> Prepared {
        let prepared = Prepared::undone(call, before);
        let mut after = prepared.memory.clone();
        let _ = apply(&call, after.lend(lengths(prepared.pages)));
        let mut again = after.clone();
        let answer = apply(&call, again.lend(lengths(prepared.pages)));
        if answer == prepared.answer && again == after {
            return Prepared { memory: after, undo: Vec::new(), ..prepared };
        }
        prepared
    }
}

/// One of the two sides.
struct Side<'a> {
    heap: Heap,
    prepared: &'a Prepared,
}

impl Side<'_> {
    fn new(heap: Heap, prepared: &Prepared) -> Side<'_> {
        Side { heap, prepared }
    }

    /// Nanoseconds of a call, of so many in a row, on memory that is left as it was.
    fn turn(&self, memory: &mut Memory, calls: usize, clock: f64) -> f64 {
        let lengths = lengths(self.prepared.pages);
        let (mut time, mut left) = (0.0, calls);
        while left > 0 {
            let at_once = if self.prepared.undo.is_empty() { left } else { 1 };
            let begin = Instant::now();
            for _ in 0..at_once {
                let call = black_box(&self.prepared.call);
                let answer = black_box((self.heap)(call, memory.lend(lengths)));
                assert!(answer == self.prepared.answer, "{call:?}: {answer:?}");
            }
            time += (begin.elapsed().as_nanos() as f64 - clock).max(0.0);
            for &(place, value) in &self.prepared.undo {
                memory.set(place, value);
            }
            left -= at_once;
        }
        assert!(*memory == self.prepared.memory, "{:?} changed another word", self.prepared.call);
        time / calls as f64
    }
}

/// The nanoseconds that looking at the clock adds to a time.
pub fn clock_cost() -> f64 {
    let times = (0..1001).map(|_| Instant::now().elapsed().as_nanos() as f64);
    median(times.collect())
}

fn median(mut numbers: Vec<f64>) -> f64 {
    numbers.sort_by(f64::total_cmp);
    numbers[numbers.len() / 2]
}

/// A call's ratio and the plain heap's nanoseconds, medians of all rounds.
#[derive(Clone, Copy)]
pub struct Measured {
    pub ratio: f64,
    pub plain: f64,
}

pub struct Settings {
    pub rounds: usize,
    pub block: f64,
    pub clock: f64,
}

/// Both sides by turns on the same memory, so that where it lies is the same for both. Each round has
/// memory of its own, which lies elsewhere: how fast words are zeroed depends on where they start.
pub fn measure(prepared: &Prepared, settings: &Settings) -> Measured {
    let (plain, proved) = (Side::new(apply, prepared), Side::new(proved_apply, prepared));
    let mut memories = vec![prepared.memory.clone(); settings.rounds];
    let first = plain.turn(&mut memories[0], 3, settings.clock).max(1.0);
    let calls = ((settings.block / first) as usize).clamp(1, MAX_BLOCK_CALLS);
    let (mut ratios, mut times) = (Vec::new(), Vec::new());
    for (round, memory) in memories.iter_mut().enumerate() {
        let mut turn = |side: &Side, calls| side.turn(memory, calls, settings.clock);
        // The first calls bring the memory into the cache.
        turn(&plain, 3);
        turn(&proved, 3);
        let (time, proved_time) = if round % 2 == 0 {
            let time = turn(&plain, calls);
            (time, turn(&proved, calls))
        } else {
            let proved_time = turn(&proved, calls);
            (turn(&plain, calls), proved_time)
        };
        ratios.push(proved_time / time.max(1.0));
        times.push(time);
    }
    Measured { ratio: median(ratios), plain: median(times) }
}
