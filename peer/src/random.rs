//! Random numbers from a seed, and random calls for lists that have to go
//! somewhere: mostly sensible numbers on few stacks and slots, so that records
//! meet, cycles begin and end and room runs out, with some wild ones between.

use crate::calls::Call;
use crate::classes::MAX_RECORD_BYTES;
use crate::layout::*;

/// A small generator (splitmix64).
pub struct Random(u64);

impl Random {
    pub fn new(seed: u64) -> Random {
        Random(seed)
    }

    pub fn number(&mut self) -> u64 {
        self.0 = self.0.wrapping_add(0x9e37_79b9_7f4a_7c15);
        let mut mixed = self.0;
        mixed = (mixed ^ (mixed >> 30)).wrapping_mul(0xbf58_476d_1ce4_e5b9);
        mixed = (mixed ^ (mixed >> 27)).wrapping_mul(0x94d0_49bb_1331_11eb);
        mixed ^ (mixed >> 31)
    }

    /// A number below `limit`, which is not 0.
    pub fn below(&mut self, limit: u64) -> u64 {
        self.number() % limit
    }

    /// True so many times in a thousand.
    pub fn chance(&mut self, in_thousand: u64) -> bool {
        self.below(1000) < in_thousand
    }

    pub fn pick<T: Copy>(&mut self, choices: &[T]) -> T {
        choices[self.below(choices.len() as u64) as usize]
    }

    /// A number near some limit, or any number.
    pub fn wild(&mut self) -> u64 {
        let edges = [0, 1, 7, 8, 15, 16, 17, 31, 32, 33, 255, 256, 257, 512, 8192, 32_768];
        let large = [32_769, MAX_RECORD_BYTES, MAX_RECORD_BYTES + 1, 1 << 32, 1 << 63, u64::MAX];
        match self.below(4) {
            0 => self.pick(&edges),
            1 => self.pick(&large),
            2 => self.number() >> self.below(64),
            _ => self.pick(&large).wrapping_add(self.pick(&edges)),
        }
    }
}

const SIZES: [u64; 24] = [
    8, 8, 16, 17, 24, 32, 48, 64, 512, 1024, 1025, 1408, 2048, 2688, 3072, 4096, 4097, 8192, 8193,
    16_384, 32_768, 32_769, 40_961, 65_536,
];

/// So many of them let a page hold many records.
const SMALL_SIZES: usize = 8;
/// So many of those that fit leave little room for others.
const LARGEST_SIZES: usize = 4;

/// Makes the calls of one list; each list has its own habits.
pub struct CallMaker {
    pages: u64,
    sizes: [u64; 3],
    /// Whether the list keeps to scan records of its first size, so that one
    /// page has room for more than one record.
    one_kind: bool,
    stacks: u64,
    slots: u64,
    globals: u64,
    /// How many calls on records in a thousand allocate.
    allocate_share: u64,
    /// How many calls in a thousand belong to the cycle.
    cycle_share: u64,
    /// Whether the list leaves most of the sweeping to its allocations.
    lazy: bool,
    /// How many calls or numbers in a thousand are wild.
    wild_share: u64,
    /// The second half of a move, to be made next.
    planned: Option<Call>,
}

impl CallMaker {
    pub fn new(random: &mut Random, pages: u64) -> CallMaker {
        // Now and then a size that the arena is too small for.
        let fitting = SIZES.iter().filter(|&&size| size <= pages * PAGE_BYTES).count() + 1;
        let any = &SIZES[..fitting.min(SIZES.len())];
        let small = &SIZES[..SMALL_SIZES];
        let largest = &any[any.len() - LARGEST_SIZES..];
        let mostly = random.pick(&[any, any, any, largest, largest, small, small, small, small]);
        let sizes = [random.pick(mostly), random.pick(mostly), random.pick(any)];
        CallMaker {
            pages,
            sizes,
            one_kind: random.chance(if pages < 3 { 700 } else { 300 }),
            stacks: 1 + random.below(4),
            slots: 2 + random.below(4),
            globals: 1 + random.below(4),
            allocate_share: random.pick(&[30, 60, 250]),
            cycle_share: 50 + random.below(750),
            lazy: random.chance(500),
            wild_share: random.pick(&[0, 0, 5, 30]),
            planned: None,
        }
    }

    /// The sizes that the list allocates.
    pub fn sizes(&self) -> &[u64] {
        &self.sizes
    }

    /// The next call, in view of what the roots hold now.
    pub fn next(&mut self, random: &mut Random, roots: &[u64]) -> Call {
        if let Some(call) = self.planned.take() {
            return call;
        }
        if random.chance(self.wild_share) {
            return self.wild_call(random);
        }
        let leaves_sweeping = self.lazy && root(roots, PHASE) == PHASE_SWEEP;
        if random.chance(if leaves_sweeping { 100 } else { self.cycle_share }) {
            return self.cycle_call(random, roots);
        }
        if random.chance(3) {
            return Call::Setup { pages: self.pages };
        }
        let stack = self.stack(random, roots);
        if root(roots, FIRST_STATE + stack as usize) == CLOSED && !random.chance(50) {
            return Call::Open { pages: self.pages, stack };
        }
        let record = self.record_slot(random, roots, stack);
        let nothing_there = root(roots, slot_place(stack as usize, record as usize)) == NIL;
        let allocate_share = if leaves_sweeping { 500 } else { self.allocate_share };
        if random.chance(allocate_share) || (nothing_there && random.chance(600)) {
            return self.allocation(random, stack, record);
        }
        if random.chance(250) {
            let [first, second] = self.moving(random, roots, stack);
            self.planned = Some(second);
            return first;
        }
        self.record_call(random, roots, stack)
    }

    /// Two calls that move a record: from where it is to a slot, and something
    /// else over it, or from a slot to elsewhere, and the slot cleared.
    fn moving(&self, random: &mut Random, roots: &[u64], stack: u64) -> [Call; 2] {
        let pages = self.pages;
        let (to, other) = (self.slot(random), self.slot(random));
        let record = self.record_slot(random, roots, stack);
        let from = self.record_slot(random, roots, stack);
        let global = self.global(random, roots);
        let field = random.below(2);
        let clear = Call::Clear { pages, stack, slot: from };
        match random.below(4) {
            0 => [
                Call::LoadGlobal { pages, stack, to, global },
                Call::StoreGlobal { pages, stack, global, from: other },
            ],
            1 => [
                Call::Load { pages, stack, to, record, field },
                Call::Store { pages, stack, record, field, from: other },
            ],
            2 => [Call::StoreGlobal { pages, stack, global, from }, clear],
            _ => [Call::Store { pages, stack, record, field, from }, clear],
        }
    }

    fn cycle_call(&self, random: &mut Random, roots: &[u64]) -> Call {
        let pages = self.pages;
        let stack = self.stack(random, roots);
        if random.chance(20) {
            return Call::Audit { pages };
        }
        let phase = if random.chance(30) { random.below(3) } else { root(roots, PHASE) };
        match phase {
            PHASE_OFF => Call::Start { pages },
            PHASE_MARK if random.chance(700) => self.useful_mark_call(random, roots),
            PHASE_MARK => random.pick(&[
                Call::ScanStack { pages, stack },
                Call::ScanGlobals { pages },
                Call::MarkStep { pages },
                Call::Finish { pages },
            ]),
            _ => Call::SweepStep { pages },
        }
    }

    /// A scan of something gray, a mark step or a finish.
    fn useful_mark_call(&self, random: &mut Random, roots: &[u64]) -> Call {
        let pages = self.pages;
        let is_gray = |place: usize| root(roots, place) == OPEN_AND_GRAY;
        let gray_stacks = (0..STACKS).filter(|stack| is_gray(FIRST_STATE + stack));
        let mut calls: Vec<Call> =
            gray_stacks.map(|stack| Call::ScanStack { pages, stack: stack as u64 }).collect();
        if is_gray(GLOBALS_STATE) {
            calls.push(Call::ScanGlobals { pages });
        }
        if calls.is_empty() {
            calls.push(Call::Finish { pages });
        }
        calls.push(Call::MarkStep { pages });
        random.pick(&calls)
    }

    fn record_call(&self, random: &mut Random, roots: &[u64], stack: u64) -> Call {
        let pages = self.pages;
        let to = self.slot(random);
        let record = self.record_slot(random, roots, stack);
        let from = if random.chance(150) { to } else { self.record_slot(random, roots, stack) };
        let field = random.pick(&[0, 0, 0, 0, 0, 0, 0, 1, 1, 2, 3, 63, 511]);
        let global = self.global(random, roots);
        match random.below(100) {
            0..=9 => Call::Copy { pages, stack, to, from },
            10..=16 => Call::Clear { pages, stack, slot: to },
            17..=34 => Call::Load { pages, stack, to, record, field },
            35..=51 => Call::Store { pages, stack, record, field, from },
            52..=57 => {
                let number = random.pick(&[0, 1, ARENA_BASE, ARENA_BASE + 8, u64::MAX]);
                Call::Put { pages, stack, record, field, number }
            }
            58..=62 => Call::Get { pages, stack, record, field },
            63..=78 => Call::LoadGlobal { pages, stack, to, global },
            79..=94 => Call::StoreGlobal { pages, stack, global, from },
            95..=96 => Call::Close { pages, stack },
            97 => Call::Audit { pages },
            _ => Call::Open { pages, stack },
        }
    }

    fn allocation(&self, random: &mut Random, stack: u64, slot: u64) -> Call {
        let size = if self.one_kind { self.sizes[0] } else { random.pick(&self.sizes) };
        let words = size / WORD_BYTES;
        let least = u64::from(self.one_kind);
        let pointers = random.pick(&[least, 1, 1, 2, 3, words, words / 2]).clamp(least, words);
        // Now and then one word more than the size has.
        let pointers = if random.chance(10) { words + 1 } else { pointers };
        Call::Allocate { pages: self.pages, stack, slot, size, pointers }
    }

    /// Any call with any numbers.
    pub fn wild_call(&self, random: &mut Random) -> Call {
        let pages = if random.chance(800) { self.pages } else { random.wild() };
        let choice = random.below(19);
        let mut number = || if random.chance(500) { random.below(4) } else { random.wild() };
        let (stack, slot, other) = (number(), number(), number());
        let (record, field, size) = (number(), number(), number());
        match choice {
            0 => Call::Setup { pages },
            1 => Call::Allocate { pages, stack, slot, size, pointers: field },
            2 => Call::Copy { pages, stack, to: slot, from: other },
            3 => Call::Clear { pages, stack, slot },
            4 => Call::Load { pages, stack, to: slot, record, field },
            5 => Call::Store { pages, stack, record, field, from: slot },
            6 => Call::Put { pages, stack, record, field, number: other },
            7 => Call::Get { pages, stack, record, field },
            8 => Call::LoadGlobal { pages, stack, to: slot, global: other },
            9 => Call::StoreGlobal { pages, stack, global: other, from: slot },
            10 => Call::Open { pages, stack },
            11 => Call::Close { pages, stack },
            12 => Call::Start { pages },
            13 => Call::ScanStack { pages, stack },
            14 => Call::ScanGlobals { pages },
            15 => Call::MarkStep { pages },
            16 => Call::Finish { pages },
            17 => Call::SweepStep { pages },
            _ => Call::Audit { pages },
        }
    }

    /// Mostly an open stack, if one of the first two tries is one.
    fn stack(&self, random: &mut Random, roots: &[u64]) -> u64 {
        let first = random.below(self.stacks);
        if root(roots, FIRST_STATE + first as usize) != CLOSED {
            return first;
        }
        random.below(self.stacks)
    }

    fn slot(&self, random: &mut Random) -> u64 {
        random.below(self.slots)
    }

    /// Rather a global that is not nil.
    fn global(&self, random: &mut Random, roots: &[u64]) -> u64 {
        let first = random.below(self.globals);
        if root(roots, FIRST_GLOBAL + first as usize) != NIL {
            return first;
        }
        random.below(self.globals)
    }

    /// Mostly a slot that is not nil.
    fn record_slot(&self, random: &mut Random, roots: &[u64], stack: u64) -> u64 {
        for _ in 0..4 {
            let slot = self.slot(random);
            if root(roots, slot_place(stack as usize, slot as usize)) != NIL {
                return slot;
            }
        }
        self.slot(random)
    }
}

fn root(roots: &[u64], place: usize) -> u64 {
    roots.get(place).copied().unwrap_or(0)
}
