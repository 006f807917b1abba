//! Every size that is looked up, and some of class 0: both heaps are asked for a
//! record of that size just after a setup, with and without a pointer word. The
//! class of a size is looked up in two tables; counted is in which of their
//! entries the accepted sizes fall.

use std::collections::HashMap;
use std::fmt::{self, Display};
use std::ops::RangeInclusive;

use peer::layout::PAGE_BYTES;
use peer::Call;

use crate::memory::{lengths, Memory};
use crate::pair::{Difference, Memories, Pair};
use crate::proved::Numbers;

/// The first table has an entry for each 8 bytes and is for sizes up to 1,016,
/// the second has one for each 128 bytes above 1,024 and is for the rest.
pub const FIRST_STEP: u64 = 8;
pub const FIRST_MAX: u64 = 1_016;
const FIRST_USED: RangeInclusive<u64> = 1..=127;
pub const SECOND_STEP: u64 = 128;
pub const SECOND_BASE: u64 = 1_024;
pub const SECOND_MAX: u64 = 32_768;
const SECOND_USED: RangeInclusive<u64> = 0..=248;

/// The pages of the heap: the longest span of a class has so many.
const PAGES: u64 = 10;
/// All sizes up to this one are taken.
const LAST_SIZE: u64 = SECOND_MAX + 2;
/// Beyond it those around so many pages, for most of which there is room.
const LARGE_PAGES: [u64; 7] = [5, 6, 7, 8, 9, 10, 128];
/// What the arena holds at first, so that a word that is not zeroed shows.
const OLD_WORD: u64 = 0x5a5a_5a5a_5a5a_5a5a;

/// Where the class of a size is to be found.
#[derive(PartialEq, Eq, Hash)]
enum Entry {
    First(u64),
    Second(u64),
    ClassZero,
}

impl Entry {
    fn of_size(size: u64) -> Entry {
        if size <= FIRST_MAX {
            Entry::First(size.div_ceil(FIRST_STEP))
        } else if size <= SECOND_MAX {
            // Sizes between the two tables use entry 0.
            Entry::Second(size.saturating_sub(SECOND_BASE).div_ceil(SECOND_STEP))
        } else {
            Entry::ClassZero
        }
    }
}

/// How many accepted allocations had a size of each entry.
#[derive(Default)]
pub struct Uses {
    counts: HashMap<Entry, u64>,
}

impl Uses {
    fn count(&mut self, size: u64) {
        *self.counts.entry(Entry::of_size(size)).or_default() += 1;
    }

    fn of(&self, entry: Entry) -> u64 {
        self.counts.get(&entry).copied().unwrap_or(0)
    }

    fn first_used(&self) -> usize {
        FIRST_USED.filter(|&entry| self.of(Entry::First(entry)) > 0).count()
    }

    fn second_used(&self) -> usize {
        SECOND_USED.filter(|&entry| self.of(Entry::Second(entry)) > 0).count()
    }

    /// Whether each entry that a size can have was met, and class 0 as well.
    pub fn complete(&self) -> bool {
        self.first_used() == FIRST_USED.count()
            && self.second_used() == SECOND_USED.count()
            && self.of(Entry::ClassZero) > 0
    }
}

impl Display for Uses {
    fn fmt(&self, out: &mut fmt::Formatter<'_>) -> fmt::Result {
        let (first, second) = (FIRST_USED.count(), SECOND_USED.count());
        write!(out, "{} of {first} entries of the first table, ", self.first_used())?;
        write!(out, "{} of {second} of the second, ", self.second_used())?;
        write!(out, "{} records of class 0", self.of(Entry::ClassZero))
    }
}

/// All sizes that are taken.
fn sizes() -> impl Iterator<Item = u64> {
    let borders = LARGE_PAGES.map(|pages| pages * PAGE_BYTES);
    (0..=LAST_SIZE).chain(borders.into_iter().flat_map(|border| border - 1..=border + 1))
}

/// Allocates a record of each size on both sides.
pub fn run_sizes(pair: &Pair) -> Result<Uses, Box<Difference>> {
    let mut memory = Memory::new(PAGES);
    memory.lend(lengths(PAGES)).arena.fill(OLD_WORD);
    let before = Memories::new(PAGES, memory);
    let mut uses = Uses::default();
    for size in sizes() {
        for pointers in [0, 1] {
            let [refusal, ..] = allocate(before.clone(), size, pointers, pair)?;
            if refusal == 0 {
                uses.count(size);
            }
        }
    }
    Ok(uses)
}

/// Sets a heap up and allocates one record; gives the answer to that.
fn allocate(
    mut memories: Memories,
    size: u64,
    pointers: u64,
    pair: &Pair,
) -> Result<Numbers, Box<Difference>> {
    let (pages, stack, slot) = (PAGES, 0, 0);
    memories.carry_out(&Call::Setup { pages }, lengths(pages), pair)?;
    memories.carry_out(&Call::Open { pages, stack }, lengths(pages), pair)?;
    let call = Call::Allocate { pages, stack, slot, size, pointers };
    memories.carry_out(&call, lengths(pages), pair)
}
