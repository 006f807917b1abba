//! The memory that a heap is lent: four buffers with guard words before and
//! behind each, which no call may touch, and room for lengths that are too
//! large. A word is named by its buffer and its place in it.

use std::fmt::{self, Display};

use peer::layout::{arena_words, bitmap_words, table_numbers, ROOT_WORDS};
use peer::Buffers;

/// So many guard words stand before each buffer, and as many behind it.
pub const GUARD: usize = 8;
const GUARD_WORD: u64 = 0x6a4d_6a4d_6a4d_6a4d;

#[derive(Clone, Copy, Debug, PartialEq, Eq)]
pub enum Buffer {
    Arena,
    Table,
    Bitmaps,
    Roots,
}

pub const BUFFERS: [Buffer; 4] = [Buffer::Arena, Buffer::Table, Buffer::Bitmaps, Buffer::Roots];

/// A word or number of a buffer, guard words included.
#[derive(Clone, Copy, Debug, PartialEq, Eq)]
pub struct Place {
    pub buffer: Buffer,
    index: usize,
}

impl Place {
    /// Word `index` of the lent buffer.
    pub fn new(buffer: Buffer, index: usize) -> Place {
        Place { buffer, index: index + GUARD }
    }
}

impl Display for Place {
    /// Guard words before the buffer have negative places.
    fn fmt(&self, out: &mut fmt::Formatter<'_>) -> fmt::Result {
        let name = match self.buffer {
            Buffer::Arena => "arena",
            Buffer::Table => "table",
            Buffer::Bitmaps => "bitmaps",
            Buffer::Roots => "roots",
        };
        write!(out, "{name}[{}]", self.index as i64 - GUARD as i64)
    }
}

/// How much of each buffer is lent, in the order of `BUFFERS`.
pub type Lengths = [usize; 4];

/// The lengths that P asks for, also for a P that is too large.
pub fn lengths(pages: u64) -> Lengths {
    [arena_words(pages), table_numbers(pages), bitmap_words(pages), ROOT_WORDS]
}

#[derive(Clone, PartialEq, Eq)]
pub struct Memory {
    arena: Vec<u64>,
    table: Vec<u32>,
    bitmaps: Vec<u64>,
    roots: Vec<u64>,
}

impl Memory {
    /// All zero but for the guard words.
    pub fn new(pages: u64) -> Memory {
        let lengths = lengths(pages);
        let guarded = |length: usize| {
            let mut words = vec![GUARD_WORD; length + 2 * GUARD];
            words[GUARD..][..length].fill(0);
            words
        };
        Memory {
            arena: guarded(lengths[0]),
            table: guarded(lengths[1]).into_iter().map(|word| word as u32).collect(),
            bitmaps: guarded(lengths[2]),
            roots: guarded(lengths[3]),
        }
    }

    pub fn lend(&mut self, lengths: Lengths) -> Buffers<'_> {
        Buffers {
            arena: &mut self.arena[GUARD..][..lengths[0]],
            table: &mut self.table[GUARD..][..lengths[1]],
            bitmaps: &mut self.bitmaps[GUARD..][..lengths[2]],
            roots: &mut self.roots[GUARD..][..lengths[3]],
        }
    }

    /// The most that can be lent of each buffer.
    pub fn longest(&self) -> Lengths {
        BUFFERS.map(|buffer| self.words(buffer) - GUARD)
    }

    pub fn roots(&self) -> &[u64] {
        &self.roots[GUARD..][..ROOT_WORDS]
    }

    /// The words of a buffer with its guards.
    fn words(&self, buffer: Buffer) -> usize {
        match buffer {
            Buffer::Arena => self.arena.len(),
            Buffer::Table => self.table.len(),
            Buffer::Bitmaps => self.bitmaps.len(),
            Buffer::Roots => self.roots.len(),
        }
    }

    pub fn get(&self, Place { buffer, index }: Place) -> u64 {
        match buffer {
            Buffer::Arena => self.arena[index],
            Buffer::Table => u64::from(self.table[index]),
            Buffer::Bitmaps => self.bitmaps[index],
            Buffer::Roots => self.roots[index],
        }
    }

    /// A number of the page table takes the lower half of the value.
    pub fn set(&mut self, Place { buffer, index }: Place, value: u64) {
        match buffer {
            Buffer::Arena => self.arena[index] = value,
            Buffer::Table => self.table[index] = value as u32,
            Buffer::Bitmaps => self.bitmaps[index] = value,
            Buffer::Roots => self.roots[index] = value,
        }
    }

    /// The places where the two differ.
    pub fn differences<'a>(&'a self, other: &'a Memory) -> impl Iterator<Item = Place> + 'a {
        let places =
            move |buffer| (0..self.words(buffer)).map(move |index| Place { buffer, index });
        let all = BUFFERS.into_iter().flat_map(places);
        all.filter(move |&place| self.get(place) != other.get(place))
    }
}
