//! Random damage: changes of single words, mostly near what the heap holds, so
//! that each of the audit's clauses may be what notices it, and some that the
//! audit does not mind. The places with their old values are kept, so that the
//! damage can be undone.

use peer::layout::*;
use peer::random::Random;

use crate::memory::{lengths, Buffer, Memory, Place};

/// A place and a value for it.
pub type Change = (Place, u64);

/// One change to a heap of P pages.
pub fn random_change(random: &mut Random, memory: &Memory, pages: u64) -> Change {
    match random.below(8) {
        0 => table_change(random, memory, pages),
        1 => root_change(random, memory, pages),
        2 => {
            let place = FIRST_STATE + random.below((ROOT_WORDS - FIRST_STATE) as u64) as usize;
            (Place::new(Buffer::Roots, place), random.below(4))
        }
        3 | 4 => arena_change(random, memory, pages),
        _ => bit_change(random, memory, pages),
    }
}

fn table_change(random: &mut Random, memory: &Memory, pages: u64) -> Change {
    let place = place_below(random, Buffer::Table, table_numbers(pages));
    let near = memory.get(place) ^ random.pick(&[1, 2, 3, 256, 512]);
    let wild = random.wild();
    (place, random.pick(&[near, near, 0, 1, 2, 5, wild]))
}

fn root_change(random: &mut Random, memory: &Memory, pages: u64) -> Change {
    let place = place_below(random, Buffer::Roots, ROOT_WORDS);
    let near = memory.get(place).wrapping_add(random.pick(&[1, 4, 8, 16, 32, 8192]));
    let (wild, inside) = (random.wild(), any_address(random, pages));
    (place, random.pick(&[near, inside, 0, 1, 2, 3, ARENA_BASE, wild]))
}

fn arena_change(random: &mut Random, memory: &Memory, pages: u64) -> Change {
    let place = place_below(random, Buffer::Arena, arena_words(pages));
    let near = memory.get(place).wrapping_add(random.pick(&[1, 8, 32]));
    let inside = any_address(random, pages);
    (place, random.pick(&[near, inside, inside, 0]))
}

/// A bit turned over, rather in a bitmap word that is not empty.
fn bit_change(random: &mut Random, memory: &Memory, pages: u64) -> Change {
    let mut place = place_below(random, Buffer::Bitmaps, bitmap_words(pages));
    for _ in 0..4 {
        if memory.get(place) == 0 {
            place = place_below(random, Buffer::Bitmaps, bitmap_words(pages));
        }
    }
    let bits = memory.get(place);
    let bit = if bits != 0 && random.chance(500) {
        // The lowest bit that is set, or its neighbour.
        bits.trailing_zeros() as u64 + random.below(2)
    } else {
        random.below(BITMAP_BITS as u64)
    };
    (place, bits ^ 1 << (bit % BITMAP_BITS as u64))
}

fn place_below(random: &mut Random, buffer: Buffer, limit: usize) -> Place {
    Place::new(buffer, random.below(limit as u64) as usize)
}

/// The address of a word of the arena or of the first word behind it.
fn any_address(random: &mut Random, pages: u64) -> u64 {
    ARENA_BASE + WORD_BYTES * random.below(arena_words(pages) as u64 + 1)
}

/// Any content in all four buffers.
pub fn fill_with_anything(random: &mut Random, memory: &mut Memory, pages: u64) {
    let lent = memory.lend(lengths(pages));
    lent.arena.fill_with(|| random.wild());
    if random.chance(500) {
        lent.table.fill_with(|| random.wild() as u32);
        lent.bitmaps.fill_with(|| random.number());
        lent.roots.fill_with(|| random.wild());
    } else {
        lent.table.fill_with(|| random.below(8) as u32);
        lent.roots.fill_with(|| random.below(3));
    }
}
