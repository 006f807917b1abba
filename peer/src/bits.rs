//! Single bits and runs of bits in one bitmap part, which has one bit for each
//! word of the arena. Runs and searches go by whole bitmap words.

use crate::layout::{Word, BITMAP_BITS};

#[inline]
pub fn bit(part: &[u64], word: Word) -> bool {
    part[word.bitmap_word()] >> word.bit() & 1 == 1
}

pub fn set_bit(part: &mut [u64], word: Word) {
    part[word.bitmap_word()] |= 1 << word.bit();
}

pub fn clear_bit(part: &mut [u64], word: Word) {
    part[word.bitmap_word()] &= !(1 << word.bit());
}

/// How many bits are set in a row from `word` on, but at most `limit`.
pub fn run_length(part: &[u64], word: Word, limit: usize) -> usize {
    let mut length = 0;
    while length < limit {
        let place = word.plus(length);
        let ones = (part[place.bitmap_word()] >> place.bit()).trailing_ones() as usize;
        length += ones;
        if ones < BITMAP_BITS - place.bit() {
            break;
        }
    }
    length.min(limit)
}

pub fn set_run(part: &mut [u64], word: Word, length: usize) {
    for_each_mask(word, length, |place, mask| part[place] |= mask);
}

pub fn clear_run(part: &mut [u64], word: Word, length: usize) {
    for_each_mask(word, length, |place, mask| part[place] &= !mask);
}

/// The lowest word whose bit is set.
pub fn lowest(part: &[u64]) -> Option<Word> {
    let place = part.iter().position(|&bits| bits != 0)?;
    Some(Word::new(place * BITMAP_BITS + part[place].trailing_zeros() as usize))
}

/// Gives each bitmap word that the run touches, with a mask of the run's bits.
fn for_each_mask(word: Word, length: usize, mut touch: impl FnMut(usize, u64)) {
    let mut done = 0;
    while done < length {
        let place = word.plus(done);
        let count = (BITMAP_BITS - place.bit()).min(length - done);
        let ones = u64::MAX >> (BITMAP_BITS - count);
        touch(place.bitmap_word(), ones << place.bit());
        done += count;
    }
}
