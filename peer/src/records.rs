//! The calls on stacks, slots, globals and the words of a record. Each tests
//! all its numbers before it changes anything.

use crate::bits::run_length;
use crate::calls::{Answer, Refusal};
use crate::heap::{global_place, slot_number, stack_number, Heap};
use crate::layout::*;

/// A record as the word calls need it.
struct Record {
    first: Word,
    /// Pointer words, which come first.
    pointers: u64,
    /// All words of the element.
    words: u64,
}

impl<const FAULT: u8> Heap<'_, FAULT> {
    pub(crate) fn open(&mut self, stack: u64) -> Answer {
        let stack = stack_number(stack)?;
        if self.roots[FIRST_STATE + stack] != CLOSED {
            return Err(Refusal::BadStack);
        }
        self.empty_stack(stack, OPEN)
    }

    pub(crate) fn close(&mut self, stack: u64) -> Answer {
        let stack = self.open_stack(stack)?;
        self.empty_stack(stack, CLOSED)
    }

    fn empty_stack(&mut self, stack: usize, state: u64) -> Answer {
        self.roots[slot_place(stack, 0)..][..SLOTS].fill(NIL);
        self.roots[FIRST_STATE + stack] = state;
        Ok([0; 3])
    }

    pub(crate) fn copy(&mut self, stack: u64, to: u64, from: u64) -> Answer {
        let to = self.open_slot(stack, to)?;
        let from = self.open_slot(stack, from)?;
        self.set_slot(to, self.roots[from])
    }

    pub(crate) fn clear(&mut self, stack: u64, slot: u64) -> Answer {
        let place = self.open_slot(stack, slot)?;
        self.set_slot(place, NIL)
    }

    pub(crate) fn load(&mut self, stack: u64, to: u64, record: u64, field: u64) -> Answer {
        let to = self.open_slot(stack, to)?;
        let record = self.record_in(self.open_slot(stack, record)?)?;
        let word = record.pointer_word(field)?;
        self.set_slot(to, self.arena[word.index()])
    }

    pub(crate) fn store(&mut self, stack: u64, record: u64, field: u64, from: u64) -> Answer {
        let from = self.open_slot(stack, from)?;
        let record = self.record_in(self.open_slot(stack, record)?)?;
        let word = record.pointer_word(field)?;
        let new = self.roots[from];
        self.barrier(self.arena[word.index()], new);
        self.arena[word.index()] = new;
        Ok([0; 3])
    }

    pub(crate) fn put(&mut self, stack: u64, record: u64, field: u64, number: u64) -> Answer {
        let record = self.record_in(self.open_slot(stack, record)?)?;
        let word = record.number_word(field)?;
        self.arena[word.index()] = number;
        Ok([0; 3])
    }

    pub(crate) fn get(&mut self, stack: u64, record: u64, field: u64) -> Answer {
        let record = self.record_in(self.open_slot(stack, record)?)?;
        let word = record.number_word(field)?;
        Ok([self.arena[word.index()], 0, 0])
    }

    pub(crate) fn load_global(&mut self, stack: u64, to: u64, global: u64) -> Answer {
        let to = self.open_slot(stack, to)?;
        let global = global_place(global)?;
        self.set_slot(to, self.roots[global])
    }

    pub(crate) fn store_global(&mut self, stack: u64, global: u64, from: u64) -> Answer {
        let stack = self.open_stack(stack)?;
        let global = global_place(global)?;
        let new = self.roots[slot_place(stack, slot_number(from)?)];
        self.barrier(self.roots[global], new);
        self.roots[global] = new;
        Ok([0; 3])
    }

    fn set_slot(&mut self, place: usize, value: u64) -> Answer {
        self.roots[place] = value;
        Ok([value, 0, 0])
    }

    /// The record that the slot at this place names.
    fn record_in(&self, place: usize) -> Result<Record, Refusal> {
        let named = Address::new(self.roots[place]).word();
        let (first, span) = named
            .and_then(|word| self.span_of(word).map(|span| (word, span)))
            .ok_or(Refusal::Nil)?;
        let words = span.element_words();
        // Runs of neighbouring elements touch, so a run is cut at its element.
        let pointers = run_length(self.pointer, first, words);
        Ok(Record { first, pointers: pointers as u64, words: words as u64 })
    }
}

impl Record {
    fn pointer_word(&self, field: u64) -> Result<Word, Refusal> {
        if field < self.pointers {
            Ok(self.first.plus(field as usize))
        } else {
            Err(Refusal::BadField)
        }
    }

    fn number_word(&self, field: u64) -> Result<Word, Refusal> {
        if (self.pointers..self.words).contains(&field) {
            Ok(self.first.plus(field as usize))
        } else {
            Err(Refusal::BadField)
        }
    }
}
