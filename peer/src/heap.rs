//! The heap as the calls see it: the lent buffers with the bitmaps cut into
//! their four parts, spans read from the page table, and the checks of stack,
//! slot and phase numbers. Past `lend`, all but the setup and the audit itself
//! rely on buffers that the audit has accepted.

use crate::calls::{Answer, Refusal};
use crate::classes::{Kind, Span};
use crate::layout::*;

pub struct Heap<'a, const FAULT: u8> {
    pub(crate) pages: usize,
    pub(crate) arena: &'a mut [u64],
    pub(crate) table: &'a mut [u32],
    pub(crate) allocated: &'a mut [u64],
    pub(crate) marked: &'a mut [u64],
    pub(crate) gray: &'a mut [u64],
    pub(crate) pointer: &'a mut [u64],
    pub(crate) roots: &'a mut [u64],
}

impl<'a, const FAULT: u8> Heap<'a, FAULT> {
    /// The heap in these buffers, if P and all lengths are right.
    pub fn lend(pages: u64, buffers: Buffers<'a>) -> Option<Self> {
        if !buffers.fit(pages) {
            return None;
        }
        let Buffers { arena, table, bitmaps, roots } = buffers;
        let part = bitmaps.len() / BITMAP_PARTS;
        let (allocated, rest) = bitmaps.split_at_mut(part);
        let (marked, rest) = rest.split_at_mut(part);
        let (gray, pointer) = rest.split_at_mut(part);
        let pages = pages as usize;
        Some(Heap { pages, arena, table, allocated, marked, gray, pointer, roots })
    }

    /// Empties the heap. The arena's words stay.
    pub(crate) fn setup(&mut self) -> Answer {
        self.table.fill(0);
        for part in [&mut self.allocated, &mut self.marked, &mut self.gray, &mut self.pointer] {
            part.fill(0);
        }
        self.roots.fill(0);
        self.roots[GLOBALS_STATE] = OPEN;
        Ok([0; 3])
    }

    pub(crate) fn phase(&self) -> u64 {
        self.roots[PHASE]
    }

    pub(crate) fn need_phase(&self, phase: u64) -> Result<(), Refusal> {
        if self.phase() == phase {
            Ok(())
        } else {
            Err(Refusal::WrongPhase)
        }
    }

    /// The number of a stack that is open.
    pub(crate) fn open_stack(&self, stack: u64) -> Result<usize, Refusal> {
        let stack = stack_number(stack)?;
        if self.roots[FIRST_STATE + stack] == CLOSED {
            return Err(Refusal::BadStack);
        }
        Ok(stack)
    }

    /// The place of a slot of an open stack.
    pub(crate) fn open_slot(&self, stack: u64, slot: u64) -> Result<usize, Refusal> {
        let stack = self.open_stack(stack)?;
        Ok(slot_place(stack, slot_number(slot)?))
    }

    /// The span that starts at this page.
    pub(crate) fn span_at(&self, start: Page) -> Option<Span> {
        let entry = &self.table[start.entry()..][..ENTRY_NUMBERS];
        if entry[ENTRY_START] != start.start_number() {
            return None;
        }
        Some(Span {
            start,
            pages: entry[ENTRY_COUNT] as usize,
            kind: Kind::from_number(entry[ENTRY_KIND] & !UNSWEPT)?,
            unswept: entry[ENTRY_KIND] & UNSWEPT != 0,
        })
    }

    /// The first span that starts at this page or a later one.
    pub(crate) fn next_span(&self, mut page: Page) -> Option<Span> {
        while page.index() < self.pages {
            if let Some(span) = self.span_at(page) {
                return Some(span);
            }
            page = page.plus(1);
        }
        None
    }

    /// The span that this word lies in.
    pub(crate) fn span_of(&self, word: Word) -> Option<Span> {
        let start = self.table[word.page().entry() + ENTRY_START].checked_sub(1)?;
        self.span_at(Page::new(start as usize))
    }
}

pub(crate) fn stack_number(stack: u64) -> Result<usize, Refusal> {
    if stack < STACKS as u64 {
        Ok(stack as usize)
    } else {
        Err(Refusal::BadStack)
    }
}

pub(crate) fn slot_number(slot: u64) -> Result<usize, Refusal> {
    if slot < SLOTS as u64 {
        Ok(slot as usize)
    } else {
        Err(Refusal::BadSlot)
    }
}

/// The place of a global in the roots buffer.
pub(crate) fn global_place(global: u64) -> Result<usize, Refusal> {
    if global < GLOBALS as u64 {
        Ok(FIRST_GLOBAL + global as usize)
    } else {
        Err(Refusal::BadSlot)
    }
}
