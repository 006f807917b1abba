//! One cycle: start, the scans, mark steps, finish and sweep steps, and the
//! barrier that a store goes through while records are being marked. White is
//! not marked, gray is marked with the gray bit, black is marked without it.

use crate::bits::{bit, clear_bit, clear_run, lowest, run_length, set_bit};
use crate::calls::{Answer, Refusal};
use crate::classes::Span;
use crate::faults;
use crate::heap::Heap;
use crate::layout::*;

/// What the sweep of a span did.
pub(crate) struct Swept {
    pub(crate) freed: u64,
    /// The span's pages if nothing is left in it, else 0.
    pub(crate) returned: u64,
}

impl<const FAULT: u8> Heap<'_, FAULT> {
    pub(crate) fn start(&mut self) -> Answer {
        self.need_phase(PHASE_OFF)?;
        self.roots[PHASE] = PHASE_MARK;
        for state in &mut self.roots[FIRST_STATE..][..STACKS] {
            if *state != CLOSED {
                *state = OPEN_AND_GRAY;
            }
        }
        self.roots[GLOBALS_STATE] = OPEN_AND_GRAY;
        Ok([0; 3])
    }

    pub(crate) fn scan_stack(&mut self, stack: u64) -> Answer {
        self.need_phase(PHASE_MARK)?;
        let stack = self.open_stack(stack)?;
        self.scan(FIRST_STATE + stack, slot_place(stack, 0), SLOTS)
    }

    pub(crate) fn scan_globals(&mut self) -> Answer {
        self.need_phase(PHASE_MARK)?;
        self.scan(GLOBALS_STATE, FIRST_GLOBAL, GLOBALS)
    }

    /// Shades `count` roots from `first` on, unless they have been scanned.
    fn scan(&mut self, state: usize, first: usize, count: usize) -> Answer {
        if self.roots[state] != OPEN_AND_GRAY {
            return Ok([0; 3]);
        }
        let mut turned_on = 0;
        for place in first..first + count {
            turned_on += u64::from(self.shade(self.roots[place]));
        }
        self.roots[state] = OPEN;
        Ok([turned_on, 0, 0])
    }

    pub(crate) fn mark_step(&mut self) -> Answer {
        self.need_phase(PHASE_MARK)?;
        let Some(element) = lowest(self.gray) else {
            return Ok([0; 3]);
        };
        clear_bit(self.gray, element);
        let words = self.span_of(element).map_or(0, |span| span.element_words());
        for field in 0..run_length(self.pointer, element, words) {
            self.shade(self.arena[element.plus(field).index()]);
        }
        Ok([Address::of_word(element).number(), 0, 0])
    }

    pub(crate) fn finish(&mut self) -> Answer {
        self.need_phase(PHASE_MARK)?;
        let states = &self.roots[FIRST_STATE..=GLOBALS_STATE];
        if states.contains(&OPEN_AND_GRAY) || lowest(self.gray).is_some() {
            return Err(Refusal::Unfinished);
        }
        self.roots[PHASE] = PHASE_SWEEP;
        let mut page = Page::new(0);
        while let Some(span) = self.next_span(page) {
            self.table[span.start.entry() + ENTRY_KIND] |= UNSWEPT;
            page = span.end();
        }
        Ok([0; 3])
    }

    pub(crate) fn sweep_step(&mut self) -> Answer {
        self.need_phase(PHASE_SWEEP)?;
        let mut page = Page::new(0);
        while let Some(span) = self.next_span(page) {
            if span.unswept {
                let Swept { freed, returned } = self.sweep(&span);
                return Ok([u64::from(span.start.start_number()), freed, returned]);
            }
            page = span.end();
        }
        self.roots[PHASE] = PHASE_OFF;
        Ok([0; 3])
    }

    /// Sweeps an unswept span, for a sweep step or for an allocation.
    pub(crate) fn sweep(&mut self, span: &Span) -> Swept {
        let (mut freed, mut left) = (0, 0);
        for place in span.bitmap_words() {
            let white = self.allocated[place] & !self.marked[place];
            if span.kind.is_scan() && FAULT != faults::KEEP_POINTER_BITS {
                self.clear_pointer_runs(span, place, white);
            }
            freed += u64::from(white.count_ones());
            left += u64::from(self.marked[place].count_ones());
            self.allocated[place] = self.marked[place];
            self.marked[place] = 0;
        }
        self.table[span.start.entry() + ENTRY_KIND] &= !UNSWEPT;
        let mut returned = 0;
        if left == 0 || (FAULT == faults::RETURN_PAGES_EARLY && left == 1) {
            self.return_pages(span);
            returned = span.pages as u64;
        }
        Swept { freed, returned }
    }

    /// Clears the pointer runs of the elements at these bits of a bitmap word.
    fn clear_pointer_runs(&mut self, span: &Span, place: usize, mut elements: u64) {
        let words = span.element_words();
        while elements != 0 {
            let element = Word::new(place * BITMAP_BITS + elements.trailing_zeros() as usize);
            clear_run(self.pointer, element, run_length(self.pointer, element, words));
            elements &= elements - 1;
        }
    }

    fn return_pages(&mut self, span: &Span) {
        self.table[span.start.entry()..span.end().entry()].fill(0);
        if FAULT == faults::RETURN_PAGES_EARLY {
            self.allocated[span.bitmap_words()].fill(0);
            self.pointer[span.bitmap_words()].fill(0);
        }
    }

    /// What a store does first while marking: shade the old value and the new.
    pub(crate) fn barrier(&mut self, old: u64, new: u64) {
        if self.phase() == PHASE_MARK {
            if FAULT != faults::SHADE_ONLY_NEW {
                self.shade(old);
            }
            if FAULT != faults::SHADE_ONLY_OLD {
                self.shade(new);
            }
        }
    }

    /// Marks a white record; true if it was one. Nil is never white.
    fn shade(&mut self, value: u64) -> bool {
        let Some(element) = Address::new(value).word() else {
            return false;
        };
        if bit(self.marked, element) {
            return false;
        }
        set_bit(self.marked, element);
        if self.span_of(element).is_some_and(|span| span.kind.is_scan()) {
            set_bit(self.gray, element);
        }
        true
    }
}
