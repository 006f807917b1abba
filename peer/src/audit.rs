//! The audit: whether the four buffers hold a heap that the calls could have
//! left. It goes once over the page table, and within each span once over the
//! bitmaps, 64 arena words at a time. Empty bitmap words are passed over. No
//! number that it reads is trusted before it is tested.

use crate::bits::bit;
use crate::classes::{Kind, Span};
use crate::heap::Heap;
use crate::layout::*;

/// The same word of the four bitmap parts, and of the element starts.
struct Bits {
    allocated: u64,
    marked: u64,
    gray: u64,
    pointer: u64,
    starts: u64,
}

/// Which bits a span may have in this phase: all ones for yes, 0 for no.
struct Allowed {
    marked: u64,
    gray: u64,
    pointer: u64,
}

/// What the audit of a span carries from one bitmap word to the next.
#[derive(Default)]
struct Walk {
    /// The last word's highest pointer bit, as the next word's lowest bit.
    pointer_before: u64,
    /// Whether the last element that a pointer run began in is kept.
    in_kept: bool,
    some_allocated: bool,
}

impl<const FAULT: u8> Heap<'_, FAULT> {
    pub(crate) fn audit(&self) -> bool {
        self.states_are_legal() && self.roots_name_kept() && self.pages_are_legal()
    }

    fn states_are_legal(&self) -> bool {
        let phase = self.phase();
        let highest = if phase == PHASE_MARK { OPEN_AND_GRAY } else { OPEN };
        let stacks = &self.roots[FIRST_STATE..][..STACKS];
        let globals = self.roots[GLOBALS_STATE];
        phase <= PHASE_SWEEP
            && stacks.iter().all(|&state| state <= highest)
            && (OPEN..=highest).contains(&globals)
    }

    fn roots_name_kept(&self) -> bool {
        let stacks_legal = (0..STACKS).all(|stack| {
            let slots = &self.roots[slot_place(stack, 0)..][..SLOTS];
            match self.roots[FIRST_STATE + stack] {
                CLOSED => slots.iter().all(|&slot| slot == NIL),
                _ => slots.iter().all(|&slot| self.names_kept(slot)),
            }
        });
        let globals = &self.roots[FIRST_GLOBAL..][..GLOBALS];
        stacks_legal && globals.iter().all(|&global| self.names_kept(global))
    }

    fn pages_are_legal(&self) -> bool {
        let mut page = Page::new(0);
        while page.index() < self.pages {
            match self.audit_from(page) {
                Some(next) => page = next,
                None => return false,
            }
        }
        true
    }

    /// Audits the free page or the span at `page`; gives the page behind it.
    fn audit_from(&self, page: Page) -> Option<Page> {
        let entry = &self.table[page.entry()..][..ENTRY_NUMBERS];
        if entry == [0; ENTRY_NUMBERS] {
            return self.free_page_is_empty(page).then(|| page.plus(1));
        }
        let span = self.legal_span(page)?;
        let legal = self.further_pages_follow(&span) && self.span_bitmaps_are_legal(&span);
        legal.then(|| span.end())
    }

    fn free_page_is_empty(&self, page: Page) -> bool {
        let first = page.first_bitmap_word();
        [&self.allocated, &self.marked, &self.gray, &self.pointer]
            .iter()
            .all(|part| part[first..][..PAGE_BITMAP_WORDS].iter().all(|&bits| bits == 0))
    }

    /// The span whose first page this is, if its numbers are legal.
    fn legal_span(&self, page: Page) -> Option<Span> {
        let entry = &self.table[page.entry()..][..ENTRY_NUMBERS];
        let unswept = entry[ENTRY_KIND] & UNSWEPT != 0;
        let kind = Kind::from_number(entry[ENTRY_KIND] & !UNSWEPT)?;
        let count = entry[ENTRY_COUNT];
        let legal = entry[ENTRY_START] == page.start_number()
            && kind.allows_pages(count)
            && count as usize <= self.pages - page.index()
            && (!unswept || self.phase() == PHASE_SWEEP);
        legal.then_some(Span { start: page, pages: count as usize, kind, unswept })
    }

    fn further_pages_follow(&self, span: &Span) -> bool {
        let further = &self.table[span.start.plus(1).entry()..span.end().entry()];
        further.chunks_exact(ENTRY_NUMBERS).all(|entry| entry == [span.start.start_number(), 0, 0])
    }

    fn span_bitmaps_are_legal(&self, span: &Span) -> bool {
        let range = span.bitmap_words();
        let allocated = &self.allocated[range.clone()];
        let marked = &self.marked[range.clone()];
        let gray = &self.gray[range.clone()];
        let pointer = &self.pointer[range.clone()];
        let arena = &self.arena[span.start.first_word().index()..span.end().first_word().index()];
        let starts = span.element_starts();
        let allowed = self.allowed_in(span);
        let mut walk = Walk::default();
        for (place, words) in arena.as_chunks::<BITMAP_BITS>().0.iter().enumerate() {
            let bits = Bits {
                allocated: allocated[place],
                marked: marked[place],
                gray: gray[place],
                pointer: pointer[place],
                starts: starts.get(place).copied().unwrap_or(0),
            };
            if bits.allocated | bits.marked | bits.gray | bits.pointer == 0 {
                walk.pointer_before = 0;
                continue;
            }
            if !bits.are_legal(&allowed, &mut walk)
                || !self.pointer_words_name_kept(bits.kept_pointers(span, &mut walk), words)
            {
                return false;
            }
        }
        // A run that stops before the tail has no bit in it at all.
        walk.some_allocated && span.tail().is_none_or(|tail| !bit(self.pointer, tail))
    }

    fn allowed_in(&self, span: &Span) -> Allowed {
        let all_if = |allowed: bool| if allowed { u64::MAX } else { 0 };
        let marking = self.phase() == PHASE_MARK;
        let scan = span.kind.is_scan();
        Allowed {
            marked: all_if(marking || span.unswept),
            gray: all_if(marking && scan),
            pointer: all_if(scan),
        }
    }

    /// Tests the words that have a bit in `pointers`.
    #[inline]
    fn pointer_words_name_kept(&self, mut pointers: u64, words: &[u64; BITMAP_BITS]) -> bool {
        while pointers != 0 {
            let place = pointers.trailing_zeros() as usize;
            pointers &= pointers - 1;
            if !self.names_kept(words[place]) {
                return false;
            }
        }
        true
    }

    /// Whether a value is nil or the address of a kept element. Where the page
    /// table is not legal the answer means nothing, but the audit is no anyway.
    #[inline]
    fn names_kept(&self, value: u64) -> bool {
        if value == NIL {
            return true;
        }
        match Address::new(value).word() {
            Some(word) if word.index() < self.arena.len() => self.is_kept(word),
            _ => false,
        }
    }

    #[inline]
    fn is_kept(&self, word: Word) -> bool {
        if self.phase() != PHASE_SWEEP {
            return bit(self.allocated, word);
        }
        let Some(start) = self.table[word.page().entry() + ENTRY_START].checked_sub(1) else {
            return false;
        };
        let kind_place = Page::new(start as usize).entry() + ENTRY_KIND;
        match self.table.get(kind_place) {
            Some(kind) if kind & UNSWEPT != 0 => bit(self.marked, word),
            Some(_) => bit(self.allocated, word),
            None => false,
        }
    }
}

impl Bits {
    #[inline]
    fn are_legal(&self, allowed: &Allowed, walk: &mut Walk) -> bool {
        let &Bits { allocated, marked, gray, pointer, starts } = self;
        // A pointer run begins where an element is allocated, and within the
        // element each further bit follows another.
        let follows = (pointer << 1) | walk.pointer_before;
        let in_runs = (starts & allocated) | (!starts & follows);
        walk.pointer_before = pointer >> (BITMAP_BITS - 1);
        walk.some_allocated |= allocated != 0;
        let wrong = (allocated & !starts)
            | (marked & !(allocated & allowed.marked))
            | (gray & !(marked & allowed.gray))
            | (pointer & !(in_runs & allowed.pointer))
            | (allocated & allowed.pointer & !pointer);
        wrong == 0
    }

    /// The pointer bits that belong to kept elements.
    #[inline]
    fn kept_pointers(&self, span: &Span, walk: &mut Walk) -> u64 {
        if !span.unswept {
            return self.pointer;
        }
        let (mut kept, mut left) = (0, self.pointer);
        while left != 0 {
            let lowest = left & left.wrapping_neg();
            left ^= lowest;
            if self.starts & lowest != 0 {
                walk.in_kept = self.marked & lowest != 0;
            }
            if walk.in_kept {
                kept |= lowest;
            }
        }
        kept
    }
}
