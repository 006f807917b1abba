//! Allocating a record: in a swept span of its kind that has a free element,
//! else in an unswept one that has one after its sweep, else in a new span on
//! free pages. Where no run of free pages is long enough, the other spans are
//! swept, one after the other, until one is.

use crate::bits::{set_bit, set_run};
use crate::calls::{Answer, Refusal};
use crate::classes::{element_words, span_pages, Kind, Span, MAX_RECORD_BYTES};
use crate::faults;
use crate::heap::Heap;
use crate::layout::*;

impl<const FAULT: u8> Heap<'_, FAULT> {
    pub(crate) fn allocate(&mut self, stack: u64, slot: u64, size: u64, pointers: u64) -> Answer {
        let place = self.open_slot(stack, slot)?;
        if FAULT == faults::SWEEP_BEFORE_SIZE {
            let _ = self.sweep_for_run(usize::MAX);
        }
        if size == 0 || size > MAX_RECORD_BYTES || pointers > size / WORD_BYTES {
            return Err(Refusal::BadSize);
        }
        let kind = Kind::of_record(size, pointers);
        let element = self.room(kind, span_pages(size)).ok_or(Refusal::NoRoom)?;
        self.bear(element, element_words(size), pointers as usize);
        let address = Address::of_word(element).number();
        self.roots[place] = address;
        if FAULT == faults::END_CYCLE && self.phase() == PHASE_SWEEP && self.all_swept() {
            self.roots[PHASE] = PHASE_OFF;
        }
        Ok([address, 0, 0])
    }

    /// A free element for a record of this kind, perhaps in a new span of so
    /// many pages. If there is none, every span is swept by then.
    fn room(&mut self, kind: Kind, pages: usize) -> Option<Word> {
        let unswept = match self.free_element(kind) {
            Ok(element) => return Some(element),
            Err(unswept) => unswept.filter(|_| !self.passes_over(kind, pages)),
        };
        if let Some(element) = unswept.and_then(|first| self.sweep_kind(kind, first)) {
            return Some(element);
        }
        let start = self.best_run(pages).or_else(|| self.sweep_for_run(pages))?;
        Some(self.new_span(start, kind, pages))
    }

    /// Whether a wrong heap passes over the unswept spans of this kind.
    fn passes_over(&self, kind: Kind, pages: usize) -> bool {
        match FAULT {
            faults::PAGES_BEFORE_KIND => self.best_run(pages).is_some(),
            faults::LARGE_SKIPS_KIND => kind.class() == 0,
            faults::REFUSE_UNSWEPT => pages > self.pages,
            _ => false,
        }
    }

    /// The lowest free element of the lowest swept span of this kind that has
    /// one. If none has, where the first unswept span of the kind starts.
    fn free_element(&self, kind: Kind) -> Result<Word, Option<Page>> {
        let mut unswept = None;
        let mut page = Page::new(0);
        while let Some(span) = self.next_span(page) {
            if span.kind == kind {
                if span.unswept && FAULT != faults::ALLOCATE_IN_UNSWEPT {
                    unswept = unswept.or(Some(span.start));
                } else if let Some(element) = self.free_element_of(&span) {
                    return Ok(element);
                }
            }
            page = span.end();
        }
        Err(unswept)
    }

    fn free_element_of(&self, span: &Span) -> Option<Word> {
        let allocated = &self.allocated[span.bitmap_words()];
        for (place, (&bits, &starts)) in allocated.iter().zip(span.element_starts()).enumerate() {
            let free = !bits & starts;
            if free != 0 {
                let offset = place * BITMAP_BITS + free.trailing_zeros() as usize;
                return Some(span.start.first_word().plus(offset));
            }
        }
        None
    }

    /// Sweeps the unswept spans of this kind, the first of which starts at
    /// `first`, until one has a free element; gives the lowest of that one.
    fn sweep_kind(&mut self, kind: Kind, first: Page) -> Option<Word> {
        let mut page = if FAULT == faults::SWEEP_ANY_KIND { Page::new(0) } else { first };
        while let Some(span) = self.next_span(page) {
            if span.unswept && span.kind == kind {
                let element = self.sweep_for_element(&span);
                if element.is_some() || FAULT == faults::SWEEP_ONE_OF_KIND {
                    return element;
                }
            } else if span.unswept && FAULT == faults::SWEEP_ANY_KIND {
                self.sweep(&span);
            }
            page = span.end();
        }
        None
    }

    /// Sweeps a span; gives its lowest free element, none if it is returned.
    fn sweep_for_element(&mut self, span: &Span) -> Option<Word> {
        let swept = self.sweep(span);
        if FAULT == faults::LEAVE_SPAN_UNSWEPT && swept.returned == 0 {
            self.table[span.start.entry() + ENTRY_KIND] |= UNSWEPT;
        }
        if swept.returned > 0 && FAULT != faults::GIVE_RETURNED {
            return None;
        }
        self.free_element_of(span)
    }

    /// Turns free pages into a span; gives its first element.
    fn new_span(&mut self, start: Page, kind: Kind, pages: usize) -> Word {
        for page in 0..pages {
            self.table[start.plus(page).entry() + ENTRY_START] = start.start_number();
        }
        self.table[start.entry() + ENTRY_COUNT] = pages as u32;
        self.table[start.entry() + ENTRY_KIND] = kind.number();
        start.first_word()
    }

    /// The start of the shortest run of free pages that is long enough, and of
    /// the lowest of these.
    fn best_run(&self, pages: usize) -> Option<Page> {
        let mut best: Option<(usize, Page)> = None;
        let mut page = Page::new(0);
        while page.index() < self.pages {
            let length = self.free_run(page);
            if length >= pages && best.is_none_or(|(shortest, _)| length < shortest) {
                best = Some((length, page));
            }
            page = page.plus(length.max(1));
        }
        best.map(|(_, start)| start)
    }

    /// How many pages in a row are free from this one on.
    fn free_run(&self, page: Page) -> usize {
        let entries = self.table[page.entry()..].chunks_exact(ENTRY_NUMBERS);
        entries.take_while(|entry| entry[ENTRY_START] == 0).count()
    }

    /// Sweeps the unswept spans in order until a run of free pages is long
    /// enough; gives its start. No run was before, so it can only be the one
    /// around the pages that were returned last.
    fn sweep_for_run(&mut self, pages: usize) -> Option<Page> {
        if FAULT == faults::REFUSE_UNSWEPT && pages > self.pages {
            return None;
        }
        let mut page = Page::new(0);
        // Where the free pages before `page` begin.
        let mut run = page;
        while page.index() < self.pages {
            let Some(span) = self.span_at(page) else {
                page = page.plus(1);
                continue;
            };
            page = span.end();
            if !span.unswept || self.sweep(&span).returned == 0 {
                run = page;
                continue;
            }
            if FAULT == faults::LOOK_AFTER_RETURNED {
                run = span.start;
            }
            page = page.plus(self.free_run(page));
            if page.index() - run.index() >= pages && FAULT != faults::LOOK_ONCE_AFTER_ALL {
                return Some(run);
            }
        }
        (FAULT == faults::LOOK_ONCE_AFTER_ALL).then(|| self.best_run(pages)).flatten()
    }

    /// Makes an empty record in a free element; black during marking.
    fn bear(&mut self, element: Word, words: usize, pointers: usize) {
        if FAULT != faults::KEEP_OLD_WORDS {
            self.arena[element.index()..][..words].fill(0);
        }
        set_bit(self.allocated, element);
        set_run(self.pointer, element, pointers);
        if self.phase() == PHASE_MARK && FAULT != faults::ALLOCATE_WHITE {
            set_bit(self.marked, element);
        }
    }

    /// Whether no span is unswept, for a wrong heap.
    fn all_swept(&self) -> bool {
        self.table.chunks_exact(ENTRY_NUMBERS).all(|entry| entry[ENTRY_KIND] & UNSWEPT == 0)
    }
}
