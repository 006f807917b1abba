//! Allocations in the sweep phase with the heaps that they are measured on: 256
//! spans of one page, full of small scan records, of which the last ones are
//! unswept. No page is free.

use compare::heaps::{address, Builder, Part};
use compare::memory::Memory;
use peer::classes::Kind;
use peer::layout::*;
use peer::{Call, Refusal};

use crate::calls::{PAGE_RECORDS, RECORD_BYTES, RECORD_POINTERS, RECORD_WORDS};
use crate::timing::Prepared;

pub const PAGES: u64 = MAX_PAGES;
pub const UNSWEPT_SPANS: [usize; 3] = [1, 16, 256];

/// Which records of the unswept spans are marked.
#[derive(Clone, Copy)]
enum Marked {
    /// Every second record, so that each span has room after its sweep.
    EverySecond,
    /// All, so that each span stays full.
    All,
    /// All of every second span and none of the others, so that single pages
    /// are returned.
    EverySecondSpan,
}

/// An allocation, and what it finds.
pub struct Case {
    pub name: &'static str,
    size: u64,
    pointers: u64,
    marked: Marked,
    no_room: bool,
}

pub const CASES: [Case; 4] = [
    Case {
        name: "the first span of the kind has room",
        size: RECORD_BYTES,
        pointers: RECORD_POINTERS,
        marked: Marked::EverySecond,
        no_room: false,
    },
    Case {
        name: "all spans of the kind stay full, no room",
        size: RECORD_BYTES,
        pointers: RECORD_POINTERS,
        marked: Marked::All,
        no_room: true,
    },
    Case {
        name: "all spans of another kind stay, no room",
        size: RECORD_BYTES,
        pointers: 0,
        marked: Marked::All,
        no_room: true,
    },
    Case {
        name: "single pages of another kind come free, two are needed, no room",
        size: 2 * PAGE_BYTES,
        pointers: 0,
        marked: Marked::EverySecondSpan,
        no_room: true,
    },
];

pub fn columns() -> Vec<String> {
    let name = |unswept| match unswept {
        1 => "1 unswept span".to_string(),
        _ => format!("{unswept} unswept spans"),
    };
    UNSWEPT_SPANS.map(name).to_vec()
}

impl Case {
    /// The allocation on a heap with so many unswept spans.
    pub fn prepare(&self, unswept: usize) -> Prepared {
        let &Case { size, pointers, .. } = self;
        let call = Call::Allocate { pages: PAGES, stack: 0, slot: 31, size, pointers };
        let prepared = Prepared::undone(call, self.heap(unswept));
        let no_room = prepared.answer == Err(Refusal::NoRoom);
        assert!(no_room == self.no_room, "{}: {:?}", self.name, prepared.answer);
        prepared
    }

    fn heap(&self, unswept: usize) -> Memory {
        let mut builder = Builder::new(PAGES, PAGES, PHASE_SWEEP);
        let kind = Kind::of_record(RECORD_BYTES, RECORD_POINTERS).number();
        for page in 0..PAGES as usize {
            let is_unswept = page + unswept >= PAGES as usize;
            builder.span(page, 1, kind + if is_unswept { UNSWEPT } else { 0 });
            self.fill(&mut builder, page, is_unswept);
        }
        builder.root(FIRST_STATE, OPEN);
        builder.root(slot_place(0, 0), address(0));
        builder.memory
    }

    /// Fills a page with records that name themselves.
    fn fill(&self, builder: &mut Builder, page: usize, is_unswept: bool) {
        for record in 0..PAGE_RECORDS {
            let word = page * PAGE_WORDS + record * RECORD_WORDS;
            builder.record(word, RECORD_POINTERS as usize);
            builder.word(word, address(word));
            let marked = match self.marked {
                Marked::EverySecond => record.is_multiple_of(2),
                Marked::All => true,
                Marked::EverySecondSpan => page.is_multiple_of(2),
            };
            if marked && is_unswept {
                builder.bit(Part::Marked, word);
            }
        }
    }
}
