//! The ways in which an allocation of the sweep phase finds its room, or finds
//! none. They are seen from outside, in the page table and the bitmaps before
//! and after the call, and counted, so that a run can tell whether it has taken
//! each of them.

use std::fmt::{self, Display};

use peer::classes::Kind;
use peer::layout::*;
use peer::{Buffers, Call, Refusal};

use crate::proved::Numbers;

#[derive(Clone, Copy, Debug, PartialEq, Eq)]
pub enum Way {
    /// A swept span of the kind has room, and nothing is swept.
    SweptSpan,
    /// The first unswept span of the kind has room after its sweep.
    FirstOfKind,
    /// The first ones of the kind stay full or are returned, a later one has
    /// room.
    LaterOfKind,
    /// No span of the kind is unswept, and pages are found at once.
    PagesAtOnce,
    /// Spans of the kind are swept, none has room, and pages are found then.
    PagesAfterKind,
    /// Pages are found after the sweep of one span of another kind.
    PagesAfterOther,
    /// Pages are found after the sweep of several spans of other kinds.
    PagesAfterOthers,
    /// A large record takes more than one sweep.
    LargeAfterSweeps,
    /// The record lies where the same call has freed one.
    FreedElement,
    /// A new span takes pages that the same call has returned from its kind.
    ReturnedPages,
    /// No room, after sweeps.
    NoRoomAfterSweeps,
    /// No room, and nothing was left to sweep.
    NoRoomAllSwept,
    /// No room in phase off or mark.
    NoRoomOtherPhase,
}

pub const WAYS: [(Way, &str); 13] = [
    (Way::SweptSpan, "in a swept span of the kind"),
    (Way::FirstOfKind, "in the first unswept span of the kind"),
    (Way::LaterOfKind, "in a later unswept span of the kind"),
    (Way::PagesAtOnce, "on pages, nothing swept"),
    (Way::PagesAfterKind, "on pages, spans of the kind swept"),
    (Way::PagesAfterOther, "on pages, a span of another kind swept"),
    (Way::PagesAfterOthers, "on pages, spans of other kinds swept"),
    (Way::LargeAfterSweeps, "a large record after several sweeps"),
    (Way::FreedElement, "where the call has freed a record"),
    (Way::ReturnedPages, "on pages that the call has returned from the kind"),
    (Way::NoRoomAfterSweeps, "no room after sweeps"),
    (Way::NoRoomAllSwept, "no room, all swept before"),
    (Way::NoRoomOtherPhase, "no room in another phase"),
];

/// How often each way was taken.
#[derive(Default)]
pub struct Ways {
    counts: [u64; WAYS.len()],
}

impl Ways {
    pub fn count(&mut self, ways: &[Way]) {
        ways.iter().for_each(|&way| self.counts[way as usize] += 1);
    }

    pub fn of(&self, way: Way) -> u64 {
        self.counts[way as usize]
    }

    /// Whether each way was taken so many times.
    pub fn all_taken(&self, times: u64) -> bool {
        self.counts.iter().all(|&count| count >= times)
    }
}

impl Display for Ways {
    fn fmt(&self, out: &mut fmt::Formatter<'_>) -> fmt::Result {
        WAYS.iter().try_for_each(|&(way, name)| writeln!(out, "{name}: {}", self.of(way)))
    }
}

/// What an allocation found.
pub struct Before {
    phase: u64,
    table: Vec<u32>,
    allocated: Vec<u64>,
    marked: Vec<u64>,
}

/// A span that the allocation has swept.
struct SweptSpan {
    start: usize,
    pages: usize,
    kind: u32,
    returned: bool,
}

impl SweptSpan {
    fn has(&self, page: usize) -> bool {
        (self.start..self.start + self.pages).contains(&page)
    }
}

impl Before {
    pub fn new(lent: &Buffers<'_>) -> Before {
        let part = lent.bitmaps.len() / BITMAP_PARTS;
        Before {
            phase: lent.roots[PHASE],
            table: lent.table.to_vec(),
            allocated: lent.bitmaps[..part].to_vec(),
            marked: lent.bitmaps[part..2 * part].to_vec(),
        }
    }

    /// The ways that a call took which left this page table. None for a call
    /// that is no allocation or was refused before it looked for room.
    pub fn ways(&self, call: &Call, answer: &Numbers, table: &[u32]) -> Vec<Way> {
        let Call::Allocate { size, pointers, .. } = *call else { return Vec::new() };
        let no_room = Refusal::NoRoom.number();
        let swept = self.swept(table);
        match *answer {
            [0, address, ..] if self.phase == PHASE_SWEEP => {
                let kind = Kind::of_record(size, pointers).number();
                let word = Address::new(address).word();
                word.map_or(Vec::new(), |word| self.accepted(kind, word, &swept, table))
            }
            [number, ..] if number == no_room && self.phase != PHASE_SWEEP => {
                vec![Way::NoRoomOtherPhase]
            }
            [number, ..] if number == no_room && swept.is_empty() => vec![Way::NoRoomAllSwept],
            [number, ..] if number == no_room => vec![Way::NoRoomAfterSweeps],
            _ => Vec::new(),
        }
    }

    /// The spans that were unswept and no longer are.
    fn swept(&self, table: &[u32]) -> Vec<SweptSpan> {
        let entries = self.table.chunks_exact(ENTRY_NUMBERS).zip(table.chunks_exact(ENTRY_NUMBERS));
        let swept = entries.enumerate().filter(|(_, (before, after))| {
            before[ENTRY_KIND] & UNSWEPT != 0 && after[ENTRY_KIND] & UNSWEPT == 0
        });
        let span = |(start, (before, _)): (usize, (&[u32], &[u32]))| {
            let pages = before[ENTRY_COUNT] as usize;
            let bits = start * PAGE_BITMAP_WORDS..(start + pages) * PAGE_BITMAP_WORDS;
            let returned = self.marked[bits].iter().all(|&bits| bits == 0);
            SweptSpan { start, pages, kind: before[ENTRY_KIND] & !UNSWEPT, returned }
        };
        swept.map(span).collect()
    }

    /// The ways of an allocation that gave the element at this word.
    fn accepted(&self, kind: u32, word: Word, swept: &[SweptSpan], table: &[u32]) -> Vec<Way> {
        let page = word.page().index();
        let returned = || swept.iter().filter(|span| span.returned);
        let was_free = self.table[word.page().entry() + ENTRY_START] == 0;
        let new_span = was_free || returned().any(|span| span.has(page));
        let of_kind = swept.iter().filter(|span| span.kind == kind).count();
        let mut ways = vec![match (new_span, of_kind, swept.len() - of_kind) {
            (false, 0, _) => Way::SweptSpan,
            (false, 1, _) => Way::FirstOfKind,
            (false, _, _) => Way::LaterOfKind,
            (true, 0, 0) => Way::PagesAtOnce,
            (true, _, 0) => Way::PagesAfterKind,
            (true, _, 1) => Way::PagesAfterOther,
            (true, _, _) => Way::PagesAfterOthers,
        }];
        if kind < 2 && swept.len() > 1 {
            ways.push(Way::LargeAfterSweeps);
        }
        let bit = |part: &[u64]| part[word.bitmap_word()] >> word.bit() & 1 == 1;
        if bit(&self.allocated) && !bit(&self.marked) {
            ways.push(Way::FreedElement);
        }
        let pages = page..page + table[word.page().entry() + ENTRY_COUNT] as usize;
        let taken_again =
            |span: &SweptSpan| span.kind == kind && pages.clone().any(|p| span.has(p));
        if new_span && returned().any(taken_again) {
            ways.push(Way::ReturnedPages);
        }
        ways
    }
}
