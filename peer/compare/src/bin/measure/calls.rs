//! The nineteen calls with the heaps that they are measured on: empty, half full
//! or full of small scan records, in the state that the call has to find.

use compare::heaps::{address, Builder, Part};
use compare::memory::Memory;
use peer::classes::Kind;
use peer::layout::*;
use peer::Call;

/// The small scan records: elements of 32 bytes, four to a line of the cache.
pub const RECORD_BYTES: u64 = 32;
pub const RECORD_WORDS: usize = (RECORD_BYTES / WORD_BYTES) as usize;
pub const RECORD_POINTERS: u64 = 2;
pub const PAGE_RECORDS: usize = PAGE_WORDS / RECORD_WORDS;

#[derive(Clone, Copy, PartialEq)]
pub enum Fill {
    Empty,
    Half,
    Full,
}

pub const FILLS: [(Fill, &str); 3] =
    [(Fill::Empty, "empty"), (Fill::Half, "half"), (Fill::Full, "full")];

/// What a call has to find.
#[derive(Clone, Copy, PartialEq)]
pub enum State {
    /// Phase off; an empty heap has no record.
    Off,
    /// Phase off; an empty heap has one record.
    OffWithRecord,
    /// Phase mark, nothing scanned.
    Started,
    /// Phase mark, all scanned and marked, the last record gray.
    LastGray,
    /// Phase mark, all scanned and marked, nothing gray.
    Black,
    /// Phase sweep, every second record marked, nothing swept.
    Unswept,
}

/// A call with its name and what it has to find.
pub type Case = (&'static str, Call, State);

#[rustfmt::skip]
pub fn cases(pages: u64) -> [Case; 19] {
    use State::*;
    let (stack, size, pointers) = (0, RECORD_BYTES, RECORD_POINTERS);
    [
        ("setup", Call::Setup { pages }, Off),
        ("audit", Call::Audit { pages }, Off),
        ("open", Call::Open { pages, stack: 1 }, Off),
        ("close", Call::Close { pages, stack }, Off),
        ("alloc", Call::Allocate { pages, stack, slot: 31, size, pointers }, Off),
        ("copy", Call::Copy { pages, stack, to: 1, from: 2 }, OffWithRecord),
        ("clear", Call::Clear { pages, stack, slot: 1 }, OffWithRecord),
        ("load", Call::Load { pages, stack, to: 1, record: 0, field: 0 }, OffWithRecord),
        ("store", Call::Store { pages, stack, record: 0, field: 1, from: 2 }, OffWithRecord),
        ("put", Call::Put { pages, stack, record: 0, field: 2, number: 7 }, OffWithRecord),
        ("get", Call::Get { pages, stack, record: 0, field: 2 }, OffWithRecord),
        ("load_global", Call::LoadGlobal { pages, stack, to: 1, global: 3 }, OffWithRecord),
        ("store_global", Call::StoreGlobal { pages, stack, global: 3, from: 2 }, OffWithRecord),
        ("start", Call::Start { pages }, Off),
        ("scan_stack", Call::ScanStack { pages, stack }, Started),
        ("scan_globals", Call::ScanGlobals { pages }, Started),
        ("mark_step", Call::MarkStep { pages }, LastGray),
        ("finish", Call::Finish { pages }, Black),
        ("sweep_step", Call::SweepStep { pages }, Unswept),
    ]
}

/// The first words of the heap's records. A full heap has one free element,
/// the last, so that it can still allocate.
fn records(pages: u64, fill: Fill, state: State) -> Vec<usize> {
    let all = pages as usize * PAGE_RECORDS;
    let count = match (fill, state) {
        (Fill::Empty, State::Off) => 0,
        (Fill::Empty, _) => 1,
        (Fill::Half, _) => all / 2,
        (Fill::Full, _) => all - 1,
    };
    // A half full heap has every second element.
    let step = if fill == Fill::Half { 2 } else { 1 };
    (0..count).map(|record| record * step * RECORD_WORDS).collect()
}

/// A heap in the state that a call has to find. Each record's first word names
/// the record after the next, so that every second record can be kept.
pub fn heap(pages: u64, fill: Fill, state: State) -> Memory {
    let phase = match state {
        State::Off | State::OffWithRecord => PHASE_OFF,
        State::Started | State::LastGray | State::Black => PHASE_MARK,
        State::Unswept => PHASE_SWEEP,
    };
    let mut builder = Builder::new(pages, pages, phase);
    let records = records(pages, fill, state);
    let flag = if state == State::Unswept { UNSWEPT } else { 0 };
    let kind = Kind::of_record(RECORD_BYTES, RECORD_POINTERS).number() + flag;
    let used = records.last().map_or(0, |last| last / PAGE_WORDS + 1);
    (0..used).for_each(|page| builder.span(page, 1, kind));
    for (number, &word) in records.iter().enumerate() {
        builder.record(word, RECORD_POINTERS as usize);
        builder.word(word, address(records.get(number + 2).copied().unwrap_or(word)));
        builder.word(word + RECORD_WORDS - 1, number as u64);
    }
    mark(&mut builder, &records, state);
    name_by_roots(&mut builder, &records, state);
    builder.memory
}

fn mark(builder: &mut Builder, records: &[usize], state: State) {
    let step = match state {
        State::LastGray | State::Black => 1,
        State::Unswept => 2,
        _ => return,
    };
    records.iter().step_by(step).for_each(|&word| builder.bit(Part::Marked, word));
    if let (State::LastGray, Some(&last)) = (state, records.last()) {
        builder.bit(Part::Gray, last);
    }
}

/// The first stack is open, and its slots and the globals name records from
/// all over the heap, every second of them.
fn name_by_roots(builder: &mut Builder, records: &[usize], state: State) {
    let open = if state == State::Started { OPEN_AND_GRAY } else { OPEN };
    builder.root(FIRST_STATE, open);
    builder.root(GLOBALS_STATE, open);
    if records.is_empty() {
        return;
    }
    for root in 0..SLOTS {
        let record = records[root * (records.len() - 1) / (SLOTS - 1) / 2 * 2];
        builder.root(slot_place(0, root), address(record));
        builder.root(FIRST_GLOBAL + SLOTS - 1 - root, address(record));
    }
}
