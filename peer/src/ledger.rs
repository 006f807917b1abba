//! A second book about a list of calls, and the checks that hold the heap
//! against it. The ledger knows each call's numbers and, of the answer, only
//! whether it was refused and the address that an allocation gave. The checker
//! looks at the buffers before and after each call and names the first clause
//! that does not hold. What is freed is no part of the ledger: a sweep step
//! frees, and so does an allocation that sweeps, also one that is refused.

use crate::bits::bit;
use crate::calls::{apply, Answer, Call, Refusal};
use crate::classes::{element_words, MAX_RECORD_BYTES};
use crate::faults;
use crate::layout::*;

/// Nil, or a record by its number in order of birth.
type Held = Option<usize>;

struct Record {
    address: u64,
    pointers: Vec<Held>,
    numbers: Vec<u64>,
}

/// Stacks, globals and records as the calls alone make them. A closed stack is
/// none.
struct Ledger {
    stacks: [Option<[Held; SLOTS]>; STACKS],
    globals: [Held; GLOBALS],
    records: Vec<Record>,
}

impl Ledger {
    fn empty() -> Ledger {
        Ledger { stacks: [None; STACKS], globals: [None; GLOBALS], records: Vec::new() }
    }

    /// Does in the ledger what an accepted call says. None if the call cannot
    /// be done there, which no right heap would have accepted.
    fn enter(&mut self, call: &Call, address: u64) -> Option<()> {
        match *call {
            Call::Setup { .. } => *self = Ledger::empty(),
            Call::Allocate { stack, slot, size, pointers, .. } => {
                let place = self.slot(stack, slot)?;
                let words = (1..=MAX_RECORD_BYTES).contains(&size).then(|| element_words(size))?;
                let numbers = vec![0; words.checked_sub(pointers as usize)?];
                self.set(place, Some(self.records.len()));
                let pointers = vec![None; pointers as usize];
                self.records.push(Record { address, pointers, numbers });
            }
            Call::Copy { stack, to, from, .. } => {
                let value = self.value(self.slot(stack, from)?);
                self.set(self.slot(stack, to)?, value);
            }
            Call::Clear { stack, slot, .. } => self.set(self.slot(stack, slot)?, None),
            Call::Load { stack, to, record, field, .. } => {
                let record = &self.records[self.value(self.slot(stack, record)?)?];
                let value = *record.pointers.get(field as usize)?;
                self.set(self.slot(stack, to)?, value);
            }
            Call::Store { .. } | Call::Put { .. } => self.enter_word(call)?,
            Call::Get { .. } => self.answer(call).map(drop)?,
            Call::LoadGlobal { stack, to, global, .. } => {
                let value = *self.globals.get(global as usize)?;
                self.set(self.slot(stack, to)?, value);
            }
            Call::StoreGlobal { stack, global, from, .. } => {
                let value = self.value(self.slot(stack, from)?);
                *self.globals.get_mut(global as usize)? = value;
            }
            Call::Open { stack, .. } => *self.stacks.get_mut(stack as usize)? = Some([None; SLOTS]),
            Call::Close { stack, .. } => *self.stacks.get_mut(stack as usize)? = None,
            _ => {}
        }
        Some(())
    }

    /// Does a store or a put.
    fn enter_word(&mut self, call: &Call) -> Option<()> {
        match *call {
            Call::Store { stack, record, field, from, .. } => {
                let value = self.value(self.slot(stack, from)?);
                let record = self.value(self.slot(stack, record)?)?;
                *self.records[record].pointers.get_mut(field as usize)? = value;
            }
            Call::Put { stack, record, field, number, .. } => {
                let record = self.value(self.slot(stack, record)?)?;
                let record = &mut self.records[record];
                let place = (field as usize).checked_sub(record.pointers.len())?;
                *record.numbers.get_mut(place)? = number;
            }
            _ => {}
        }
        Some(())
    }

    /// The place of a slot, if its stack is open.
    fn slot(&self, stack: u64, slot: u64) -> Option<(usize, usize)> {
        self.stacks.get(stack as usize)?.as_ref()?.get(slot as usize)?;
        Some((stack as usize, slot as usize))
    }

    fn value(&self, (stack, slot): (usize, usize)) -> Held {
        self.stacks[stack].and_then(|slots| slots[slot])
    }

    fn set(&mut self, (stack, slot): (usize, usize), value: Held) {
        if let Some(slots) = &mut self.stacks[stack] {
            slots[slot] = value;
        }
    }

    /// A value as a number: nil is 0, a record its address.
    fn number(&self, held: Held) -> u64 {
        held.map_or(NIL, |record| self.records[record].address)
    }

    /// For each record whether it is reachable.
    fn reachable(&self) -> Vec<bool> {
        let mut reached = vec![false; self.records.len()];
        let slots = self.stacks.iter().flatten().flatten();
        let mut open: Vec<usize> = slots.chain(&self.globals).copied().flatten().collect();
        while let Some(record) = open.pop() {
            if !reached[record] {
                reached[record] = true;
                open.extend(self.records[record].pointers.iter().flatten());
            }
        }
        reached
    }

    /// The number that the call's answer has to be, if the ledger knows it.
    fn answer(&self, call: &Call) -> Option<u64> {
        let slot = match *call {
            Call::Allocate { stack, slot, .. } | Call::Clear { stack, slot, .. } => (stack, slot),
            Call::Copy { stack, to, .. }
            | Call::Load { stack, to, .. }
            | Call::LoadGlobal { stack, to, .. } => (stack, to),
            Call::Get { stack, record, field, .. } => {
                let record = &self.records[self.value(self.slot(stack, record)?)?];
                let place = (field as usize).checked_sub(record.pointers.len())?;
                return record.numbers.get(place).copied();
            }
            _ => return None,
        };
        Some(self.number(self.value(self.slot(slot.0, slot.1)?)))
    }
}

/// A clause that does not hold, with a number that says where.
#[derive(Clone, Copy, Debug, PartialEq, Eq)]
pub enum Broken {
    /// An accepted call that the ledger cannot do.
    NotPossible,
    /// This answer is not the ledger's.
    Answer(u64),
    /// This stack is open in one book and closed in the other.
    StackState(usize),
    /// This word of the roots is not the ledger's slot or global.
    Root(usize),
    /// A reachable record at this address has no allocated bit.
    NotAllocated(u64),
    /// A word of a reachable record at this address is not the ledger's.
    RecordWord(u64),
    /// A reachable record at this address shares a word with another.
    SharedWord(u64),
    /// At this address nothing was allocated, or it was freed before.
    FreedTwice(u64),
    /// The garbage at this address outlived the cycle.
    NotFreed(u64),
    /// This page is in more or fewer spans than it should be.
    PageInSpans(usize),
    /// More mark steps did work than there are records.
    MarkSteps(u64),
    /// A call with this refusal changed a word that it has to leave alone.
    RefusalChanged(u64),
    /// There was no room, and the span at this page was left unswept.
    LeftUnswept(usize),
    /// This phase is not the one that the cycle's calls have led to.
    Phase(u64),
    /// The audit says no.
    Audit,
}

/// A cycle that has started and not ended.
struct Cycle {
    /// Records that have to be freed before its end.
    garbage: Vec<usize>,
    mark_steps: u64,
    finished: bool,
}

impl Cycle {
    fn phase(&self) -> u64 {
        if self.finished {
            PHASE_SWEEP
        } else {
            PHASE_MARK
        }
    }
}

/// Checks a list of calls from its first accepted setup on.
#[derive(Default)]
pub struct Checker<const FAULT: u8 = { faults::NONE }> {
    ledger: Option<Ledger>,
    freed: Vec<bool>,
    cycle: Option<Cycle>,
}

impl<const FAULT: u8> Checker<FAULT> {
    /// Takes the next call of the list with its answer and the buffers before
    /// and after it, and tests every clause.
    pub fn after(
        &mut self,
        call: &Call,
        answer: &Answer,
        before: &Buffers<'_>,
        mut buffers: Buffers<'_>,
    ) -> Result<(), Broken> {
        if let Err(refusal) = answer {
            check_refused(*refusal, before, &buffers)?;
        }
        if let (Call::Setup { .. }, Ok(_)) = (call, answer) {
            *self = Checker { ledger: Some(Ledger::empty()), ..Checker::default() };
        }
        if self.ledger.is_none() {
            return Ok(());
        }
        self.happened(call, answer, before, &buffers)?;
        self.compare(&buffers)?;
        check_pages(&buffers)?;
        let phase = self.cycle.as_ref().map_or(PHASE_OFF, |cycle| cycle.phase());
        if buffers.roots[PHASE] != phase {
            return Err(Broken::Phase(buffers.roots[PHASE]));
        }
        let pages = (buffers.arena.len() / PAGE_WORDS) as u64;
        apply(&Call::Audit { pages }, buffers.again()).map_err(|_| Broken::Audit)?;
        Ok(())
    }

    /// Frees come before a birth: a record that is freed and one that is born
    /// in the same call may have the same address.
    fn happened(
        &mut self,
        call: &Call,
        answer: &Answer,
        before: &Buffers<'_>,
        after: &Buffers<'_>,
    ) -> Result<(), Broken> {
        let freed = match call {
            Call::SweepStep { .. } => freed_words(before, after),
            Call::Allocate { .. } if FAULT != faults::FREES_NOT_COUNTED => {
                freed_words(before, after)
            }
            _ => Vec::new(),
        };
        if FAULT == faults::BIRTH_BEFORE_FREES {
            self.accepted(call, answer)?;
        }
        self.count_freed(&freed)?;
        if FAULT != faults::BIRTH_BEFORE_FREES {
            self.accepted(call, answer)?;
        }
        self.cycle_call(call, answer, after)
    }

    /// The record last born at each of these words is freed.
    fn count_freed(&mut self, words: &[Word]) -> Result<(), Broken> {
        let Some(ledger) = &self.ledger else {
            return Ok(());
        };
        for &word in words {
            let address = Address::of_word(word).number();
            let last = ledger.records.iter().rposition(|record| record.address == address);
            match last {
                Some(record) if !self.freed[record] => self.freed[record] = true,
                _ => return Err(Broken::FreedTwice(address)),
            }
        }
        Ok(())
    }

    /// Enters an accepted call in the ledger. A refused one leaves it alone.
    fn accepted(&mut self, call: &Call, answer: &Answer) -> Result<(), Broken> {
        let (Some(ledger), Ok([value, ..])) = (&mut self.ledger, *answer) else {
            return Ok(());
        };
        ledger.enter(call, value).ok_or(Broken::NotPossible)?;
        self.freed.resize(ledger.records.len(), false);
        if ledger.answer(call).is_some_and(|expected| expected != value) {
            return Err(Broken::Answer(value));
        }
        Ok(())
    }

    /// What an accepted call does to the cycle.
    fn cycle_call(
        &mut self,
        call: &Call,
        answer: &Answer,
        after: &Buffers<'_>,
    ) -> Result<(), Broken> {
        let (Some(ledger), Ok(values)) = (&self.ledger, answer) else {
            return Ok(());
        };
        match (call, &mut self.cycle) {
            (Call::Start { .. }, _) => {
                let reachable = ledger.reachable();
                let garbage = (0..reachable.len()).filter(|&r| !reachable[r] && !self.freed[r]);
                let garbage = garbage.collect();
                self.cycle = Some(Cycle { garbage, mark_steps: 0, finished: false });
            }
            (Call::MarkStep { .. }, Some(cycle)) => {
                cycle.mark_steps += u64::from(values[0] != 0);
            }
            (Call::Finish { .. }, Some(cycle)) => {
                cycle.finished = true;
                if cycle.mark_steps > allocated_count(after) {
                    return Err(Broken::MarkSteps(cycle.mark_steps));
                }
            }
            (Call::SweepStep { .. }, Some(_)) if *values == [0; 3] => return self.ended(),
            _ => {}
        }
        Ok(())
    }

    /// What a whole cycle has to have freed. Nothing is freed twice, so freed
    /// by now is freed exactly once.
    fn ended(&mut self) -> Result<(), Broken> {
        let (Some(ledger), Some(cycle)) = (&self.ledger, self.cycle.take()) else {
            return Ok(());
        };
        match cycle.garbage.iter().find(|&&record| !self.freed[record]) {
            Some(&record) => Err(Broken::NotFreed(ledger.records[record].address)),
            None => Ok(()),
        }
    }

    /// Holds roots and reachable records against the ledger.
    fn compare(&self, buffers: &Buffers<'_>) -> Result<(), Broken> {
        let Some(ledger) = &self.ledger else {
            return Ok(());
        };
        for (stack, slots) in ledger.stacks.iter().enumerate() {
            if (buffers.roots[FIRST_STATE + stack] != CLOSED) != slots.is_some() {
                return Err(Broken::StackState(stack));
            }
            for (slot, &held) in slots.unwrap_or([None; SLOTS]).iter().enumerate() {
                compare_root(ledger, buffers, slot_place(stack, slot), held)?;
            }
        }
        for (global, &held) in ledger.globals.iter().enumerate() {
            compare_root(ledger, buffers, FIRST_GLOBAL + global, held)?;
        }
        let mut owned = vec![false; buffers.arena.len()];
        for (record, reached) in ledger.reachable().into_iter().enumerate() {
            if reached {
                compare_record(ledger, &ledger.records[record], buffers, &mut owned)?;
            }
        }
        Ok(())
    }
}

/// A refused call changes no word, but for one that has swept every span in
/// vain: it changes page table and bitmaps.
fn check_refused(
    refusal: Refusal,
    before: &Buffers<'_>,
    after: &Buffers<'_>,
) -> Result<(), Broken> {
    let no_room = refusal == Refusal::NoRoom;
    let may_sweep = no_room && before.roots.get(PHASE) == Some(&PHASE_SWEEP);
    let same = before.arena == after.arena
        && before.roots == after.roots
        && (may_sweep || (before.table == after.table && before.bitmaps == after.bitmaps));
    if !same {
        return Err(Broken::RefusalChanged(refusal.number()));
    }
    match unswept_spans(after.table).next() {
        Some((page, _)) if no_room => Err(Broken::LeftUnswept(page)),
        _ => Ok(()),
    }
}

/// The start page and the page count of each unswept span.
fn unswept_spans(table: &[u32]) -> impl Iterator<Item = (usize, usize)> + '_ {
    let entries = table.chunks_exact(ENTRY_NUMBERS).enumerate();
    let unswept = entries.filter(|(page, entry)| {
        entry[ENTRY_START] as usize == page + 1 && entry[ENTRY_KIND] & UNSWEPT != 0
    });
    unswept.map(|(page, entry)| (page, entry[ENTRY_COUNT] as usize))
}

/// The first words of the elements that a call has freed: those whose allocated
/// bit it turned off, and those that were allocated and not marked in a span
/// that was unswept and no longer is, also where they were given out again.
fn freed_words(before: &Buffers<'_>, after: &Buffers<'_>) -> Vec<Word> {
    let part = before.bitmaps.len() / BITMAP_PARTS;
    let (allocated, marked) = (&before.bitmaps[..part], &before.bitmaps[part..]);
    let turned_off = allocated.iter().zip(&after.bitmaps[..part]).map(|(old, new)| old & !new);
    let mut freed: Vec<u64> = turned_off.collect();
    let still_unswept: Vec<_> = unswept_spans(after.table).collect();
    let swept = unswept_spans(before.table).filter(|span| !still_unswept.contains(span));
    let bitmap_words = swept.flat_map(|(start, pages)| {
        Page::new(start).first_bitmap_word()..Page::new(start + pages).first_bitmap_word()
    });
    bitmap_words.for_each(|place| freed[place] |= allocated[place] & !marked[place]);
    let words = (0..part * BITMAP_BITS).map(Word::new);
    words.filter(|&word| bit(&freed, word)).collect()
}

/// How many elements are allocated.
fn allocated_count(buffers: &Buffers<'_>) -> u64 {
    let allocated = &buffers.bitmaps[..buffers.bitmaps.len() / BITMAP_PARTS];
    allocated.iter().map(|bits| u64::from(bits.count_ones())).sum()
}

fn compare_root(
    ledger: &Ledger,
    buffers: &Buffers<'_>,
    place: usize,
    held: Held,
) -> Result<(), Broken> {
    if buffers.roots[place] == ledger.number(held) {
        Ok(())
    } else {
        Err(Broken::Root(place))
    }
}

/// `owned` has the words of the reachable records that were seen before.
fn compare_record(
    ledger: &Ledger,
    record: &Record,
    buffers: &Buffers<'_>,
    owned: &mut [bool],
) -> Result<(), Broken> {
    let address = record.address;
    let words = record.pointers.len() + record.numbers.len();
    let inside = |first: &Word| first.index() + words <= owned.len();
    let first = Address::new(address).word().filter(inside);
    let first = first.ok_or(Broken::NotAllocated(address))?;
    if !bit(buffers.bitmaps, first) {
        return Err(Broken::NotAllocated(address));
    }
    let own = &mut owned[first.index()..][..words];
    if own.contains(&true) {
        return Err(Broken::SharedWord(address));
    }
    own.fill(true);
    let pointers = record.pointers.iter().map(|&held| ledger.number(held));
    let expected = pointers.chain(record.numbers.iter().copied());
    if !expected.eq(buffers.arena[first.index()..][..words].iter().copied()) {
        return Err(Broken::RecordWord(address));
    }
    Ok(())
}

/// A free page is in no span, any other page in exactly one.
fn check_pages(buffers: &Buffers<'_>) -> Result<(), Broken> {
    let entries: Vec<&[u32]> = buffers.table.chunks_exact(ENTRY_NUMBERS).collect();
    let mut spans = vec![0; entries.len()];
    for (page, entry) in entries.iter().enumerate() {
        if entry[ENTRY_START] as usize == page + 1 {
            let end = page + entry[ENTRY_COUNT] as usize;
            let pages = spans.get_mut(page..end).ok_or(Broken::PageInSpans(page))?;
            pages.iter_mut().for_each(|count| *count += 1);
        }
    }
    for (page, entry) in entries.iter().enumerate() {
        let expected = usize::from(**entry != [0; ENTRY_NUMBERS]);
        if spans[page] != expected {
            return Err(Broken::PageInSpans(page));
        }
    }
    Ok(())
}
