//! A long trace for timing, on eight pages: lists of records that hang on the
//! globals grow, are walked and are dropped, and cycles run in between, a call
//! at a time. The calls are carried out while they are written, so that the
//! trace sees how far its cycle is and when room runs out.

use std::io::{self, Write};

use peer::layout::{GLOBALS, PHASE, PHASE_MARK, PHASE_OFF};
use peer::random::Random;
use peer::{apply, Answer, Call};

use crate::lines::text_of;
use crate::memory::{lengths, Memory};

const PAGES: u64 = 8;
/// All records of the trace are in slots of this stack.
const STACK: u64 = 0;
/// Slots: the new record, the list's first record, the record of a walk.
const NEW: u64 = 0;
const FIRST: u64 = 1;
const WALKER: u64 = 2;
/// This slot stays nil.
const EMPTY: u64 = 3;
/// Allocations between the end of a cycle and the next start.
const ALLOCATIONS: u64 = 200;

struct Writer<'a, W> {
    output: &'a mut W,
    random: Random,
    memory: Memory,
    lines_left: u64,
    /// Allocations since the last start.
    allocations: u64,
    /// Whether the scans and mark steps of the cycle are done.
    marked: bool,
    scanned: bool,
}

/// Writes a trace of so many lines.
pub fn write_long(output: &mut impl Write, lines: u64, seed: u64) -> io::Result<()> {
    let mut writer = Writer {
        output,
        random: Random::new(seed),
        memory: Memory::new(PAGES),
        lines_left: lines,
        allocations: 0,
        marked: false,
        scanned: false,
    };
    let pages = PAGES;
    writer.just(Call::Setup { pages })?;
    writer.just(Call::Open { pages, stack: STACK })?;
    while writer.lines_left > 0 {
        let global = writer.random.below(GLOBALS as u64);
        match writer.random.below(100) {
            0..=59 => writer.push(global)?,
            60..=94 => writer.walk(global)?,
            _ => writer.drop_list(global)?,
        }
        writer.cycle()?;
    }
    Ok(())
}

impl<W: Write> Writer<'_, W> {
    /// Carries a call out and writes its line, unless the trace is complete.
    fn call(&mut self, call: Call) -> io::Result<Answer> {
        let answer = apply(&call, self.memory.lend(lengths(PAGES)));
        if let (Some(line), 1..) = (text_of(&call), self.lines_left) {
            self.lines_left -= 1;
            writeln!(self.output, "{line}")?;
        }
        Ok(answer)
    }

    /// The same for a call whose answer does not matter.
    fn just(&mut self, call: Call) -> io::Result<()> {
        self.call(call).map(|_| ())
    }

    /// A new record becomes the first of a list.
    fn push(&mut self, global: u64) -> io::Result<()> {
        let (pages, stack) = (PAGES, STACK);
        let size = self.random.pick(&[16, 24, 24, 32, 32, 32, 48, 64]);
        let new = Call::Allocate { pages, stack, slot: NEW, size, pointers: 1 };
        if self.call(new)?.is_err() {
            return self.drop_list(global);
        }
        self.allocations += 1;
        let number = self.random.below(1000);
        self.just(Call::LoadGlobal { pages, stack, to: FIRST, global })?;
        self.just(Call::Store { pages, stack, record: NEW, field: 0, from: FIRST })?;
        self.just(Call::Put { pages, stack, record: NEW, field: 1, number })?;
        self.just(Call::StoreGlobal { pages, stack, global, from: NEW })
    }

    /// Some steps along a list, with a look at each record.
    fn walk(&mut self, global: u64) -> io::Result<()> {
        let (pages, stack) = (PAGES, STACK);
        let mut at = self.call(Call::LoadGlobal { pages, stack, to: WALKER, global })?;
        for _ in 0..self.random.below(6) {
            if at == Ok([0; 3]) {
                break;
            }
            self.just(Call::Get { pages, stack, record: WALKER, field: 1 })?;
            at = self.call(Call::Load { pages, stack, to: WALKER, record: WALKER, field: 0 })?;
        }
        self.just(Call::Copy { pages, stack, to: FIRST, from: WALKER })
    }

    fn drop_list(&mut self, global: u64) -> io::Result<()> {
        let (pages, stack) = (PAGES, STACK);
        self.just(Call::Clear { pages, stack, slot: NEW })?;
        self.just(Call::StoreGlobal { pages, stack, global, from: EMPTY })
    }

    /// A few calls of the cycle, or its start if it is time for one.
    fn cycle(&mut self) -> io::Result<()> {
        let pages = PAGES;
        match self.memory.roots()[PHASE] {
            PHASE_OFF if self.allocations < ALLOCATIONS => {}
            PHASE_OFF => {
                (self.allocations, self.scanned, self.marked) = (0, false, false);
                self.just(Call::Start { pages })?;
            }
            PHASE_MARK if !self.scanned => {
                self.just(Call::ScanStack { pages, stack: STACK })?;
                self.just(Call::ScanGlobals { pages })?;
                self.scanned = true;
            }
            PHASE_MARK if !self.marked => self.mark_steps()?,
            PHASE_MARK => self.marked = self.call(Call::Finish { pages })?.is_ok(),
            _ => self.just(Call::SweepStep { pages })?,
        }
        Ok(())
    }

    fn mark_steps(&mut self) -> io::Result<()> {
        for _ in 0..8 {
            if self.call(Call::MarkStep { pages: PAGES })? == Ok([0; 3]) {
                self.marked = true;
                break;
            }
        }
        Ok(())
    }
}
