//! The way into the heap: the nineteen calls with their numbers, the refusals,
//! and one function that carries a call out on the four lent buffers. Every
//! number of a call is a full 64-bit number, and P comes with each call.

use crate::faults;
use crate::heap::Heap;
use crate::layout::Buffers;

/// Why a call was refused, tested in this order. Number 8 is no longer given.
#[derive(Clone, Copy, Debug, PartialEq, Eq)]
pub enum Refusal {
    BadBuffers,
    Damaged,
    WrongPhase,
    BadStack,
    BadSlot,
    BadSize,
    Nil,
    BadField,
    NoRoom,
    Unfinished,
}

impl Refusal {
    pub fn number(self) -> u64 {
        match self {
            Refusal::BadBuffers => 1,
            Refusal::Damaged => 12,
            Refusal::WrongPhase => 2,
            Refusal::BadStack => 3,
            Refusal::BadSlot => 4,
            Refusal::BadSize => 5,
            Refusal::Nil => 6,
            Refusal::BadField => 7,
            Refusal::NoRoom => 9,
            Refusal::Unfinished => 10,
        }
    }
}

/// Three values, 0 where a call has fewer, or a refusal.
pub type Answer = Result<[u64; 3], Refusal>;

/// A call with all its numbers. `record` is the slot that names the record.
#[derive(Clone, Copy, Debug, PartialEq, Eq)]
pub enum Call {
    Setup { pages: u64 },
    Allocate { pages: u64, stack: u64, slot: u64, size: u64, pointers: u64 },
    Copy { pages: u64, stack: u64, to: u64, from: u64 },
    Clear { pages: u64, stack: u64, slot: u64 },
    Load { pages: u64, stack: u64, to: u64, record: u64, field: u64 },
    Store { pages: u64, stack: u64, record: u64, field: u64, from: u64 },
    Put { pages: u64, stack: u64, record: u64, field: u64, number: u64 },
    Get { pages: u64, stack: u64, record: u64, field: u64 },
    LoadGlobal { pages: u64, stack: u64, to: u64, global: u64 },
    StoreGlobal { pages: u64, stack: u64, global: u64, from: u64 },
    Open { pages: u64, stack: u64 },
    Close { pages: u64, stack: u64 },
    Start { pages: u64 },
    ScanStack { pages: u64, stack: u64 },
    ScanGlobals { pages: u64 },
    MarkStep { pages: u64 },
    Finish { pages: u64 },
    SweepStep { pages: u64 },
    Audit { pages: u64 },
}

impl Call {
    /// The P of this call.
    pub fn pages(&self) -> u64 {
        match *self {
            Call::Setup { pages }
            | Call::Allocate { pages, .. }
            | Call::Copy { pages, .. }
            | Call::Clear { pages, .. }
            | Call::Load { pages, .. }
            | Call::Store { pages, .. }
            | Call::Put { pages, .. }
            | Call::Get { pages, .. }
            | Call::LoadGlobal { pages, .. }
            | Call::StoreGlobal { pages, .. }
            | Call::Open { pages, .. }
            | Call::Close { pages, .. }
            | Call::Start { pages }
            | Call::ScanStack { pages, .. }
            | Call::ScanGlobals { pages }
            | Call::MarkStep { pages }
            | Call::Finish { pages }
            | Call::SweepStep { pages }
            | Call::Audit { pages } => pages,
        }
    }
}

/// Carries a call out on the lent buffers.
pub fn apply(call: &Call, buffers: Buffers<'_>) -> Answer {
    apply_with_fault::<{ faults::NONE }>(call, buffers)
}

/// The same on one of the wrong heaps of `faults`.
pub fn apply_with_fault<const FAULT: u8>(call: &Call, buffers: Buffers<'_>) -> Answer {
    let mut heap = Heap::<FAULT>::lend(call.pages(), buffers).ok_or(Refusal::BadBuffers)?;
    if let Call::Setup { .. } = call {
        return heap.setup();
    }
    if !heap.audit() {
        return Err(Refusal::Damaged);
    }
    match *call {
        Call::Setup { .. } | Call::Audit { .. } => Ok([0; 3]),
        Call::Allocate { stack, slot, size, pointers, .. } => {
            heap.allocate(stack, slot, size, pointers)
        }
        Call::Copy { stack, to, from, .. } => heap.copy(stack, to, from),
        Call::Clear { stack, slot, .. } => heap.clear(stack, slot),
        Call::Load { stack, to, record, field, .. } => heap.load(stack, to, record, field),
        Call::Store { stack, record, field, from, .. } => heap.store(stack, record, field, from),
        Call::Put { stack, record, field, number, .. } => heap.put(stack, record, field, number),
        Call::Get { stack, record, field, .. } => heap.get(stack, record, field),
        Call::LoadGlobal { stack, to, global, .. } => heap.load_global(stack, to, global),
        Call::StoreGlobal { stack, global, from, .. } => heap.store_global(stack, global, from),
        Call::Open { stack, .. } => heap.open(stack),
        Call::Close { stack, .. } => heap.close(stack),
        Call::Start { .. } => heap.start(),
        Call::ScanStack { stack, .. } => heap.scan_stack(stack),
        Call::ScanGlobals { .. } => heap.scan_globals(),
        Call::MarkStep { .. } => heap.mark_step(),
        Call::Finish { .. } => heap.finish(),
        Call::SweepStep { .. } => heap.sweep_step(),
    }
}
