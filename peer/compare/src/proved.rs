//! The proved heap's calls. They are C functions of the linked archive, as
//! `include/heap.h` declares them; here they take the plain heap's calls and
//! buffers, so that one can stand in the other's place.

use peer::{Answer, Buffers, Call, Refusal};

/// A call's answer as C sees it: the refusal or 0, then the three values.
pub type Numbers = [u64; 4];

/// What the values hold before a call, so that one that is not written shows.
const UNWRITTEN: u64 = 0xa5a5_a5a5_a5a5_a5a5;

/// Declares C functions and for each a safe one that lends whole slices.
macro_rules! heap_functions {
    ($($name:ident($($number:ident),*);)*) => {
        mod archive {
            extern "C" {
                $(pub fn $name(
                    p: u64,
                    arena: *mut u64,
                    arena_length: usize,
                    table: *mut u32,
                    table_length: usize,
                    bitmaps: *mut u64,
                    bitmaps_length: usize,
                    roots: *mut u64,
                    roots_length: usize,
                    $($number: u64,)*
                    values: *mut [u64; 3],
                ) -> u64;)*
            }
        }

        $(fn $name(p: u64, lent: Buffers<'_>, $($number: u64,)* values: &mut [u64; 3]) -> u64 {
            let Buffers { arena, table, bitmaps, roots } = lent;
            // Each pointer comes with the length of its slice, and no two of
            // the slices overlap, since all of them are lent for writing.
            unsafe {
                archive::$name(
                    p,
                    arena.as_mut_ptr(),
                    arena.len(),
                    table.as_mut_ptr(),
                    table.len(),
                    bitmaps.as_mut_ptr(),
                    bitmaps.len(),
                    roots.as_mut_ptr(),
                    roots.len(),
                    $($number,)*
                    values,
                )
            }
        })*
    };
}

heap_functions! {
    heap_setup();
    heap_audit();
    heap_open(s);
    heap_close(s);
    heap_alloc(s, i, size, pointers);
    heap_copy(s, i, j);
    heap_clear(s, i);
    heap_load(s, i, j, f);
    heap_store(s, j, f, k);
    heap_put(s, j, f, v);
    heap_get(s, j, f);
    heap_load_global(s, i, g);
    heap_store_global(s, g, i);
    heap_start();
    heap_scan_stack(s);
    heap_scan_globals();
    heap_mark_step();
    heap_finish();
    heap_sweep_step();
}

/// Carries a call out; gives the result and leaves the values in `out`.
fn carry_out(call: &Call, lent: Buffers<'_>, out: &mut [u64; 3]) -> u64 {
    let p = call.pages();
    match *call {
        Call::Setup { .. } => heap_setup(p, lent, out),
        Call::Audit { .. } => heap_audit(p, lent, out),
        Call::Open { stack, .. } => heap_open(p, lent, stack, out),
        Call::Close { stack, .. } => heap_close(p, lent, stack, out),
        Call::Allocate { stack, slot, size, pointers, .. } => {
            heap_alloc(p, lent, stack, slot, size, pointers, out)
        }
        Call::Copy { stack, to, from, .. } => heap_copy(p, lent, stack, to, from, out),
        Call::Clear { stack, slot, .. } => heap_clear(p, lent, stack, slot, out),
        Call::Load { stack, to, record, field, .. } => {
            heap_load(p, lent, stack, to, record, field, out)
        }
        Call::Store { stack, record, field, from, .. } => {
            heap_store(p, lent, stack, record, field, from, out)
        }
        Call::Put { stack, record, field, number, .. } => {
            heap_put(p, lent, stack, record, field, number, out)
        }
        Call::Get { stack, record, field, .. } => heap_get(p, lent, stack, record, field, out),
        Call::LoadGlobal { stack, to, global, .. } => {
            heap_load_global(p, lent, stack, to, global, out)
        }
        Call::StoreGlobal { stack, global, from, .. } => {
            heap_store_global(p, lent, stack, global, from, out)
        }
        Call::Start { .. } => heap_start(p, lent, out),
        Call::ScanStack { stack, .. } => heap_scan_stack(p, lent, stack, out),
        Call::ScanGlobals { .. } => heap_scan_globals(p, lent, out),
        Call::MarkStep { .. } => heap_mark_step(p, lent, out),
        Call::Finish { .. } => heap_finish(p, lent, out),
        Call::SweepStep { .. } => heap_sweep_step(p, lent, out),
    }
}

/// Carries a call out on the proved heap.
pub fn proved_numbers(call: &Call, lent: Buffers<'_>) -> Numbers {
    let mut values = [UNWRITTEN; 3];
    let refusal = carry_out(call, lent, &mut values);
    [refusal, values[0], values[1], values[2]]
}

/// The same with the answer's type of the plain heap.
pub fn proved_apply(call: &Call, lent: Buffers<'_>) -> Answer {
    let mut values = [0; 3];
    match carry_out(call, lent, &mut values) {
        0 => Ok(values),
        number => Err(refusal_of(number)),
    }
}

/// A plain heap's answer as C would see it.
pub fn numbers_of(answer: Answer) -> Numbers {
    match answer {
        Ok([first, second, third]) => [0, first, second, third],
        Err(refusal) => [refusal.number(), 0, 0, 0],
    }
}

fn refusal_of(number: u64) -> Refusal {
    let all = [
        Refusal::BadBuffers,
        Refusal::Damaged,
        Refusal::WrongPhase,
        Refusal::BadStack,
        Refusal::BadSlot,
        Refusal::BadSize,
        Refusal::Nil,
        Refusal::BadField,
        Refusal::NoRoom,
        Refusal::Unfinished,
    ];
    let found = all.into_iter().find(|refusal| refusal.number() == number);
    found.unwrap_or_else(|| panic!("the proved heap gave refusal {number}, which there is not"))
}
