//! Compares the proved heap with the plain one on records of every size and on
//! random lists of calls, call for call and word for word. It prints the seed,
//! and with the same seed makes the same lists. It ends with status 1 at the
//! first difference, or where the sizes or the lists have not been everywhere.
//! `--self-check` puts wrong heaps in the plain one's place, each of which has
//! to be found out.

use std::process::ExitCode;
use std::time::Instant;

use compare::lists::{run_list, Visits};
use compare::options::Options;
use compare::pair::{Difference, Heap, Pair};
use compare::proved::{numbers_of, proved_numbers, Numbers};
use compare::sizes::{run_sizes, FIRST_MAX, FIRST_STEP, SECOND_BASE, SECOND_MAX, SECOND_STEP};
use peer::calls::apply_with_fault;
use peer::faults::*;
use peer::layout::{CLOSED, FIRST_STATE};
use peer::{apply, Buffers, Call};

const USAGE: &str = "compare [--seed N] [--calls N] [--list N] [--self-check]
  --seed N      another seed
  --calls N     at least so many calls
  --list N      the list of this number alone
  --self-check  that wrong heaps are found out";
const SEED: u64 = 20_171_025;
const CALLS: u64 = 1_000_000;
/// From so many calls on the lists have to have been everywhere.
const ENOUGH_CALLS: u64 = 200_000;
/// A wrong heap has to be found out within so many lists.
const SELF_CHECK_LISTS: u64 = 20_000;
/// The four calls of the mark phase and start have one phase each, as has the
/// sweep step; the other thirteen calls have three.
const ACCEPTED_IN_PHASE: usize = 13 * 3 + 4 + 1 + 1;
const CYCLES: u64 = 500;
/// 0 for accepted calls, and each refusal of a call.
const REFUSALS: [u64; 11] = [0, 1, 2, 3, 4, 5, 6, 7, 9, 10, 12];

fn main() -> ExitCode {
    let options = Options::read(USAGE, &["seed", "calls", "list"], &["self-check"]);
    let seed = options.number("seed", SEED);
    println!("seed {seed}");
    let right = if options.flag("self-check") {
        self_check(seed)
    } else if options.flag("list") {
        one_list(seed, options.number("list", 0))
    } else {
        every_size() && many_lists(seed, options.number("calls", CALLS))
    };
    if right {
        ExitCode::SUCCESS
    } else {
        ExitCode::FAILURE
    }
}

const PAIR: Pair = Pair { plain: right_heap, proved: proved_numbers };

fn right_heap(call: &Call, lent: Buffers<'_>) -> Numbers {
    numbers_of(apply(call, lent))
}

fn report(seed: u64, list: u64, difference: &Difference) {
    println!("the heaps differ, seed {seed}, list {list}");
    print!("{difference}");
    println!("again: compare --seed {seed} --list {list}");
}

fn every_size() -> bool {
    let uses = match run_sizes(&PAIR) {
        Ok(uses) => uses,
        Err(difference) => {
            println!("the heaps differ on a size");
            print!("{difference}");
            return false;
        }
    };
    println!("sizes: {uses}");
    if !uses.complete() {
        println!("the sizes have not been everywhere");
    }
    uses.complete()
}

fn one_list(seed: u64, list: u64) -> bool {
    let mut visits = Visits::default();
    let result = run_list(seed, list, &PAIR, &mut visits);
    println!("{} calls of list {list}", visits.calls);
    result.map_err(|difference| report(seed, list, &difference)).is_ok()
}

fn many_lists(seed: u64, calls: u64) -> bool {
    let begin = Instant::now();
    let mut visits = Visits::default();
    let mut lists = 0;
    while visits.calls < calls {
        if let Err(difference) = run_list(seed, lists, &PAIR, &mut visits) {
            report(seed, lists, &difference);
            return false;
        }
        lists += 1;
    }
    let seconds = begin.elapsed().as_secs_f64();
    println!("{} calls in {lists} lists, {seconds:.1} s, no difference", visits.calls);
    println!("{} damages, {} cycles ended", visits.damages, visits.cycles);
    for refusal in REFUSALS {
        println!("refusal {refusal}: {}", visits.refusals(refusal));
    }
    print!("allocations of the sweep phase:\n{}", visits.ways);
    calls < ENOUGH_CALLS || been_everywhere(&visits)
}

/// Whether each call was accepted in each of its phases, each refusal was met
/// and each way of an allocation was taken.
fn been_everywhere(visits: &Visits) -> bool {
    let refusals = REFUSALS.iter().all(|&refusal| visits.refusals(refusal) > 0);
    let accepted = visits.accepted_in_phase();
    let everywhere = refusals
        && accepted == ACCEPTED_IN_PHASE
        && visits.cycles >= CYCLES
        && visits.damages > 0
        && visits.ways.all_taken(1);
    if !everywhere {
        println!("the lists have not been everywhere: {accepted} of {ACCEPTED_IN_PHASE} calls in");
        println!("their phases were accepted, or a refusal, a way, damage or cycles are missing");
    }
    everywhere
}

fn with_fault<const FAULT: u8>(call: &Call, lent: Buffers<'_>) -> Numbers {
    numbers_of(apply_with_fault::<FAULT>(call, lent))
}

/// Gives a value with a refusal.
fn value_with_refusal(call: &Call, lent: Buffers<'_>) -> Numbers {
    let numbers = right_heap(call, lent);
    match numbers {
        [9, ..] => [9, 0, 0, 1],
        _ => numbers,
    }
}

/// Changes a root when it refuses a field.
fn change_with_refusal(call: &Call, mut lent: Buffers<'_>) -> Numbers {
    let numbers = right_heap(call, lent.again());
    if numbers[0] == 7 {
        lent.roots[0] ^= 8;
    }
    numbers
}

/// Refuses a slot before a closed stack.
fn slot_before_stack(call: &Call, lent: Buffers<'_>) -> Numbers {
    let first_closed = lent.roots.get(FIRST_STATE) == Some(&CLOSED);
    let numbers = right_heap(call, lent);
    match call {
        Call::Clear { stack: 0, slot: 32.., .. } if first_closed && numbers[0] == 3 => [4, 0, 0, 0],
        _ => numbers,
    }
}

/// Allocates a record of another size.
fn with_size(call: &Call, lent: Buffers<'_>, other: fn(u64) -> u64) -> Numbers {
    let mut call = *call;
    if let Call::Allocate { size, .. } = &mut call {
        *size = other(*size);
    }
    right_heap(&call, lent)
}

/// Rounds sizes of the first table down to whole entries, but for those below
/// the first entry.
fn rounded_down(call: &Call, lent: Buffers<'_>) -> Numbers {
    with_size(call, lent, |size| match size {
        FIRST_STEP..=FIRST_MAX => size / FIRST_STEP * FIRST_STEP,
        _ => size,
    })
}

/// Looks 1,025 to 1,152 up in the entry after theirs.
fn entry_late(call: &Call, lent: Buffers<'_>) -> Numbers {
    const JUST_ABOVE: u64 = SECOND_BASE + 1;
    const LAST: u64 = SECOND_BASE + SECOND_STEP;
    with_size(call, lent, |size| match size {
        JUST_ABOVE..=LAST => size + SECOND_STEP,
        _ => size,
    })
}

/// Takes 1,024 for a size above 1,024.
fn border_too_low(call: &Call, lent: Buffers<'_>) -> Numbers {
    with_size(call, lent, |size| match size {
        SECOND_BASE => SECOND_BASE + 1,
        _ => size,
    })
}

/// Takes the largest size that is looked up for a larger one.
fn last_size_short(call: &Call, lent: Buffers<'_>) -> Numbers {
    with_size(call, lent, |size| match size {
        SECOND_MAX => SECOND_MAX + 1,
        _ => size,
    })
}

/// Wrong heaps that random lists find out.
const WRONG_HEAPS: [(&str, Heap); 21] = [
    ("shades only the new value", with_fault::<SHADE_ONLY_NEW>),
    ("shades only the old value", with_fault::<SHADE_ONLY_OLD>),
    ("allocates white", with_fault::<ALLOCATE_WHITE>),
    ("allocates in unswept spans", with_fault::<ALLOCATE_IN_UNSWEPT>),
    ("keeps pointer bits", with_fault::<KEEP_POINTER_BITS>),
    ("keeps old words", with_fault::<KEEP_OLD_WORDS>),
    ("returns pages early", with_fault::<RETURN_PAGES_EARLY>),
    ("sweeps other kinds first", with_fault::<SWEEP_ANY_KIND>),
    ("sweeps one span of the kind", with_fault::<SWEEP_ONE_OF_KIND>),
    ("looks for pages before the kind", with_fault::<PAGES_BEFORE_KIND>),
    ("passes over large spans", with_fault::<LARGE_SKIPS_KIND>),
    ("gives out returned pages", with_fault::<GIVE_RETURNED>),
    ("gives out and leaves unswept", with_fault::<LEAVE_SPAN_UNSWEPT>),
    ("sweeps all before it looks", with_fault::<LOOK_ONCE_AFTER_ALL>),
    ("looks after the returned pages", with_fault::<LOOK_AFTER_RETURNED>),
    ("refuses without sweeping", with_fault::<REFUSE_UNSWEPT>),
    ("sweeps before it tests the size", with_fault::<SWEEP_BEFORE_SIZE>),
    ("ends the cycle by itself", with_fault::<END_CYCLE>),
    ("gives a value with a refusal", value_with_refusal),
    ("changes a word with a refusal", change_with_refusal),
    ("refuses in the wrong order", slot_before_stack),
];

/// Wrong heaps that records of every size find out.
const WRONG_LOOKUPS: [(&str, Heap); 4] = [
    ("rounds sizes down to whole entries", rounded_down),
    ("looks 1,025 up one entry late", entry_late),
    ("gives 1,024 the next class", border_too_low),
    ("gives 32,768 pages of its own", last_size_short),
];

/// Whether each wrong heap is found out.
fn self_check(seed: u64) -> bool {
    let by_lists = WRONG_HEAPS.map(|(name, plain)| found_by_lists(seed, name, plain));
    let by_sizes = WRONG_LOOKUPS.map(|(name, plain)| found_by_sizes(name, plain));
    by_lists.into_iter().chain(by_sizes).all(|found| found)
}

fn found_by_sizes(name: &str, plain: Heap) -> bool {
    let found = run_sizes(&Pair { plain, ..PAIR }).err();
    match &found {
        Some(difference) => println!("a heap that {name}: found out by {:?}", difference.call),
        None => println!("a heap that {name}: NOT found out by any size"),
    }
    found.is_some()
}

fn found_by_lists(seed: u64, name: &str, plain: Heap) -> bool {
    let pair = Pair { plain, ..PAIR };
    let mut visits = Visits::default();
    let found = (0..SELF_CHECK_LISTS).any(|list| run_list(seed, list, &pair, &mut visits).is_err());
    let verdict = if found { "found out" } else { "NOT found out" };
    println!("a heap that {name}: {verdict} after {} calls", visits.calls);
    found
}
