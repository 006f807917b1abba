//! Wrong heaps that look right. Each is shown to be caught by a short list
//! made for it, and by random lists; the right heap passes the same lists.

mod common;

use common::slow::place_for;
use common::{calls, seed, times, Caught, Harness, HeapUnderTest, Owned};
use peer::calls::apply_with_fault;
use peer::faults::*;
use peer::layout::{BITMAP_PARTS, PHASE};
use peer::ledger::Broken;
use peer::random::{CallMaker, Random};
use peer::{apply, Answer, Buffers, Call, Refusal};

/// An allocator that always says that there is no room.
fn always_no_room(call: &Call, mut buffers: Buffers<'_>) -> Answer {
    match call {
        Call::Allocate { pages, .. } => {
            apply(&Call::Audit { pages: *pages }, buffers.again()).and(Err(Refusal::NoRoom))
        }
        _ => apply(call, buffers),
    }
}

/// An allocator that always answers 8192.
fn always_8192(call: &Call, buffers: Buffers<'_>) -> Answer {
    let answer = apply(call, buffers);
    match call {
        Call::Allocate { .. } => answer.map(|_| [8192, 0, 0]),
        _ => answer,
    }
}

/// A sweep that says it is done at once.
fn sweep_does_nothing(call: &Call, buffers: Buffers<'_>) -> Answer {
    match call {
        Call::SweepStep { .. } if buffers.roots.get(PHASE) == Some(&2) => Ok([0; 3]),
        _ => apply(call, buffers),
    }
}

/// A start that marks everything, and mark steps that only answer.
fn start_marks_everything(call: &Call, mut buffers: Buffers<'_>) -> Answer {
    let answer = apply(call, buffers.again());
    if let (Call::Start { .. }, Ok(_)) = (call, answer) {
        let part = buffers.bitmaps.len() / BITMAP_PARTS;
        buffers.bitmaps.copy_within(..part, part);
    }
    answer
}

/// A scan that counts one more.
fn invented_count(call: &Call, buffers: Buffers<'_>) -> Answer {
    let answer = apply(call, buffers);
    match call {
        Call::ScanStack { .. } | Call::ScanGlobals { .. } => answer.map(|v| [v[0] + 1, 0, 0]),
        _ => answer,
    }
}

/// A wrong heap with a list that shows its fault.
struct Wrong {
    name: &'static str,
    heap: HeapUnderTest,
    list: &'static str,
    /// What the ledger alone finds at the list's last call; none if only the
    /// slow heap can tell.
    broken: Option<Broken>,
}

fn wrong_heaps() -> Vec<Wrong> {
    let mut all = wrong_barriers_and_births();
    all.extend(wrong_sweeps());
    all.extend(wrong_orders_of_sweeps());
    all.extend(wrong_sweeps_of_allocations());
    all.extend(empty_promises());
    all
}

fn wrong(
    name: &'static str,
    heap: HeapUnderTest,
    list: &'static str,
    broken: Option<Broken>,
) -> Wrong {
    Wrong { name, heap, list, broken }
}

fn wrong_barriers_and_births() -> Vec<Wrong> {
    let audit = Some(Broken::Audit);
    vec![
        wrong(
            "shades only the new value",
            apply_with_fault::<SHADE_ONLY_NEW>,
            "H 1/O 0/A 0 0 8 1/P 0 0 0/T/C 0/O 0/G 0 0 0/P 0 0 1/Q/F",
            audit,
        ),
        wrong(
            "shades only the new value of a record",
            apply_with_fault::<SHADE_ONLY_NEW>,
            "H 1/O 0/A 0 0 8 1/A 0 1 8 1/S 0 0 0 1/P 0 0 0/Z 0 1/Z 0 0/T/K 0/G 0 0 0/L 0 1 0 0/\
             S 0 0 0 5/Q/N/F",
            audit,
        ),
        wrong(
            "shades only the old value",
            apply_with_fault::<SHADE_ONLY_OLD>,
            "H 1/O 0/A 0 0 8 1/T/Q/P 0 0 0/Z 0 0/K 0/F",
            audit,
        ),
        wrong(
            "allocates white in the mark phase",
            apply_with_fault::<ALLOCATE_WHITE>,
            "H 1/O 0/T/K 0/A 0 0 8 0/Q/F",
            audit,
        ),
        wrong(
            "allocates in an unswept span",
            apply_with_fault::<ALLOCATE_IN_UNSWEPT>,
            "H 2/O 0/A 0 0 8 0/T/K 0/Q/F/A 0 1 8 0",
            audit,
        ),
    ]
}

fn wrong_sweeps() -> Vec<Wrong> {
    vec![
        wrong(
            "leaves freed pointer bits",
            apply_with_fault::<KEEP_POINTER_BITS>,
            "H 1/O 0/A 0 0 16 2/A 0 1 16 1/Z 0 0/T/K 0/Q/N/F/E",
            Some(Broken::Audit),
        ),
        wrong(
            "leaves old words in a reused element",
            apply_with_fault::<KEEP_OLD_WORDS>,
            "H 1/O 0/A 0 0 8 0/W 0 0 0 5/Z 0 0/T/K 0/Q/F/E/E/A 0 0 8 0",
            Some(Broken::RecordWord(8192)),
        ),
        wrong(
            "returns pages while one marked element remains",
            apply_with_fault::<RETURN_PAGES_EARLY>,
            "H 1/O 0/A 0 0 8 0/A 0 1 8 0/Z 0 0/T/K 0/Q/F/E",
            Some(Broken::NotAllocated(8200)),
        ),
    ]
}

/// Allocations that sweep other spans than they should, or in another order,
/// or look for pages at another time. The ledger cannot tell.
fn wrong_orders_of_sweeps() -> Vec<Wrong> {
    vec![
        wrong(
            "sweeps spans of other kinds first",
            apply_with_fault::<SWEEP_ANY_KIND>,
            "H 2/O 0/A 0 0 4096 0/A 0 1 8 0/T/K 0/Q/F/A 0 2 8 0",
            None,
        ),
        wrong(
            "sweeps one span of the kind and no more",
            apply_with_fault::<SWEEP_ONE_OF_KIND>,
            "H 3/O 0/A 0 0 8192 0/A 0 1 4096 0/A 0 2 4096 0/A 0 3 4096 0/T/K 0/Q/F/A 0 4 4096 0",
            None,
        ),
        wrong(
            "looks for pages before it sweeps the kind",
            apply_with_fault::<PAGES_BEFORE_KIND>,
            "H 2/O 0/A 0 0 8 0/T/K 0/Q/F/A 0 1 8 0",
            None,
        ),
        wrong(
            "does not sweep large spans first for a large record",
            apply_with_fault::<LARGE_SKIPS_KIND>,
            "H 6/O 0/A 0 0 8 0/A 0 1 40960 0/Z 0 1/T/K 0/Q/F/A 0 2 40960 0",
            None,
        ),
        wrong(
            "sweeps all the rest before it looks for pages",
            apply_with_fault::<LOOK_ONCE_AFTER_ALL>,
            "H 2/O 0/A 0 0 4096 0/A 0 1 4096 1/Z 0 0/T/K 0/Q/N/F/A 0 2 8 0",
            None,
        ),
        wrong(
            "does not see free pages before the returned ones",
            apply_with_fault::<LOOK_AFTER_RETURNED>,
            "H 2/O 0/A 0 0 8192 0/A 0 1 8192 0/Z 0 0/Z 0 1/T/K 0/Q/F/A 0 2 16384 0",
            None,
        ),
    ]
}

/// Allocations that sweep at the wrong time or leave something half done.
fn wrong_sweeps_of_allocations() -> Vec<Wrong> {
    vec![
        wrong(
            "gives out an element of returned pages",
            apply_with_fault::<GIVE_RETURNED>,
            "H 1/O 0/A 0 0 8192 1/Z 0 0/T/K 0/Q/F/A 0 0 8192 1",
            Some(Broken::Audit),
        ),
        wrong(
            "gives out a freed element and leaves its span unswept",
            apply_with_fault::<LEAVE_SPAN_UNSWEPT>,
            "H 1/O 0/A 0 0 4096 0/A 0 1 4096 0/Z 0 0/T/K 0/Q/F/A 0 0 4096 0",
            Some(Broken::Audit),
        ),
        wrong(
            "refuses what never fits without a sweep",
            apply_with_fault::<REFUSE_UNSWEPT>,
            "H 1/O 0/A 0 0 8 0/T/K 0/Q/F/A 0 1 16384 0",
            Some(Broken::LeftUnswept(0)),
        ),
        wrong(
            "sweeps before the size is tested",
            apply_with_fault::<SWEEP_BEFORE_SIZE>,
            "H 1/O 0/A 0 0 8 0/T/K 0/Q/F/A 0 1 0 0",
            Some(Broken::RefusalChanged(5)),
        ),
        wrong(
            "ends the cycle with its last sweep",
            apply_with_fault::<END_CYCLE>,
            "H 1/O 0/A 0 0 8192 1/Z 0 0/T/K 0/Q/F/A 0 0 8192 1",
            Some(Broken::Phase(0)),
        ),
    ]
}

/// Calls that answer without doing their work, or the other way round.
fn empty_promises() -> Vec<Wrong> {
    vec![
        wrong("always says 9", always_no_room, "H 1/O 0/A 0 0 8 0", None),
        wrong(
            "always answers 8192",
            always_8192,
            "H 1/O 0/A 0 0 8 0/A 0 1 8 0",
            Some(Broken::Root(1)),
        ),
        wrong(
            "sweep does nothing",
            sweep_does_nothing,
            "H 1/O 0/A 0 0 8 0/Z 0 0/T/K 0/Q/F/E",
            Some(Broken::NotFreed(8192)),
        ),
        wrong(
            "start marks everything",
            start_marks_everything,
            "H 1/O 0/A 0 0 8 0/Z 0 0/T/K 0/Q/F/E/E",
            Some(Broken::NotFreed(8192)),
        ),
        wrong("scan with an invented count", invented_count, "H 1/O 0/T/K 0", None),
    ]
}

/// The P of a list that starts with H.
fn pages_of(list: &str) -> u64 {
    list[2..3].parse().unwrap()
}

#[test]
fn right_heap_passes_the_lists() {
    for Wrong { name, list, .. } in wrong_heaps() {
        let pages = pages_of(list);
        let mut harness = Harness::new(Owned::zero(pages), apply);
        assert_eq!(harness.list(&calls(pages, list)), Ok(()), "{name}");
    }
}

#[test]
fn ledger_catches_wrong_heaps() {
    for Wrong { name, heap, list, broken } in wrong_heaps() {
        let pages = pages_of(list);
        let calls = calls(pages, list);
        let mut harness = Harness::ledger_only(Owned::zero(pages), heap);
        let expected = match broken {
            Some(broken) => Err((calls.len() - 1, Caught::Ledger(broken))),
            None => Ok(()),
        };
        assert_eq!(harness.list(&calls), expected, "{name}");
    }
}

#[test]
fn slow_heap_catches_wrong_heaps() {
    for Wrong { name, heap, list, .. } in wrong_heaps() {
        let pages = pages_of(list);
        let mut harness = Harness::new(Owned::zero(pages), heap);
        let caught = harness.list(&calls(pages, list));
        println!("{name}: {caught:?}");
        assert!(caught.is_err(), "{name}");
    }
}

/// How many random lists it takes until the heap is caught, by the ledger where
/// that can tell.
fn lists_until_caught(wrong: &Wrong, random: &mut Random, most: u64) -> Option<(u64, Caught)> {
    for list in 1..=most {
        let pages = random.pick(&[1, 1, 2, 3, 7]);
        let mut maker = CallMaker::new(random, pages);
        let mut harness = match wrong.broken {
            Some(_) => Harness::ledger_only(Owned::random(pages, random), wrong.heap),
            None => Harness::beside_right_heap(Owned::random(pages, random), wrong.heap),
        };
        let mut call = Call::Setup { pages };
        for _ in 0..300 {
            if let Err(caught) = harness.step(&call) {
                return Some((list, caught));
            }
            call = maker.next(random, &harness.owned.roots);
        }
    }
    None
}

#[test]
fn random_lists_catch_wrong_heaps() {
    let mut random = Random::new(seed(5));
    for wrong in wrong_heaps() {
        let caught = lists_until_caught(&wrong, &mut random, times(2000));
        println!("{}: {caught:?}", wrong.name);
        assert!(caught.is_some(), "{}", wrong.name);
    }
}

/// An allocation may only say 9 where a search by hand, with all its sweeps,
/// finds no place, and has to give the place that the search finds.
#[test]
fn no_room_means_no_room() {
    let mut random = Random::new(seed(9));
    let mut refused = 0;
    for _ in 0..times(300) {
        let pages = random.pick(&[1, 2, 5, 11]);
        let mut maker = CallMaker::new(&mut random, pages);
        let mut owned = Owned::zero(pages);
        let mut call = Call::Setup { pages };
        for _ in 0..200 {
            let mut before = owned.clone();
            let answer = apply(&call, owned.lend());
            if let Call::Allocate { size, pointers, .. } = call {
                let mut place = || place_for(&mut before, size, pointers).map(|(word, _)| word);
                match answer {
                    Ok([address, ..]) => {
                        assert_eq!(place(), Some((address as usize - 8192) / 8));
                    }
                    Err(Refusal::NoRoom) => {
                        assert_eq!(place(), None);
                        refused += 1;
                    }
                    Err(_) => {}
                }
            }
            call = maker.next(&mut random, &owned.roots);
        }
    }
    assert!(refused > 100, "{refused}");
}
