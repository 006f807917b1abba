//! The random heaps that lists begin on: the plain audit accepts them all, they
//! have spans of every kind, those that are to be swept have unswept ones, and
//! random damage is mostly noticed.

use std::collections::HashSet;

use compare::damage::random_change;
use compare::heaps::{random_heap, unswept_heap};
use compare::memory::{lengths, Memory};
use peer::layout::{ENTRY_NUMBERS, UNSWEPT};
use peer::random::Random;
use peer::{apply, Call};

fn audit(memory: &mut Memory, pages: u64) -> bool {
    apply(&Call::Audit { pages }, memory.lend(lengths(pages))).is_ok()
}

/// The kinds of the spans, from the page table.
fn kinds(memory: &mut Memory, pages: u64) -> Vec<u32> {
    let table = memory.lend(lengths(pages)).table.to_vec();
    let spans = table.chunks_exact(ENTRY_NUMBERS).filter(|entry| entry[1] > 0);
    spans.map(|entry| entry[2]).collect()
}

#[test]
fn random_heaps_are_accepted_and_have_every_kind() {
    let mut random = Random::new(3);
    let mut seen = HashSet::new();
    for _ in 0..2000 {
        let pages = random.pick(&[1, 2, 3, 5, 8, 13, 40, 150]);
        let mut memory = random_heap(&mut random, pages, pages + 1);
        assert!(audit(&mut memory, pages));
        seen.extend(kinds(&mut memory, pages));
    }
    assert!((0..134).all(|kind| seen.contains(&kind)));
    assert!((0..134).all(|kind| seen.contains(&(kind + UNSWEPT))));
}

#[test]
fn unswept_heaps_are_accepted_and_to_be_swept() {
    let mut random = Random::new(5);
    let (mut spans, mut unswept, mut wanted) = (0, 0, 0);
    for _ in 0..500 {
        let pages = random.pick(&[1, 2, 5, 13, 40]);
        let mut memory = unswept_heap(&mut random, pages, pages, &[4096, 24]);
        assert!(audit(&mut memory, pages));
        for kind in kinds(&mut memory, pages) {
            spans += 1;
            unswept += u64::from(kind >= UNSWEPT);
            wanted += u64::from([6, 7, 86, 87].contains(&(kind % UNSWEPT)));
        }
    }
    assert!(unswept > spans * 9 / 10 && wanted > spans / 2, "{spans} {unswept} {wanted}");
}

#[test]
fn random_damage_is_noticed_or_harmless() {
    let mut random = Random::new(4);
    let (mut noticed, mut harmless) = (0, 0);
    for _ in 0..200 {
        let pages = random.pick(&[1, 2, 3, 5, 8]);
        let mut memory = random_heap(&mut random, pages, pages);
        for _ in 0..30 {
            let (place, value) = random_change(&mut random, &memory, pages);
            let old = memory.get(place);
            memory.set(place, value);
            if audit(&mut memory, pages) {
                harmless += 1;
            } else {
                noticed += 1;
            }
            memory.set(place, old);
        }
    }
    assert!(noticed > 1500 && harmless > 500, "{noticed} noticed, {harmless} harmless");
}
