//! Damaged buffers: for each clause of the audit a heap that breaks it, and
//! random damage of heaps that random lists have built. The audit has to agree
//! with the slow one, and every call on a damaged heap answers 12 and changes
//! nothing.

mod common;

use std::collections::HashMap;

use common::slow::{self, broken_clause};
use common::{every_call, refusal, seed, times, Owned};
use peer::random::{CallMaker, Random};
use peer::Call;

/// Two scan records (p = 1 and p = 4, elements of four words) on page 0, a
/// noscan record of 48 bytes on page 1, page 2 free, and global 0 names the
/// first. In `MARK` and `SWEEP` the third record is garbage.
const OFF: &str = "H 3/O 0/A 0 0 17 1/A 0 1 32 4/A 0 2 48 0/S 0 1 2 0/P 0 0 0/Z 0 2";
const MARK: &str = "/T/K 0/Q";
const SWEEP: &str = "/T/K 0/Q/N/N/F";

fn heap(rest: &str) -> Owned {
    let mut owned = Owned::after(3, &format!("{OFF}{rest}"));
    assert!(owned.audit());
    owned
}

/// The place of bitmap word `word` of a part, with P = 3.
fn part(part: usize, word: usize) -> usize {
    48 * part + word
}

type Damage = fn(&mut Owned);

/// Clause, heap, damage.
const DAMAGES: &[(&str, &str, Damage)] = &[
    ("phase has a legal value", "", |o| o.roots[561] = 3),
    ("phase has a legal value", "", |o| o.roots[561] = u64::MAX),
    ("states have legal values", MARK, |o| o.roots[544] = 3),
    ("states have legal values", "", |o| o.roots[559] = 1 << 32),
    ("states have legal values", "", |o| o.roots[560] = 0),
    ("states have legal values", MARK, |o| o.roots[560] = 3),
    ("a state of 2 only in phase mark", "", |o| o.roots[544] = 2),
    ("a state of 2 only in phase mark", "", |o| o.roots[560] = 2),
    ("a state of 2 only in phase mark", SWEEP, |o| o.roots[544] = 2),
    ("kinds are legal", "", |o| o.table[2] = 134),
    ("kinds are legal", SWEEP, |o| o.table[2] = 256 + 134),
    ("kinds are legal", SWEEP, |o| o.table[2] += 512),
    ("kinds are legal", "", |o| o.table[2] = u32::MAX),
    ("the page count is the class's", "", |o| o.table[1] = 2),
    ("the page count is the class's", "", |o| o.table[1] = 0),
    ("the page count is the class's", "", |o| o.table[1] = u32::MAX),
    ("the page count is the class's", "", |o| o.table[2] = 68),
    ("the page count is the class's", "", |o| (o.table[2], o.table[1]) = (0, 4)),
    ("the page count is the class's", "", |o| (o.table[2], o.table[1]) = (1, 129)),
    ("spans lie inside the arena", "", |o| (o.table[2], o.table[1]) = (0, 5)),
    ("spans lie inside the arena", "", |o| (o.table[2], o.table[1]) = (1, 128)),
    ("spans lie inside the arena", "", |o| o.table[6..].copy_from_slice(&[3, 2, 68])),
    ("unswept only in phase sweep", "", |o| o.table[2] += 256),
    ("unswept only in phase sweep", MARK, |o| o.table[5] += 256),
    ("further pages are as said", "", |o| (o.table[1], o.table[2]) = (2, 68)),
    ("further pages are as said", "", |o| o.table.copy_from_slice(&[1, 2, 68, 1, 0, 1, 0, 0, 0])),
    ("further pages are as said", "", |o| o.table.copy_from_slice(&[1, 2, 68, 1, 1, 0, 0, 0, 0])),
    ("page entries are as said", "", |o| o.table[7] = 1),
    ("page entries are as said", "", |o| o.table[8] = 1),
    ("page entries are as said", "", |o| o.table[6] = 1),
    ("page entries are as said", "", |o| o.table[6] = 2),
    ("page entries are as said", "", |o| o.table[6] = 4),
    ("page entries are as said", "", |o| o.table[6] = u32::MAX),
    ("page entries are as said", "", |o| o.table[0] = 0),
    ("page entries are as said", "", |o| o.table[0] = 2),
    ("page entries are as said", "", |o| o.table[3] = 3),
    ("at least one element per span", "", |o| o.bitmaps[part(0, 16)] = 0),
    ("at least one element per span", "", |o| o.table[6..].copy_from_slice(&[3, 1, 7])),
    ("a first run of at least one word", "", |o| o.bitmaps[part(3, 0)] &= !1),
    ("a first run of at least one word", "", |o| o.bitmaps[part(0, 0)] |= 1 << 8),
    ("a first run of at least one word", SWEEP, |o| o.bitmaps[part(3, 0)] &= !(1 << 4)),
    ("allocated only at elements", "", |o| o.bitmaps[part(0, 0)] |= 1 << 1),
    ("allocated only at elements", "", |o| o.bitmaps[part(0, 32)] |= 1),
    ("allocated only at elements", "", |o| o.bitmaps[part(0, 31)] |= 1 << 60),
    ("allocated only at elements", "", |o| o.bitmaps[part(0, 47)] |= 1 << 63),
    ("marked only where allocated", MARK, |o| o.bitmaps[part(1, 0)] |= 1 << 8),
    ("marked only where allocated", SWEEP, |o| o.bitmaps[part(1, 32)] |= 1),
    ("no marks in phase off", "", |o| o.bitmaps[part(1, 0)] |= 1),
    ("marks only in unswept spans in phase sweep", SWEEP, |o| o.table[2] -= 256),
    ("gray only where marked", MARK, |o| o.bitmaps[part(2, 0)] |= 1 << 8),
    ("gray only where marked", MARK, |o| o.bitmaps[part(2, 40)] |= 1),
    ("gray only where marked", MARK, |o| o.bitmaps[part(2, 16)] |= 1),
    ("gray only in scan spans", MARK, |o| {
        o.bitmaps[part(1, 16)] |= 1;
        o.bitmaps[part(2, 16)] |= 1;
    }),
    ("gray only in phase mark", SWEEP, |o| o.bitmaps[part(2, 0)] |= 1),
    ("pointer bits nowhere else", "", |o| o.bitmaps[part(3, 0)] |= 1 << 2),
    ("pointer bits nowhere else", "", |o| o.bitmaps[part(3, 0)] |= 1 << 8),
    ("pointer bits nowhere else", "", |o| o.bitmaps[part(3, 16)] |= 1),
    ("pointer bits nowhere else", "", |o| o.bitmaps[part(3, 32)] |= 1),
    ("closed stacks are all nil", "", |o| o.roots[32] = 8192),
    ("closed stacks are all nil", "", |o| o.roots[544] = 0),
    ("every root is nil or names a kept element", "", |o| o.roots[31] = 8192 + 64),
    ("every root is nil or names a kept element", SWEEP, |o| o.roots[2] = 8192 + 8192),
    ("every pointer word is nil or names a kept element", "", |o| o.arena[7] = 8192 + 8),
];

#[test]
fn each_clause_is_asked() {
    for (clause, rest, damage) in DAMAGES {
        let mut owned = heap(rest);
        damage(&mut owned);
        assert_eq!(broken_clause(&owned), Some(*clause));
        refused_by_every_call(&owned);
    }
}

/// Changes that keep the heap legal.
const HARMLESS: &[(&str, Damage)] = &[
    ("", |o| o.arena[5] = 8192),
    ("", |o| o.arena[4] = 8192 + 8192),
    ("", |o| o.arena[1] = 12345),
    ("", |o| o.arena[3000] = 1),
    ("", |o| o.bitmaps[part(3, 0)] |= 1 << 1),
    ("", |o| o.roots[3] = 8192 + 32),
    ("", |o| o.roots[550] = 1),
    (MARK, |o| o.roots[544] = 2),
    (MARK, |o| o.bitmaps[part(2, 0)] = 0),
    (SWEEP, |o| o.arena[1024] = 777),
];

#[test]
fn harmless_changes_are_accepted() {
    for (number, (rest, change)) in HARMLESS.iter().enumerate() {
        let mut owned = heap(rest);
        let before = owned.clone();
        change(&mut owned);
        assert_ne!(owned, before, "change {number}");
        assert_eq!(broken_clause(&owned), None, "change {number}");
        assert!(owned.audit(), "change {number}");
    }
}

#[test]
fn pointer_words_of_unkept_elements_may_hold_anything() {
    // In the sweep phase slot 0's record is garbage and still has its run.
    let text = "H 1/O 0/A 0 0 8 1/A 0 1 8 1/Z 0 0/T/K 0/Q/N/F";
    let mut owned = Owned::after(1, text);
    owned.arena[0] = 3;
    assert_eq!(broken_clause(&owned), None);
    assert!(owned.audit());
    owned.arena[1] = 8192;
    assert!(broken_clause(&owned).is_some() && !owned.audit());
}

#[test]
fn pointer_runs_stop_before_the_tail() {
    // The last element of class 4 ends at word 1020.
    let fill = "/A 0 0 48 6".repeat(170);
    let mut owned = Owned::after(1, &format!("H 1/O 0{fill}"));
    assert!(owned.audit());
    owned.bitmaps[48 + 15] |= 1 << 60;
    assert_eq!(broken_clause(&owned), Some("pointer bits nowhere else"));
    refused_by_every_call(&owned);
    owned.bitmaps[48 + 15] = u64::MAX;
    refused_by_every_call(&owned);
}

#[test]
fn roots_outside_the_arena_are_damage() {
    for value in [1, 7, 8, 8191, 8193, 8192 + 4, 3 * 8192 + 8192, u64::MAX, u64::MAX - 7, 1 << 63] {
        for place in [0, 512] {
            let mut owned = heap("");
            owned.roots[place] = value;
            refused_by_every_call(&owned);
        }
        let mut owned = heap("");
        owned.arena[4] = value;
        refused_by_every_call(&owned);
    }
}

fn refused_by_every_call(owned: &Owned) {
    for call in every_call(owned.pages()).into_iter().skip(1) {
        let mut after = owned.clone();
        assert_eq!(refusal(&peer::apply(&call, after.lend())), 12, "{call:?}");
        assert_eq!(after, *owned, "{call:?}");
    }
}

/// A heap somewhere in a random list.
fn random_heap(random: &mut Random, pages: u64) -> Owned {
    let mut maker = CallMaker::new(random, pages);
    let mut owned = Owned::zero(pages);
    let _ = peer::apply(&Call::Setup { pages }, owned.lend());
    for _ in 0..10 + random.below(150) {
        let call = maker.next(random, &owned.roots);
        let _ = peer::apply(&call, owned.lend());
    }
    assert!(owned.audit());
    owned
}

/// One change at a place that the audit looks at, mostly near what is in use.
fn damage(random: &mut Random, owned: &mut Owned) {
    match random.below(6) {
        0 => {
            let place = random.below(owned.table.len() as u64) as usize;
            let near = owned.table[place] ^ random.pick(&[1, 2, 3, 256, 512]);
            let wild = random.wild() as u32;
            owned.table[place] = random.pick(&[near, 0, 1, 2, 5, wild]);
        }
        1 => {
            let place = random.below(562) as usize;
            let near = owned.roots[place].wrapping_add(random.pick(&[1, 4, 8, 16, 32, 8192]));
            let wild = random.wild();
            owned.roots[place] = random.pick(&[near, 0, 1, 2, 3, 8192, wild]);
        }
        2 => {
            let place = 544 + random.below(18) as usize;
            owned.roots[place] = random.below(4);
        }
        3 => {
            let place = random.below(owned.arena.len() as u64).min(random.below(64)) as usize;
            owned.arena[place] = 8192 + 8 * random.below(owned.arena.len() as u64 + 1);
        }
        _ => {
            let part = owned.bitmaps.len() as u64 / 4;
            let word = random.below(part).min(random.below(part)).min(random.below(4) * 16);
            let place = (random.below(4) * part + word) as usize;
            owned.bitmaps[place] ^= 1 << random.below(64).min(random.below(64));
        }
    }
}

#[test]
fn random_damage_is_seen_by_both_audits() {
    let mut random = Random::new(seed(1_009));
    let mut seen: HashMap<&str, u64> = HashMap::new();
    for _ in 0..times(400) {
        let pages = random.pick(&[1, 1, 2, 3, 8]);
        let sound = random_heap(&mut random, pages);
        for _ in 0..40 {
            let mut owned = sound.clone();
            for _ in 0..1 + random.below(2) {
                damage(&mut random, &mut owned);
            }
            let clause = broken_clause(&owned);
            *seen.entry(clause.unwrap_or("none")).or_default() += 1;
            assert_eq!(owned.audit(), clause.is_none(), "{clause:?}");
            let mut maker = CallMaker::new(&mut random, pages);
            for call in [maker.wild_call(&mut random), maker.next(&mut random, &owned.roots)] {
                let mut after = owned.clone();
                let answer = peer::apply(&call, after.lend()).map_err(|refusal| refusal.number());
                assert_eq!((answer, after), slow::predict(&call, &owned), "{call:?}");
            }
            if clause.is_some() && random.chance(50) {
                refused_by_every_call(&owned);
            }
        }
    }
    println!("{seen:#?}");
    // Heaps that the damage left sound belong to the comparison too.
    assert!(seen["none"] > 0 && seen.len() >= 18, "{seen:?}");
}

#[test]
fn any_content_and_any_length() {
    let mut random = Random::new(seed(77));
    for _ in 0..times(3000) {
        let pages = 1 + random.below(3);
        let mut owned = Owned::random(pages, &mut random);
        if random.chance(700) {
            owned.roots.fill_with(|| random.below(3));
            owned.table.fill_with(|| random.below(8) as u32);
            owned.bitmaps.fill_with(|| 0);
        }
        if random.chance(200) {
            owned.arena.truncate(random.below(2000) as usize);
            owned.roots.truncate(random.below(600) as usize);
        }
        let maker = CallMaker::new(&mut random, pages);
        let call = maker.wild_call(&mut random);
        let mut after = owned.clone();
        let answer = peer::apply(&call, after.lend()).map_err(|refusal| refusal.number());
        assert_eq!((answer, after), slow::predict(&call, &owned), "{call:?}");
    }
}
