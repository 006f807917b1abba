//! Cases with known answers: the class table and the sizes around its steps,
//! the search for pages, full spans, field ranges, the life of a stack, wrong
//! buffers, and the order in which refusals are tested. The cases of allocations
//! that sweep are in `cases/sweeps.rs`.

mod common;
#[path = "cases/sweeps.rs"]
mod sweeps;

use common::slow::{self, printed_rows};
use common::{calls, every_call, refusal, Harness, Owned};
use peer::classes::{class_of, element_words, span_pages, Kind};
use peer::classes::{CLASSES, COARSE_CLASSES, FINE_CLASSES};
use peer::{Answer, Call};

/// Carries calls out under all checks; gives the answer of the last.
fn last_answer(owned: Owned, text: &str) -> Answer {
    let pages = owned.pages();
    let mut harness = Harness::new(owned, peer::apply);
    let mut last = Ok([0; 3]);
    for call in calls(pages, text) {
        last = harness.step(&call).unwrap_or_else(|caught| panic!("{call:?}: {caught:?}"));
    }
    last
}

fn answers(pages: u64, text: &str) -> Vec<u64> {
    let mut harness = Harness::new(Owned::zero(pages), peer::apply);
    let mut numbers = Vec::new();
    for call in calls(pages, text) {
        let answer = harness.step(&call).unwrap_or_else(|caught| panic!("{call:?}: {caught:?}"));
        numbers.push(answer.map_or_else(|refusal| refusal.number(), |values| values[0]));
    }
    numbers
}

#[test]
fn class_table_is_the_printed_one() {
    assert_eq!(printed_rows().len(), 66);
    for (row, printed) in CLASSES.iter().zip(printed_rows()) {
        let &[class, element, span, objects, waste] = printed;
        assert_eq!((row.element_bytes, row.span_bytes), (element, span), "class {class}");
        assert_eq!((span / element, span % element), (objects, waste), "class {class}");
        assert_eq!((element % 8, span % 8192), (0, 0), "class {class}");
    }
    assert!(CLASSES.windows(2).all(|pair| pair[0].element_bytes < pair[1].element_bytes));
}

#[test]
fn element_starts_are_the_elements() {
    for &[class, element, span, objects, _] in printed_rows() {
        let kind = Kind::from_number(2 * class as u32).unwrap();
        let start = peer::layout::Page::new(0);
        let pages = (span / 8192) as usize;
        let starts = peer::classes::Span { start, pages, kind, unswept: false }.element_starts();
        let is_start = |word: u64| starts[word as usize / 64] >> (word % 64) & 1 == 1;
        for word in 0..64 * starts.len() as u64 {
            let index = word / (element / 8);
            let expected = word % (element / 8) == 0 && index < objects;
            assert_eq!(is_start(word), expected, "class {class} word {word}");
        }
    }
}

#[test]
fn sizes_take_their_classes() {
    let cases = [(16, 2), (17, 3), (32, 3), (1024, 31), (1025, 32), (32_768, 66)];
    for (size, class) in cases {
        assert_eq!(class_of(size), class, "size {size}");
    }
    assert_eq!((class_of(32_769), span_pages(32_769)), (0, 5));
    assert_eq!((class_of(1_048_576), span_pages(1_048_576)), (0, 128));
    assert_eq!(Kind::of_record(17, 1).number(), 6);
    assert_eq!(Kind::of_record(17, 0).number(), 7);
    for size in 1..=32_768 {
        let row = printed_rows().iter().find(|row| row[1] >= size).unwrap();
        assert_eq!(class_of(size) as u64, row[0], "size {size}");
        assert_eq!(element_words(size) as u64, row[1] / 8, "size {size}");
        assert_eq!(span_pages(size) as u64, row[2] / 8192, "size {size}");
    }
    for size in 32_769..=1_048_576 {
        assert_eq!((class_of(size), span_pages(size)), (0, size.div_ceil(8192) as usize));
    }
}

#[test]
fn lookup_entries_are_the_classes_of_their_sizes() {
    assert_eq!((FINE_CLASSES.len(), COARSE_CLASSES.len()), (129, 249));
    let fine = (1..=127).map(|entry| (FINE_CLASSES[entry], entry as u64 * 8, 8));
    let middle = (COARSE_CLASSES[0], 1024, 8);
    let coarse = (1..=248).map(|entry| (COARSE_CLASSES[entry], 1024 + entry as u64 * 128, 128));
    // Each used entry, the largest size that uses it, and how many sizes do.
    for (class, largest, sizes) in fine.chain([middle]).chain(coarse) {
        for size in largest - sizes + 1..=largest {
            let row = printed_rows().iter().find(|row| row[1] >= size).unwrap();
            assert_eq!(u64::from(class), row[0], "size {size}");
        }
    }
}

/// Seven pages where pages 3 and 4 are taken: free runs are 0 to 2 and 5 to 6.
fn two_free_runs() -> Owned {
    let mut owned = Owned::after(7, "H 7/O 0");
    owned.table[9..15].copy_from_slice(&[4, 1, 101, 5, 1, 101]);
    owned.bitmaps[16 * 3] = 1;
    owned.bitmaps[16 * 4] = 1;
    assert!(owned.audit());
    owned
}

#[test]
fn pages_come_from_the_shortest_run() {
    for (size, start) in [(8192, 5), (16_384, 5), (24_576, 0)] {
        let call = Call::Allocate { pages: 7, stack: 0, slot: 0, size, pointers: 0 };
        let mut owned = two_free_runs();
        let answer = peer::apply(&call, owned.lend());
        assert_eq!(answer, Ok([8192 + 8192 * start, 0, 0]), "size {size}");
        assert_eq!(slow::predict(&call, &two_free_runs()).1, owned);
    }
    let call = Call::Allocate { pages: 7, stack: 0, slot: 0, size: 32_768, pointers: 0 };
    assert_eq!(refusal(&peer::apply(&call, two_free_runs().lend())), 9);
}

#[test]
fn among_equal_runs_the_lowest_is_taken() {
    // Pages 0 and 2 become free, page 1 stays.
    let text = "H 3/O 0/A 0 0 8192 0/A 0 1 8192 0/A 0 2 8192 0/Z 0 0/Z 0 2/T/K 0/Q/F/E/E/E/E/\
                A 0 3 8 0";
    assert_eq!(last_answer(Owned::zero(3), text), Ok([8192, 0, 0]));
}

#[test]
fn known_cases() {
    assert_eq!(answers(1, "H 1/O 0/A 0 0 17 3")[2], 5);
    assert_eq!(answers(1, "H 1/O 0/A 0 0 17 2")[2], 8192);
    let mut large = Owned::zero(257);
    assert_eq!(refusal(&peer::apply(&Call::Setup { pages: 257 }, large.lend())), 1);
    let mut largest = Owned::zero(256);
    assert_eq!(refusal(&peer::apply(&Call::Setup { pages: 256 }, largest.lend())), 0);
}

#[test]
fn full_spans() {
    let fill = |size: u64, pointers: u64, count: usize| {
        let line = format!("/A 0 0 {size} {pointers}");
        answers(1, &format!("H 1/O 0{}", line.repeat(count)))
    };
    let numbers = fill(8, 1, 1025);
    assert_eq!(numbers[1025], 8192 + 8 * 1023);
    assert_eq!(numbers[1026], 9);
    let numbers = fill(48, 0, 171);
    assert_eq!(numbers[171], 8192 + 8112);
    assert_eq!(numbers[172], 9);
}

#[test]
fn fields_of_a_record() {
    // p = 2 in an element of four words.
    let text = "H 1/O 0/A 0 0 17 2/L 0 1 0 1/L 0 1 0 2/W 0 0 1 5/W 0 0 2 5/R 0 0 2/W 0 0 3 6/\
                R 0 0 3/W 0 0 4 7/R 0 0 4/S 0 0 1 0/S 0 0 2 0/L 0 1 0 1";
    let expected = [0, 0, 8192, 0, 7, 7, 0, 5, 0, 6, 7, 7, 0, 7, 8192];
    assert_eq!(answers(1, text), expected);
    // Where pointer words fill the element there is no number, and the runs of
    // neighbours touch.
    let text = "H 1/O 0/A 0 0 16 2/A 0 1 16 2/R 0 0 2/R 0 0 1/W 0 0 2 1/L 0 2 0 1/L 0 2 0 2";
    assert_eq!(answers(1, text), [0, 0, 8192, 8208, 7, 7, 7, 0, 7]);
}

#[test]
fn nil_is_only_asked_of_the_record() {
    let text = "H 1/O 0/A 0 0 8 1/M 0 1 2/S 0 0 0 5/P 0 0 5/G 0 1 0/L 0 1 2 0/S 0 2 0 0/W 0 2 0 0/\
                R 0 2 0/Z 0 2";
    assert_eq!(answers(1, text), [0, 0, 8192, 0, 0, 0, 0, 6, 6, 6, 6, 0]);
}

/// The scope's refusal 8, sweep first, is gone with request 2. No case of the
/// scope's table and no line of its whole case has an 8; this list had two, for
/// its first allocations in the sweep phase. They now are 9 and leave the span
/// swept, so that the sweep step after them ends the cycle.
#[test]
fn no_room_where_8_was() {
    let text = "H 1/O 0/A 0 0 8192 0/T/K 0/Q/F/A 0 1 8 0/A 0 1 1048576 0/E/A 0 1 8 0/E/A 0 1 8 0";
    assert_eq!(answers(1, text), [0, 0, 8192, 0, 1, 0, 0, 9, 9, 0, 9, 2, 9]);
}

#[test]
fn stacks_open_and_close_in_every_phase() {
    // A stack that is opened while marking is not gray.
    let text = "H 1/O 0/O 0/A 0 0 8 0/T/C 0/C 0/O 0/K 0/O 1/Q/F/O 2/C 2/E/E/C 1";
    assert_eq!(answers(1, text), [0, 0, 3, 8192, 0, 0, 3, 0, 0, 0, 0, 0, 0, 0, 1, 0, 0]);
}

#[test]
fn phases_of_the_cycle_calls() {
    let off = "H 1/O 0/K 0/Q/N/F/E";
    assert_eq!(answers(1, off)[2..], [2, 2, 2, 2, 2]);
    let mark = "H 1/O 0/T/T/E/F/K 0/F/Q/N/K 0/Q";
    assert_eq!(answers(1, mark)[3..], [2, 2, 10, 0, 10, 0, 0, 0, 0]);
    let sweep = "H 1/O 0/T/K 0/Q/F/T/K 0/Q/N/F/K 16";
    assert_eq!(answers(1, sweep)[6..], [2, 2, 2, 2, 2, 2]);
}

#[test]
fn gray_records_hold_the_finish_up() {
    let text = "H 1/O 0/A 0 0 8 1/T/K 0/Q/F/N/F";
    assert_eq!(answers(1, text), [0, 0, 8192, 0, 1, 0, 10, 8192, 0]);
}

#[test]
fn wrong_buffers_are_refused_first() {
    let good = Owned::after(2, "H 2/O 0/A 0 0 17 1");
    let mut wrong = Vec::new();
    for change in [-1isize, 1] {
        let length = |length: usize| (length as isize + change) as usize;
        for buffer in 0..4 {
            let mut owned = good.clone();
            match buffer {
                0 => owned.arena.resize(length(2048), 0),
                1 => owned.table.resize(length(6), 0),
                2 => owned.bitmaps.resize(length(128), 0),
                _ => owned.roots.resize(length(562), 0),
            }
            wrong.push((2, owned));
        }
    }
    let empty = Owned { arena: vec![], table: vec![], bitmaps: vec![], roots: vec![] };
    wrong.push((2, empty.clone()));
    wrong.push((0, empty));
    for pages in [0, 1, 3, 256, 257, 1 << 32, (1 << 32) + 2, (1 << 63) + 2, u64::MAX] {
        wrong.push((pages, good.clone()));
    }
    for (pages, owned) in wrong {
        for call in every_call(pages) {
            let mut after = owned.clone();
            assert_eq!(refusal(&peer::apply(&call, after.lend())), 1, "{call:?}");
            assert_eq!(after, owned, "{call:?}");
        }
    }
}

#[test]
fn all_zero_buffers_are_damaged() {
    for call in every_call(1).into_iter().skip(1) {
        let mut owned = Owned::zero(1);
        assert_eq!(refusal(&peer::apply(&call, owned.lend())), 12);
        assert_eq!(owned, Owned::zero(1));
    }
}

#[test]
fn setup_leaves_the_arena_alone() {
    let mut owned = Owned::zero(2);
    owned.arena.fill(9);
    owned.table.fill(9);
    owned.bitmaps.fill(9);
    owned.roots.fill(9);
    assert_eq!(peer::apply(&Call::Setup { pages: 2 }, owned.lend()), Ok([0; 3]));
    let mut expected = Owned::zero(2);
    expected.arena.fill(9);
    expected.roots[560] = 1;
    assert_eq!(owned, expected);
    assert!(owned.audit());
}

/// Slot 0 of stack 0 names a record with p = 1, slot 1 is nil.
const PAIRS: [(&str, u64); 30] = [
    ("A 16 32 0 1", 3),
    ("A 1 32 0 1", 3),
    ("A 0 32 0 1", 4),
    ("A 0 0 0 1", 5),
    ("A 0 0 1048577 0", 5),
    ("A 0 0 1048576 131073", 5),
    ("A 0 0 1048576 131072", 9),
    ("M 16 32 0", 3),
    ("M 1 0 32", 3),
    ("M 0 32 0", 4),
    ("M 0 0 4294967296", 4),
    ("Z 4294967296 32", 3),
    ("L 16 32 1 9", 3),
    ("L 0 32 1 9", 4),
    ("L 0 0 32 9", 4),
    ("L 0 0 1 9", 6),
    ("L 0 0 0 1", 7),
    ("S 16 1 9 32", 3),
    ("S 0 1 9 32", 4),
    ("S 0 32 9 1", 4),
    ("S 0 1 9 0", 6),
    ("S 0 0 9 0", 7),
    ("W 0 1 0 0", 6),
    ("W 0 0 0 0", 7),
    ("R 0 32 99 ", 4),
    ("R 0 1 99", 6),
    ("R 0 0 18446744073709551615", 7),
    ("G 16 0 32", 3),
    ("G 0 0 32", 4),
    ("P 0 32 99", 4),
];

#[test]
fn refusals_are_tested_in_order() {
    for (line, expected) in PAIRS {
        let text = format!("H 1/O 0/A 0 0 17 1/{}", line.trim_end());
        assert_eq!(answers(1, &text)[3], expected, "{line}");
    }
    // Damage is seen before a wrong phase or a bad stack, wrong buffers before
    // damage, and a wrong phase before a bad stack.
    let mut damaged = Owned::after(1, "H 1/O 0");
    damaged.roots[512] = 1;
    for (pages, expected) in [(1, 12), (2, 1)] {
        for text in ["K 16", "E", "A 16 32 0 1", "F"] {
            let call = calls(pages, text)[0];
            assert_eq!(refusal(&peer::apply(&call, damaged.clone().lend())), expected);
        }
    }
    assert_eq!(answers(1, "H 1/K 16")[1], 2);
    assert_eq!(answers(1, "H 1/T/K 16")[2], 3);
}

/// Calls whose numbers run over legal and illegal ones in every combination.
fn combinations() -> Vec<Call> {
    let mut all = Vec::new();
    let numbers: [&[u64]; 4] = [&[0, 1, 16], &[0, 1, 32], &[0, 1, 32], &[0, 1, 4, 1 << 32]];
    for &a in numbers[0] {
        for &b in numbers[1] {
            for &c in numbers[2] {
                for &d in numbers[3] {
                    let lines = ["A", "L", "S", "W"].map(|l| format!("{l} {a} {b} {c} {d}"));
                    let short = ["M", "G", "P"].map(|l| format!("{l} {a} {b} {c}"));
                    let read = format!("R {a} {b} {d}/Z {a} {b}/O {a}/C {a}/K {a}/T/Q/N/F/E");
                    let text = format!("{}/{}/{read}", lines.join("/"), short.join("/"));
                    all.extend(calls(1, &text));
                }
            }
        }
    }
    all
}

#[test]
fn every_combination_of_faults_agrees_with_the_slow_heap() {
    let heaps = [
        "H 1/O 0/A 0 0 32 1",
        "H 1/O 0/A 0 0 8192 3/T",
        "H 1/O 0/A 0 0 32 1/T/K 0",
        "H 1/O 0/A 0 0 32 1/T/K 0/Q/N",
        "H 1/O 0/A 0 0 8192 1/T/K 0/Q/N/F",
        "H 1/O 0/A 0 0 32 1/T/K 0/Q/N/F/E",
    ];
    let calls = combinations();
    for text in heaps {
        let before = Owned::after(1, text);
        for call in &calls {
            let mut after = before.clone();
            let answer = peer::apply(call, after.lend()).map_err(|refusal| refusal.number());
            assert_eq!((answer, after), slow::predict(call, &before), "{text}: {call:?}");
        }
    }
}
