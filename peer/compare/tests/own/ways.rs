//! The ways of allocations: each is told from the others on a list made for it,
//! and random lists take them all, here with the plain heap on both sides.

use compare::lists::{run_list, Visits};
use compare::memory::{lengths, Memory};
use compare::pair::Pair;
use compare::proved::{numbers_of, Numbers};
use compare::ways::{Before, Way, WAYS};
use peer::trace::{call_of, read_line};
use peer::{apply, Buffers, Call};

fn plain(call: &Call, lent: Buffers<'_>) -> Numbers {
    numbers_of(apply(call, lent))
}

/// The ways of the last call of a list, which is written as trace lines with
/// slashes between them.
fn ways(pages: u64, list: &str) -> Vec<Way> {
    let mut memory = Memory::new(pages);
    let mut ways = Vec::new();
    for line in list.split('/') {
        let call = read_line(line.as_bytes()).and_then(|line| call_of(pages, &line)).unwrap();
        let before = Before::new(&memory.lend(lengths(pages)));
        let answer = plain(&call, memory.lend(lengths(pages)));
        ways = before.ways(&call, &answer, memory.lend(lengths(pages)).table);
    }
    ways
}

/// A list that fills pages and finishes, and one more allocation.
fn after_finish(pages: u64, fill: &str, allocation: &str) -> Vec<Way> {
    let mark = "/N".repeat(pages as usize);
    ways(pages, &format!("H {pages}/O 0/{fill}/T/K 0/Q{mark}/F/{allocation}"))
}

#[test]
fn ways_in_spans_of_the_kind() {
    let fill = "A 0 0 4096 0/A 0 1 4096 0/A 0 2 4096 0";
    let swept = after_finish(2, fill, "E/E/A 0 9 4096 0");
    assert_eq!(swept, [Way::SweptSpan]);
    let first = after_finish(1, "A 0 0 4096 0", "A 0 9 4096 0");
    assert_eq!(first, [Way::FirstOfKind]);
    let freed = after_finish(2, &format!("{fill}/Z 0 1"), "A 0 9 4096 0");
    assert_eq!(freed, [Way::FirstOfKind, Way::FreedElement]);
    let after_full = after_finish(2, fill, "A 0 9 4096 0");
    assert_eq!(after_full, [Way::LaterOfKind]);
    let after_returned = after_finish(2, &format!("{fill}/Z 0 0/Z 0 1"), "A 0 9 4096 0");
    assert_eq!(after_returned, [Way::LaterOfKind]);
}

#[test]
fn ways_on_pages() {
    let fill = "A 0 0 8192 0/A 0 1 8192 0/Z 0 0";
    assert_eq!(after_finish(3, fill, "A 0 9 8 0"), [Way::PagesAtOnce]);
    assert_eq!(after_finish(2, fill, "A 0 9 8 0"), [Way::PagesAfterOther, Way::FreedElement]);
    let of_kind = [Way::PagesAfterKind, Way::FreedElement, Way::ReturnedPages];
    assert_eq!(after_finish(2, fill, "A 0 9 8192 0"), of_kind);
    assert_eq!(after_finish(2, "A 0 0 8192 0", "A 0 9 8192 0"), [Way::PagesAfterKind]);
    let all = "A 0 0 8192 0/A 0 1 8192 0/Z 0 0/Z 0 1";
    let several = [Way::PagesAfterOthers, Way::FreedElement];
    assert_eq!(after_finish(2, all, "A 0 9 16384 0"), several);
    // The kind's own span is kept, the other kind's is returned.
    let other = "A 0 0 8192 0/A 0 1 4096 0/Z 0 1";
    let other = after_finish(2, other, "A 0 9 8192 0");
    assert_eq!(other, [Way::PagesAfterOther, Way::FreedElement]);
}

#[test]
fn ways_of_large_records() {
    let large = "A 0 0 8 0/A 0 1 40960 0/A 0 2 40960 0/Z 0 0/Z 0 1";
    let sweeps = [Way::LargeAfterSweeps, Way::FreedElement, Way::ReturnedPages];
    let after_kind = after_finish(11, large, "A 0 9 40960 0");
    assert_eq!(after_kind, [&[Way::PagesAfterKind], &sweeps[..]].concat());
    // The run begins with a page of another kind.
    let after_other = after_finish(11, large, "A 0 9 49152 0");
    assert_eq!(after_other, [&[Way::PagesAfterOther], &sweeps[..]].concat());
    let one_sweep = after_finish(6, "A 0 0 40960 0/Z 0 0", "A 0 9 40960 0");
    assert_eq!(one_sweep, [Way::PagesAfterKind, Way::FreedElement, Way::ReturnedPages]);
}

#[test]
fn ways_of_no_room() {
    let fill = "A 0 0 8192 0";
    assert_eq!(after_finish(1, fill, "A 0 9 8 0"), [Way::NoRoomAfterSweeps]);
    assert_eq!(after_finish(1, fill, "E/A 0 9 8 0"), [Way::NoRoomAllSwept]);
    assert_eq!(after_finish(1, fill, "E/E/A 0 9 8 0"), [Way::NoRoomOtherPhase]);
    assert_eq!(ways(1, "H 1/O 0/T/A 0 0 16384 0"), [Way::NoRoomOtherPhase]);
}

#[test]
fn other_calls_take_no_way() {
    let fill = "A 0 0 8192 0";
    for call in ["E", "A 0 9 0 0", "A 1 9 8 0", "Z 0 0"] {
        assert_eq!(after_finish(1, fill, call), [], "{call}");
    }
    assert_eq!(ways(1, "H 1/O 0/A 0 0 8 0"), []);
}

#[test]
fn random_lists_take_every_way() {
    let pair = Pair { plain, proved: plain };
    let mut visits = Visits::default();
    for list in 0.. {
        assert!(run_list(6, list, &pair, &mut visits).is_ok());
        if visits.calls > 200_000 {
            break;
        }
    }
    let rare = WAYS.map(|(way, name)| (visits.ways.of(way), name)).into_iter().min();
    assert!(visits.ways.all_taken(3), "{rare:?}");
}
