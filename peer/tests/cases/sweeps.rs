//! Allocations that sweep for themselves: which spans are swept and in which
//! order, where the record then lies, and what no room leaves. Each list runs
//! under all checks; here are the answers and the spans left unswept.

use super::common::{calls, refusal, Harness, Owned};

/// Carries calls out under all checks; gives the last answer's refusal or
/// value, and the buffers.
fn last(pages: u64, text: &str) -> (u64, Owned) {
    let mut harness = Harness::new(Owned::zero(pages), peer::apply);
    let mut number = 0;
    for call in calls(pages, text) {
        let answer = harness.step(&call).unwrap_or_else(|caught| panic!("{call:?}: {caught:?}"));
        number = answer.map_or_else(|refusal| refusal.number(), |values| values[0]);
    }
    (number, harness.owned)
}

/// The start pages of the unswept spans.
fn unswept(owned: &Owned) -> Vec<usize> {
    (0..owned.table.len() / 3).filter(|page| owned.table[3 * page + 2] >= 256).collect()
}

/// A list that fills pages, marks what is still named, and finishes.
fn finished(pages: u64, fill: &str) -> String {
    let mark = "/N".repeat(pages as usize);
    format!("H {pages}/O 0/{fill}/T/K 0/Q{mark}/F")
}

/// What one more allocation answers, as a start page for an accepted one, and
/// which spans it leaves unswept.
fn start_page(list: &str, pages: u64, allocation: &str) -> (u64, Vec<usize>) {
    let (address, owned) = last(pages, &format!("{list}/{allocation}"));
    assert_eq!(address % 8192, 0);
    (address / 8192 - 1, unswept(&owned))
}

const NO_ROOM: u64 = 9;

#[test]
fn spans_of_the_kind_are_swept_until_one_has_room() {
    // Page 0 stays full, page 1 is returned whole, page 2 has a free element;
    // page 3 has another kind.
    let fill = "A 0 0 4096 0/A 0 1 4096 0/A 0 2 4096 0/A 0 3 4096 0/A 0 4 4096 0/A 0 5 4096 0/\
                A 0 6 4096 1/Z 0 2/Z 0 3/Z 0 5/Z 0 6";
    let (address, owned) = last(4, &format!("{}/A 0 9 4096 0", finished(4, fill)));
    assert_eq!((address, unswept(&owned)), (8192 * 3 + 4096, vec![3]));
    // The next one finds all of the kind swept and full, and page 1 free.
    let more = format!("{}/A 0 9 4096 0/A 0 10 4096 0", finished(4, fill));
    let (address, owned) = last(4, &more);
    assert_eq!((address, unswept(&owned)), (8192 * 2, vec![3]));
}

#[test]
fn returned_pages_wait_until_the_kind_is_swept() {
    let fill = "A 0 0 4096 0/A 0 1 4096 0/A 0 2 4096 0/A 0 3 4096 0/Z 0 0/Z 0 1/Z 0 2";
    let (address, owned) = last(3, &format!("{}/A 0 9 4096 0", finished(3, fill)));
    assert_eq!((address, unswept(&owned)), (8192 * 2, vec![]));
    assert_eq!(owned.table, [0, 0, 0, 2, 1, 87, 0, 0, 0]);
}

#[test]
fn a_span_returned_whole_is_taken_again_for_its_kind() {
    let list = finished(1, "A 0 0 8192 1/Z 0 0");
    let (address, owned) = last(1, &format!("{list}/A 0 0 8192 1"));
    assert_eq!((address, unswept(&owned), owned.roots[561]), (8192, vec![], 2));
    // Freed and born again in one call, and the cycle ends as it should.
    assert_eq!(last(1, &format!("{list}/A 0 0 8192 1/E")).0, 0);
    assert_eq!(last(1, &format!("{list}/A 0 0 8192 1/E/T/K 0/Q/N/F/E")).0, 1);
}

#[test]
fn a_freed_element_is_given_out_again() {
    let list = finished(1, "A 0 0 4096 0/A 0 1 4096 0/Z 0 0");
    let (address, owned) = last(1, &format!("{list}/A 0 0 4096 0"));
    assert_eq!((address, unswept(&owned)), (8192, vec![]));
    assert_eq!(last(1, &format!("{list}/A 0 0 4096 0/E/T/K 0/Q/F/E/E")).0, 0);
}

#[test]
fn pages_are_looked_for_after_the_kind_and_before_others() {
    // Page 0 stays full; page 1 has garbage of another kind; page 2 is free.
    let list = finished(3, "A 0 0 8192 0/A 0 1 4096 0/Z 0 1");
    assert_eq!(start_page(&list, 3, "A 0 9 8192 0"), (2, vec![1]));
    assert_eq!(start_page(&list, 3, "A 0 9 8 0"), (2, vec![0, 1]));
    // Without a free page the other kind is swept.
    assert_eq!(start_page(&list, 3, "A 0 8 8192 1/A 0 9 8192 1"), (1, vec![]));
}

#[test]
fn other_spans_are_swept_until_a_run_is_long_enough() {
    // Kept are pages 1 and 5; page 6 is free.
    let fill = "A 0 0 8192 0/A 0 1 8192 0/A 0 2 8192 0/A 0 3 8192 0/A 0 4 8192 0/A 0 5 8192 0/\
                Z 0 0/Z 0 2/Z 0 3/Z 0 4";
    let list = finished(7, fill);
    assert_eq!(start_page(&list, 7, "A 0 9 8 0"), (6, vec![0, 1, 2, 3, 4, 5]));
    assert_eq!(start_page(&list, 7, "A 0 8 8192 1/A 0 9 8 0"), (0, vec![1, 2, 3, 4, 5]));
    assert_eq!(start_page(&list, 7, "A 0 9 16384 0"), (2, vec![4, 5]));
    assert_eq!(start_page(&list, 7, "A 0 9 24576 0"), (2, vec![5]));
    assert_eq!(last(7, &format!("{list}/A 0 9 32768 0")).0, NO_ROOM);
    // Here page 5 is garbage too: the run goes on into the free page.
    let list = finished(7, &format!("{fill}/Z 0 5"));
    assert_eq!(start_page(&list, 7, "A 0 9 32768 0"), (2, vec![]));
    assert_eq!(start_page(&list, 7, "A 0 9 40960 1"), (2, vec![]));
}

#[test]
fn the_run_begins_with_free_pages_before_the_returned_ones() {
    // A first cycle frees pages 0 and 2, a second one page 1.
    let list = "H 4/O 0/A 0 0 8192 0/A 0 1 4096 0/A 0 2 8192 0/A 0 3 8192 0/Z 0 0/Z 0 2/T/K 0/Q/F/\
                E/E/E/E/E/Z 0 1/T/K 0/Q/F";
    assert_eq!(start_page(list, 4, "A 0 9 16384 0"), (0, vec![3]));
    assert_eq!(start_page(list, 4, "A 0 9 24576 0"), (0, vec![3]));
}

/// Page 0 is garbage. Large noscan records are at pages 1 to 5, kept, and 6 to
/// 10, garbage; a large scan record, garbage, is at 11 to 15.
const LARGE: &str = "A 0 0 8192 0/A 0 1 40960 0/A 0 2 40960 0/A 0 3 40960 1/Z 0 0/Z 0 2/Z 0 3";

#[test]
fn large_spans_of_the_kind_are_all_swept_first() {
    let list = finished(16, LARGE);
    assert_eq!(start_page(&list, 16, "A 0 9 40960 0"), (6, vec![0, 11]));
    assert_eq!(start_page(&list, 16, "A 0 9 40960 1"), (11, vec![0, 1, 6]));
    // The garbage at page 0 makes room for a page, but only after the kind.
    assert_eq!(start_page(&list, 16, "A 0 9 49152 1"), (6, vec![]));
    assert_eq!(start_page(&list, 16, "A 0 9 81920 0"), (6, vec![]));
    assert_eq!(start_page(&list, 16, "A 0 9 8192 1"), (0, vec![1, 6, 11]));
    let (answer, owned) = last(16, &format!("{list}/A 0 9 90112 0"));
    assert_eq!((answer, unswept(&owned)), (NO_ROOM, vec![]));
}

#[test]
fn no_room_leaves_every_span_swept_and_the_phase() {
    for allocation in ["A 0 9 98304 0", "A 0 9 1048576 1", "A 0 31 98304 131"] {
        let list = finished(16, LARGE);
        let (_, before) = last(16, &list);
        let (answer, after) = last(16, &format!("{list}/{allocation}"));
        assert_eq!((answer, unswept(&after)), (NO_ROOM, vec![]));
        assert_eq!((&after.arena, &after.roots), (&before.arena, &before.roots));
        assert_eq!(after.roots[561], 2);
        // The same refusal again has nothing left to change.
        assert_eq!(last(16, &format!("{list}/{allocation}/{allocation}")), (NO_ROOM, after));
    }
    // The frees count for the cycle, which a sweep step ends.
    let list = finished(1, "A 0 0 8192 1/Z 0 0");
    assert_eq!(last(1, &format!("{list}/A 0 0 40000 1")).0, NO_ROOM);
    assert_eq!(last(1, &format!("{list}/A 0 0 40000 1/E/T")).0, 0);
}

#[test]
fn a_size_that_never_fits_sweeps_everything() {
    for size in [16_384, 32_769, 1_048_576] {
        let list = finished(1, "A 0 0 4096 1/A 0 1 4096 1/Z 0 0");
        let (answer, owned) = last(1, &format!("{list}/A 0 2 {size} 1"));
        assert_eq!((answer, unswept(&owned)), (NO_ROOM, vec![]));
        assert_eq!(owned.bitmaps[..64], Owned::after(1, &format!("{list}/E")).bitmaps[..64]);
    }
}

#[test]
fn other_refusals_come_before_any_sweep() {
    let before = Owned::after(2, &finished(2, "A 0 0 4096 0/A 0 1 8192 1/Z 0 0"));
    assert_eq!(unswept(&before), [0, 1]);
    let refused = [
        ("A 16 0 8192 0", 3),
        ("A 1 0 8192 0", 3),
        ("A 0 32 8192 0", 4),
        ("A 0 0 0 0", 5),
        ("A 0 0 1048577 0", 5),
        ("A 0 0 8192 1025", 5),
    ];
    for (line, number) in refused {
        let mut after = before.clone();
        let answer = peer::apply(&calls(2, line)[0], after.lend());
        assert_eq!((refusal(&answer), &after), (number, &before), "{line}");
    }
}

#[test]
fn no_room_outside_the_sweep_phase_changes_nothing() {
    for phase in ["", "/T", "/T/K 0/Q"] {
        let before = Owned::after(1, &format!("H 1/O 0/A 0 0 8192 0/Z 0 0{phase}"));
        for line in ["A 0 1 8 0", "A 0 1 8192 0", "A 0 1 1048576 0"] {
            let mut after = before.clone();
            let answer = peer::apply(&calls(1, line)[0], after.lend());
            assert_eq!((refusal(&answer), &after), (NO_ROOM, &before), "{phase} {line}");
        }
    }
}

#[test]
fn the_phase_stays_until_a_sweep_step_finds_nothing() {
    let list = finished(1, "A 0 0 8192 1/Z 0 0");
    let wrong_phase = 2;
    for allocation in ["A 0 0 8192 1", "A 0 0 8192 0", "A 0 0 16384 0"] {
        assert_eq!(last(1, &format!("{list}/{allocation}/T")).0, wrong_phase);
        let (answer, owned) = last(1, &format!("{list}/{allocation}/E"));
        assert_eq!((answer, owned.roots[561]), (0, 0));
    }
}
