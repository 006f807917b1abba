//! Each clause of the ledger's checker is shown to be asked: a right list, with
//! one answer or one word falsified behind the heap's back.

mod common;

use common::{calls, Owned};
use peer::faults::{BIRTH_BEFORE_FREES, FREES_NOT_COUNTED, NONE};
use peer::ledger::{Broken, Checker};
use peer::{apply, Answer, Call, Refusal};

/// A list that has passed so far.
struct Passed {
    owned: Owned,
    checker: Checker,
}

fn passed(pages: u64, text: &str) -> Passed {
    let mut passed = Passed { owned: Owned::zero(pages), checker: Checker::default() };
    for call in calls(pages, text) {
        assert_eq!(passed.step(&call), Ok(()), "{call:?}");
    }
    passed
}

impl Passed {
    fn step(&mut self, call: &Call) -> Result<(), Broken> {
        let mut before = self.owned.clone();
        let answer = apply(call, self.owned.lend());
        self.checker.after(call, &answer, &before.lend(), self.owned.lend())
    }

    /// Tells the checker of a refused call that has changed something.
    fn refused(&mut self, refusal: Refusal, change: fn(&mut Owned)) -> Result<(), Broken> {
        let mut before = self.owned.clone();
        change(&mut self.owned);
        let call = Call::Clear { pages: self.owned.pages(), stack: 9, slot: 0 };
        self.checker.after(&call, &Err(refusal), &before.lend(), self.owned.lend())
    }

    /// Tells the checker of a call without carrying it out.
    fn claim(&mut self, call: &Call, answer: Answer) -> Result<(), Broken> {
        let mut before = self.owned.clone();
        self.checker.after(call, &answer, &before.lend(), self.owned.lend())
    }

    /// What the checker finds in the buffers as they are now.
    fn look(&mut self) -> Result<(), Broken> {
        let pages = self.owned.pages();
        self.claim(&Call::Audit { pages }, Ok([0; 3]))
    }
}

/// Slots 0 and 1 name records of 8 bytes at 8192 and 8200; each has p = 0.
const TWO: &str = "H 2/O 0/A 0 0 8 0/A 0 1 8 0";

fn broken_by(damage: fn(&mut Owned)) -> Result<(), Broken> {
    let mut passed = passed(2, TWO);
    damage(&mut passed.owned);
    passed.look()
}

#[test]
fn buffers_are_compared() {
    assert_eq!(broken_by(|_| {}), Ok(()));
    assert_eq!(broken_by(|o| o.roots[544] = 0), Err(Broken::StackState(0)));
    assert_eq!(broken_by(|o| o.roots[559] = 1), Err(Broken::StackState(15)));
    assert_eq!(broken_by(|o| o.roots[1] = 8192), Err(Broken::Root(1)));
    assert_eq!(broken_by(|o| o.roots[511] = 8192), Err(Broken::Root(511)));
    assert_eq!(broken_by(|o| o.roots[543] = 8192), Err(Broken::Root(543)));
    assert_eq!(broken_by(|o| o.bitmaps[0] = 1), Err(Broken::NotAllocated(8200)));
    assert_eq!(broken_by(|o| o.arena[1] = 1), Err(Broken::RecordWord(8200)));
    assert_eq!(broken_by(|o| o.table[0] = 0), Err(Broken::PageInSpans(0)));
    assert_eq!(broken_by(|o| o.table[1] = 2), Err(Broken::PageInSpans(1)));
    assert_eq!(broken_by(|o| o.table[1] = 3), Err(Broken::PageInSpans(0)));
    assert_eq!(broken_by(|o| o.table[3] = 1), Err(Broken::PageInSpans(1)));
    assert_eq!(broken_by(|o| o.roots[561] = 1), Err(Broken::Phase(1)));
    assert_eq!(broken_by(|o| o.roots[561] = 2), Err(Broken::Phase(2)));
    assert_eq!(broken_by(|o| o.bitmaps[32] = 1), Err(Broken::Audit));
}

fn claimed(text: &str, line: &str, value: u64) -> Result<(), Broken> {
    let mut passed = passed(2, text);
    let call = calls(2, line)[0];
    let _ = apply(&call, passed.owned.lend());
    passed.claim(&call, Ok([value, 0, 0]))
}

#[test]
fn answers_are_compared() {
    let number = format!("{TWO}/W 0 0 0 7/P 0 3 1/A 0 2 4096 1/S 0 2 0 1");
    let right = [
        ("M 0 5 0", 8192),
        ("Z 0 0", 0),
        ("R 0 0 0", 7),
        ("G 0 0 3", 8200),
        ("L 0 0 2 0", 8200),
        ("A 0 0 8 0", 8208),
    ];
    for (line, value) in right {
        assert_eq!(claimed(&number, line, value), Ok(()), "{line}");
    }
    for (line, _) in &right[..5] {
        assert_eq!(claimed(&number, line, 8), Err(Broken::Answer(8)), "{line}");
    }
    // An allocation's address is taken from its answer.
    assert_eq!(claimed(&number, "A 0 0 8 0", 8192), Err(Broken::Root(0)));
    for line in ["L 0 0 9 0", "S 0 9 0 0", "W 0 9 0 0", "R 0 9 0", "R 0 0 1", "M 9 0 0"] {
        assert_eq!(claimed(TWO, line, 0), Err(Broken::NotPossible), "{line}");
    }
}

#[test]
fn records_do_not_share_words() {
    let mut passed = passed(2, TWO);
    passed.owned.roots[2] = 8192;
    let call = calls(2, "A 0 2 8 0")[0];
    assert_eq!(passed.claim(&call, Ok([8192, 0, 0])), Err(Broken::SharedWord(8192)));
}

#[test]
fn nothing_is_freed_that_was_not_born() {
    let mut passed = passed(2, &format!("{TWO}/T/K 0/Q/F"));
    // An allocated bit that no allocation has set.
    passed.owned.bitmaps[0] |= 4;
    let _ = passed.look();
    assert_eq!(passed.step(&calls(2, "E")[0]), Err(Broken::FreedTwice(8208)));
}

#[test]
fn nothing_is_freed_twice() {
    let mut passed = passed(2, &format!("{TWO}/Z 0 1/T/K 0/Q/F/E/E/T/K 0/Q/F"));
    passed.owned.bitmaps[0] |= 2;
    let _ = passed.look();
    assert_eq!(passed.step(&calls(2, "E")[0]), Err(Broken::FreedTwice(8200)));
}

#[test]
fn garbage_of_the_start_is_freed_by_the_end() {
    let mut passed = passed(2, &format!("{TWO}/Z 0 1/T/K 0/Q/Z 0 0/F"));
    let end = calls(2, "E")[0];
    assert_eq!(passed.claim(&end, Ok([0; 3])), Err(Broken::NotFreed(8200)));
}

#[test]
fn a_setup_breaks_a_cycle_off() {
    let mut passed = passed(2, &format!("{TWO}/Z 0 1/T/K 0/Q/F/H 2"));
    assert_eq!(passed.claim(&calls(2, "E")[0], Ok([0; 3])), Ok(()));
}

#[test]
fn mark_steps_are_counted() {
    let mut passed = passed(2, &format!("{TWO}/T/K 0/Q"));
    let step = calls(2, "N")[0];
    for _ in 0..3 {
        assert_eq!(passed.claim(&step, Ok([8192, 0, 0])), Ok(()));
    }
    assert_eq!(passed.step(&calls(2, "F")[0]), Err(Broken::MarkSteps(3)));
}

/// A change of a word in each of the four buffers.
const CHANGES: [fn(&mut Owned); 4] =
    [|o| o.arena[9] ^= 1, |o| o.roots[2] ^= 1, |o| o.table[2] ^= 256, |o| o.bitmaps[20] ^= 1];

/// One span, which is unswept.
const FINISHED: &str = "H 2/O 0/A 0 0 8 0/A 0 1 8 0/Z 0 1/T/K 0/Q/F";

#[test]
fn refusals_change_no_word() {
    for change in CHANGES {
        for refusal in [Refusal::WrongPhase, Refusal::BadSize, Refusal::NoRoom] {
            let expected = Err(Broken::RefusalChanged(refusal.number()));
            assert_eq!(passed(2, TWO).refused(refusal, change), expected);
        }
        let expected = Err(Broken::RefusalChanged(5));
        assert_eq!(passed(2, FINISHED).refused(Refusal::BadSize, change), expected);
    }
}

#[test]
fn no_room_changes_page_table_and_bitmaps_alone() {
    for change in &CHANGES[..2] {
        let expected = Err(Broken::RefusalChanged(9));
        assert_eq!(passed(2, FINISHED).refused(Refusal::NoRoom, *change), expected);
    }
    let mut right = passed(2, FINISHED);
    assert_eq!(right.step(&calls(2, "A 0 1 65536 0")[0]), Ok(()));
}

#[test]
fn no_room_leaves_no_span_unswept() {
    let mut passed = passed(2, FINISHED);
    assert_eq!(passed.refused(Refusal::NoRoom, |_| {}), Err(Broken::LeftUnswept(0)));
}

#[test]
fn allocations_free_only_what_was_born_and_once() {
    for allocation in ["A 0 2 8 0", "A 0 2 65536 0"] {
        let mut passed = passed(2, FINISHED);
        // An allocated bit that no allocation has set.
        passed.owned.bitmaps[0] |= 4;
        let freed = passed.step(&calls(2, allocation)[0]);
        assert_eq!(freed, Err(Broken::FreedTwice(8208)), "{allocation}");
    }
}

/// What a checker finds in a list of the right heap, and at which call.
fn found_by<const CHECKER: u8>(list: &str) -> Result<(), (usize, Broken)> {
    let mut owned = Owned::zero(1);
    let mut checker = Checker::<CHECKER>::default();
    for (place, call) in calls(1, list).iter().enumerate() {
        let mut before = owned.clone();
        let answer = apply(call, owned.lend());
        let checked = checker.after(call, &answer, &before.lend(), owned.lend());
        checked.map_err(|broken| (place, broken))?;
    }
    Ok(())
}

/// Checkers that take the sweeps of an allocation for no part of the cycle, or
/// its birth for the first thing that it does, find fault with the right heap.
#[test]
fn frees_of_an_allocation_count_and_come_first() {
    let garbage = "H 1/O 0/A 0 0 8192 1/Z 0 0/T/K 0/Q/F";
    let (given_again, refused) =
        (format!("{garbage}/A 0 0 8192 1/E"), format!("{garbage}/A 0 0 40000 1/E"));
    let not_freed = Err((9, Broken::NotFreed(8192)));
    assert_eq!(found_by::<NONE>(&given_again), Ok(()));
    assert_eq!(found_by::<NONE>(&refused), Ok(()));
    assert_eq!(found_by::<FREES_NOT_COUNTED>(&given_again), not_freed);
    assert_eq!(found_by::<FREES_NOT_COUNTED>(&refused), not_freed);
    assert_eq!(found_by::<BIRTH_BEFORE_FREES>(&given_again), not_freed);
    assert_eq!(found_by::<BIRTH_BEFORE_FREES>(&refused), Ok(()));
    // The record that was born is freed in its turn.
    let again = format!("{given_again}/Z 0 0/T/K 0/Q/F/E/E");
    assert_eq!(found_by::<NONE>(&again), Ok(()));
}
