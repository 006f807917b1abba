//! Wrong heaps and wrong checkers, for the tests. A heap or a checker is built
//! for one of these numbers, and a comparison with it is settled when the
//! program is built: the right one, `NONE`, carries nothing of the others. Each
//! of them is a mistake that looks harmless and that the checks have to notice.

pub const NONE: u8 = 0;
/// The barrier forgets the old value.
pub const SHADE_ONLY_NEW: u8 = 1;
/// The barrier forgets the new value.
pub const SHADE_ONLY_OLD: u8 = 2;
/// A record of the mark phase is born white.
pub const ALLOCATE_WHITE: u8 = 3;
/// The allocator also takes free elements of unswept spans.
pub const ALLOCATE_IN_UNSWEPT: u8 = 4;
/// A sweep leaves the pointer bits of freed elements.
pub const KEEP_POINTER_BITS: u8 = 5;
/// An allocation leaves the words that it finds.
pub const KEEP_OLD_WORDS: u8 = 6;
/// A sweep returns a span's pages while one marked element remains.
pub const RETURN_PAGES_EARLY: u8 = 7;
/// An allocation sweeps spans of other kinds before those of its own.
pub const SWEEP_ANY_KIND: u8 = 8;
/// An allocation sweeps one span of its kind, whether that has room or not.
pub const SWEEP_ONE_OF_KIND: u8 = 9;
/// An allocation looks for pages before it sweeps spans of its kind.
pub const PAGES_BEFORE_KIND: u8 = 10;
/// A large record does without the sweeps of its kind, which have no room.
pub const LARGE_SKIPS_KIND: u8 = 11;
/// An allocation gives out an element of a span that it has returned whole.
pub const GIVE_RETURNED: u8 = 12;
/// An allocation gives out an element and leaves its span unswept.
pub const LEAVE_SPAN_UNSWEPT: u8 = 13;
/// An allocation sweeps all that is left before it looks for pages again.
pub const LOOK_ONCE_AFTER_ALL: u8 = 14;
/// An allocation looks for a run from the pages that a sweep returned on, and
/// not at the free pages before them.
pub const LOOK_AFTER_RETURNED: u8 = 15;
/// An allocation that could never fit is refused without a sweep.
pub const REFUSE_UNSWEPT: u8 = 16;
/// An allocation sweeps before its size is tested.
pub const SWEEP_BEFORE_SIZE: u8 = 17;
/// An allocation after which no span is unswept ends the cycle.
pub const END_CYCLE: u8 = 18;

/// A checker that does not count what an allocation frees.
pub const FREES_NOT_COUNTED: u8 = 101;
/// A checker that enters a birth before it counts what the call has freed.
pub const BIRTH_BEFORE_FREES: u8 = 102;
