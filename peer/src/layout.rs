//! Where everything lies in the four lent buffers. Each limit and offset is
//! named here once. Addresses, page numbers and word numbers have types of
//! their own, so that one cannot be taken for another.

pub const WORD_BYTES: u64 = 8;
pub const PAGE_BYTES: u64 = 8192;
pub const PAGE_WORDS: usize = (PAGE_BYTES / WORD_BYTES) as usize;
pub const MAX_PAGES: u64 = 256;

/// The address of the arena's first word. Zero is nil.
pub const ARENA_BASE: u64 = 8192;
pub const NIL: u64 = 0;

/// A page table entry has three numbers: start page + 1, page count, kind.
pub const ENTRY_NUMBERS: usize = 3;
pub const ENTRY_START: usize = 0;
pub const ENTRY_COUNT: usize = 1;
pub const ENTRY_KIND: usize = 2;
/// Added to the kind of a span that is not yet swept.
pub const UNSWEPT: u32 = 256;

pub const BITMAP_BITS: usize = 64;
pub const PAGE_BITMAP_WORDS: usize = PAGE_WORDS / BITMAP_BITS;
/// Allocated, marked, gray, pointer, in this order.
pub const BITMAP_PARTS: usize = 4;

pub const STACKS: usize = 16;
pub const SLOTS: usize = 32;
pub const GLOBALS: usize = 32;
pub const FIRST_GLOBAL: usize = STACKS * SLOTS;
pub const FIRST_STATE: usize = FIRST_GLOBAL + GLOBALS;
pub const GLOBALS_STATE: usize = FIRST_STATE + STACKS;
pub const PHASE: usize = GLOBALS_STATE + 1;
pub const ROOT_WORDS: usize = PHASE + 1;

/// States of a stack; the globals are never closed.
pub const CLOSED: u64 = 0;
pub const OPEN: u64 = 1;
pub const OPEN_AND_GRAY: u64 = 2;

pub const PHASE_OFF: u64 = 0;
pub const PHASE_MARK: u64 = 1;
pub const PHASE_SWEEP: u64 = 2;

/// What a record is named by in slots, globals and pointer words.
#[derive(Clone, Copy, Debug, PartialEq, Eq, PartialOrd, Ord)]
pub struct Address(u64);

/// A page of the arena, from 0.
#[derive(Clone, Copy, Debug, PartialEq, Eq, PartialOrd, Ord)]
pub struct Page(usize);

/// A word of the arena, from 0.
#[derive(Clone, Copy, Debug, PartialEq, Eq, PartialOrd, Ord)]
pub struct Word(usize);

impl Address {
    pub fn new(number: u64) -> Address {
        Address(number)
    }

    pub fn of_word(word: Word) -> Address {
        Address(ARENA_BASE + WORD_BYTES * word.0 as u64)
    }

    pub fn number(self) -> u64 {
        self.0
    }

    /// The word at this address; none below the arena or between two words.
    /// The word may lie behind the arena's end.
    #[inline]
    pub fn word(self) -> Option<Word> {
        let offset = self.0.checked_sub(ARENA_BASE)?;
        (offset % WORD_BYTES == 0).then_some(Word((offset / WORD_BYTES) as usize))
    }
}

impl Page {
    pub fn new(index: usize) -> Page {
        Page(index)
    }

    pub fn index(self) -> usize {
        self.0
    }

    pub fn plus(self, pages: usize) -> Page {
        Page(self.0 + pages)
    }

    pub fn first_word(self) -> Word {
        Word(self.0 * PAGE_WORDS)
    }

    /// The page table number that stands for a span starting here.
    pub fn start_number(self) -> u32 {
        self.0 as u32 + 1
    }

    /// The place of this page's entry in the page table.
    pub fn entry(self) -> usize {
        self.0 * ENTRY_NUMBERS
    }

    /// The place of this page's first word in each bitmap part.
    pub fn first_bitmap_word(self) -> usize {
        self.0 * PAGE_BITMAP_WORDS
    }
}

impl Word {
    pub fn new(index: usize) -> Word {
        Word(index)
    }

    pub fn index(self) -> usize {
        self.0
    }

    pub fn plus(self, words: usize) -> Word {
        Word(self.0 + words)
    }

    pub fn page(self) -> Page {
        Page(self.0 / PAGE_WORDS)
    }

    /// The place of this word's bit: which word of a bitmap part.
    pub fn bitmap_word(self) -> usize {
        self.0 / BITMAP_BITS
    }

    /// The place of this word's bit: which bit of that bitmap word.
    pub fn bit(self) -> usize {
        self.0 % BITMAP_BITS
    }
}

/// The four lent buffers.
pub struct Buffers<'a> {
    pub arena: &'a mut [u64],
    pub table: &'a mut [u32],
    pub bitmaps: &'a mut [u64],
    pub roots: &'a mut [u64],
}

impl Buffers<'_> {
    /// The same buffers, lent on for a shorter time.
    pub fn again(&mut self) -> Buffers<'_> {
        Buffers { arena: self.arena, table: self.table, bitmaps: self.bitmaps, roots: self.roots }
    }

    /// Whether P is legal and all four lengths are those that P asks for.
    pub fn fit(&self, pages: u64) -> bool {
        (1..=MAX_PAGES).contains(&pages)
            && self.arena.len() == arena_words(pages)
            && self.table.len() == table_numbers(pages)
            && self.bitmaps.len() == bitmap_words(pages)
            && self.roots.len() == ROOT_WORDS
    }
}

/// The four lengths for a legal P.
pub fn arena_words(pages: u64) -> usize {
    PAGE_WORDS * pages as usize
}

pub fn table_numbers(pages: u64) -> usize {
    ENTRY_NUMBERS * pages as usize
}

pub fn bitmap_words(pages: u64) -> usize {
    BITMAP_PARTS * PAGE_BITMAP_WORDS * pages as usize
}

/// The place of a stack's slot in the roots buffer.
pub fn slot_place(stack: usize, slot: usize) -> usize {
    stack * SLOTS + slot
}
