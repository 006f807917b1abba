//! Heaps that are built without calls: spans, records, marks and roots written
//! straight into the memory. Random ones have spans of every class in every
//! phase, also heaps that no list of calls leads to but the audit accepts, and
//! some are made for allocations that have to sweep.

use peer::classes::{class_of, CLASSES, LARGE_PAGES_MAX, LARGE_PAGES_MIN};
use peer::layout::*;
use peer::random::Random;

use crate::memory::{Buffer, Memory, Place};

/// The four parts of the bitmaps.
#[derive(Clone, Copy)]
pub enum Part {
    Allocated,
    Marked,
    Gray,
    Pointer,
}

/// A heap that is being built. Words are words of the arena.
pub struct Builder {
    pub memory: Memory,
    pages: usize,
}

impl Builder {
    /// No span, all stacks closed. There may be room behind the P pages.
    pub fn new(pages: u64, room: u64, phase: u64) -> Builder {
        let mut builder = Builder { memory: Memory::new(room), pages: pages as usize };
        builder.root(GLOBALS_STATE, OPEN);
        builder.root(PHASE, phase);
        builder
    }

    pub fn root(&mut self, place: usize, value: u64) {
        self.memory.set(Place::new(Buffer::Roots, place), value);
    }

    pub fn word(&mut self, word: usize, value: u64) {
        self.memory.set(Place::new(Buffer::Arena, word), value);
    }

    pub fn span(&mut self, start: usize, pages: usize, kind: u32) {
        for page in start..start + pages {
            self.table(page, ENTRY_START, start as u32 + 1);
        }
        self.table(start, ENTRY_COUNT, pages as u32);
        self.table(start, ENTRY_KIND, kind);
    }

    fn table(&mut self, page: usize, number: usize, value: u32) {
        let place = Place::new(Buffer::Table, page * ENTRY_NUMBERS + number);
        self.memory.set(place, u64::from(value));
    }

    pub fn bit(&mut self, part: Part, word: usize) {
        let first = part as usize * self.pages * PAGE_BITMAP_WORDS;
        let place = Place::new(Buffer::Bitmaps, first + word / BITMAP_BITS);
        self.memory.set(place, self.memory.get(place) | 1 << (word % BITMAP_BITS));
    }

    /// A record whose first words are pointers; their values are left alone.
    pub fn record(&mut self, word: usize, pointers: usize) {
        self.bit(Part::Allocated, word);
        for pointer in word..word + pointers {
            self.bit(Part::Pointer, pointer);
        }
    }
}

/// The address of an arena word.
pub fn address(word: usize) -> u64 {
    ARENA_BASE + WORD_BYTES * word as u64
}

/// A record of a random heap.
struct Record {
    word: usize,
    pointers: usize,
    words: usize,
    kept: bool,
}

/// Builds a random heap that the audit accepts.
struct RandomHeap<'a> {
    random: &'a mut Random,
    builder: Builder,
    phase: u64,
    /// Classes that many spans have.
    favourites: Vec<usize>,
    /// How many pages are free, how many spans noscan or unswept, and how many
    /// elements allocated or marked, in a thousand.
    free_share: u64,
    noscan_share: u64,
    unswept_share: u64,
    allocated_share: u64,
    marked_share: u64,
    /// Whether each span has shares of its own.
    varied: bool,
    records: Vec<Record>,
}

/// A random heap of P pages that the audit accepts, with room behind it.
pub fn random_heap(random: &mut Random, pages: u64, room: u64) -> Memory {
    let phase = random.below(3);
    let heap = RandomHeap {
        builder: Builder::new(pages, room, phase),
        phase,
        favourites: vec![1 + random.below(CLASSES.len() as u64) as usize],
        free_share: random.pick(&[50, 300]),
        noscan_share: 300,
        unswept_share: 600,
        allocated_share: random.pick(&[20, 500, 980]),
        marked_share: random.pick(&[20, 500, 980]),
        varied: false,
        records: Vec::new(),
        random,
    };
    heap.build(pages as usize)
}

/// A random heap of the sweep phase: few pages are free, most spans unswept,
/// and many have a class of these sizes. Some will be full after their sweep,
/// some returned whole.
pub fn unswept_heap(random: &mut Random, pages: u64, room: u64, sizes: &[u64]) -> Memory {
    let heap = RandomHeap {
        builder: Builder::new(pages, room, PHASE_SWEEP),
        phase: PHASE_SWEEP,
        favourites: sizes.iter().map(|&size| class_of(size)).collect(),
        free_share: random.pick(&[0, 0, 50, 300]),
        noscan_share: random.pick(&[0, 300]),
        unswept_share: 950,
        allocated_share: 0,
        marked_share: 0,
        varied: true,
        records: Vec::new(),
        random,
    };
    heap.build(pages as usize)
}

impl RandomHeap<'_> {
    fn build(mut self, pages: usize) -> Memory {
        self.spans(pages);
        let kept = self.kept_addresses();
        self.fill_records(&kept);
        self.fill_roots(&kept);
        self.builder.memory
    }

    fn spans(&mut self, pages: usize) {
        let mut page = 0;
        while page < pages {
            let class = match self.random.below(if self.varied { 2 } else { 4 }) {
                0 => self.random.pick(&self.favourites),
                1 => self.random.below(12) as usize,
                _ => self.random.below(CLASSES.len() as u64 + 1) as usize,
            };
            let count = self.span_pages(class);
            if self.random.chance(self.free_share) || count > pages - page {
                page += 1;
                continue;
            }
            self.span(page, count, class);
            page += count;
        }
    }

    fn span_pages(&mut self, class: usize) -> usize {
        match class {
            0 => {
                let more = u64::from(LARGE_PAGES_MAX - LARGE_PAGES_MIN + 1);
                let more = self.random.below(more).min(self.random.below(8));
                LARGE_PAGES_MIN as usize + more as usize
            }
            class => (CLASSES[class - 1].span_bytes / PAGE_BYTES) as usize,
        }
    }

    fn span(&mut self, start: usize, pages: usize, class: usize) {
        if self.varied {
            self.allocated_share = self.random.pick(&[20, 500, 1000]);
            self.marked_share = self.random.pick(&[0, 0, 500, 1000]);
        }
        let noscan = self.random.chance(self.noscan_share);
        let unswept = self.phase == PHASE_SWEEP && self.random.chance(self.unswept_share);
        let flag = if unswept { UNSWEPT } else { 0 };
        self.builder.span(start, pages, 2 * class as u32 + u32::from(noscan) + flag);
        let words = match class {
            0 => pages * PAGE_WORDS,
            class => (CLASSES[class - 1].element_bytes / WORD_BYTES) as usize,
        };
        let count = pages * PAGE_WORDS / words;
        let chosen = self.random.below(count as u64) as usize;
        for element in 0..count {
            if element == chosen || self.random.chance(self.allocated_share) {
                let word = start * PAGE_WORDS + element * words;
                self.record(word, words, noscan, unswept);
            }
        }
    }

    fn record(&mut self, word: usize, words: usize, noscan: bool, unswept: bool) {
        let any = 1 + self.random.below(words as u64) as usize;
        let pointers = self.random.pick(&[1, 1, 2, words / 2, words, any]).clamp(1, words);
        let pointers = if noscan { 0 } else { pointers };
        self.builder.record(word, pointers);
        let marking = self.phase == PHASE_MARK;
        let marked = (marking || unswept) && self.random.chance(self.marked_share);
        if marked {
            self.builder.bit(Part::Marked, word);
        }
        if marked && marking && !noscan && self.random.chance(100) {
            self.builder.bit(Part::Gray, word);
        }
        self.records.push(Record { word, pointers, words, kept: marked || !unswept });
    }

    fn kept_addresses(&self) -> Vec<u64> {
        let kept = self.records.iter().filter(|record| record.kept);
        kept.map(|record| address(record.word)).collect()
    }

    fn nil_or_kept(&mut self, kept: &[u64]) -> u64 {
        if kept.is_empty() || self.random.chance(300) {
            return NIL;
        }
        self.random.pick(kept)
    }

    /// Pointer words of kept records name kept ones; all else is any number.
    fn fill_records(&mut self, kept: &[u64]) {
        for record in std::mem::take(&mut self.records) {
            let pointers = if record.kept { record.pointers } else { 0 };
            for field in 0..pointers {
                let value = self.nil_or_kept(kept);
                self.builder.word(record.word + field, value);
            }
            for field in (pointers..record.words).take(4) {
                let number = self.random.wild();
                self.builder.word(record.word + field, number);
            }
        }
    }

    fn fill_roots(&mut self, kept: &[u64]) {
        let gray_share = if self.phase == PHASE_MARK { 300 } else { 0 };
        for stack in 0..STACKS {
            if self.random.chance(400) {
                continue;
            }
            let state = if self.random.chance(gray_share) { OPEN_AND_GRAY } else { OPEN };
            self.builder.root(FIRST_STATE + stack, state);
            self.fill_run(slot_place(stack, 0), SLOTS, kept);
        }
        if self.random.chance(gray_share) {
            self.builder.root(GLOBALS_STATE, OPEN_AND_GRAY);
        }
        self.fill_run(FIRST_GLOBAL, GLOBALS, kept);
    }

    fn fill_run(&mut self, first: usize, count: usize, kept: &[u64]) {
        for place in first..first + count {
            let value = self.nil_or_kept(kept);
            self.builder.root(place, value);
        }
    }
}
