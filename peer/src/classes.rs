//! The 66 size classes, and what follows from them: two tables in which the
//! class of a size is looked up, the kind of a record, the pages of its span,
//! and for each class a bitmap of the places in a span where an element starts.

use crate::layout::{
    Page, Word, BITMAP_BITS, PAGE_BITMAP_WORDS, PAGE_BYTES, PAGE_WORDS, WORD_BYTES,
};

/// The largest record of the classes 1 to 66; a larger one has class 0.
pub const MAX_SMALL_BYTES: u64 = 32_768;
/// The largest record at all.
pub const MAX_RECORD_BYTES: u64 = 1_048_576;
pub const CLASS_COUNT: usize = 66;
pub const LAST_KIND: u32 = 2 * CLASS_COUNT as u32 + 1;
/// The page counts that a span of class 0 may have.
pub const LARGE_PAGES_MIN: u32 = (MAX_SMALL_BYTES / PAGE_BYTES) as u32 + 1;
pub const LARGE_PAGES_MAX: u32 = (MAX_RECORD_BYTES / PAGE_BYTES) as u32;

/// One row of the class table.
pub struct ClassRow {
    pub element_bytes: u64,
    pub span_bytes: u64,
}

const fn row(element_bytes: u64, span_bytes: u64) -> ClassRow {
    ClassRow { element_bytes, span_bytes }
}

/// Row n - 1 is class n.
#[rustfmt::skip]
pub const CLASSES: [ClassRow; CLASS_COUNT] = [
    row(8, 8192), row(16, 8192), row(32, 8192), row(48, 8192),
    row(64, 8192), row(80, 8192), row(96, 8192), row(112, 8192),
    row(128, 8192), row(144, 8192), row(160, 8192), row(176, 8192),
    row(192, 8192), row(208, 8192), row(224, 8192), row(240, 8192),
    row(256, 8192), row(288, 8192), row(320, 8192), row(352, 8192),
    row(384, 8192), row(416, 8192), row(448, 8192), row(480, 8192),
    row(512, 8192), row(576, 8192), row(640, 8192), row(704, 8192),
    row(768, 8192), row(896, 8192), row(1024, 8192), row(1152, 8192),
    row(1280, 8192), row(1408, 16384), row(1536, 8192), row(1792, 16384),
    row(2048, 8192), row(2304, 16384), row(2688, 8192), row(3072, 24576),
    row(3200, 16384), row(3456, 24576), row(4096, 8192), row(4864, 24576),
    row(5376, 16384), row(6144, 24576), row(6528, 32768), row(6784, 40960),
    row(6912, 49152), row(8192, 8192), row(9472, 57344), row(9728, 49152),
    row(10240, 40960), row(10880, 32768), row(12288, 24576), row(13568, 40960),
    row(14336, 57344), row(16384, 16384), row(18432, 73728), row(19072, 57344),
    row(20480, 40960), row(21760, 65536), row(24576, 24576), row(27264, 81920),
    row(28672, 57344), row(32768, 32768),
];

/// Sizes up to `MAX_FINE_BYTES` are looked up in steps of 8 bytes, larger ones
/// in steps of 128 bytes above `COARSE_BASE`.
const MAX_FINE_BYTES: u64 = 1_016;
const FINE_STEP: u64 = 8;
const COARSE_BASE: u64 = 1_024;
const COARSE_STEP: u64 = 128;
const FINE_ENTRIES: usize = (COARSE_BASE / FINE_STEP) as usize + 1;
const COARSE_ENTRIES: usize = ((MAX_SMALL_BYTES - COARSE_BASE) / COARSE_STEP) as usize + 1;

/// Entry n is the class of the sizes above 8 x (n - 1) and up to 8 x n. The
/// first entry and the last are not used.
pub static FINE_CLASSES: [u8; FINE_ENTRIES] = lookup_table(0, FINE_STEP);
/// Entry n is the class of the sizes above 1,024 + 128 x (n - 1) and up to
/// 1,024 + 128 x n; those that use entry 0 start behind `MAX_FINE_BYTES`.
pub static COARSE_CLASSES: [u8; COARSE_ENTRIES] = lookup_table(COARSE_BASE, COARSE_STEP);

/// A table whose entry n is the class of the size first + n x step, which is
/// the largest that uses the entry.
const fn lookup_table<const ENTRIES: usize>(first: u64, step: u64) -> [u8; ENTRIES] {
    let mut table = [0; ENTRIES];
    let mut class = 1;
    let mut entry = 0;
    while entry < ENTRIES {
        let largest = first + step * entry as u64;
        while CLASSES[class - 1].element_bytes < largest {
            class += 1;
        }
        table[entry] = class as u8;
        entry += 1;
    }
    table
}

const MAX_CLASS_PAGES: usize = 10;
type Starts = [u64; MAX_CLASS_PAGES * PAGE_BITMAP_WORDS];

/// For each class, bit w is set if an element starts at word w of its span.
static ELEMENT_STARTS: [Starts; CLASS_COUNT] = all_starts();
/// A span of class 0 is one element.
static LARGE_STARTS: [u64; 1] = [1];

const fn all_starts() -> [Starts; CLASS_COUNT] {
    let mut all = [[0; MAX_CLASS_PAGES * PAGE_BITMAP_WORDS]; CLASS_COUNT];
    let mut index = 0;
    while index < CLASS_COUNT {
        let element = (CLASSES[index].element_bytes / WORD_BYTES) as usize;
        let span = (CLASSES[index].span_bytes / WORD_BYTES) as usize;
        let mut word = 0;
        while word + element <= span {
            all[index][word / BITMAP_BITS] |= 1 << (word % BITMAP_BITS);
            word += element;
        }
        index += 1;
    }
    all
}

/// The class of a record of this size, which is 1 to `MAX_RECORD_BYTES`.
pub fn class_of(size: u64) -> usize {
    if size > MAX_SMALL_BYTES {
        return 0;
    }
    let class = if size <= MAX_FINE_BYTES {
        FINE_CLASSES[size.div_ceil(FINE_STEP) as usize]
    } else {
        COARSE_CLASSES[size.saturating_sub(COARSE_BASE).div_ceil(COARSE_STEP) as usize]
    };
    usize::from(class)
}

/// The pages of a new span for a record of this size.
pub fn span_pages(size: u64) -> usize {
    match class_of(size) {
        0 => size.div_ceil(PAGE_BYTES) as usize,
        class => (CLASSES[class - 1].span_bytes / PAGE_BYTES) as usize,
    }
}

/// The words of the element that a record of this size takes.
pub fn element_words(size: u64) -> usize {
    match class_of(size) {
        0 => span_pages(size) * PAGE_WORDS,
        class => (CLASSES[class - 1].element_bytes / WORD_BYTES) as usize,
    }
}

/// 2 x class, plus 1 for records without pointer words.
#[derive(Clone, Copy, Debug, PartialEq, Eq)]
pub struct Kind(u32);

impl Kind {
    pub fn of_record(size: u64, pointers: u64) -> Kind {
        Kind(2 * class_of(size) as u32 + u32::from(pointers == 0))
    }

    pub fn from_number(number: u32) -> Option<Kind> {
        (number <= LAST_KIND).then_some(Kind(number))
    }

    pub fn number(self) -> u32 {
        self.0
    }

    pub fn class(self) -> usize {
        (self.0 / 2) as usize
    }

    pub fn is_scan(self) -> bool {
        self.0.is_multiple_of(2)
    }

    /// Whether a span of this kind may have so many pages.
    pub fn allows_pages(self, pages: u32) -> bool {
        match self.class() {
            0 => (LARGE_PAGES_MIN..=LARGE_PAGES_MAX).contains(&pages),
            class => u64::from(pages) == CLASSES[class - 1].span_bytes / PAGE_BYTES,
        }
    }
}

/// Neighbouring pages that are cut into elements of one kind.
#[derive(Clone, Copy, Debug, PartialEq, Eq)]
pub struct Span {
    pub start: Page,
    pub pages: usize,
    pub kind: Kind,
    pub unswept: bool,
}

impl Span {
    /// The page behind the span.
    pub fn end(&self) -> Page {
        self.start.plus(self.pages)
    }

    pub fn element_words(&self) -> usize {
        match self.kind.class() {
            0 => self.pages * PAGE_WORDS,
            class => (CLASSES[class - 1].element_bytes / WORD_BYTES) as usize,
        }
    }

    /// The first word of the tail waste, if there is any.
    pub fn tail(&self) -> Option<Word> {
        let words = self.pages * PAGE_WORDS;
        let waste = words % self.element_words();
        (waste > 0).then(|| self.start.first_word().plus(words - waste))
    }

    /// The span's words in each bitmap part.
    pub fn bitmap_words(&self) -> std::ops::Range<usize> {
        self.start.first_bitmap_word()..self.end().first_bitmap_word()
    }

    /// A bit for each word of the span where an element starts. Bitmap words
    /// that are left out at the end have no such bit.
    pub fn element_starts(&self) -> &'static [u64] {
        match self.kind.class() {
            0 => &LARGE_STARTS,
            class => &ELEMENT_STARTS[class - 1],
        }
    }
}
