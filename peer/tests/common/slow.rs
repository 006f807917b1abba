//! A second heap, slow and simple: no bitmap tricks, a step for each word, and
//! the class table as the runtime's sources print it. The audit goes clause by
//! clause and names the one that is broken. A refusal is found by collecting
//! every one that applies and taking the first in the order of the table. An
//! allocation reads all spans anew after each span that it sweeps.

use std::collections::HashSet;
use std::sync::OnceLock;

use super::Owned;
use peer::Call;

/// Class, bytes of an element, bytes of a span, elements, tail waste.
pub const PRINTED: &str = "
1 8 8192 1024 0
2 16 8192 512 0
3 32 8192 256 0
4 48 8192 170 32
5 64 8192 128 0
6 80 8192 102 32
7 96 8192 85 32
8 112 8192 73 16
9 128 8192 64 0
10 144 8192 56 128
11 160 8192 51 32
12 176 8192 46 96
13 192 8192 42 128
14 208 8192 39 80
15 224 8192 36 128
16 240 8192 34 32
17 256 8192 32 0
18 288 8192 28 128
19 320 8192 25 192
20 352 8192 23 96
21 384 8192 21 128
22 416 8192 19 288
23 448 8192 18 128
24 480 8192 17 32
25 512 8192 16 0
26 576 8192 14 128
27 640 8192 12 512
28 704 8192 11 448
29 768 8192 10 512
30 896 8192 9 128
31 1024 8192 8 0
32 1152 8192 7 128
33 1280 8192 6 512
34 1408 16384 11 896
35 1536 8192 5 512
36 1792 16384 9 256
37 2048 8192 4 0
38 2304 16384 7 256
39 2688 8192 3 128
40 3072 24576 8 0
41 3200 16384 5 384
42 3456 24576 7 384
43 4096 8192 2 0
44 4864 24576 5 256
45 5376 16384 3 256
46 6144 24576 4 0
47 6528 32768 5 128
48 6784 40960 6 256
49 6912 49152 7 768
50 8192 8192 1 0
51 9472 57344 6 512
52 9728 49152 5 512
53 10240 40960 4 0
54 10880 32768 3 128
55 12288 24576 2 0
56 13568 40960 3 256
57 14336 57344 4 0
58 16384 16384 1 0
59 18432 73728 4 0
60 19072 57344 3 128
61 20480 40960 2 0
62 21760 65536 3 256
63 24576 24576 1 0
64 27264 81920 3 128
65 28672 57344 2 0
66 32768 32768 1 0
";

pub fn printed_rows() -> &'static [[u64; 5]] {
    static ROWS: OnceLock<Vec<[u64; 5]>> = OnceLock::new();
    ROWS.get_or_init(|| {
        let row = |line: &str| {
            let numbers: Vec<u64> = line.split(' ').map(|n| n.parse().unwrap()).collect();
            numbers.try_into().unwrap()
        };
        PRINTED.trim().lines().map(row).collect()
    })
}

/// Three values or the number of a refusal.
pub type Outcome = Result<[u64; 3], u64>;

const ALLOCATED: usize = 0;
const MARKED: usize = 1;
const GRAY: usize = 2;
const POINTER: usize = 3;

const GLOBALS: usize = 512;
const STATES: usize = 544;
const GLOBALS_STATE: usize = 560;
const PHASE: usize = 561;

fn bit_place(owned: &Owned, part: usize, word: usize) -> (usize, u64) {
    (part * owned.bitmaps.len() / 4 + word / 64, 1 << (word % 64))
}

fn get_bit(owned: &Owned, part: usize, word: usize) -> bool {
    let (place, mask) = bit_place(owned, part, word);
    owned.bitmaps[place] & mask != 0
}

fn put_bit(owned: &mut Owned, part: usize, word: usize, on: bool) {
    let (place, mask) = bit_place(owned, part, word);
    if on {
        owned.bitmaps[place] |= mask;
    } else {
        owned.bitmaps[place] &= !mask;
    }
}

/// A span as the page table has it.
pub struct Span {
    start: usize,
    pages: usize,
    kind: u32,
    unswept: bool,
}

impl Span {
    fn element_words(&self) -> usize {
        match self.kind / 2 {
            0 => self.pages * 1024,
            class => printed_rows()[class as usize - 1][1] as usize / 8,
        }
    }

    /// The first words of all elements.
    fn elements(&self) -> Vec<usize> {
        let words = self.element_words();
        let count = match self.kind / 2 {
            0 => 1,
            class => printed_rows()[class as usize - 1][3] as usize,
        };
        (0..count).map(|element| self.start * 1024 + element * words).collect()
    }

    fn is_scan(&self) -> bool {
        self.kind.is_multiple_of(2)
    }

    fn keeps(&self, owned: &Owned, element: usize) -> bool {
        get_bit(owned, if self.unswept { MARKED } else { ALLOCATED }, element)
    }

    /// The pointer words of the element at this word.
    fn pointers(&self, owned: &Owned, element: usize) -> usize {
        let fields = 0..self.element_words();
        fields.take_while(|field| get_bit(owned, POINTER, element + field)).count()
    }
}

fn entry(owned: &Owned, page: usize) -> [u32; 3] {
    [owned.table[3 * page], owned.table[3 * page + 1], owned.table[3 * page + 2]]
}

/// All spans from the lowest start page on.
fn spans(owned: &Owned) -> Vec<Span> {
    let mut spans = Vec::new();
    for page in 0..owned.table.len() / 3 {
        let [start, pages, kind] = entry(owned, page);
        if start as usize == page + 1 {
            let unswept = kind >= 256;
            let kind = if unswept { kind - 256 } else { kind };
            spans.push(Span { start: page, pages: pages as usize, kind, unswept });
        }
    }
    spans
}

/// The first clause of the audit that does not hold; none if it says yes.
pub fn broken_clause(owned: &Owned) -> Option<&'static str> {
    broken_state(owned).or_else(|| broken_page(owned)).or_else(|| broken_bit(owned)).or_else(|| {
        let kept = kept_addresses(owned);
        broken_root(owned, &kept).or_else(|| broken_pointer_word(owned, &kept))
    })
}

fn broken_state(owned: &Owned) -> Option<&'static str> {
    let phase = owned.roots[PHASE];
    let states = &owned.roots[STATES..=GLOBALS_STATE];
    if ![0, 1, 2].contains(&phase) {
        return Some("phase has a legal value");
    }
    if states.iter().any(|state| ![0, 1, 2].contains(state)) || states[16] == 0 {
        return Some("states have legal values");
    }
    if states.contains(&2) && phase != 1 {
        return Some("a state of 2 only in phase mark");
    }
    None
}

fn broken_page(owned: &Owned) -> Option<&'static str> {
    let pages = owned.table.len() / 3;
    for page in 0..pages {
        let [start, count, kind] = entry(owned, page);
        let base = if kind >= 256 { kind - 256 } else { kind };
        if start as usize == page + 1 {
            if base > 133 {
                return Some("kinds are legal");
            }
            let legal = match base / 2 {
                0 => (5..=128).contains(&count),
                class => u64::from(count) == printed_rows()[class as usize - 1][2] / 8192,
            };
            if !legal {
                return Some("the page count is the class's");
            }
            if page + count as usize > pages {
                return Some("spans lie inside the arena");
            }
            if kind >= 256 && owned.roots[PHASE] != 2 {
                return Some("unswept only in phase sweep");
            }
            let further = (page + 1..page + count as usize).map(|page| entry(owned, page));
            if further.into_iter().any(|further| further != [start, 0, 0]) {
                return Some("further pages are as said");
            }
        } else if [start, count, kind] != [0, 0, 0] && !is_further_page(owned, page) {
            return Some("page entries are as said");
        }
    }
    None
}

fn is_further_page(owned: &Owned, page: usize) -> bool {
    let start = owned.table[3 * page] as usize;
    let before = start >= 1 && start <= page && owned.table[3 * (start - 1)] as usize == start;
    before && start - 1 + owned.table[3 * (start - 1) + 1] as usize > page
}

/// Page entries are legal here.
fn broken_bit(owned: &Owned) -> Option<&'static str> {
    let words = owned.arena.len();
    let mut element_span: Vec<Option<usize>> = vec![None; words];
    let mut pointer_legal = vec![false; words];
    let spans = spans(owned);
    for (number, span) in spans.iter().enumerate() {
        let allocated: Vec<usize> =
            span.elements().into_iter().filter(|&word| get_bit(owned, ALLOCATED, word)).collect();
        if allocated.is_empty() {
            return Some("at least one element per span");
        }
        span.elements().into_iter().for_each(|word| element_span[word] = Some(number));
        for word in allocated.into_iter().filter(|_| span.is_scan()) {
            let run = span.pointers(owned, word);
            if run == 0 {
                return Some("a first run of at least one word");
            }
            pointer_legal[word..word + run].fill(true);
        }
    }
    (0..words).find_map(|word| {
        let span = element_span[word].map(|number| &spans[number]);
        broken_bit_at(owned, word, span, pointer_legal[word])
    })
}

/// The clauses about one word's bits; `span` is there if an element starts at
/// the word.
fn broken_bit_at(
    owned: &Owned,
    word: usize,
    span: Option<&Span>,
    pointer_legal: bool,
) -> Option<&'static str> {
    let phase = owned.roots[PHASE];
    let [allocated, marked, gray, pointer] =
        [ALLOCATED, MARKED, GRAY, POINTER].map(|part| get_bit(owned, part, word));
    let unswept = span.is_some_and(|span| span.unswept);
    let scan = span.is_some_and(|span| span.is_scan());
    let clauses = [
        (allocated && span.is_none(), "allocated only at elements"),
        (marked && !allocated, "marked only where allocated"),
        (marked && phase == 0, "no marks in phase off"),
        (marked && phase == 2 && !unswept, "marks only in unswept spans in phase sweep"),
        (gray && !marked, "gray only where marked"),
        (gray && !scan, "gray only in scan spans"),
        (gray && phase != 1, "gray only in phase mark"),
        (pointer && !pointer_legal, "pointer bits nowhere else"),
    ];
    clauses.iter().find(|(broken, _)| *broken).map(|(_, clause)| *clause)
}

fn kept_addresses(owned: &Owned) -> HashSet<u64> {
    let mut kept = HashSet::new();
    for span in spans(owned) {
        let elements = span.elements().into_iter().filter(|&word| span.keeps(owned, word));
        kept.extend(elements.map(|word| 8192 + 8 * word as u64));
    }
    kept
}

fn broken_root(owned: &Owned, kept: &HashSet<u64>) -> Option<&'static str> {
    for stack in 0..16 {
        let slots = &owned.roots[32 * stack..32 * stack + 32];
        if owned.roots[STATES + stack] == 0 && slots.iter().any(|&slot| slot != 0) {
            return Some("closed stacks are all nil");
        }
    }
    let roots = &owned.roots[..STATES];
    let broken = roots.iter().any(|root| *root != 0 && !kept.contains(root));
    broken.then_some("every root is nil or names a kept element")
}

fn broken_pointer_word(owned: &Owned, kept: &HashSet<u64>) -> Option<&'static str> {
    for span in spans(owned) {
        for element in span.elements().into_iter().filter(|&word| span.keeps(owned, word)) {
            let words = &owned.arena[element..element + span.pointers(owned, element)];
            if words.iter().any(|word| *word != 0 && !kept.contains(word)) {
                return Some("every pointer word is nil or names a kept element");
            }
        }
    }
    None
}

/// What a call needs, for the refusals.
#[derive(Default)]
struct Needs {
    phase: Option<u64>,
    /// A stack, and whether it has to be open.
    stack: Option<(u64, bool)>,
    /// Slots and globals.
    places: Vec<u64>,
    /// Size and pointer words.
    size: Option<(u64, u64)>,
    /// The slot that names a record, a field, and whether a pointer word.
    field: Option<(u64, u64, bool)>,
    finish: bool,
}

fn needs(call: &Call) -> Needs {
    let open = |stack, places: &[u64]| Needs {
        stack: Some((stack, true)),
        places: places.to_vec(),
        ..Needs::default()
    };
    let phase = |phase| Needs { phase: Some(phase), ..Needs::default() };
    match *call {
        Call::Setup { .. } | Call::Audit { .. } => Needs::default(),
        Call::Allocate { stack, slot, size, pointers, .. } => {
            Needs { size: Some((size, pointers)), ..open(stack, &[slot]) }
        }
        Call::Copy { stack, to, from, .. } => open(stack, &[to, from]),
        Call::Clear { stack, slot, .. } => open(stack, &[slot]),
        Call::Load { stack, to, record, field, .. } => {
            Needs { field: Some((record, field, true)), ..open(stack, &[to, record]) }
        }
        Call::Store { stack, record, field, from, .. } => {
            Needs { field: Some((record, field, true)), ..open(stack, &[record, from]) }
        }
        Call::Put { stack, record, field, .. } | Call::Get { stack, record, field, .. } => {
            Needs { field: Some((record, field, false)), ..open(stack, &[record]) }
        }
        Call::LoadGlobal { stack, to, global, .. } => open(stack, &[to, global]),
        Call::StoreGlobal { stack, global, from, .. } => open(stack, &[global, from]),
        Call::Open { stack, .. } => Needs { stack: Some((stack, false)), ..Needs::default() },
        Call::Close { stack, .. } => open(stack, &[]),
        Call::Start { .. } => phase(0),
        Call::ScanStack { stack, .. } => Needs { phase: Some(1), ..open(stack, &[]) },
        Call::ScanGlobals { .. } | Call::MarkStep { .. } => phase(1),
        Call::Finish { .. } => Needs { finish: true, ..phase(1) },
        Call::SweepStep { .. } => phase(2),
    }
}

fn right_lengths(owned: &Owned, pages: u64) -> bool {
    let lengths = [(owned.arena.len(), 1024), (owned.table.len(), 3), (owned.bitmaps.len(), 64)];
    let right = |&(length, per_page): &(usize, u128)| length as u128 == per_page * pages as u128;
    (1..=256).contains(&pages) && lengths.iter().all(right) && owned.roots.len() == 562
}

/// Every refusal that applies to the call.
fn refusals(call: &Call, owned: &Owned) -> Vec<u64> {
    let needs = needs(call);
    if !right_lengths(owned, call.pages()) {
        return vec![1];
    }
    if matches!(call, Call::Setup { .. }) {
        return vec![];
    }
    if broken_clause(owned).is_some() {
        return vec![12];
    }
    let mut found = Vec::new();
    if needs.phase.is_some_and(|phase| phase != owned.roots[PHASE]) {
        found.push(2);
    }
    let is_open = |stack: u64| stack < 16 && owned.roots[STATES + stack as usize] != 0;
    if needs.stack.is_some_and(|(stack, open)| stack >= 16 || is_open(stack) != open) {
        found.push(3);
    }
    if needs.places.iter().any(|&place| place >= 32) {
        found.push(4);
    }
    if needs.size.is_some_and(|(size, p)| size == 0 || size > 1_048_576 || p > size / 8) {
        found.push(5);
    }
    // A field can only be looked at where stack and slot are good.
    if found.is_empty() {
        found.extend(field_refusal(owned, &needs));
    }
    if needs.finish && something_is_gray(owned) {
        found.push(10);
    }
    found
}

fn something_is_gray(owned: &Owned) -> bool {
    let roots = owned.roots[STATES..=GLOBALS_STATE].contains(&2);
    roots || (0..owned.arena.len()).any(|word| get_bit(owned, GRAY, word))
}

fn field_refusal(owned: &Owned, needs: &Needs) -> Option<u64> {
    let (slot, field, pointer) = needs.field?;
    let (stack, _) = needs.stack?;
    let value = owned.roots[(32 * stack + slot) as usize];
    if value == 0 {
        return Some(6);
    }
    let (element, span) = record_at(owned, value);
    let pointers = span.pointers(owned, element) as u64;
    let range = if pointer { 0..pointers } else { pointers..span.element_words() as u64 };
    (!range.contains(&field)).then_some(7)
}

fn record_at(owned: &Owned, address: u64) -> (usize, Span) {
    let word = ((address - 8192) / 8) as usize;
    let inside = |span: &Span| (span.start..span.start + span.pages).contains(&(word / 1024));
    (word, spans(owned).into_iter().find(inside).unwrap())
}

/// Kind, pages and element words for a record.
fn shape(size: u64, pointers: u64) -> (u32, usize, usize) {
    let noscan = u32::from(pointers == 0);
    match printed_rows().iter().find(|row| row[1] >= size) {
        Some(row) => (2 * row[0] as u32 + noscan, (row[2] / 8192) as usize, row[1] as usize / 8),
        None => {
            let pages = (size as usize).div_ceil(8192);
            (noscan, pages, pages * 1024)
        }
    }
}

/// The first word of the element that a record gets, and whether its span is
/// new; none if there is no room. Sweeps span after span until there is room,
/// and after each looks at everything again: swept spans of the kind come
/// before unswept ones, those before free pages, and those before the sweep of
/// another kind.
pub fn place_for(owned: &mut Owned, size: u64, pointers: u64) -> Option<(usize, bool)> {
    let (kind, need, _) = shape(size, pointers);
    loop {
        if let Some(word) = free_element(owned, kind) {
            return Some((word, false));
        }
        let mut unswept: Vec<Span> = spans(owned).into_iter().filter(|s| s.unswept).collect();
        if unswept.iter().any(|span| span.kind == kind) {
            unswept.retain(|span| span.kind == kind);
        } else if let Some(start) = free_pages(owned, need) {
            return Some((start * 1024, true));
        }
        sweep(owned, unswept.first()?);
    }
}

/// The first free element in all swept spans of the kind.
fn free_element(owned: &Owned, kind: u32) -> Option<usize> {
    let swept = spans(owned).into_iter().filter(|span| span.kind == kind && !span.unswept);
    let mut elements = swept.flat_map(|span| span.elements());
    elements.find(|&word| !get_bit(owned, ALLOCATED, word))
}

/// The start of the shortest run of at least `need` free pages.
fn free_pages(owned: &Owned, need: usize) -> Option<usize> {
    let pages = owned.table.len() / 3;
    let is_free = |page: usize| page < pages && owned.table[3 * page] == 0;
    let mut runs = Vec::new();
    for start in (0..pages).filter(|&page| is_free(page) && (page == 0 || !is_free(page - 1))) {
        let length = (start..).take_while(|&page| is_free(page)).count();
        runs.push((length, start));
    }
    runs.retain(|&(length, _)| length >= need);
    runs.sort();
    runs.first().map(|&(_, start)| start)
}

/// The answer of a call on these buffers, and the buffers after it.
pub fn predict(call: &Call, before: &Owned) -> (Outcome, Owned) {
    let found = refusals(call, before);
    let order = [1, 12, 2, 3, 4, 5, 6, 7, 10];
    let mut owned = before.clone();
    let outcome = match order.iter().find(|number| found.contains(number)) {
        Some(&number) => Err(number),
        // The one refusal that is found late and changes words.
        None => carry_out(call, &mut owned).ok_or(9),
    };
    (outcome, owned)
}

/// None if an allocation finds no room.
fn carry_out(call: &Call, owned: &mut Owned) -> Option<[u64; 3]> {
    let slot = |stack: u64, slot: u64| (32 * stack + slot) as usize;
    Some(match *call {
        Call::Setup { .. } => setup(owned),
        Call::Audit { .. } => [0; 3],
        Call::Allocate { stack, slot: to, size, pointers, .. } => {
            let value = allocate(owned, size, pointers)?;
            set_root(owned, slot(stack, to), value)
        }
        Call::Copy { stack, to, from, .. } => {
            let value = owned.roots[slot(stack, from)];
            set_root(owned, slot(stack, to), value)
        }
        Call::Clear { stack, slot: to, .. } => set_root(owned, slot(stack, to), 0),
        Call::Load { stack, to, record, field, .. } => {
            let value = owned.arena[field_word(owned, slot(stack, record), field)];
            set_root(owned, slot(stack, to), value)
        }
        Call::LoadGlobal { stack, to, global, .. } => {
            let value = owned.roots[GLOBALS + global as usize];
            set_root(owned, slot(stack, to), value)
        }
        Call::Get { stack, record, field, .. } => {
            [owned.arena[field_word(owned, slot(stack, record), field)], 0, 0]
        }
        Call::Put { stack, record, field, number, .. } => {
            let word = field_word(owned, slot(stack, record), field);
            owned.arena[word] = number;
            [0; 3]
        }
        Call::Store { .. } | Call::StoreGlobal { .. } => store(call, owned),
        _ => carry_out_cycle(call, owned),
    })
}

fn setup(owned: &mut Owned) -> [u64; 3] {
    owned.table.fill(0);
    owned.bitmaps.fill(0);
    owned.roots.fill(0);
    owned.roots[GLOBALS_STATE] = 1;
    [0; 3]
}

fn set_root(owned: &mut Owned, place: usize, value: u64) -> [u64; 3] {
    owned.roots[place] = value;
    [value, 0, 0]
}

fn field_word(owned: &Owned, place: usize, field: u64) -> usize {
    ((owned.roots[place] - 8192) / 8 + field) as usize
}

fn allocate(owned: &mut Owned, size: u64, pointers: u64) -> Option<u64> {
    let (kind, pages, words) = shape(size, pointers);
    let (word, new) = place_for(owned, size, pointers)?;
    if new {
        for page in word / 1024..word / 1024 + pages {
            owned.table[3 * page] = (word / 1024 + 1) as u32;
        }
        owned.table[3 * (word / 1024) + 1] = pages as u32;
        owned.table[3 * (word / 1024) + 2] = kind;
    }
    for field in 0..words {
        owned.arena[word + field] = 0;
        if (field as u64) < pointers {
            put_bit(owned, POINTER, word + field, true);
        }
    }
    put_bit(owned, ALLOCATED, word, true);
    if owned.roots[PHASE] == 1 {
        put_bit(owned, MARKED, word, true);
    }
    Some(8192 + 8 * word as u64)
}

fn store(call: &Call, owned: &mut Owned) -> [u64; 3] {
    let (old, new) = match *call {
        Call::Store { stack, record, field, from, .. } => {
            let word = field_word(owned, (32 * stack + record) as usize, field);
            let new = owned.roots[(32 * stack + from) as usize];
            (std::mem::replace(&mut owned.arena[word], new), new)
        }
        Call::StoreGlobal { stack, global, from, .. } => {
            let new = owned.roots[(32 * stack + from) as usize];
            (std::mem::replace(&mut owned.roots[GLOBALS + global as usize], new), new)
        }
        _ => (0, 0),
    };
    if owned.roots[PHASE] == 1 {
        shade(owned, old);
        shade(owned, new);
    }
    [0; 3]
}

/// 1 if a mark bit turned on.
fn shade(owned: &mut Owned, value: u64) -> u64 {
    if value == 0 {
        return 0;
    }
    let (word, span) = record_at(owned, value);
    if get_bit(owned, MARKED, word) {
        return 0;
    }
    put_bit(owned, MARKED, word, true);
    put_bit(owned, GRAY, word, span.is_scan());
    1
}

fn carry_out_cycle(call: &Call, owned: &mut Owned) -> [u64; 3] {
    match *call {
        Call::Open { stack, .. } | Call::Close { stack, .. } => {
            let first = 32 * stack as usize;
            owned.roots[first..first + 32].fill(0);
            let state = u64::from(matches!(call, Call::Open { .. }));
            owned.roots[STATES + stack as usize] = state;
            [0; 3]
        }
        Call::Start { .. } => {
            owned.roots[PHASE] = 1;
            let states = owned.roots[STATES..=GLOBALS_STATE].iter_mut();
            states.filter(|state| **state == 1).for_each(|state| *state = 2);
            [0; 3]
        }
        Call::ScanStack { stack, .. } => scan(owned, STATES + stack as usize, 32 * stack as usize),
        Call::ScanGlobals { .. } => scan(owned, GLOBALS_STATE, GLOBALS),
        Call::MarkStep { .. } => mark_step(owned),
        Call::Finish { .. } => {
            owned.roots[PHASE] = 2;
            spans(owned).iter().for_each(|span| owned.table[3 * span.start + 2] += 256);
            [0; 3]
        }
        _ => sweep_step(owned),
    }
}

fn scan(owned: &mut Owned, state: usize, first: usize) -> [u64; 3] {
    if owned.roots[state] == 1 {
        return [0; 3];
    }
    owned.roots[state] = 1;
    let values = owned.roots[first..first + 32].to_vec();
    [values.into_iter().map(|value| shade(owned, value)).sum(), 0, 0]
}

fn mark_step(owned: &mut Owned) -> [u64; 3] {
    let Some(word) = (0..owned.arena.len()).find(|&word| get_bit(owned, GRAY, word)) else {
        return [0; 3];
    };
    put_bit(owned, GRAY, word, false);
    let address = 8192 + 8 * word as u64;
    let (_, span) = record_at(owned, address);
    for field in 0..span.pointers(owned, word) {
        let value = owned.arena[word + field];
        shade(owned, value);
    }
    [address, 0, 0]
}

fn sweep_step(owned: &mut Owned) -> [u64; 3] {
    let Some(span) = spans(owned).into_iter().find(|span| span.unswept) else {
        owned.roots[PHASE] = 0;
        return [0; 3];
    };
    sweep(owned, &span)
}

/// Start page + 1, elements freed, pages returned.
fn sweep(owned: &mut Owned, span: &Span) -> [u64; 3] {
    let (mut freed, mut left) = (0, 0);
    for element in span.elements() {
        if get_bit(owned, MARKED, element) {
            left += 1;
            put_bit(owned, MARKED, element, false);
        } else if get_bit(owned, ALLOCATED, element) {
            freed += 1;
            put_bit(owned, ALLOCATED, element, false);
            for field in 0..span.element_words() {
                put_bit(owned, POINTER, element + field, false);
            }
        }
    }
    owned.table[3 * span.start + 2] -= 256;
    if left == 0 {
        owned.table[3 * span.start..3 * (span.start + span.pages)].fill(0);
    }
    let returned = if left == 0 { span.pages as u64 } else { 0 };
    [span.start as u64 + 1, freed, returned]
}
