//! Writes test vectors: `vectors SEED COUNT` prints COUNT random lists of calls
//! on one page, in each of which an accepted allocation sweeps and frees. Each
//! list begins with a line `list N` and with buffers that are all zero. Then
//! there is one line for each call, in three parts with ` ; ` between them: the
//! call as a trace line (`V` is the audit), the answer (`ok` and three values,
//! or `no` and the refusal), and the words that changed with their new values
//! (`a` arena, `t` page table, `b` bitmaps, `r` roots, as in `r560=1`).

use std::fmt::Display;
use std::io::{self, BufWriter, Write};
use std::process::ExitCode;

use peer::layout::*;
use peer::random::{CallMaker, Random};
use peer::{apply, Answer, Buffers, Call};

const PAGES: u64 = 1;
/// No record is larger: the prover computes the definitions on each list, and
/// they go by single words.
const MAX_BYTES: u64 = 64;

#[derive(Clone)]
struct Memory {
    arena: Vec<u64>,
    table: Vec<u32>,
    bitmaps: Vec<u64>,
    roots: Vec<u64>,
}

fn main() -> ExitCode {
    let numbers: Vec<u64> = std::env::args().skip(1).map_while(|text| text.parse().ok()).collect();
    let &[seed, count] = numbers.as_slice() else {
        eprintln!("usage: vectors SEED COUNT");
        return ExitCode::FAILURE;
    };
    let mut random = Random::new(seed);
    let mut output = BufWriter::new(io::stdout().lock());
    let written = (1..=count).try_for_each(|list| write_list(&mut output, &mut random, list));
    match written.and_then(|()| output.flush()) {
        Ok(()) => ExitCode::SUCCESS,
        Err(_) => ExitCode::FAILURE,
    }
}

/// Writes the next random list that will do.
fn write_list(output: &mut impl Write, random: &mut Random, list: u64) -> io::Result<()> {
    let mut lines = Vec::new();
    while !random_list(&mut lines, random)? {
        lines.clear();
    }
    writeln!(output, "list {list}")?;
    output.write_all(&lines)
}

/// Writes the lines of a random list; gives whether it will do: an accepted
/// allocation has freed something, and all records are small.
fn random_list(lines: &mut Vec<u8>, random: &mut Random) -> io::Result<bool> {
    let mut memory = Memory {
        arena: vec![0; arena_words(PAGES)],
        table: vec![0; table_numbers(PAGES)],
        bitmaps: vec![0; bitmap_words(PAGES)],
        roots: vec![0; ROOT_WORDS],
    };
    let mut maker = CallMaker::new(random, PAGES);
    let length = 10 + random.below(11);
    // Some lists begin with a call on buffers that were never set up.
    let setup_place = u64::from(random.chance(200));
    let (mut frees, mut largest) = (false, 0);
    for place in 0..length {
        let call = if place == setup_place {
            Call::Setup { pages: PAGES }
        } else if random.chance(80) {
            maker.wild_call(random)
        } else {
            maker.next(random, &memory.roots)
        };
        // Only the line of a setup shows its P.
        if call.pages() == PAGES || matches!(call, Call::Setup { .. }) {
            let garbage = memory.has_garbage();
            let answer = write_call(lines, &mut memory, &call)?;
            if let (Call::Allocate { size, .. }, Ok(_)) = (call, answer) {
                frees |= garbage && !memory.has_garbage();
                largest = largest.max(size);
            }
        }
    }
    Ok(frees && largest <= MAX_BYTES)
}

impl Memory {
    /// Whether the page has an unswept span with an element that is to be freed.
    fn has_garbage(&self) -> bool {
        let (allocated, marked) = self.bitmaps[..2 * PAGE_BITMAP_WORDS].split_at(PAGE_BITMAP_WORDS);
        self.table[ENTRY_KIND] & UNSWEPT != 0 && allocated != marked
    }
}

fn write_call(output: &mut impl Write, memory: &mut Memory, call: &Call) -> io::Result<Answer> {
    let before = memory.clone();
    let buffers = Buffers {
        arena: &mut memory.arena,
        table: &mut memory.table,
        bitmaps: &mut memory.bitmaps,
        roots: &mut memory.roots,
    };
    let answer = apply(call, buffers);
    let (letter, numbers) = letter_and_numbers(call);
    write!(output, "{letter}")?;
    numbers.iter().try_for_each(|number| write!(output, " {number}"))?;
    match answer {
        Ok([first, second, third]) => write!(output, " ; ok {first} {second} {third} ;")?,
        Err(refusal) => write!(output, " ; no {} ;", refusal.number())?,
    }
    write_changes(output, 'a', &before.arena, &memory.arena)?;
    write_changes(output, 't', &before.table, &memory.table)?;
    write_changes(output, 'b', &before.bitmaps, &memory.bitmaps)?;
    write_changes(output, 'r', &before.roots, &memory.roots)?;
    writeln!(output)?;
    Ok(answer)
}

fn write_changes<T: PartialEq + Display>(
    output: &mut impl Write,
    buffer: char,
    before: &[T],
    after: &[T],
) -> io::Result<()> {
    for (place, (old, new)) in before.iter().zip(after).enumerate() {
        if old != new {
            write!(output, " {buffer}{place}={new}")?;
        }
    }
    Ok(())
}

fn letter_and_numbers(call: &Call) -> (char, Vec<u64>) {
    match *call {
        Call::Setup { pages } => ('H', vec![pages]),
        Call::Open { stack, .. } => ('O', vec![stack]),
        Call::Close { stack, .. } => ('C', vec![stack]),
        Call::Allocate { stack, slot, size, pointers, .. } => {
            ('A', vec![stack, slot, size, pointers])
        }
        Call::Copy { stack, to, from, .. } => ('M', vec![stack, to, from]),
        Call::Clear { stack, slot, .. } => ('Z', vec![stack, slot]),
        Call::Load { stack, to, record, field, .. } => ('L', vec![stack, to, record, field]),
        Call::Store { stack, record, field, from, .. } => ('S', vec![stack, record, field, from]),
        Call::Put { stack, record, field, number, .. } => ('W', vec![stack, record, field, number]),
        Call::Get { stack, record, field, .. } => ('R', vec![stack, record, field]),
        Call::LoadGlobal { stack, to, global, .. } => ('G', vec![stack, to, global]),
        Call::StoreGlobal { stack, global, from, .. } => ('P', vec![stack, global, from]),
        Call::Start { .. } => ('T', vec![]),
        Call::ScanStack { stack, .. } => ('K', vec![stack]),
        Call::ScanGlobals { .. } => ('Q', vec![]),
        Call::MarkStep { .. } => ('N', vec![]),
        Call::Finish { .. } => ('F', vec![]),
        Call::SweepStep { .. } => ('E', vec![]),
        Call::Audit { .. } => ('V', vec![]),
    }
}
