//! The trace program: reads calls line by line from any input and prints one
//! answer for each, on a heap of at most eight pages. Input is read in blocks
//! and a line is given up as soon as it is too long, so that neither a long
//! trace nor a line without end takes more memory.

use std::io::{self, Read, Write};

use crate::calls::{apply, Answer, Call};
use crate::layout::*;

/// The most pages of a trace's heap.
pub const TRACE_PAGES: u64 = 8;
/// The most bytes of a line before its line feed.
pub const LINE_BYTES: usize = 80;
const BLOCK_BYTES: usize = 1 << 16;
const MAX_NUMBERS: usize = 4;

/// A line that has been read: its letter and its numbers, 0 where it has fewer.
#[derive(Clone, Copy, Debug, PartialEq, Eq)]
pub struct Line {
    pub letter: u8,
    pub numbers: [u64; MAX_NUMBERS],
}

/// How many numbers follow a letter, and how many its answer shows; none for a
/// byte that is no letter of a trace.
fn counts(letter: u8) -> Option<(usize, usize)> {
    match letter {
        b'H' => Some((1, 0)),
        b'O' | b'C' => Some((1, 0)),
        b'A' => Some((4, 1)),
        b'M' => Some((3, 1)),
        b'Z' => Some((2, 1)),
        b'L' => Some((4, 1)),
        b'S' | b'W' => Some((4, 0)),
        b'R' => Some((3, 1)),
        b'G' => Some((3, 1)),
        b'P' => Some((3, 0)),
        b'T' | b'F' => Some((0, 0)),
        b'K' => Some((1, 1)),
        b'Q' | b'N' => Some((0, 1)),
        b'E' => Some((0, 3)),
        _ => None,
    }
}

/// Reads a line without its line feed; none if it does not read.
pub fn read_line(line: &[u8]) -> Option<Line> {
    if line.len() > LINE_BYTES {
        return None;
    }
    let (&letter, mut rest) = line.split_first()?;
    let (count, _) = counts(letter)?;
    let mut numbers = [0; MAX_NUMBERS];
    for number in &mut numbers[..count] {
        rest = rest.strip_prefix(b" ")?;
        (*number, rest) = read_number(rest)?;
    }
    rest.is_empty().then_some(Line { letter, numbers })
}

/// Reads the number that the text starts with; gives also what follows it.
fn read_number(text: &[u8]) -> Option<(u64, &[u8])> {
    let length = text.iter().take_while(|byte| byte.is_ascii_digit()).count();
    let (digits, rest) = text.split_at(length);
    if digits.is_empty() || (digits[0] == b'0' && length > 1) {
        return None;
    }
    let mut number = 0u64;
    for digit in digits {
        number = number.checked_mul(10)?.checked_add(u64::from(digit - b'0'))?;
    }
    Some((number, rest))
}

/// The call that a line asks for.
pub fn call_of(pages: u64, line: &Line) -> Option<Call> {
    let [a, b, c, d] = line.numbers;
    Some(match line.letter {
        b'H' => Call::Setup { pages },
        b'O' => Call::Open { pages, stack: a },
        b'C' => Call::Close { pages, stack: a },
        b'A' => Call::Allocate { pages, stack: a, slot: b, size: c, pointers: d },
        b'M' => Call::Copy { pages, stack: a, to: b, from: c },
        b'Z' => Call::Clear { pages, stack: a, slot: b },
        b'L' => Call::Load { pages, stack: a, to: b, record: c, field: d },
        b'S' => Call::Store { pages, stack: a, record: b, field: c, from: d },
        b'W' => Call::Put { pages, stack: a, record: b, field: c, number: d },
        b'R' => Call::Get { pages, stack: a, record: b, field: c },
        b'G' => Call::LoadGlobal { pages, stack: a, to: b, global: c },
        b'P' => Call::StoreGlobal { pages, stack: a, global: b, from: c },
        b'T' => Call::Start { pages },
        b'K' => Call::ScanStack { pages, stack: a },
        b'Q' => Call::ScanGlobals { pages },
        b'N' => Call::MarkStep { pages },
        b'F' => Call::Finish { pages },
        b'E' => Call::SweepStep { pages },
        _ => return None,
    })
}

/// Cuts an input into lines.
struct LineReader<R> {
    input: R,
    block: Vec<u8>,
    position: usize,
    filled: usize,
    line: [u8; LINE_BYTES],
}

enum Next {
    /// So many bytes of `line`, and a line feed behind them.
    Line(usize),
    /// A line that is too long or has no line feed.
    Unreadable,
    End,
}

impl<R: Read> LineReader<R> {
    fn new(input: R) -> Self {
        let block = vec![0; BLOCK_BYTES];
        LineReader { input, block, position: 0, filled: 0, line: [0; LINE_BYTES] }
    }

    fn next(&mut self) -> io::Result<Next> {
        let mut length = 0;
        loop {
            if self.position == self.filled && !self.fill()? {
                return Ok(if length == 0 { Next::End } else { Next::Unreadable });
            }
            let byte = self.block[self.position];
            self.position += 1;
            if byte == b'\n' {
                return Ok(Next::Line(length));
            }
            if length == LINE_BYTES {
                return Ok(Next::Unreadable);
            }
            self.line[length] = byte;
            length += 1;
        }
    }

    /// Reads the next block; false at the end of the input.
    fn fill(&mut self) -> io::Result<bool> {
        self.position = 0;
        self.filled = 0;
        loop {
            match self.input.read(&mut self.block) {
                Ok(count) => {
                    self.filled = count;
                    return Ok(count > 0);
                }
                Err(error) if error.kind() == io::ErrorKind::Interrupted => continue,
                Err(error) => return Err(error),
            }
        }
    }
}

/// The memory that a trace lends to its heap.
struct Memory {
    pages: u64,
    arena: [u64; PAGE_WORDS * TRACE_PAGES as usize],
    table: [u32; ENTRY_NUMBERS * TRACE_PAGES as usize],
    bitmaps: [u64; BITMAP_PARTS * PAGE_BITMAP_WORDS * TRACE_PAGES as usize],
    roots: [u64; ROOT_WORDS],
}

impl Memory {
    fn new(pages: u64) -> Memory {
        Memory {
            pages,
            arena: [0; PAGE_WORDS * TRACE_PAGES as usize],
            table: [0; ENTRY_NUMBERS * TRACE_PAGES as usize],
            bitmaps: [0; BITMAP_PARTS * PAGE_BITMAP_WORDS * TRACE_PAGES as usize],
            roots: [0; ROOT_WORDS],
        }
    }

    fn lend(&mut self) -> Buffers<'_> {
        Buffers {
            arena: &mut self.arena[..arena_words(self.pages)],
            table: &mut self.table[..table_numbers(self.pages)],
            bitmaps: &mut self.bitmaps[..bitmap_words(self.pages)],
            roots: &mut self.roots,
        }
    }
}

/// Plays a trace to its end or to the first line that does not read.
pub fn play(input: impl Read, mut output: impl Write) -> io::Result<()> {
    let mut reader = LineReader::new(input);
    let mut memory: Option<Memory> = None;
    let mut number = 0u64;
    loop {
        number += 1;
        let line = match reader.next()? {
            Next::End if number > 1 => return output.flush(),
            Next::Line(length) => read_line(&reader.line[..length]),
            Next::Unreadable | Next::End => None,
        };
        // The first line has to be H, and no other may be.
        let Some(line) = line.filter(|line| (line.letter == b'H') == (number == 1)) else {
            writeln!(output, "bad {number}")?;
            return output.flush();
        };
        if number == 1 && !(1..=TRACE_PAGES).contains(&line.numbers[0]) {
            writeln!(output, "no 1")?;
            return output.flush();
        }
        let memory = memory.get_or_insert_with(|| Memory::new(line.numbers[0]));
        if let Some(call) = call_of(memory.pages, &line) {
            let answer = apply(&call, memory.lend());
            print_answer(&mut output, line.letter, answer)?;
        }
    }
}

/// Prints an answer as the line of this letter shows it.
fn print_answer(output: &mut impl Write, letter: u8, answer: Answer) -> io::Result<()> {
    match answer {
        Ok(values) => {
            let shown = counts(letter).map_or(0, |(_, shown)| shown);
            write!(output, "ok")?;
            for value in &values[..shown] {
                write!(output, " {value}")?;
            }
            writeln!(output)
        }
        Err(refusal) => writeln!(output, "no {}", refusal.number()),
    }
}
