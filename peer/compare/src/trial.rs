//! Traces for comparing two trace programs: random ones, and every kind of line
//! that does not read, in every place of a sample trace that has all letters.

use peer::random::{CallMaker, Random};
use peer::trace::{call_of, read_line, TRACE_PAGES};
use peer::{apply, Call};

use crate::lines::{text_of, with_one_number_changed};
use crate::memory::{lengths, Memory};

/// All eighteen letters, accepted and refused.
const SAMPLE: [&str; 26] = [
    "H 2",
    "O 0",
    "A 0 0 17 1",
    "A 0 1 24 1",
    "S 0 0 0 1",
    "W 0 1 1 77",
    "R 0 1 1",
    "P 0 3 1",
    "G 0 4 3",
    "M 0 5 0",
    "Z 0 1",
    "L 0 2 0 0",
    "R 0 0 9",
    "T",
    "K 0",
    "Q",
    "N",
    "N",
    "N",
    "F",
    "A 0 7 17 1",
    "E",
    "E",
    "C 0",
    "O 15",
    "O 0",
];

/// Lines that do not read, and lines that do and are in the wrong place.
#[rustfmt::skip]
const BAD_TEXTS: &[&str] = &[
    "", " ", "o 0", "B 0", "V", "0", "O", "O ", "O  0", " O 0", "O 0 ", "O 0 0", "O\t0", "O 0\r",
    "O\u{0}0", "O 0\u{0}", "\u{0}", "O -1", "O +1", "O 01", "O 00", "O 1,5", "O ,", "O 0x1", "O a",
    "O 1.0", "O0", "O 18446744073709551616", "O 99999999999999999999", "O 100000000000000000000",
    "O 28446744073709551615", "O 18446744073709551615 ", "OO 0", "O 0;", "O /", "O :", "O 1:",
    "A 0 0 8", "A 0 0 8 0 0", "A 0 0 1,5 0", "M 0 0", "M 0 0 0 0", "Z 0", "Z 0 0 0", "L 0 0 0",
    "L 0 0 0 0 0", "S 0 0 0", "S 0 0 0 0 0", "W 0 0 0", "W 0 0 0 0 0", "R 0 0", "R 0 0 0 0",
    "G 0 0", "G 0 0 0 0", "P 0 0", "P 0 0 0 0", "C", "C 0 0", "T 0", "K", "K 0 0", "Q 0", "N 0",
    "F 0", "E 0", "T ", "\u{e9} 0", "O \u{661}", "#", "O 0 # note", "ok", "\u{feff}O 0",
    "H", "H 0", "H 1", "H 8", "H 9", "H 1 1", "H 01", "H 257", "H 4294967297",
    "H 18446744073709551615", "H 18446744073709551616", "h 1",
];

/// A line of 80 bytes, which reads.
const LONGEST: &str =
    "W 18446744073709551615 18446744073709551615 18446744073709551615 100000000000000";

/// Numbers that are none.
const BAD_NUMBERS: [&str; 13] = [
    "",
    " 0",
    "00",
    "01",
    "-1",
    "+1",
    "1,5",
    "1.0",
    "0x1",
    "18446744073709551616",
    "a",
    "1\t",
    "1 ",
];

/// The same as `BAD_TEXTS` and others that are no text or too long.
fn bad_lines() -> Vec<Vec<u8>> {
    let mut lines: Vec<Vec<u8>> = BAD_TEXTS.iter().map(|text| text.as_bytes().to_vec()).collect();
    lines.extend([vec![0xff], vec![b'O', b' ', 0x80], vec![b'O'; 81], vec![b'0'; 200_000]]);
    lines.push(LONGEST.as_bytes().to_vec());
    lines.push(format!("{LONGEST}0").into_bytes());
    lines.push(format!("O {}", "1".repeat(78)).into_bytes());
    lines.push(format!("O {}", "1".repeat(79)).into_bytes());
    lines
}

fn joined(lines: &[&str]) -> Vec<u8> {
    lines.iter().flat_map(|line| [line.as_bytes(), b"\n"].concat()).collect()
}

/// The sample with this line before its line `place`, which it may replace.
fn with_line(place: usize, line: &[u8], replaced: bool) -> Vec<u8> {
    let rest = &SAMPLE[SAMPLE.len().min(place + usize::from(replaced))..];
    [joined(&SAMPLE[..place]), line.to_vec(), b"\n".to_vec(), joined(rest)].concat()
}

/// Each kind of bad line in each place, and cut off there without line feed.
pub fn bad_line_traces() -> Vec<Vec<u8>> {
    let bad = bad_lines();
    let mut traces = vec![Vec::new(), joined(&SAMPLE)];
    for place in 0..=SAMPLE.len() {
        traces.extend(bad.iter().map(|line| with_line(place, line, false)));
        traces.extend(cut_off(place));
    }
    traces.extend((0..SAMPLE.len()).flat_map(wrong_at));
    traces
}

/// The sample up to this line, cut off before, in and behind the line.
fn cut_off(place: usize) -> Vec<Vec<u8>> {
    let mut before = joined(&SAMPLE[..place]);
    let Some(line) = SAMPLE.get(place) else { return vec![before] };
    let mut traces = vec![before.clone()];
    for byte in line.bytes() {
        before.push(byte);
        traces.push(before.clone());
    }
    traces
}

/// The sample with its line of this place changed in one way or another: its
/// letter, one of its numbers, or how many there are.
fn wrong_at(place: usize) -> Vec<Vec<u8>> {
    let parts: Vec<&str> = SAMPLE[place].split(' ').collect();
    let mut lines: Vec<Vec<u8>> = Vec::new();
    for letter in 0..=u8::MAX {
        let mut line = SAMPLE[place].as_bytes().to_vec();
        line[0] = letter;
        lines.push(line);
    }
    for number in 1..parts.len() {
        for bad in BAD_NUMBERS {
            let mut changed = parts.clone();
            changed[number] = bad;
            lines.push(changed.join(" ").into_bytes());
        }
    }
    lines.push(parts[..parts.len() - 1].join(" ").into_bytes());
    lines.push(format!("{} 0", SAMPLE[place]).into_bytes());
    lines.iter().map(|line| with_line(place, line, true)).collect()
}

/// A random trace: calls that go somewhere, wild and wrong ones between them,
/// and now and then a bad end.
pub fn random_trace(random: &mut Random) -> Vec<u8> {
    let pages = 1 + random.below(TRACE_PAGES);
    let mut maker = CallMaker::new(random, pages);
    let mut memory = Memory::new(pages);
    let _ = apply(&Call::Setup { pages }, memory.lend(lengths(pages)));
    let mut trace = format!("H {pages}\n").into_bytes();
    let length = if random.chance(10) { 8000 } else { 20 + random.below(400) };
    for _ in 0..length {
        let call = match random.below(100) {
            0..=1 => maker.wild_call(random),
            2..=5 => {
                let call = maker.next(random, memory.roots());
                with_one_number_changed(random, call)
            }
            _ => maker.next(random, memory.roots()),
        };
        let Some(text) = text_of(&call).filter(|text| !text.starts_with('H')) else { continue };
        let read = read_line(text.as_bytes()).and_then(|line| call_of(pages, &line));
        if let Some(call) = read {
            let _ = apply(&call, memory.lend(lengths(pages)));
        }
        trace.extend_from_slice(text.as_bytes());
        trace.push(b'\n');
    }
    end_badly(random, &mut trace);
    trace
}

fn end_badly(random: &mut Random, trace: &mut Vec<u8>) {
    match random.below(10) {
        0 => trace.truncate(random.below(trace.len() as u64 + 1) as usize),
        1 => {
            let place = random.below(trace.len() as u64) as usize;
            trace[place] = random.number() as u8;
        }
        2 => {
            let bad = bad_lines();
            let line = &bad[random.below(bad.len() as u64) as usize];
            trace.extend_from_slice(line);
            trace.push(b'\n');
        }
        _ => {}
    }
}
