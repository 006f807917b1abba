//! Trace lines: a call as the line that asks for it, and a call like another
//! but for one number.

use peer::random::Random;
use peer::trace::{call_of, Line};
use peer::Call;

/// The line of a call and how many numbers it has. An audit has no line, and
/// only the line of a setup has a P.
fn parts(call: &Call) -> Option<(Line, usize)> {
    let (letter, numbers): (u8, &[u64]) = match *call {
        Call::Setup { pages } => (b'H', &[pages]),
        Call::Open { stack, .. } => (b'O', &[stack]),
        Call::Close { stack, .. } => (b'C', &[stack]),
        Call::Allocate { stack, slot, size, pointers, .. } => {
            (b'A', &[stack, slot, size, pointers])
        }
        Call::Copy { stack, to, from, .. } => (b'M', &[stack, to, from]),
        Call::Clear { stack, slot, .. } => (b'Z', &[stack, slot]),
        Call::Load { stack, to, record, field, .. } => (b'L', &[stack, to, record, field]),
        Call::Store { stack, record, field, from, .. } => (b'S', &[stack, record, field, from]),
        Call::Put { stack, record, field, number, .. } => (b'W', &[stack, record, field, number]),
        Call::Get { stack, record, field, .. } => (b'R', &[stack, record, field]),
        Call::LoadGlobal { stack, to, global, .. } => (b'G', &[stack, to, global]),
        Call::StoreGlobal { stack, global, from, .. } => (b'P', &[stack, global, from]),
        Call::Start { .. } => (b'T', &[]),
        Call::ScanStack { stack, .. } => (b'K', &[stack]),
        Call::ScanGlobals { .. } => (b'Q', &[]),
        Call::MarkStep { .. } => (b'N', &[]),
        Call::Finish { .. } => (b'F', &[]),
        Call::SweepStep { .. } => (b'E', &[]),
        Call::Audit { .. } => return None,
    };
    let mut line = Line { letter, numbers: [0; 4] };
    line.numbers[..numbers.len()].copy_from_slice(numbers);
    Some((line, numbers.len()))
}

/// The text of a call's line, without its line feed.
pub fn text_of(call: &Call) -> Option<String> {
    let (line, count) = parts(call)?;
    let mut text = char::from(line.letter).to_string();
    for number in &line.numbers[..count] {
        text.push_str(&format!(" {number}"));
    }
    Some(text)
}

/// The same call with one of its numbers, but for P, changed at random.
pub fn with_one_number_changed(random: &mut Random, call: Call) -> Call {
    match parts(&call) {
        Some((mut line, count @ 1..)) => {
            let number = &mut line.numbers[random.below(count as u64) as usize];
            *number = match random.below(4) {
                0 => number.wrapping_add(1),
                1 => number.wrapping_sub(1),
                _ => random.wild(),
            };
            call_of(call.pages(), &line).unwrap_or(call)
        }
        _ => call,
    }
}
