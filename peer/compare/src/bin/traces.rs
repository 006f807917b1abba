//! Compares the proved trace program with the plain one on random traces and
//! on every kind of bad line in every place of a sample: the outputs have to be
//! equal byte for byte. It can also write a long trace, and time both programs
//! on one.

use std::fs::File;
use std::io::{self, BufWriter, Write};
use std::path::Path;
use std::process::{Command, ExitCode, Stdio};
use std::time::Instant;

use compare::long::write_long;
use compare::options::Options;
use compare::trial::{bad_line_traces, random_trace};
use peer::random::Random;
use peer::trace::play;

const USAGE: &str = "traces --play PROGRAM [--seed N] [--traces N]
       traces --show N [--seed N]
       traces --write-long LINES [--seed N]
       traces --time --play PROGRAM --plain PROGRAM [--lines N] [--rounds N]
  --play        the proved trace program
  --traces      so many random traces
  --show        writes the random trace of this number
  --write-long  writes a trace of so many lines on eight pages
  --time        times both programs on such a trace";
const SEED: u64 = 20_171_025;
const TRACES: u64 = 2500;
const LONG_LINES: u64 = 1_000_000;
const ROUNDS: usize = 5;

fn main() -> ExitCode {
    let valued = ["play", "plain", "seed", "traces", "show", "write-long", "lines", "rounds"];
    let options = Options::read(USAGE, &valued, &["time"]);
    let seed = options.number("seed", SEED);
    let done = if options.flag("write-long") {
        let mut output = BufWriter::new(io::stdout().lock());
        let lines = options.number("write-long", LONG_LINES);
        write_long(&mut output, lines, seed).and_then(|()| output.flush()).map(|()| true)
    } else if options.flag("show") {
        let trace = random_trace_of(seed, options.number("show", 0));
        io::stdout().lock().write_all(&trace).map(|()| true)
    } else if options.flag("time") {
        time_both(&options, seed)
    } else {
        let Some(program) = options.text("play") else { options.stop() };
        compare_all(Path::new(program), seed, options.number("traces", TRACES))
    };
    match done {
        Ok(true) => ExitCode::SUCCESS,
        Ok(false) => ExitCode::FAILURE,
        Err(error) => {
            println!("a program or a file failed: {error}");
            ExitCode::FAILURE
        }
    }
}

/// The random trace of this number; the same seed gives the same trace.
fn random_trace_of(seed: u64, number: u64) -> Vec<u8> {
    let mixed = Random::new(seed).number() ^ Random::new(number).number();
    random_trace(&mut Random::new(mixed))
}

fn compare_all(program: &Path, seed: u64, traces: u64) -> io::Result<bool> {
    println!("seed {seed}");
    let begin = Instant::now();
    let mut lines = 0;
    for number in 0..traces {
        let trace = random_trace_of(seed, number);
        lines += trace.iter().filter(|&&byte| byte == b'\n').count();
        // Some traces come in small pieces.
        let piece = if number % 4 == 0 { 1 + number as usize % 97 } else { trace.len().max(1) };
        if !equal(program, &trace, piece)? {
            println!("random trace {number}, again: traces --seed {seed} --show {number}");
            return Ok(false);
        }
    }
    println!("{traces} random traces, {lines} lines: outputs equal");
    let bad = bad_line_traces();
    for trace in &bad {
        if !equal(program, trace, trace.len().max(1))? {
            println!("the trace:\n{}", String::from_utf8_lossy(&trace[..trace.len().min(2000)]));
            return Ok(false);
        }
    }
    println!("{} traces with a bad line or a cut: outputs equal", bad.len());
    println!("{:.1} s", begin.elapsed().as_secs_f64());
    Ok(true)
}

/// Whether the program writes what the plain one writes; shows where not.
fn equal(program: &Path, trace: &[u8], piece: usize) -> io::Result<bool> {
    let mut plain = Vec::new();
    play(trace, &mut plain)?;
    let (proved, ended) = output_of(program, trace, piece)?;
    if plain == proved && ended {
        return Ok(true);
    }
    println!("the programs differ");
    if !ended {
        println!("the proved program did not end by itself");
    }
    let lines = |output: &[u8]| -> Vec<String> {
        output.split(|&byte| byte == b'\n').map(|l| String::from_utf8_lossy(l).into()).collect()
    };
    let (plain, proved) = (lines(&plain), lines(&proved));
    let same = plain.iter().zip(&proved).take_while(|(one, other)| one == other).count();
    println!("line {}: plain {:?}, proved {:?}", same + 1, plain.get(same), proved.get(same));
    println!("of the input: {:?}", lines(trace).get(same));
    Ok(false)
}

/// What the program writes, and whether it ends by itself. It may stop reading
/// before the end of the trace.
fn output_of(program: &Path, trace: &[u8], piece: usize) -> io::Result<(Vec<u8>, bool)> {
    let mut child = Command::new(program).stdin(Stdio::piped()).stdout(Stdio::piped()).spawn()?;
    let input = child.stdin.take();
    let output = std::thread::scope(|scope| {
        scope.spawn(move || {
            if let Some(mut input) = input {
                let _ = trace.chunks(piece).try_for_each(|piece| input.write_all(piece));
            }
        });
        child.wait_with_output()
    })?;
    Ok((output.stdout, output.status.code().is_some()))
}

/// Times both programs by turns, from a file to nowhere.
fn time_both(options: &Options, seed: u64) -> io::Result<bool> {
    let (Some(proved), Some(plain)) = (options.text("play"), options.text("plain")) else {
        options.stop()
    };
    let lines = options.number("lines", LONG_LINES);
    let path = std::env::temp_dir().join(format!("long-{}.trace", std::process::id()));
    let mut file = BufWriter::new(File::create(&path)?);
    write_long(&mut file, lines, seed)?;
    file.flush()?;
    if output_from(plain, &path)? != output_from(proved, &path)? {
        println!("the programs differ on the long trace: traces --write-long {lines} writes it");
        return std::fs::remove_file(&path).map(|()| false);
    }
    let (mut ratios, mut seconds) = (Vec::new(), Vec::new());
    for _ in 0..options.number("rounds", ROUNDS).max(1) {
        let (plain_time, proved_time) = (time(plain, &path)?, time(proved, &path)?);
        ratios.push(proved_time / plain_time);
        seconds.push(plain_time);
    }
    std::fs::remove_file(&path)?;
    let ratio = median(&mut ratios);
    println!("A trace of {lines} lines on 8 pages: proved time divided by plain time {ratio:.2},");
    println!(
        "median of {} rounds; the plain program took {:.2} s.",
        ratios.len(),
        median(&mut seconds)
    );
    Ok(true)
}

fn output_from(program: &str, trace: &Path) -> io::Result<Vec<u8>> {
    let output = Command::new(program).stdin(File::open(trace)?).output()?;
    Ok(output.stdout)
}

fn time(program: &str, trace: &Path) -> io::Result<f64> {
    let input = File::open(trace)?;
    let begin = Instant::now();
    Command::new(program).stdin(input).stdout(Stdio::null()).status()?;
    Ok(begin.elapsed().as_secs_f64())
}

fn median(numbers: &mut [f64]) -> f64 {
    numbers.sort_by(f64::total_cmp);
    numbers[numbers.len() / 2]
}
