//! The trace program: plays the trace on standard input to standard output.

use std::io::{stdin, stdout, BufWriter};
use std::process::ExitCode;

fn main() -> ExitCode {
    match peer::trace::play(stdin().lock(), BufWriter::new(stdout().lock())) {
        Ok(()) => ExitCode::SUCCESS,
        Err(error) => {
            eprintln!("input or output failed: {error}");
            ExitCode::FAILURE
        }
    }
}
