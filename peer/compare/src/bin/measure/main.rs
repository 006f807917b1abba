//! Measures the proved heap against the plain one, as ratios: the time of each
//! of the nineteen calls on 1, 8 and 256 pages, empty, half full and full of
//! small scan records, and the time of allocations that sweep up to 256 spans.
//! The tables are printed as they stand in docs/PERFORMANCE.md.

mod calls;
mod sweeps;
mod timing;

use std::process::ExitCode;

use calls::{cases, heap, FILLS};
use compare::options::Options;
use peer::layout::MAX_PAGES;
use timing::{clock_cost, measure, Measured, Prepared, Settings};

const USAGE: &str = "measure [--rounds N] [--block-us N] [--pages N]
  --rounds N    so many turns of each side for each ratio
  --block-us N  about so many microseconds a turn
  --pages N     on so many pages alone";
const ROUNDS: usize = 15;
const BLOCK_US: f64 = 2000.0;
const PAGES: [u64; 3] = [1, 8, 256];

/// A row of a table: its name and its cells.
type Row = (&'static str, Vec<Measured>);

fn main() -> ExitCode {
    let options = Options::read(USAGE, &["rounds", "block-us", "pages"], &[]);
    let settings = Settings {
        rounds: options.number("rounds", ROUNDS).max(1),
        block: options.number("block-us", BLOCK_US) * 1000.0,
        clock: clock_cost(),
    };
    let sizes = match options.number("pages", 0) {
        0 => PAGES.to_vec(),
        pages @ 1..=MAX_PAGES => vec![pages],
        _ => options.stop(),
    };
    let command = "cargo run --release --manifest-path peer/compare/Cargo.toml --bin measure";
    println!("Processor: {}. Command: `{command}`.", processor());
    println!("Medians of {} rounds.", settings.rounds);
    let rows: Vec<Row> =
        (0..cases(1).len()).map(|call| call_row(call, &sizes, &settings)).collect();
    print_tables("Call", &call_columns(&sizes), &rows);
    if sizes.contains(&sweeps::PAGES) {
        let rows: Vec<Row> = sweeps::CASES.iter().map(|case| sweeps_row(case, &settings)).collect();
        print_tables("Allocation", &sweeps::columns(), &rows);
    }
    ExitCode::SUCCESS
}

/// One of the nineteen calls on all its heaps.
fn call_row(number: usize, sizes: &[u64], settings: &Settings) -> Row {
    let cell = |pages: u64, fill| {
        let (name, call, state) = cases(pages)[number];
        let prepared = Prepared::new(call, heap(pages, fill, state));
        assert!(prepared.answer.is_ok(), "{name} is refused: {:?}", prepared.answer);
        measure(&prepared, settings)
    };
    let cells = sizes.iter().flat_map(|&pages| FILLS.map(|(fill, _)| cell(pages, fill)));
    (cases(1)[number].0, cells.collect())
}

fn call_columns(sizes: &[u64]) -> Vec<String> {
    let name = |pages: u64, fill: &str| match pages {
        1 => format!("1 page, {fill}"),
        _ => format!("{pages} pages, {fill}"),
    };
    sizes.iter().flat_map(|&pages| FILLS.map(|(_, fill)| name(pages, fill))).collect()
}

/// One of the allocations that sweep, with more and more to sweep.
fn sweeps_row(case: &sweeps::Case, settings: &Settings) -> Row {
    let cell = |unswept| measure(&case.prepare(unswept), settings);
    (case.name, sweeps::UNSWEPT_SPANS.map(cell).to_vec())
}

fn print_tables(first: &str, columns: &[String], rows: &[Row]) {
    println!("\nProved time divided by plain time:\n");
    print_table(first, columns, rows, |cell| format!("{:.2}", cell.ratio));
    let all = rows.iter().flat_map(|(name, row)| row.iter().map(move |cell| (cell.ratio, *name)));
    if let Some((ratio, name)) = all.max_by(|one, other| one.0.total_cmp(&other.0)) {
        println!("\nThe highest ratio is {ratio:.2} ({name}).\n");
    }
    println!("Microseconds of the plain heap in the same run:\n");
    print_table(first, columns, rows, |cell| format!("{:.2}", cell.plain / 1000.0));
}

fn print_table(first: &str, columns: &[String], rows: &[Row], show: impl Fn(&Measured) -> String) {
    println!("| {first} | {} |", columns.join(" | "));
    println!("|---|{}", "---:|".repeat(columns.len()));
    for (name, row) in rows {
        let cells: Vec<String> = row.iter().map(&show).collect();
        println!("| {name} | {} |", cells.join(" | "));
    }
}

/// The processor's name, as the system gives it.
fn processor() -> String {
    let text = std::fs::read_to_string("/proc/cpuinfo").unwrap_or_default();
    let line = text.lines().find(|line| line.starts_with("model name"));
    let name = line.and_then(|line| line.split_once(": "));
    name.map_or("unknown".to_string(), |(_, name)| name.to_string())
}
