//! The election library beside the same rules in plain Rust and beside one plain pass over the words.
//!
//! `benchmarks [--quick | --check] [file.svg]`: `--quick` takes fewer batches, `--check` only compares, at length.

// rust/src/ffi.rs, taken in whole; it says why.
#[path = "../../rust/src/ffi.rs"]
mod abi;
mod agree;
mod chart;
mod floor;
mod measure;
mod mixed;
mod plain;
mod plots;
mod random;
mod report;
mod rows;
mod seen;
mod stack;
mod times;

use std::time::Instant;

/// Batches of each side in a row.
const BATCHES: usize = 2000;
const QUICK_BATCHES: usize = 300;

fn main() {
    let words: Vec<String> = std::env::args().skip(1).collect();
    let has = |option: &str| words.iter().any(|word| word == option);
    let file = words.iter().find(|word| !word.starts_with("--"));
    let file = file.map_or("performance.svg", String::as_str);
    if has("--check") {
        check(200);
        return;
    }
    check(10);
    let start = Instant::now();
    let batches = if has("--quick") {
        QUICK_BATCHES
    } else {
        BATCHES
    };
    let rows = rows::measure(batches);
    report::table(&rows);
    report::growth(&rows);
    report::memory(16, &stack::uses(16));
    std::fs::write(file, chart::svg(&rows)).expect("the chart's file can be written");
    println!("\nMeasured in {:.1} s.", start.elapsed().as_secs_f64());
}

/// Stops the program if the library and the plain version differ, or if some number or rule did not occur.
fn check(seeds: u64) {
    let seen = agree::run(seeds, 400);
    println!("{}", seen.line());
    assert!(seen.is_whole(), "some number or rule did not occur");
}
