//! Timing: many short batches of each side in turn, and medians over them.

use std::time::{Duration, Instant};

/// How long a batch lasts, about.
const BATCH: Duration = Duration::from_micros(60);

/// Nanoseconds of one call in each batch. Batches of the same place in the lists ran next to each other.
#[derive(Default)]
pub struct Samples {
    library: Vec<f64>,
    plain: Vec<f64>,
    floor: Vec<f64>,
}

/// Median nanoseconds of one call on each side, and the medians of the batches' ratios.
#[derive(Clone, Copy)]
pub struct Times {
    pub library: f64,
    pub plain: f64,
    pub floor: f64,
    pub to_plain: f64,
    pub to_floor: f64,
}

impl Samples {
    /// Adds the batches of another round.
    pub fn add(&mut self, other: Samples) {
        self.library.extend(other.library);
        self.plain.extend(other.plain);
        self.floor.extend(other.floor);
    }

    pub fn times(&self) -> Times {
        Times {
            library: median(self.library.clone()),
            plain: median(self.plain.clone()),
            floor: median(self.floor.clone()),
            to_plain: median(ratios(&self.library, &self.plain)),
            to_floor: median(ratios(&self.library, &self.floor)),
        }
    }
}

/// Times three sides in turn. A run takes all `plots`: `calls` calls of the library or of plain Rust for each, one pass of the floor.
pub fn sides(
    batches: usize,
    plots: usize,
    calls: usize,
    mut library: impl FnMut(),
    mut plain: impl FnMut(),
    mut floor: impl FnMut(),
) -> Samples {
    let runs = runs_in_a_batch(&mut library).min(runs_in_a_batch(&mut plain));
    let passes = runs_in_a_batch(&mut floor);
    let (each, all) = (plots as f64, (plots * calls) as f64);
    let mut samples = Samples::default();
    for batch in 0..batches {
        let library = || samples.library.push(time(runs, &mut library) / all);
        let plain = || samples.plain.push(time(runs, &mut plain) / all);
        if batch % 2 == 0 {
            in_turn(library, plain);
        } else {
            in_turn(plain, library);
        }
        samples.floor.push(time(passes, &mut floor) / each);
    }
    samples
}

fn in_turn(mut first: impl FnMut(), mut second: impl FnMut()) {
    first();
    second();
}

/// How many runs fill a batch: from the fastest of some runs, always equally many.
fn runs_in_a_batch(f: &mut impl FnMut()) -> usize {
    let one = (0..5).map(|_| time(5, f)).fold(f64::MAX, f64::min);
    ((BATCH.as_nanos() as f64 / one) as usize).clamp(1, 100_000)
}

/// Nanoseconds of one run, over so many runs.
fn time(runs: usize, f: &mut impl FnMut()) -> f64 {
    let start = Instant::now();
    (0..runs).for_each(|_| f());
    start.elapsed().as_nanos() as f64 / runs as f64
}

fn ratios(over: &[f64], under: &[f64]) -> Vec<f64> {
    over.iter().zip(under).map(|(a, b)| a / b).collect()
}

fn median(mut times: Vec<f64>) -> f64 {
    times.sort_by(f64::total_cmp);
    times[times.len() / 2]
}
