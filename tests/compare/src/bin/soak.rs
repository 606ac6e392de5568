//! `soak SECONDS [SEED]`: rounds of every kind until the time is over, from a random seed that is printed first.
//! `soak NAME SEED`: one round, for a difference that was met.

use compare::random::Random;
use compare::rounds;
use compare::tally::Tally;
use std::time::{Duration, Instant, SystemTime};

fn main() {
    let arguments: Vec<String> = std::env::args().skip(1).collect();
    let first = arguments.first().map(|text| text.parse());
    let seed = arguments.get(1).map(|text| text.parse());
    let seed = seed.map(|number| number.expect("the seed is a number"));
    match (first, seed) {
        (Some(Ok(seconds)), seed) => soak(seconds, seed.unwrap_or_else(seed_of_now)),
        (Some(Err(_)), Some(seed)) => one_round(&arguments[0], seed),
        _ => eprintln!("soak SECONDS [SEED], or soak NAME SEED"),
    }
}

/// A seed that differs from run to run.
fn seed_of_now() -> u64 {
    let now = SystemTime::now().duration_since(SystemTime::UNIX_EPOCH);
    let now = now.expect("a time after 1970").as_nanos() as u64;
    Random::new(now ^ u64::from(std::process::id())).any()
}

/// Laps with rounds of each kind. A comparison that fails ends the program with the name and the seed of its round.
fn soak(seconds: u64, seed: u64) {
    println!("seed {seed}");
    let end = Instant::now() + Duration::from_secs(seconds);
    let mut random = Random::new(seed);
    let mut tally = Tally::default();
    while Instant::now() < end {
        for kind in &rounds::KINDS {
            for _ in 0..kind.in_a_lap {
                rounds::one(kind, random.any(), &mut tally);
                tally.note(format!("rounds of {}", kind.name));
            }
        }
    }
    println!("no difference in {seconds} seconds:\n{tally}");
}

fn one_round(name: &str, seed: u64) {
    let mut tally = Tally::default();
    rounds::one(rounds::named(name), seed, &mut tally);
    println!("no difference:\n{tally}");
}
