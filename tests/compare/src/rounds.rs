//! Running rounds: so many of one kind for a test, all kinds in turn for the soak, or a single one.

use crate::random::Random;
use crate::tally::Tally;
use crate::{
    damaged_images, damaged_tables, drawings, fields, heights, histories, places, planted_times,
    questions, sizes,
};

/// A kind of round.
pub struct Kind {
    pub name: &'static str,
    pub round: fn(u64, &mut Tally),
    /// How many of them the soak runs in each of its laps.
    pub in_a_lap: usize,
}

const fn kind(name: &'static str, round: fn(u64, &mut Tally), in_a_lap: usize) -> Kind {
    Kind {
        name,
        round,
        in_a_lap,
    }
}

/// All kinds of rounds.
pub const KINDS: [Kind; 18] = [
    kind("fresh history", histories::fresh_history, 20),
    kind("planted history", histories::planted_history, 40),
    kind("planted groups", questions::planted_groups, 40),
    kind("planted times", planted_times::planted_times, 5),
    kind("joined halves", planted_times::joined_halves, 10),
    kind("random heights", heights::random_heights, 1000),
    kind("drawn rooms", drawings::drawn_rooms, 20),
    kind("thrown sketches", drawings::thrown_sketches, 2),
    kind("drawings there and back", drawings::there_and_back, 20),
    kind("damaged tables", damaged_tables::damaged_tables, 20),
    kind("damaged images", damaged_images::damaged_images, 10),
    kind("wrong sizes", sizes::wrong_sizes, 2),
    kind("small rooms", sizes::small_rooms, 2),
    kind("placed fields", fields::placed_fields, 10),
    kind("every place", places::every_place_of_few, 1),
    kind("some places", places::some_places, 2),
    kind("changed headers", places::changed_headers, 5),
    kind("places of another n", places::places_of_another_n, 2),
];

/// The kind with this name.
pub fn named(name: &str) -> &'static Kind {
    let found = KINDS.iter().find(|kind| kind.name == name);
    found.expect("the name of a kind of rounds")
}

/// The seed of the tests, unless the environment variable SEED gives another.
const DEFAULT_SEED: u64 = 20_260_101;

/// The seed of this run of the tests; it is printed.
pub fn seed() -> u64 {
    let seed = match std::env::var("SEED") {
        Ok(text) => text.parse().expect("SEED is a number"),
        Err(_) => DEFAULT_SEED,
    };
    println!("SEED={seed}");
    seed
}

/// So many rounds of one kind from the seed of this run. The counts are printed.
pub fn run(name: &str, count: usize) -> Tally {
    let kind = named(name);
    let mut random = Random::new(seed());
    let mut tally = Tally::default();
    for _ in 0..count {
        one(kind, random.any(), &mut tally);
    }
    println!("{name}, {count} rounds:\n{tally}");
    tally
}

/// One round. If it panics, its name and its own seed are printed.
pub fn one(kind: &Kind, seed: u64, tally: &mut Tally) {
    let _on_panic = OnPanic {
        name: kind.name,
        seed,
    };
    (kind.round)(seed, tally);
}

/// Tells how to run a round alone when a comparison in it fails.
struct OnPanic {
    name: &'static str,
    seed: u64,
}

impl Drop for OnPanic {
    fn drop(&mut self) {
        if std::thread::panicking() {
            eprintln!("this round alone: soak \"{}\" {}", self.name, self.seed);
        }
    }
}
