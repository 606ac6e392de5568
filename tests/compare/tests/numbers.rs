//! The returned numbers of every call, over rounds of every kind: each that it can give is met, and no other.

use compare::random::Random;
use compare::rounds::{KINDS, one, seed};
use compare::tally::Tally;
use std::collections::BTreeSet;

/// What each call can give, 0 apart, which of events is told by rules. A look is `read_node`.
const NUMBERS: [(&str, &[i64]); 14] = [
    ("fresh", &[1]),
    ("check", &[1, 2, 18]),
    ("quiet", &[1, 2, 18]),
    ("groups", &[1, 2, 18]),
    ("group of", &[1, 2, 3, 18]),
    ("up", &[1, 2, 3, 4, 7, 18]),
    ("down", &[1, 2, 3, 5, 7, 9, 18]),
    ("receipt", &[1, 2, 3, 6, 7, 8, 9, 18]),
    ("save", &[1, 2, 14, 18]),
    ("draw", &[1, 2, 14, 18]),
    ("stations", &[10, 11]),
    ("restore", &[1, 2, 10, 11, 12, 18]),
    ("look", &[1, 2, 3, 10, 11, 12, 13, 18]),
    ("sketch", &[1, 16, 17]),
];

#[test]
fn every_number_at_every_call() {
    let mut random = Random::new(seed());
    let mut tally = Tally::default();
    for kind in &KINDS {
        for _ in 0..kind.in_a_lap * 5 {
            one(kind, random.any(), &mut tally);
        }
    }
    println!("{tally}");
    for (call, numbers) in NUMBERS {
        let mut met = tally.numbers_at(call);
        met.remove(&0);
        let due: BTreeSet<i64> = numbers.iter().copied().collect();
        assert_eq!(met, due, "{call}");
    }
}
