//! The comparison of heights beside the reference, and the stored table of pairs. The histories compare the heights that they meet too.

use compare::heights::{self, assert_parted};
use compare::rounds::run;
use compare::tally::Tally;
use reference::parting::parting;
use reference::plot::Height;
use std::cmp::Ordering;

/// Every place both ways, across the top bit of the words, by one, and with all later numbers the other way.
fn assert_all_met(tally: &Tally) {
    assert_parted(tally, &[1, 2, 3, 4, 5, 6, 7]);
    for place in 1..=7 {
        let top_bit = format!("heights: across the top bit, {place}");
        tally.assert_met(&[&top_bit, &format!("heights: by one, {place}")]);
    }
    for place in 1..=6 {
        tally.assert_met(&[&format!("heights: all behind the other way, {place}")]);
    }
}

#[test]
fn random_heights() {
    assert_all_met(&run("random heights", 100_000));
}

#[test]
fn planted_heights() {
    let mut tally = Tally::default();
    heights::planted_heights(&mut tally);
    println!("{tally}");
    assert_all_met(&tally);
}

/// What the Rattle program `height_cases` writes, as the gate checks.
const STORED: &str = include_str!("../../../crates/height_cases/stdout");

/// The numbers of a line of it: seven, seven, and the place.
fn numbers(line: &str) -> [i64; 15] {
    let between = |c: char| !c.is_ascii_digit() && c != '-';
    let words = line.split(between).filter(|word| !word.is_empty());
    let numbers: Vec<i64> = words.map(|word| word.parse().expect("a number")).collect();
    numbers.try_into().expect("fifteen numbers")
}

/// Sign and place of every line are the reference's.
#[test]
fn stored_table() {
    for line in STORED.lines() {
        let numbers = numbers(line);
        let height = |from: usize| Height::of(numbers[from..from + 7].try_into().expect("seven"));
        let due = parting(&height(0), &height(7));
        let sign = match due.order {
            Ordering::Less => ") < (",
            Ordering::Equal => ") = (",
            Ordering::Greater => ") > (",
        };
        assert!(line.contains(sign), "{line}");
        assert_eq!(numbers[14], due.place, "{line}");
    }
}
