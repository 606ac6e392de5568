//! Damaged tables and images beside the reference: the same number with the same pair, and nothing lent changed.

use compare::rounds::run;
use compare::sizes::{self, compare_lengths};
use compare::tally::Tally;
use std::collections::BTreeSet;

#[test]
fn tables() {
    let tally = run("damaged tables", 2000);
    tally.assert_met(&[
        "check 0",
        "check 2",
        "up 2",
        "down 2",
        "receipt 2",
        "save 2",
    ]);
    tally.assert_met(&["up U", "down Q", "receipt Q", "save 0", "save 14"]);
    tally.assert_met(&["draw 0", "draw 2", "draw 14"]);
    tally.assert_met(&["quiet 0", "groups 0", "quiet 2", "groups 2"]);
    tally.assert_met(&["group of 2", "group of 2 before 3", "group of 3"]);
    tally.assert_met(&["check 18", "up 18", "down 18", "receipt 18"]);
    tally.assert_met(&["save 18", "draw 18", "quiet 18", "groups 18"]);
    tally.assert_met(&["group of 18", "group of 18 before 3"]);
    assert_times_alone(&tally);
}

/// Damage to times alone leaves tables and images sound, or is refused for nothing else.
fn assert_times_alone(tally: &Tally) {
    let numbers = tally.numbers_at("times alone:");
    assert_eq!(numbers, BTreeSet::from([0, 18]), "{tally}");
}

#[test]
fn images() {
    let tally = run("damaged images", 1000);
    tally.assert_met(&["restore 0", "restore 1", "restore 2"]);
    tally.assert_met(&["restore 10", "restore 11", "restore 12"]);
    tally.assert_met(&["look 0", "look 1", "look 2", "look 3"]);
    tally.assert_met(&["look 10", "look 11", "look 12", "look 13"]);
    tally.assert_met(&["stations 0", "stations 10", "stations 11"]);
    tally.assert_met(&["restore 18", "look 18"]);
    assert_times_alone(&tally);
}

#[test]
fn sizes() {
    for n in (0..300).chain([65_536, 65_537, 1 << 31, u32::MAX - 1, u32::MAX]) {
        compare_lengths(n);
    }
    let tally = run("wrong sizes", 300);
    tally.assert_met(&["check 0", "check 1", "up 1", "down 1", "receipt 1"]);
    tally.assert_met(&["save 0", "save 1", "restore 0", "restore 1"]);
    tally.assert_met(&["fresh 0", "fresh 1"]);
    tally.assert_met(&["draw 0", "draw 1", "draw 2", "draw 14"]);
    tally.assert_met(&["sketch 0", "sketch 1", "sketch 17"]);
    tally.assert_met(&["quiet 0", "quiet 1", "quiet 2"]);
    tally.assert_met(&["groups 0", "groups 1", "groups 2"]);
    tally.assert_met(&[
        "group of 1",
        "group of 1 before 3",
        "group of 2",
        "group of 3",
    ]);
    tally.assert_met(&["check 18", "up 18", "down 18", "receipt 18"]);
    tally.assert_met(&["save 18", "restore 18", "draw 18"]);
    tally.assert_met(&["quiet 18", "groups 18", "group of 18"]);
}

#[test]
fn seventeen_stations() {
    let mut tally = Tally::default();
    sizes::seventeen_stations(&mut tally);
    tally.assert_met(&["check 1", "up 1", "down 1", "receipt 1"]);
    tally.assert_met(&["save 1", "fresh 1", "draw 1", "sketch 16"]);
    tally.assert_met(&["quiet 1", "groups 1", "group of 1", "group of 1 before 3"]);
}

#[test]
fn rooms() {
    let tally = run("small rooms", 100);
    tally.assert_met(&["save 0", "save 14", "save 18"]);
}
