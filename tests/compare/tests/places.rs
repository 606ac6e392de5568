//! Saved places beside the reference, and the places of fields.

use compare::places::every_place;
use compare::rounds::{run, seed};
use compare::tally::Tally;

/// Every place of images of 1 to 4 stations, for every k: 0 at exactly one place for each station.
#[test]
fn every_place_of_small_images() {
    let seed = seed();
    for n in 1..=4 {
        let mut tally = Tally::default();
        every_place(n, seed, &mut tally);
        assert_eq!(tally.count("look 0"), n as u64);
        tally.assert_met(&["look 3", "look 13"]);
        println!("n = {n}:\n{tally}");
    }
}

/// Document 02 [4]: images put together number by number, each at its place; no field is zero in all of them.
#[test]
fn each_number_at_its_place() {
    let tally = run("placed fields", 200);
    for k in 0..8 {
        tally.assert_met(&[&format!("field {k}")]);
    }
}

#[test]
fn some_places_of_large_images() {
    let tally = run("some places", 60);
    tally.assert_met(&["look 0", "look 3", "look 13", "look 18"]);
}

#[test]
fn places_kept_while_the_header_changes() {
    let tally = run("changed headers", 500);
    tally.assert_met(&["look 0", "look 1", "look 3", "look 11", "look 12"]);
    tally.assert_met(&["stations 0", "stations 11"]);
}

#[test]
fn places_kept_from_another_n() {
    let tally = run("places of another n", 60);
    tally.assert_met(&["look 0", "look 1", "look 3", "look 13"]);
}
