//! Drawings and sketches beside the reference. The histories, the damaged tables and the wrong sizes draw too.

use compare::drawings;
use compare::rounds::run;
use compare::tally::Tally;

/// Good texts, texts with bad links and damaged texts, over tables of right and wrong lengths.
#[test]
fn thrown_sketches() {
    let tally = run("thrown sketches", 80);
    tally.assert_met(&["sketch 0", "sketch 1", "sketch 16", "sketch 17"]);
    tally.assert_met(&["sketch 1 before 0", "sketch 1 before 17"]);
    tally.assert_met(&["sketch 16 before 16"]);
    tally.assert_met(&["read: no link", "read: up to 9 links", "read: more links"]);
}

/// Every text at the edge of the form, with its number worked by hand.
#[test]
fn corners() {
    let mut tally = Tally::default();
    drawings::every_corner(&mut tally);
    println!("{tally}");
    tally.assert_met(&["sketch 0", "sketch 1", "sketch 16", "sketch 17"]);
}

/// Two good texts with any byte at any place.
#[test]
fn every_byte() {
    let mut tally = Tally::default();
    drawings::every_byte(&mut tally);
    println!("{tally}");
    tally.assert_met(&["sketch 0", "sketch 16", "sketch 17"]);
}

#[test]
fn rooms() {
    let tally = run("drawn rooms", 400);
    tally.assert_met(&["draw 0", "draw 14", "draw 18"]);
    tally.assert_met(&["drawn: a channel one way"]);
}

/// Plot to drawing, drawing to sketch, sketch to plot: the same links.
#[test]
fn there_and_back() {
    let tally = run("drawings there and back", 400);
    tally.assert_met(&["sketch 0", "sketch 16", "drawn: a channel one way"]);
    tally.assert_met(&["drawn: an arrow to a lower number"]);
    tally.assert_met(&["drawn: an arrow to a higher number"]);
}
