//! Lists of short histories beside the reference.

use compare::short;
use compare::tally::Tally;

/// All eighteen lists, byte by byte, and each of their histories on the bench.
#[test]
fn every_list() {
    let mut tally = Tally::default();
    short::every_list(&mut tally);
    println!("{tally}");
    tally.assert_met(&["list 0", "list 14", "an event on the bench"]);
}

#[test]
fn every_limit() {
    let mut tally = Tally::default();
    short::every_limit(&mut tally);
    println!("{tally}");
    tally.assert_met(&["list 0", "list 1", "list 14", "list 19"]);
}

#[test]
fn every_room() {
    let mut tally = Tally::default();
    short::every_room(2, 3, &mut tally);
    short::every_room(3, 2, &mut tally);
    println!("{tally}");
    tally.assert_met(&["list 0", "list 14"]);
}
