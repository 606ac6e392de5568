//! Refusal 18 beside the reference (document 02, request [3]). The histories, the damaged tables and images and the places meet it too.

use compare::ffi;
use compare::rounds::run;
use compare::times::KINDS;
use reference::image;
use reference::plot::Plot;
use reference::step::{Event, step};
use reference::tables;
use std::collections::BTreeSet;

/// The calls that can give 18.
const CALLS: [&str; 11] = [
    "up", "down", "receipt", "check", "save", "draw", "restore", "look", "quiet", "groups",
    "group of",
];

/// Every kind of time, at its limit and one beyond, at every call that reads tables or images.
#[test]
fn planted_times() {
    let tally = run("planted times", 400);
    for kind in KINDS {
        tally.assert_met(&[&format!("at its limit: {kind:?}")]);
        tally.assert_met(&[&format!("one beyond: {kind:?}")]);
    }
    for call in CALLS {
        let numbers = tally.numbers_at(call);
        assert!(numbers.is_superset(&BTreeSet::from([2, 18])), "{call}");
    }
    tally.assert_met(&["check 0", "quiet 0", "groups 0", "save 0", "draw 0"]);
    tally.assert_met(&["up U", "down Q", "receipt Q", "restore 0", "look 0"]);
    tally.assert_met(&["group of 18", "group of 18 before 3"]);
    tally.assert_met(&["a second time: earlier", "a second time: same pair"]);
    tally.assert_met(&["a second time: later", "a fault: later"]);
    tally.assert_met(&["a fault: earlier or same pair"]);
}

/// Images of one grown plot, an earlier and a later, cut anywhere and joined.
#[test]
fn joined_halves() {
    let tally = run("joined halves", 600);
    tally.assert_met(&["restore 0", "restore 2", "restore 12", "restore 18"]);
    tally.assert_met(&["look 0", "look 2", "look 12", "look 18"]);
}

/// Document 01, case c, saved; then 1 loses 2 and finds it again, elected at 4, and all is heard. Two stations: a record has 32 bytes from byte 4
/// on, of which the clock takes 4 and the sets 4.
#[test]
fn halves_joined_by_hand() {
    let mut plot = Plot::fresh(2);
    let (one, two) = ((1, 2), (2, 1));
    grow(
        &mut plot,
        &[
            up(one),
            up(two),
            heard(one),
            heard(two),
            heard(two),
            heard(one),
        ],
    );
    let early = image::write(&plot);
    grow(
        &mut plot,
        &[Event::Down { u: 1, v: 2 }, up(one), heard(one), heard(two)],
    );
    let late = image::write(&plot);
    assert_eq!((early.len(), late.len()), (69, 69));
    for (cut, due) in [
        (4, [0, 0, 0]),
        (8, [18, 1, 1]),
        (24, [18, 1, 2]),
        (36, [0, 0, 0]),
        (40, [18, 2, 1]),
        (56, [18, 2, 2]),
        (68, [0, 0, 0]),
    ] {
        assert_eq!(
            restored(&joined(&early, cut, &late)),
            due,
            "early up to {cut}"
        );
        assert_eq!(
            restored(&joined(&late, cut, &early)),
            [0, 0, 0],
            "late up to {cut}"
        );
    }
}

fn up((u, v): (i64, i64)) -> Event {
    Event::Up { u, v }
}

fn heard((from, to): (i64, i64)) -> Event {
    Event::Receipt { from, to }
}

fn grow(plot: &mut Plot, events: &[Event]) {
    for &event in events {
        assert_eq!(step(plot, event).number, 0, "{event:?}");
    }
}

fn joined(front: &[u8], cut: usize, back: &[u8]) -> Vec<u8> {
    [&front[..cut], &back[cut..]].concat()
}

/// Number and pair of a resume of two stations.
fn restored(image: &[u8]) -> [u32; 3] {
    let mut nodes = vec![0; tables::nodes_len(2)];
    let mut channels = vec![0; tables::channels_len(2)];
    let answer = ffi::restore(image, &mut nodes, &mut channels);
    [answer.number, answer.fault_at, answer.fault_with]
}
