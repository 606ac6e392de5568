//! The questions beside the reference. The histories, the damaged tables and images and the places ask them too.

use compare::beside::Beside;
use compare::damaged_images::every_header;
use compare::ffi;
use compare::random::Random;
use compare::rounds::run;
use compare::tally::Tally;
use reference::step::Event;

/// From planted plots: groups of every size with no collector, one and several.
#[test]
fn planted_groups() {
    let tally = run("planted groups", 3000);
    tally.assert_met(&["quiet 0", "groups 0", "group of 3"]);
    tally.assert_met(&["quiet 18", "groups 18", "group of 18"]);
    tally.assert_met(&["group of 18 before 3"]);
    assert!(tally.count("quiet 18") * 10 < tally.count("quiet 0"));
    tally.assert_met(&[
        "group of 0, collectors: none",
        "group of 0, collectors: one",
        "group of 0, collectors: several",
    ]);
    tally.assert_met(&[
        "asked: quiet",
        "asked: only messages wait",
        "asked: only channels one way",
        "asked: messages and channels one way",
        "asked: a channel one way between groups",
        "asked: collectors in two groups",
        "asked: quiet with a group that has no collector",
    ]);
}

/// 16 headers are good: every other has a wrong field, or is too short.
#[test]
fn headers() {
    let mut tally = Tally::default();
    every_header(&mut tally);
    println!("{tally}");
    tally.assert_met(&["stations 0", "stations 10", "stations 11"]);
    for n in 1..=16 {
        let image = [0x10, 0x20, n << 3, 0];
        assert_eq!(ffi::image_stations(&image).value, u32::from(n));
    }
}

/// Document 01, cases c and d: quiet with collector 1; then one channel is down, and station 2 is alone without a collector.
#[test]
fn c_and_d() {
    let mut tally = Tally::default();
    let mut beside = Beside::fresh(2, &mut Random::new(1));
    for (u, v) in [(1, 2), (2, 1)] {
        beside.step(Event::Up { u, v }, &mut tally);
    }
    for (from, to) in [(1, 2), (2, 1), (2, 1), (1, 2)] {
        beside.step(Event::Receipt { from, to }, &mut tally);
    }
    assert_eq!(answers(&beside), [1, 0b01, 0b11, 0b01, 1, 0b11, 0b01, 1]);
    beside.step(Event::Down { u: 1, v: 2 }, &mut tally);
    assert_eq!(answers(&beside), [0, 0b11, 0b01, 0b01, 1, 0b10, 0, 0]);
}

/// Quiet, the groups, then members, collectors and collector of stations 1 and 2.
fn answers(beside: &Beside) -> [u32; 8] {
    let (nodes, channels) = (&beside.tables.nodes, &beside.tables.channels);
    let one = ffi::group_of(2, 1, nodes, channels);
    let two = ffi::group_of(2, 2, nodes, channels);
    [
        ffi::quiet(2, nodes, channels).value,
        ffi::groups(2, nodes, channels).value,
        one.members,
        one.collectors,
        one.collector,
        two.members,
        two.collectors,
        two.collector,
    ]
}
