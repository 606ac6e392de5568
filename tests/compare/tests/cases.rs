//! Cases j to m of document 01, "Plots worked by hand", through the interface. The numbers here are the document's; the tables
//! are compared with the reference besides.

use compare::beside::{Beside, compare_look};
use compare::ffi;
use compare::random::Random;
use compare::tally::Tally;
use reference::plot::{Height, Message, Plot, ordered_pairs};
use reference::step::{Event, Rule};
use reference::tables;

/// A message of the sender u waits on channel u to v.
fn waits(plot: &mut Plot, v: i64, height: [i64; 7], stamp: i64) {
    let height = Height::of(height);
    let message = Message { height, stamp };
    plot.waiting_mut(height.station, v).push_back(message);
}

fn form(plot: &mut Plot, u: i64, v: i64) {
    let station = plot.stations.get_mut(&u).expect("a station");
    station.forming.insert(v);
}

fn set_clock(plot: &mut Plot, u: i64, clock: i64) {
    plot.stations.get_mut(&u).expect("a station").clock = clock;
}

/// The number and rule of one event from a planted plot.
fn outcome(plot: Plot, event: Event) -> (i64, Option<Rule>) {
    let answer = Beside::planted(plot).step(event, &mut Tally::default());
    (answer.number, answer.rule)
}

/// Case j: depth 32,766 is adopted; 32,767: 8.
#[test]
fn j() {
    for (depth, expected) in [(32_766, (0, Some(Rule::A))), (32_767, (8, None))] {
        let mut plot = Plot::fresh(2);
        form(&mut plot, 1, 2);
        form(&mut plot, 2, 1);
        set_clock(&mut plot, 2, 5);
        waits(&mut plot, 1, [0, 0, 0, depth, -5, 2, 2], 5);
        let event = Event::Receipt { from: 2, to: 1 };
        assert_eq!(outcome(plot, event), expected);
    }
}

/// Case k: seven wait: sent; eight: 9.
#[test]
fn k() {
    for (waiting, expected) in [(7, (0, Some(Rule::E))), (8, (9, None))] {
        let mut plot = Plot::fresh(3);
        form(&mut plot, 1, 2);
        form(&mut plot, 1, 3);
        set_clock(&mut plot, 1, waiting);
        for stamp in 1..=waiting {
            waits(&mut plot, 2, [0, 0, 0, 0, 0, 1, 1], stamp);
        }
        let event = Event::Down { u: 1, v: 3 };
        assert_eq!(outcome(plot, event), expected);
    }
}

/// Case l: up at clock 4,294,967,294; one later: 7.
#[test]
fn l() {
    let ends = [
        (4_294_967_294, (0, Some(Rule::U))),
        (4_294_967_295, (7, None)),
    ];
    for (clock, expected) in ends {
        let mut plot = Plot::fresh(2);
        set_clock(&mut plot, 1, clock);
        let event = Event::Up { u: 1, v: 2 };
        assert_eq!(outcome(plot, event), expected);
    }
}

/// The size that a save answers.
fn size_of(plot: Plot) -> u64 {
    let lent = tables::store(&plot);
    let mut out = vec![0; 40_000];
    let n = plot.n as u32;
    ffi::save(n, &lent.nodes, &lent.channels, &mut out).size
}

/// Case m: 24 bytes for n = 1, 69 for a fresh plot of 2, 34,044 for 16 stations and full channels.
#[test]
fn m_sizes() {
    assert_eq!(size_of(Plot::fresh(1)), 24);
    assert_eq!(size_of(Plot::fresh(2)), 69);
    let mut plot = Plot::fresh(16);
    for (u, v) in ordered_pairs(16) {
        form(&mut plot, u, v);
        set_clock(&mut plot, u, 8);
        for stamp in 1..=8 {
            waits(&mut plot, v, [0, 0, 0, 0, 0, u, u], stamp);
        }
    }
    let mut beside = Beside::planted(plot.clone());
    let (mut random, mut tally) = (Random::new(1), Tally::default());
    let image = beside.save(&mut random, &mut tally);
    beside.resume(&image, &mut tally);
    assert_eq!(size_of(plot), 34_044);
    assert_eq!(ffi::image_len(16), 34_044);
}

/// Case m: of 4 stations, 3 starts at bit 928; 927 and 929: 13.
#[test]
fn m_places() {
    let mut random = Random::new(1);
    let mut tally = Tally::default();
    let image = Beside::fresh(4, &mut random).save(&mut random, &mut tally);
    for (place, number) in [(928, 0), (927, 13), (929, 13)] {
        let row = random.words(28);
        assert_eq!(
            ffi::read_node(&image, 3, place, &mut row.clone()).number,
            number
        );
        compare_look(&image, 3, place, row, &mut tally);
    }
}
