//! Document 01, "Plots worked by hand" and the example of "The bench program". Refusals and orders
//! of checks stand in `worked_orders` and `worked_images`, lists of calls in `worked_lists`.

use crate::bench::listing;
use crate::image::{longest, look, place_of, resume, write};
use crate::plot::{Height, LAST_CLOCK, LEAST_DEPTH, Level, MOST_DEPTH, Message, Plot};
use crate::quiet::{chain_falls, collectors, groups, is_quiet, settled};
use crate::step::{Answer, Event, Rule, is_sink, step};
use crate::tables::{channels_len, load, nodes_len, row_len, store};
use crate::times::first_untimely;
use std::collections::BTreeSet;

/// "U u v".
pub(crate) fn up(u: i64, v: i64) -> Event {
    Event::Up { u, v }
}

/// "D u v".
pub(crate) fn down(u: i64, v: i64) -> Event {
    Event::Down { u, v }
}

/// "M u v" (receipt at v from u).
pub(crate) fn heard(from: i64, to: i64) -> Event {
    Event::Receipt { from, to }
}

/// Puts v into N of u with a view.
pub(crate) fn link(plot: &mut Plot, u: i64, v: i64, view: [i64; 7]) {
    let station = plot.stations.get_mut(&u).unwrap();
    station.linked.insert(v, Height::of(view));
}

/// Puts v into F of u.
pub(crate) fn form(plot: &mut Plot, u: i64, v: i64) {
    plot.stations.get_mut(&u).unwrap().forming.insert(v);
}

/// Sets clock and own height of u.
pub(crate) fn hold(plot: &mut Plot, u: i64, clock: i64, own: [i64; 7]) {
    let station = plot.stations.get_mut(&u).unwrap();
    station.clock = clock;
    station.own = Height::of(own);
}

/// Puts a message on channel u to v.
pub(crate) fn send(plot: &mut Plot, u: i64, v: i64, height: [i64; 7], stamp: i64) {
    let height = Height::of(height);
    plot.waiting_mut(u, v).push_back(Message { height, stamp });
}

/// Steps, which has to be accepted under the rule and send to the set. The tables pass before and
/// afterwards.
pub(crate) fn takes(plot: &mut Plot, event: Event, rule: Rule, sent_to: &[i64]) -> Answer {
    assert_eq!(first_untimely(plot), None, "before {event:?}");
    let answer = step(plot, event);
    let set: BTreeSet<i64> = sent_to.iter().copied().collect();
    assert_eq!((answer.number, answer.rule), (0, Some(rule)), "{event:?}");
    assert_eq!(answer.sent_to, set, "{event:?}");
    let tables = store(plot);
    assert_eq!(
        load(plot.n, &tables.nodes, &tables.channels),
        Ok(plot.clone())
    );
    answer
}

/// Clock and own height of a station.
pub(crate) fn stands(plot: &Plot, u: i64, clock: i64, own: [i64; 7]) {
    let station = plot.station(u);
    assert_eq!((station.clock, station.own), (clock, Height::of(own)));
}

/// The plot after cases a to c.
pub(crate) fn plot_c() -> Plot {
    let mut plot = Plot::fresh(2);
    for event in [
        up(1, 2),
        up(2, 1),
        heard(1, 2),
        heard(2, 1),
        heard(2, 1),
        heard(1, 2),
    ] {
        assert_eq!(step(&mut plot, event).number, 0);
    }
    plot
}

#[test]
fn cases_a_to_d() {
    let mut plot = Plot::fresh(2);
    takes(&mut plot, up(1, 2), Rule::U, &[2]);
    takes(&mut plot, up(2, 1), Rule::U, &[1]);
    let a = takes(&mut plot, heard(1, 2), Rule::A, &[1]);
    assert_eq!(a.adopted_from, Some(1));
    stands(&plot, 2, 2, [0, 0, 0, 1, 0, 1, 2]);
    takes(&mut plot, heard(2, 1), Rule::R, &[2]);
    assert_eq!(plot.station(1).clock, 2);
    takes(&mut plot, heard(2, 1), Rule::Q, &[]);
    takes(&mut plot, heard(1, 2), Rule::Q, &[]);
    assert_eq!((plot.station(1).clock, plot.station(2).clock), (3, 3));
    assert_eq!(plot, plot_c());
    assert!(is_quiet(&plot));
    assert_eq!(settled(&plot), Ok(()));
    assert_eq!(groups(&plot), [BTreeSet::from([1, 2])]);
    assert_eq!(collectors(&plot, &BTreeSet::from([1, 2])), [1]);
    assert!(chain_falls(&plot, 2, 1) && !chain_falls(&plot, 1, 2));
    takes(&mut plot, down(1, 2), Rule::E, &[]);
    stands(&plot, 1, 4, [0, 0, 0, 0, -4, 1, 1]);
    assert!(!is_quiet(&plot), "2 to 1 is still up");
    assert_eq!(groups(&plot).len(), 2);
    assert!(settled(&plot).is_err(), "2 alone has no collector");
}

#[test]
fn cases_e_to_h() {
    let mut plot = Plot::fresh(3);
    hold(&mut plot, 2, 9, [0, 0, 0, 1, 0, 1, 2]);
    link(&mut plot, 2, 1, [0, 0, 0, 0, 0, 1, 1]);
    link(&mut plot, 2, 3, [0, 0, 0, 2, 0, 1, 3]);
    hold(&mut plot, 3, 6, [0, 0, 0, 2, 0, 1, 3]);
    link(&mut plot, 3, 2, [0, 0, 0, 1, 0, 1, 2]);
    assert!(!is_sink(plot.station(2)));
    takes(&mut plot, down(2, 1), Rule::S, &[3]);
    stands(&plot, 2, 10, [10, 2, 0, 0, 0, 1, 2]);
    assert_eq!(plot.waiting(2, 3)[0].stamp, 10);
    takes(&mut plot, heard(2, 3), Rule::F, &[2]);
    stands(&plot, 3, 11, [10, 2, 1, 0, 0, 1, 3]);
    takes(&mut plot, heard(3, 2), Rule::E, &[3]);
    stands(&plot, 2, 12, [0, 0, 0, 0, -12, 2, 2]);
    assert!(plot.station(2).is_collector());
    takes(&mut plot, heard(2, 3), Rule::A, &[2]);
    stands(&plot, 3, 13, [0, 0, 0, 1, -12, 2, 3]);
}

/// Case i, with the depths of the two views free.
pub(crate) fn plot_i(depth_of_6: i64, depth_of_7: i64) -> Plot {
    let mut plot = Plot::fresh(7);
    hold(&mut plot, 5, 7, [0, 0, 0, 3, 0, 1, 5]);
    link(&mut plot, 5, 7, [0, 0, 0, depth_of_7, 0, 1, 7]);
    form(&mut plot, 5, 6);
    hold(&mut plot, 6, 8, [8, 6, 0, depth_of_6, 0, 1, 6]);
    form(&mut plot, 6, 5);
    send(&mut plot, 6, 5, [8, 6, 0, depth_of_6, 0, 1, 6], 8);
    plot
}

#[test]
fn case_i() {
    let mut plot = plot_i(0, 4);
    let answer = takes(&mut plot, heard(6, 5), Rule::P, &[6, 7]);
    let level = Level {
        tau: 8,
        originator: 6,
        bit: 0,
    };
    assert_eq!(answer.level_taken, Some(level));
    stands(&plot, 5, 9, [8, 6, 0, -1, 0, 1, 5]);
    takes(
        &mut plot_i(LEAST_DEPTH + 1, 4),
        heard(6, 5),
        Rule::P,
        &[6, 7],
    );
    assert_eq!(step(&mut plot_i(LEAST_DEPTH, 4), heard(6, 5)).number, 8);
}

/// Station 2 with 1 forming, about to hear a smaller pair at this depth.
pub(crate) fn plot_j(depth: i64) -> Plot {
    let mut plot = Plot::fresh(2);
    hold(&mut plot, 1, 5, [0, 0, 0, depth, -5, 1, 1]);
    hold(&mut plot, 2, 1, [0, 0, 0, 0, 0, 2, 2]);
    form(&mut plot, 1, 2);
    form(&mut plot, 2, 1);
    send(&mut plot, 1, 2, [0, 0, 0, depth, -5, 1, 1], 5);
    plot
}

#[test]
fn cases_j_to_l() {
    let mut plot = plot_j(MOST_DEPTH - 1);
    takes(&mut plot, heard(1, 2), Rule::A, &[1]);
    assert_eq!(plot.station(2).own.depth, MOST_DEPTH);
    assert_eq!(step(&mut plot_j(MOST_DEPTH), heard(1, 2)).number, 8);
    for (waiting, number) in [(7, 0), (8, 9)] {
        let mut plot = plot_j(0);
        (0..waiting).for_each(|_| send(&mut plot, 2, 1, [0, 0, 0, 0, 0, 2, 2], 1));
        assert_eq!(step(&mut plot, heard(1, 2)).number, number);
        assert_eq!(plot.waiting(2, 1).len(), 8);
    }
    let mut plot = Plot::fresh(3);
    hold(&mut plot, 1, LAST_CLOCK - 1, [0, 0, 0, 0, 0, 1, 1]);
    takes(&mut plot, up(1, 2), Rule::U, &[2]);
    assert_eq!(plot.station(1).clock, LAST_CLOCK);
    assert_eq!(step(&mut plot, up(1, 3)).number, 7);
}

#[test]
fn case_m() {
    assert_eq!(write(&Plot::fresh(1)).len(), 24);
    assert_eq!(write(&Plot::fresh(2)).len(), 69);
    assert_eq!(place_of(4, 3), 928);
    let image = write(&Plot::fresh(4));
    assert_eq!(look(&image, 3, 928, row_len(4)).unwrap().clock, 0);
    for place in [927, 929, place_of(4, 2) as u64] {
        assert_eq!(look(&image, 3, place, row_len(4)).unwrap_err().number(), 13);
    }
    let mut plot = Plot::fresh(16);
    for (u, v) in crate::plot::ordered_pairs(16) {
        hold(&mut plot, u, 9, [0, 0, 0, 0, -9, u, u]);
        form(&mut plot, u, v);
        (0..8).for_each(|_| send(&mut plot, u, v, [0, 0, 0, -7, -9, u, u], 9));
    }
    let image = write(&plot);
    assert_eq!((image.len(), longest(16)), (34_044, 34_044));
    assert_eq!(resume(&image, nodes_len(16), channels_len(16)), Ok(plot));
}

/// With the clock of station 2 as request [5] of document 02 has it.
#[test]
fn bench_example() {
    let output = "event code rule sent\n1 0 U 1\n2 0 I 0\n3 6 - 0\n\
        station leader clock\n1 1 1\n2 2 2\n";
    for input in ["N 2\nU 1 2\nM 1 2\nM 1 2\n", "N 2\nU 1 2\nM 1 2\nM 1 2"] {
        assert_eq!(
            String::from_utf8(listing(input.as_bytes())).unwrap(),
            output
        );
    }
}
