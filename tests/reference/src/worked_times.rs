//! Request [3] of document 02: every kind of time at its limit and one beyond, at each call that reads
//! tables or images, and the pair that is named. The orders of checks stand in `worked_untimely`.

use crate::drawing::draw_into;
use crate::image::{longest, look, place_of, resume, save, write};
use crate::plot::{Height, LAST_CLOCK, Plot};
use crate::quiet::{group_of, groups, is_quiet};
use crate::refusal::Refusal;
use crate::sketches::written;
use crate::step::Event;
use crate::tables::{self, Tables, channels_len, check, load, nodes_len, row_len, store};
use crate::worked_plots::{down, form, heard, hold, link, send, up};
use std::collections::BTreeSet;

/// What a call answers: its number, and the pair.
pub(crate) type Told = (i64, Option<(i64, i64)>);

/// Carried out.
pub(crate) const DONE: Told = (0, None);

/// The clocks of [`latest`]: no two alike, so that another station's is noticed.
const CLOCKS: [i64; 4] = [20, 12, 31, 5];

/// Four stations of which 4 is alone, with every time as late as it can be, but for messages that were
/// sent earlier: a view of 2 has times that 2 has not reached, and 1 has stamps ahead of its clock under
/// way. 3 has no view of 1, and nothing waits from 1 to 3.
pub(crate) fn latest() -> Plot {
    let mut plot = Plot::fresh(4);
    for (k, clock) in (1..).zip(CLOCKS) {
        hold(&mut plot, k, clock, [clock, k, 0, 1, -clock, 1, k]);
    }
    for (u, v) in [(1, 2), (1, 3), (2, 1), (2, 3), (3, 2)] {
        let clock = plot.station(u).clock;
        link(&mut plot, u, v, [clock, 3, 1, 2, -clock, 1, v]);
    }
    form(&mut plot, 3, 1);
    let sent = [
        (1, 2, 9),
        (1, 2, 20),
        (2, 1, 7),
        (2, 1, 12),
        (2, 3, 12),
        (3, 1, 30),
        (3, 1, 31),
        (3, 2, 3),
        (3, 2, 31),
        (3, 2, 31),
    ];
    for (u, v, stamp) in sent {
        send(&mut plot, u, v, [stamp, 4, 0, -3, -stamp, 2, u], stamp);
    }
    plot
}

fn told<T>(answer: Result<T, Refusal>) -> Told {
    answer
        .err()
        .map_or(DONE, |refusal| (refusal.number(), refusal.pair()))
}

/// An event over tables, which a refusal leaves as they were.
fn stepped(n: i64, event: Event, tables: &Tables) -> Told {
    let mut lent = tables.clone();
    let answer = tables::step(n, event, &mut lent);
    assert_eq!(answer.number == 0, answer.rule.is_some(), "{event:?}");
    assert_eq!(answer.number != 0, lent == *tables, "{event:?}");
    (answer.number, answer.fault)
}

/// A drawing into room enough, which a refusal leaves as it was.
fn drawn(n: i64, tables: &Tables) -> Told {
    let mut room = [7; 2000];
    let answer = draw_into(n, &tables.nodes, &tables.channels, &mut room);
    assert_eq!(answer.is_err(), room == [7; 2000]);
    told(answer)
}

/// Every call that can give 18, each with numbers that are right for [`latest`].
fn calls(plot: &Plot) -> Vec<(&'static str, Told)> {
    let (n, tables, image) = (plot.n, store(plot), write(plot));
    let Tables { nodes, channels } = &tables;
    let asked = || load(n, nodes, channels);
    let mut all = vec![
        ("check", told(check(n, nodes, channels))),
        ("quiet", told(asked().map(|plot| is_quiet(&plot)))),
        ("groups", told(asked().map(|plot| groups(&plot)))),
        (
            "group of",
            told(asked().and_then(|plot| group_of(&plot, 1))),
        ),
        ("up", stepped(n, up(1, 4), &tables)),
        ("down", stepped(n, down(1, 2), &tables)),
        ("receipt", stepped(n, heard(2, 1), &tables)),
        ("save", told(save(n, nodes, channels, longest(n)))),
        ("draw", drawn(n, &tables)),
        (
            "resume",
            told(resume(&image, nodes_len(n), channels_len(n))),
        ),
    ];
    for k in 1..=n {
        let seen = look(&image, k, place_of(n, k) as u64, row_len(n));
        all.push(("look", told(seen)));
    }
    all
}

/// Every call tells this.
pub(crate) fn all_tell(plot: &Plot, due: Told, why: &str) {
    for (call, told) in calls(plot) {
        assert_eq!(told, due, "{call}: {why}");
    }
}

/// The times at a pair: of the own height at v = u and of the view else, and of the messages by their
/// places.
#[derive(Clone, Copy, Debug)]
enum Time {
    Search,
    Election,
    Stamp(usize),
    SentSearch(usize),
    SentElection(usize),
}

/// Which of the seven kinds a time is.
fn kind(u: i64, v: i64, time: Time) -> &'static str {
    match time {
        Time::Search if u == v => "own search",
        Time::Search => "view's search",
        Time::Election if u == v => "own election",
        Time::Election => "view's election",
        Time::Stamp(_) => "stamp",
        Time::SentSearch(_) => "message's search",
        Time::SentElection(_) => "message's election",
    }
}

/// What u holds for v, itself included.
fn held(plot: &mut Plot, u: i64, v: i64) -> Option<&mut Height> {
    let station = plot.stations.get_mut(&u).unwrap();
    if u == v {
        return Some(&mut station.own);
    }
    station.linked.get_mut(&v)
}

/// All pairs, in their order.
pub(crate) fn places(n: i64) -> Vec<(i64, i64)> {
    (1..=n).flat_map(|u| (1..=n).map(move |v| (u, v))).collect()
}

/// The times that there are at a pair.
fn times_at(plot: &mut Plot, u: i64, v: i64) -> Vec<Time> {
    let mut times = Vec::new();
    if held(plot, u, v).is_some() {
        times.extend([Time::Search, Time::Election]);
    }
    let waiting = plot.channels.get(&(u, v)).map_or(0, |list| list.len());
    for k in 0..waiting {
        times.extend([Time::Stamp(k), Time::SentSearch(k), Time::SentElection(k)]);
    }
    times
}

/// The last number that a time may have: the clock of u, or the stamp beside it.
fn limit(plot: &Plot, u: i64, v: i64, time: Time) -> i64 {
    match time {
        Time::SentSearch(k) | Time::SentElection(k) => plot.waiting(u, v)[k].stamp,
        _ => plot.station(u).clock,
    }
}

/// Gives a time this number.
fn put(plot: &mut Plot, u: i64, v: i64, time: Time, number: i64) {
    match time {
        Time::Search => held(plot, u, v).unwrap().level.tau = number,
        Time::Election => held(plot, u, v).unwrap().pair.negated_time = -number,
        Time::Stamp(k) => plot.waiting_mut(u, v)[k].stamp = number,
        Time::SentSearch(k) => plot.waiting_mut(u, v)[k].height.level.tau = number,
        Time::SentElection(k) => plot.waiting_mut(u, v)[k].height.pair.negated_time = -number,
    }
}

/// Some time at this pair, one beyond its limit.
pub(crate) fn spoil(plot: &mut Plot, u: i64, v: i64) {
    let time = *times_at(plot, u, v).last().unwrap();
    put(plot, u, v, time, limit(plot, u, v, time) + 1);
}

/// The pairs of [`latest`] that have a time.
pub(crate) fn timed_places() -> Vec<(i64, i64)> {
    let mut all = places(4);
    all.retain(|(u, v)| !times_at(&mut latest(), *u, *v).is_empty());
    all
}

#[test]
fn latest_times_are_accepted() {
    all_tell(&latest(), DONE, "every time at its limit");
    let timed = [
        (1, 1),
        (1, 2),
        (1, 3),
        (2, 1),
        (2, 2),
        (2, 3),
        (3, 1),
        (3, 2),
        (3, 3),
        (4, 4),
    ];
    assert_eq!(timed_places(), timed);
}

/// All seven kinds, at every pair, in every message: the limit passes, and nothing beyond it does.
#[test]
fn one_beyond_is_18_at_its_pair() {
    let (mut count, mut kinds) = (0, BTreeSet::new());
    for (u, v) in places(4) {
        for time in times_at(&mut latest(), u, v) {
            let last = limit(&latest(), u, v, time);
            let beyond = (18, Some((u, v)));
            for (number, due) in [
                (last, DONE),
                (last + 1, beyond),
                (last + 40, beyond),
                (LAST_CLOCK, beyond),
            ] {
                let mut plot = latest();
                put(&mut plot, u, v, time, number);
                all_tell(&plot, due, &format!("{time:?} of {u} {v}: {number}"));
            }
            count += 1;
            kinds.insert(kind(u, v, time));
        }
    }
    assert_eq!(count, 4 * 2 + 5 * 2 + 10 * 3);
    assert_eq!(kinds.len(), 7, "{kinds:?}");
}

/// A clock or a stamp that is too early is named by the first pair with a time that it is too early for.
#[test]
fn clocks_and_stamps_one_lower() {
    for (k, first) in [(1, (1, 1)), (2, (2, 1)), (3, (3, 1)), (4, (4, 4))] {
        for clock in [latest().station(k).clock - 1, 0] {
            let mut plot = latest();
            plot.stations.get_mut(&k).unwrap().clock = clock;
            all_tell(&plot, (18, Some(first)), "a clock");
        }
    }
    for (u, v) in timed_places().into_iter().filter(|(u, v)| u != v) {
        for place in 0..latest().waiting(u, v).len() {
            let mut plot = latest();
            plot.waiting_mut(u, v)[place].stamp -= 1;
            all_tell(&plot, (18, Some((u, v))), "a stamp");
        }
    }
    let mut plot = latest();
    plot.stations.get_mut(&3).unwrap().clock = 0;
    plot.waiting_mut(3, 1).clear();
    all_tell(
        &plot,
        (18, Some((3, 2))),
        "the view and the messages of 3 2",
    );
    plot.waiting_mut(3, 2).clear();
    all_tell(&plot, (18, Some((3, 2))), "the view alone");
    put(&mut plot, 3, 2, Time::Search, 1);
    put(&mut plot, 3, 2, Time::Election, 0);
    all_tell(&plot, (18, Some((3, 2))), "its search");
    link(&mut plot, 3, 2, [0, 0, 0, 2, 0, 1, 2]);
    all_tell(&plot, (18, Some((3, 3))), "the own height");
    hold(&mut plot, 3, 0, [0, 0, 0, 1, 0, 1, 3]);
    all_tell(&plot, DONE, "no times left");
}

/// A later clock makes no difference, whoever has it.
#[test]
fn later_clocks_are_accepted() {
    for k in 1..=4 {
        let mut plot = latest();
        plot.stations.get_mut(&k).unwrap().clock += 1;
        all_tell(&plot, DONE, "one more");
    }
}

#[test]
fn the_first_of_several_pairs() {
    let all = timed_places();
    for first in &all {
        for later in all.iter().filter(|later| *later > first) {
            let mut plot = latest();
            spoil(&mut plot, first.0, first.1);
            spoil(&mut plot, later.0, later.1);
            all_tell(&plot, (18, Some(*first)), "the first of two");
        }
    }
    let mut plot = latest();
    all.iter().for_each(|(u, v)| spoil(&mut plot, *u, *v));
    all_tell(&plot, (18, Some((1, 1))), "the first of all");
}

/// Clocks are words without a sign: their ends, and both sides of the top bit.
#[test]
fn clocks_at_their_ends() {
    let half = 1 << 31;
    for (clock, time, due) in [
        (0, 0, DONE),
        (0, 1, (18, Some((1, 1)))),
        (half - 1, half, (18, Some((1, 1)))),
        (half, half, DONE),
        (half, half - 1, DONE),
        (LAST_CLOCK - 1, LAST_CLOCK, (18, Some((1, 1)))),
        (LAST_CLOCK, LAST_CLOCK, DONE),
        (LAST_CLOCK, 0, DONE),
        (0, LAST_CLOCK, (18, Some((1, 1)))),
    ] {
        let mut plot = Plot::fresh(1);
        hold(&mut plot, 1, clock, [0, 0, 0, 0, -time, 1, 1]);
        let tables = store(&plot);
        assert_eq!(told(check(1, &tables.nodes, &tables.channels)), due);
        let originator = i64::from(time > 0);
        hold(&mut plot, 1, clock, [time, originator, 0, 0, 0, 1, 1]);
        let tables = store(&plot);
        assert_eq!(told(check(1, &tables.nodes, &tables.channels)), due);
        let mut plot = Plot::fresh(2);
        hold(&mut plot, 2, clock, [0, 0, 0, 0, 0, 2, 2]);
        form(&mut plot, 2, 1);
        send(&mut plot, 2, 1, [0, 0, 0, 0, 0, 2, 2], time);
        let tables = store(&plot);
        let due = (due.0, due.1.map(|_| (2, 1)));
        assert_eq!(told(check(2, &tables.nodes, &tables.channels)), due);
    }
}

/// What is built and not read makes sense by itself: fresh plots, and those of sketches.
#[test]
fn built_plots_pass() {
    for n in 1..=16 {
        let every = |a: u32| (1..a).map(move |b| (a, b));
        let links: Vec<(u32, u32)> = (1..=n).flat_map(every).collect();
        let n = i64::from(n);
        let (nodes, channels) = (nodes_len(n), channels_len(n));
        let sketched = crate::drawing::read(&written(n as u32, &links), nodes, channels);
        for plot in [Plot::fresh(n), sketched.unwrap()] {
            let tables = store(&plot);
            assert_eq!(check(n, &tables.nodes, &tables.channels), Ok(()));
        }
    }
}
