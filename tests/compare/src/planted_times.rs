//! Times in both (document 02, request [3]): each kind at its limit and one beyond at every call, and images joined of two halves.

use crate::calls::{compare_tables, read_both_ways};
use crate::damage;
use crate::events::{any_event, likely_pairs, planted_event};
use crate::planted;
use crate::random::Random;
use crate::tally::Tally;
use crate::times::{self, KINDS};
use reference::image;
use reference::plot::{Plot, ordered_pairs};
use reference::step::{Event, step};
use reference::tables;
use reference::times::first_untimely;
use std::cmp::Ordering;

/// For each kind of time a planted plot: with one at its limit, then with one beyond, then with others beyond, then with a fault.
pub fn planted_times(seed: u64, tally: &mut Tally) {
    let mut random = Random::new(seed);
    let n = random.between(1, 16);
    for kind in KINDS {
        let mut plot = planted::sound_plot(n, &mut random);
        if times::put_at_limit(&mut plot, kind, &mut random).is_some() {
            assert_eq!(first_untimely(&plot), None, "{kind:?} at its limit");
            tally.note(format!("at its limit: {kind:?}"));
            compare_calls(&plot, &mut random, tally);
        }
        let Some(time) = times::put_beyond(&mut plot, kind, &mut random) else {
            continue;
        };
        let pair = (time.u, time.v);
        assert_eq!(first_untimely(&plot), Some(pair), "{kind:?} beyond it");
        tally.note(format!("one beyond: {kind:?}"));
        compare_calls(&plot, &mut random, tally);
        with_another(plot.clone(), pair, &mut random, tally);
        with_a_fault(plot, pair, &mut random, tally);
    }
}

/// A second time beyond, which is named if its pair is earlier.
fn with_another(mut plot: Plot, pair: (i64, i64), random: &mut Random, tally: &mut Tally) {
    if let Some(time) = times::put_any_beyond(&mut plot, random) {
        let other = (time.u, time.v);
        tally.note(match other.cmp(&pair) {
            Ordering::Less => "a second time: earlier",
            Ordering::Equal => "a second time: same pair",
            Ordering::Greater => "a second time: later",
        });
        assert_eq!(first_untimely(&plot), Some(other.min(pair)));
        compare_calls(&plot, random, tally);
    }
}

/// A fault beside the time: 2 wherever it is.
fn with_a_fault(mut plot: Plot, pair: (i64, i64), random: &mut Random, tally: &mut Tally) {
    let u = random.between(1, plot.n);
    let station = plot.stations.get_mut(&u).expect("a station");
    station.own.pair.leader = random.pick(&[0, plot.n + 1]);
    tally.note(if (u, u) > pair {
        "a fault: later"
    } else {
        "a fault: earlier or same pair"
    });
    compare_calls(&plot, random, tally);
}

/// Every call over the tables and the image of a plot, whatever is wrong with it.
fn compare_calls(plot: &Plot, random: &mut Random, tally: &mut Tally) {
    let lent = tables::store(plot);
    let event = if random.chance(70) {
        planted_event(plot, random)
    } else {
        any_event(plot.n, random)
    };
    compare_tables(plot.n, event, &lent, random, tally);
    read_both_ways(&image::write(plot), plot.n, random, tally);
}

/// Two images of one grown plot, an earlier and a later, each cut at some bytes and joined with the rest of the other.
pub fn joined_halves(seed: u64, tally: &mut Tally) {
    let mut random = Random::new(seed);
    let n = random.between(1, 8);
    let pairs = likely_pairs(n, &mut random);
    let mut plot = Plot::fresh(n);
    grow(&mut plot, &pairs, 100, &mut random);
    let early = image::write(&plot);
    let more = random.between(1, 40);
    grow(&mut plot, &pairs, more, &mut random);
    let late = image::write(&plot);
    for _ in 0..10 {
        let (front, back) = if random.chance(70) {
            (&early, &late)
        } else {
            (&late, &early)
        };
        let bytes = damage::join_halves(front, back, &mut random);
        read_both_ways(&bytes, n, &mut random, tally);
    }
    for bytes in [early, late] {
        let whole = image::resume(&bytes, tables::nodes_len(n), tables::channels_len(n));
        assert!(whole.is_ok(), "an image that a grown plot wrote");
        read_both_ways(&bytes, n, &mut random, tally);
    }
}

/// So many events, of which many bring up or receive.
fn grow(plot: &mut Plot, pairs: &[(i64, i64)], events: i64, random: &mut Random) {
    for _ in 0..events {
        let other = random.pick_any(&ordered_pairs(plot.n));
        let likely = random.pick_any(pairs).or(other);
        let turned = random.chance(50);
        let Some((u, v)) = likely.map(|(u, v)| if turned { (v, u) } else { (u, v) }) else {
            return;
        };
        let event = if random.chance(67) {
            Event::Up { u, v }
        } else {
            Event::Down { u, v }
        };
        step(plot, event);
        for _ in 0..random.between(0, 4) {
            let event = planted_event(plot, random);
            step(plot, event);
        }
    }
}
