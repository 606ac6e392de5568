//! Events to try, and the pairs of stations that they name.

use crate::random::Random;
use reference::plot::{Plot, ordered_pairs};
use reference::step::Event;

/// Mostly a receipt of a message that waits, sometimes a channel up or down, sometimes anything.
pub fn planted_event(plot: &Plot, random: &mut Random) -> Event {
    let waiting = waiting_pairs(plot);
    let pairs = ordered_pairs(plot.n);
    let up: Vec<_> = of_those(&pairs, |u, v| plot.is_up(u, v));
    let choice = match random.below(10) {
        0..=5 => random.pick_any(&waiting).map(receipt),
        6..=8 => random.pick_any(&up).map(|(u, v)| Event::Down { u, v }),
        _ => random.pick_any(&pairs).map(|(u, v)| Event::Up { u, v }),
    };
    choice.unwrap_or_else(|| any_event(plot.n, random))
}

/// An event with numbers that may name no station, or one twice.
pub fn any_event(n: i64, random: &mut Random) -> Event {
    let last = i64::from(u32::MAX);
    let odd = [
        0,
        0,
        n + 1,
        16,
        17,
        32,
        33,
        64,
        65,
        256,
        257,
        last - 1,
        last,
    ];
    let mut any = || {
        if random.chance(70) {
            random.between(1, n)
        } else {
            random.pick(&odd)
        }
    };
    let (u, v) = (any(), any());
    match random.below(3) {
        0 => Event::Up { u, v },
        1 => Event::Down { u, v },
        _ => Event::Receipt { from: u, to: v },
    }
}

pub fn receipt((from, to): (i64, i64)) -> Event {
    Event::Receipt { from, to }
}

pub fn of_those(pairs: &[(i64, i64)], wanted: impl Fn(i64, i64) -> bool) -> Vec<(i64, i64)> {
    let those = pairs.iter().copied();
    those.filter(|&(u, v)| wanted(u, v)).collect()
}

/// The channels with a message.
pub fn waiting_pairs(plot: &Plot) -> Vec<(i64, i64)> {
    let channels = plot.channels.iter();
    let with_message = channels.filter(|(_, waiting)| !waiting.is_empty());
    with_message.map(|(&pair, _)| pair).collect()
}

/// The pairs that a history mostly links: a line, a ring, a star, a tree, or all of them. Chains of stations are where levels
/// start, meet and come back.
pub fn likely_pairs(n: i64, random: &mut Random) -> Vec<(i64, i64)> {
    let shape = random.below(5);
    let mut ones: Vec<(i64, i64)> = match shape {
        0 => (2..=n).map(|k| (k - 1, k)).collect(),
        1 => (1..=n).map(|k| (k, k % n + 1)).collect(),
        2 => (2..=n).map(|k| (1, k)).collect(),
        3 => (2..=n).map(|k| (random.between(1, k - 1), k)).collect(),
        _ => ordered_pairs(n),
    };
    ones.retain(|(u, v)| u != v);
    ones
}
