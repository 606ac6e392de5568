//! Plots that break no rule but that no short history reaches: clocks and depths at their ends, full channels, old levels.

use crate::random::Random;
use crate::times;
use reference::plot::{
    Height, LAST_CLOCK, Level, Message, NO_SEARCH, Pair, Plot, Station, ordered_pairs,
};
use std::collections::{BTreeMap, BTreeSet};

/// The few levels, depths and pairs that a plot's heights are made of, so that many of them are equal.
struct Pool {
    levels: Vec<Level>,
    depths: Vec<i64>,
    pairs: Vec<Pair>,
    linked_percent: usize,
    forming_percent: usize,
    crowded: bool,
    late: bool,
}

impl Pool {
    fn new(n: i64, random: &mut Random) -> Pool {
        let mut pool = Pool {
            levels: Vec::new(),
            depths: Vec::new(),
            pairs: Vec::new(),
            linked_percent: random.pick(&[10, 30, 60, 90]),
            forming_percent: random.pick(&[0, 30, 80]),
            crowded: random.chance(30),
            late: random.chance(20),
        };
        for _ in 0..random.between(1, 4) {
            pool.levels.push(level(n, random));
        }
        let depths = [-32_768, -32_767, -2, -1, 0, 1, 2, 3, 32_766, 32_767];
        for _ in 0..random.between(1, 5) {
            pool.depths.push(random.pick(&depths));
        }
        for _ in 0..random.between(1, 3) {
            pool.pairs.push(pair(n, random));
        }
        if random.chance(80) {
            pool.pairs[0].negated_time = -random.between(0, 1);
        }
        pool
    }

    /// Any height of station k with times up to the latest, now and then with one that is the latest; mostly with the first pair.
    fn height(&self, k: i64, latest: i64, random: &mut Random) -> Height {
        let pairs = self.pairs_within(latest);
        let first = random.chance(70);
        let mut height = Height {
            level: random.pick(&self.levels_within(latest)),
            depth: random.pick(&self.depths),
            pair: if first { pairs[0] } else { random.pick(&pairs) },
            station: k,
        };
        if height.level.tau > 0 && random.chance(2) {
            height.level.tau = latest;
        }
        if random.chance(2) {
            height.pair.negated_time = -latest;
        }
        height
    }

    /// The lowest height of station k: with the first pair in its views it is a sink.
    fn lowest(&self, k: i64, latest: i64) -> Height {
        let levels = self.levels_within(latest);
        Height {
            level: *levels.iter().min().expect("a level"),
            depth: *self.depths.iter().min().expect("a depth"),
            pair: self.pairs_within(latest)[0],
            station: k,
        }
    }

    /// The levels of searches up to the latest time; that of none where there are none.
    fn levels_within(&self, latest: i64) -> Vec<Level> {
        let mut levels = self.levels.clone();
        levels.retain(|level| level.tau <= latest);
        if levels.is_empty() {
            levels.push(NO_SEARCH);
        }
        levels
    }

    /// The pairs of elections up to the latest time; the first one's leader, from the start, where there are none.
    fn pairs_within(&self, latest: i64) -> Vec<Pair> {
        let mut pairs = self.pairs.clone();
        pairs.retain(|pair| -pair.negated_time <= latest);
        if pairs.is_empty() {
            pairs.push(Pair {
                negated_time: 0,
                ..self.pairs[0]
            });
        }
        pairs
    }

    fn clock(&self, random: &mut Random) -> i64 {
        if self.late && random.chance(35) {
            return LAST_CLOCK - random.between(0, 2);
        }
        match random.below(6) {
            0 => random.between(0, 3),
            1 | 2 => random.between(0, 100),
            _ => i64::from(random.word()),
        }
    }

    /// A message of station u, sent when its clock was this or less.
    fn message(&self, u: i64, clock: i64, random: &mut Random) -> Message {
        let stamp = match random.below(4) {
            0 | 1 => clock,
            2 => (clock - random.between(0, 3)).max(0),
            _ => random.between(0, clock),
        };
        Message {
            height: self.height(u, stamp, random),
            stamp,
        }
    }

    /// How many messages wait on a channel.
    fn count(&self, random: &mut Random) -> i64 {
        if self.crowded {
            random.pick(&[0, 1, 6, 7, 7, 8])
        } else {
            random.pick(&[0, 0, 0, 1, 1, 2, 3])
        }
    }
}

fn level(n: i64, random: &mut Random) -> Level {
    if random.chance(30) {
        return NO_SEARCH;
    }
    let any = 1 + i64::from(random.word()) % LAST_CLOCK;
    let late = LAST_CLOCK - random.between(0, 2);
    Level {
        tau: random.pick(&[1, 2, 3, 50, late, any]),
        originator: random.between(1, n),
        bit: random.between(0, 1),
    }
}

fn pair(n: i64, random: &mut Random) -> Pair {
    let any = i64::from(random.word());
    let late = LAST_CLOCK - random.between(0, 2);
    Pair {
        negated_time: -random.pick(&[0, 0, 1, 12, late, any]),
        leader: random.between(1, n),
    }
}

/// A random plot of n stations that breaks no rule, with times up to the clocks and stamps that they were read off.
pub fn sound_plot(n: i64, random: &mut Random) -> Plot {
    let pool = Pool::new(n, random);
    let mut plot = Plot::fresh(n);
    for u in 1..=n {
        plot.stations.insert(u, station(n, u, &pool, random));
    }
    for (u, v) in ordered_pairs(n) {
        if plot.is_up(u, v) {
            for _ in 0..pool.count(random) {
                let message = pool.message(u, plot.station(u).clock, random);
                plot.waiting_mut(u, v).push_back(message);
            }
        }
    }
    plot
}

fn station(n: i64, u: i64, pool: &Pool, random: &mut Random) -> Station {
    let low = random.chance(50);
    let clock = pool.clock(random);
    let mut station = Station {
        clock,
        linked: BTreeMap::new(),
        forming: BTreeSet::new(),
        own: if low {
            pool.lowest(u, clock)
        } else {
            pool.height(u, clock, random)
        },
    };
    for v in (1..=n).filter(|&v| v != u) {
        if random.chance(pool.linked_percent) {
            let mut view = pool.height(v, clock, random);
            if low {
                view.pair = station.own.pair;
            }
            station.linked.insert(v, view);
        } else if random.chance(pool.forming_percent) {
            station.forming.insert(v);
        }
    }
    station
}

/// The same, but for one time that is one beyond its clock or its stamp, or several that are.
pub fn untimely_plot(n: i64, random: &mut Random) -> Plot {
    loop {
        let mut plot = sound_plot(n, random);
        if times::put_any_beyond(&mut plot, random).is_some() {
            while random.chance(20) {
                times::put_any_beyond(&mut plot, random);
            }
            return plot;
        }
    }
}

/// A plot whose links make groups: these pairs, in another order of the stations, at times one way or not at all. Leaders are
/// anyone, so a group may have no collector, one or several; often no message waits.
pub fn grouped_plot(n: i64, pairs: &[(i64, i64)], random: &mut Random) -> Plot {
    let mut plot = Plot::fresh(n);
    let names = shuffled(n, random);
    let joined = random.pick(&[30, 70, 100]);
    let both_ways = random.pick(&[100, 100, 80]);
    for (u, v) in pairs.iter().map(|&(u, v)| (names[&u], names[&v])) {
        if random.chance(joined) {
            turn_up(&mut plot, u, v, random);
            if random.chance(both_ways) {
                turn_up(&mut plot, v, u, random);
            }
        }
    }
    let itself = random.pick(&[0, 10, 50]);
    for (&k, station) in &mut plot.stations {
        station.own.pair.leader = if random.chance(itself) {
            k
        } else {
            random.between(1, n)
        };
    }
    if random.chance(30) {
        send_one(&mut plot, random);
    }
    plot
}

/// The stations in any order, by their number.
fn shuffled(n: i64, random: &mut Random) -> BTreeMap<i64, i64> {
    let mut left: Vec<i64> = (1..=n).collect();
    (1..=n)
        .map(|k| (k, left.swap_remove(random.below(left.len()))))
        .collect()
}

/// Channel u to v is up, by one of the sets.
fn turn_up(plot: &mut Plot, u: i64, v: i64, random: &mut Random) {
    if plot.is_up(u, v) {
        return;
    }
    let station = plot.stations.get_mut(&u).expect("a station");
    if random.chance(50) {
        station.linked.insert(v, Height::of_collector(v, 0));
    } else {
        station.forming.insert(v);
    }
}

/// A message on some channel that is up, if any is.
fn send_one(plot: &mut Plot, random: &mut Random) {
    let mut up = ordered_pairs(plot.n);
    up.retain(|&(u, v)| plot.is_up(u, v));
    if let Some((u, v)) = random.pick_any(&up) {
        let stamp = random.between(0, 9);
        let station = plot.stations.get_mut(&u).expect("a station");
        station.clock = stamp + random.between(0, 1);
        let height = station.own;
        plot.waiting_mut(u, v).push_back(Message { height, stamp });
    }
}
