//! Document 01, "What a station holds": heights, stations, channels and the fresh plot.

use std::collections::{BTreeMap, BTreeSet, VecDeque};

/// 01, 1.1: the number of stations.
pub const MOST_STATIONS: i64 = 16;

/// 01, 2.1: the clock's range.
pub const LAST_CLOCK: i64 = 4_294_967_295;

/// 01, 2.12: the depth's range.
pub const LEAST_DEPTH: i64 = -32_768;

/// 01, 2.12: the depth's range.
pub const MOST_DEPTH: i64 = 32_767;

/// 01, 2.25 and 2.26: at most 8, the oldest first.
pub const MOST_WAITING: usize = 8;

/// 01, 2.16: a level; its order is that of the fields (2.18).
#[derive(Clone, Copy, Debug, PartialEq, Eq, PartialOrd, Ord)]
pub struct Level {
    pub tau: i64,
    pub originator: i64,
    pub bit: i64,
}

/// 01, 2.16: a leader pair; of two, the smaller wins (2.19).
#[derive(Clone, Copy, Debug, PartialEq, Eq, PartialOrd, Ord)]
pub struct Pair {
    pub negated_time: i64,
    pub leader: i64,
}

/// 01, 2.8 to 2.15: the seven numbers. The fields stand in the order of comparison, which is that of
/// [`crate::parting`].
#[derive(Clone, Copy, Debug, PartialEq, Eq)]
pub struct Height {
    pub level: Level,
    pub depth: i64,
    pub pair: Pair,
    pub station: i64,
}

/// 01, 2.27: height and stamp.
#[derive(Clone, Copy, Debug, PartialEq, Eq)]
pub struct Message {
    pub height: Height,
    pub stamp: i64,
}

/// 01, 2.1, 2.2 and 2.6: clock, sets, own height and views. N is the set of keys of `linked`.
#[derive(Clone, Debug, PartialEq, Eq)]
pub struct Station {
    pub clock: i64,
    pub linked: BTreeMap<i64, Height>,
    pub forming: BTreeSet<i64>,
    pub own: Height,
}

/// 01, 1.1 and 1.2: the stations and a channel for each ordered pair. Every key is present, also for
/// channels that are empty or down.
#[derive(Clone, Debug, PartialEq, Eq)]
pub struct Plot {
    pub n: i64,
    pub stations: BTreeMap<i64, Station>,
    pub channels: BTreeMap<(i64, i64), VecDeque<Message>>,
}

/// 01, 2.17: no search.
pub const NO_SEARCH: Level = Level {
    tau: 0,
    originator: 0,
    bit: 0,
};

impl Level {
    /// 01, 2.10, 2.11 and 2.17: what a level has to obey.
    fn obeys(&self, n: i64) -> bool {
        let in_range = (0..=LAST_CLOCK).contains(&self.tau)
            && (0..=n).contains(&self.originator)
            && (0..=1).contains(&self.bit);
        let none = self.tau == 0;
        in_range && none == (self.originator == 0) && !(none && self.bit != 0)
    }
}

impl Pair {
    /// 01, 2.20 and 2.14: the ranges of negated time and leader.
    fn obeys(&self, n: i64) -> bool {
        (-LAST_CLOCK..=0).contains(&self.negated_time) && (1..=n).contains(&self.leader)
    }
}

impl Height {
    /// 01, 9.2: a height as it is written.
    pub fn of(numbers: [i64; 7]) -> Height {
        let [tau, originator, bit, depth, negated_time, leader, station] = numbers;
        Height {
            level: Level {
                tau,
                originator,
                bit,
            },
            depth,
            pair: Pair {
                negated_time,
                leader,
            },
            station,
        }
    }

    /// The numbers that `of` makes this height of, signed and in their order (01, 2.18).
    pub fn numbers(&self) -> [i64; 7] {
        let Height {
            level,
            depth,
            pair,
            station,
        } = *self;
        [
            level.tau,
            level.originator,
            level.bit,
            depth,
            pair.negated_time,
            pair.leader,
            station,
        ]
    }

    /// 01, 4.7: (0, 0, 0, 0, −T, u, u); in the fresh plot with time 0 (2.30).
    pub fn of_collector(k: i64, negated_time: i64) -> Height {
        Height::of([0, 0, 0, 0, negated_time, k, k])
    }

    /// The seven ranges of a height in a plot of n stations, and whose it has to be (01, 2.15).
    pub(crate) fn obeys(&self, n: i64, station: i64) -> bool {
        self.level.obeys(n)
            && (LEAST_DEPTH..=MOST_DEPTH).contains(&self.depth)
            && self.pair.obeys(n)
            && self.station == station
    }
}

impl Station {
    /// Whether v is in one of the sets (01, 2.24).
    pub fn knows(&self, v: i64) -> bool {
        self.linked.contains_key(&v) || self.forming.contains(&v)
    }

    /// N and F together (01, 4.22).
    pub fn everyone(&self) -> BTreeSet<i64> {
        let linked = self.linked.keys().copied();
        linked.chain(self.forming.iter().copied()).collect()
    }

    /// 01, 2.21: who is a collector.
    pub fn is_collector(&self) -> bool {
        self.own.pair.leader == self.own.station
    }

    /// A station of the fresh plot (01, 2.30).
    fn fresh(k: i64) -> Station {
        Station {
            clock: 0,
            linked: BTreeMap::new(),
            forming: BTreeSet::new(),
            own: Height::of_collector(k, 0),
        }
    }
}

impl Plot {
    /// 01, 2.30: the fresh plot.
    pub fn fresh(n: i64) -> Plot {
        Plot {
            n,
            stations: (1..=n).map(|k| (k, Station::fresh(k))).collect(),
            channels: ordered_pairs(n)
                .into_iter()
                .map(|pair| (pair, VecDeque::new()))
                .collect(),
        }
    }

    /// Station k, which has to be one of 1 to n (01, 1.1).
    pub fn station(&self, k: i64) -> &Station {
        &self.stations[&k]
    }

    /// The messages on channel u to v: the oldest at the front (01, 2.26).
    pub fn waiting(&self, u: i64, v: i64) -> &VecDeque<Message> {
        &self.channels[&(u, v)]
    }

    /// The same messages, to be sent, received or lost.
    pub fn waiting_mut(&mut self, u: i64, v: i64) -> &mut VecDeque<Message> {
        self.channels
            .get_mut(&(u, v))
            .expect("a channel for each ordered pair")
    }

    /// 01, 2.24: when a channel is up.
    pub fn is_up(&self, u: i64, v: i64) -> bool {
        self.stations
            .get(&u)
            .is_some_and(|station| station.knows(v))
    }

    /// 01, 2.22: when two stations are linked.
    pub fn are_linked(&self, u: i64, v: i64) -> bool {
        self.is_up(u, v) && self.is_up(v, u)
    }
}

/// The ordered pairs in the image's order (01, 6.5).
pub fn ordered_pairs(n: i64) -> Vec<(i64, i64)> {
    (1..=n)
        .flat_map(|u| (1..=n).map(move |v| (u, v)))
        .filter(|(u, v)| u != v)
        .collect()
}
