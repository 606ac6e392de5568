//! Heights and levels, their orders, and the heights that the rules leave.

use super::words::{HeightWords, HEAD};
use std::cmp::Reverse;

/// A reference level, ordered as its fields.
#[derive(Clone, Copy, PartialEq, Eq, PartialOrd, Ord)]
pub struct Level {
    pub tau: u32,
    pub originator: u32,
    pub bit: u32,
}

/// A leader pair; the later election is the smaller pair.
#[derive(Clone, Copy, PartialEq, Eq, PartialOrd, Ord)]
pub struct Pair {
    pub time: Reverse<u32>,
    pub leader: u32,
}

/// A height, ordered as its fields.
#[derive(Clone, Copy, PartialEq, Eq, PartialOrd, Ord)]
pub struct Height {
    pub level: Level,
    pub depth: i32,
    pub pair: Pair,
    pub station: u32,
}

impl Height {
    pub fn of(words: &HeightWords) -> Height {
        let [tau, originator, bit, depth, time, leader, station] = *words;
        Height {
            level: Level {
                tau,
                originator,
                bit,
            },
            depth: depth as i32,
            pair: Pair {
                time: Reverse(time),
                leader,
            },
            station,
        }
    }

    pub fn words(self) -> HeightWords {
        let (level, pair) = (self.level, self.pair);
        let depth = self.depth as u32;
        let (time, leader) = (pair.time.0, pair.leader);
        [
            level.tau,
            level.originator,
            level.bit,
            depth,
            time,
            leader,
            self.station,
        ]
    }

    /// The height after electing itself at the clock.
    pub fn elected(self, clock: u32) -> Height {
        Height::of(&[0, 0, 0, 0, clock, self.station, self.station])
    }

    /// The height after starting a level at the clock.
    pub fn started(self, clock: u32) -> Height {
        let level = Level {
            tau: clock,
            originator: self.station,
            bit: 0,
        };
        Height {
            level,
            depth: 0,
            ..self
        }
    }

    /// Every view has this leader pair and is greater, and this station is not its own leader.
    pub fn is_sink(self, mut views: impl Iterator<Item = Height>) -> bool {
        self.pair.leader != self.station && views.all(|view| view.pair == self.pair && view > self)
    }
}

/// The height for station k in a row.
pub fn height(row: &[u32], k: usize) -> Height {
    Height::of(&row[HEAD..].as_chunks().0[k])
}

pub fn height_mut(row: &mut [u32], k: usize) -> &mut HeightWords {
    &mut row[HEAD..].as_chunks_mut().0[k]
}
