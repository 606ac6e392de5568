//! The times of a plot (document 02, request [3]): each of the seven kinds, its limit, and where it stands in tables and image.

use crate::random::Random;
use reference::image;
use reference::plot::{Height, LAST_CLOCK, Level, NO_SEARCH, Plot, ordered_pairs};
use reference::tables::{self, CELL_WORDS, HEIGHT_WORDS, MESSAGE_WORDS, Tables};

/// The seven kinds of time.
#[derive(Clone, Copy, Debug, PartialEq, Eq)]
pub enum Kind {
    OwnSearch,
    OwnElection,
    ViewSearch,
    ViewElection,
    Stamp,
    SentSearch,
    SentElection,
}

pub const KINDS: [Kind; 7] = [
    Kind::OwnSearch,
    Kind::OwnElection,
    Kind::ViewSearch,
    Kind::ViewElection,
    Kind::Stamp,
    Kind::SentSearch,
    Kind::SentElection,
];

/// One time: its kind and its pair, and among messages which one's it is.
#[derive(Clone, Copy, Debug, PartialEq, Eq)]
pub struct Time {
    pub kind: Kind,
    pub u: i64,
    pub v: i64,
    message: usize,
}

/// The times of a kind that a plot has.
pub fn times_of(plot: &Plot, kind: Kind) -> Vec<Time> {
    let at = |u, v, message| Time {
        kind,
        u,
        v,
        message,
    };
    let stations = plot.stations.iter();
    match kind {
        Kind::OwnSearch | Kind::OwnElection => stations.map(|(&u, _)| at(u, u, 0)).collect(),
        Kind::ViewSearch | Kind::ViewElection => stations
            .flat_map(|(&u, station)| station.linked.keys().map(move |&v| (u, v)))
            .map(|(u, v)| at(u, v, 0))
            .collect(),
        _ => (plot.channels.iter())
            .flat_map(|(&pair, waiting)| (0..waiting.len()).map(move |k| (pair, k)))
            .map(|((u, v), message)| at(u, v, message))
            .collect(),
    }
}

impl Time {
    /// The last number that it may have.
    pub fn limit(self, plot: &Plot) -> i64 {
        match self.kind {
            Kind::SentSearch | Kind::SentElection => {
                plot.waiting(self.u, self.v)[self.message].stamp
            }
            _ => plot.station(self.u).clock,
        }
    }

    /// The number that it has.
    pub fn number(self, plot: &Plot) -> i64 {
        let height = match self.kind {
            Kind::Stamp => return plot.waiting(self.u, self.v)[self.message].stamp,
            Kind::OwnSearch | Kind::OwnElection => plot.station(self.u).own,
            Kind::ViewSearch | Kind::ViewElection => plot.station(self.u).linked[&self.v],
            Kind::SentSearch | Kind::SentElection => {
                plot.waiting(self.u, self.v)[self.message].height
            }
        };
        if self.is_search() {
            height.level.tau
        } else {
            -height.pair.negated_time
        }
    }

    pub fn is_search(self) -> bool {
        matches!(
            self.kind,
            Kind::OwnSearch | Kind::ViewSearch | Kind::SentSearch
        )
    }

    /// Gives it this number; a search gets an originator with its time, and none without.
    pub fn put(self, plot: &mut Plot, number: i64) {
        let Time { u, v, message, .. } = self;
        let station = plot.stations.get_mut(&u).expect("a station");
        let height: &mut Height = match self.kind {
            Kind::Stamp => {
                plot.waiting_mut(u, v)[message].stamp = number;
                return;
            }
            Kind::OwnSearch | Kind::OwnElection => &mut station.own,
            Kind::ViewSearch | Kind::ViewElection => station.linked.get_mut(&v).expect("a view"),
            Kind::SentSearch | Kind::SentElection => &mut plot.waiting_mut(u, v)[message].height,
        };
        if !self.is_search() {
            height.pair.negated_time = -number;
        } else if number == 0 {
            height.level = NO_SEARCH;
        } else {
            height.level = Level {
                tau: number,
                originator: height.level.originator.max(1),
                ..height.level
            };
        }
    }

    /// Its place in a height or a message: in words, and in bits of an image.
    fn offset(self) -> (usize, usize) {
        match self.kind {
            Kind::Stamp => (7, 96),
            _ if self.is_search() => (0, 0),
            _ => (4, 54),
        }
    }

    fn is_sent(self) -> bool {
        matches!(
            self.kind,
            Kind::Stamp | Kind::SentSearch | Kind::SentElection
        )
    }

    /// Its word in tables of n stations.
    pub fn word(self, n: i64, lent: &mut Tables) -> &mut u32 {
        let (u, v) = (self.u as usize - 1, self.v as usize - 1);
        let (offset, _) = self.offset();
        if self.is_sent() {
            let cell = (u * n as usize + v) * CELL_WORDS;
            &mut lent.channels[cell + 1 + self.message * MESSAGE_WORDS + offset]
        } else {
            let row = u * tables::station_len(n) + 3;
            &mut lent.nodes[row + v * HEIGHT_WORDS + offset]
        }
    }

    /// Its first bit in the image of a plot; it has 32.
    pub fn bit(self, plot: &Plot) -> usize {
        let (_, offset) = self.offset();
        if self.is_sent() {
            let mut before = ordered_pairs(plot.n);
            before.retain(|&pair| pair < (self.u, self.v));
            let waiting = |&(u, v): &(i64, i64)| 4 + 128 * plot.waiting(u, v).len();
            let cell: usize = before.iter().map(waiting).sum();
            let channels = image::place_of(plot.n, plot.n + 1) as usize;
            channels + cell + 4 + 128 * self.message + offset
        } else {
            let record = image::place_of(plot.n, self.u) as usize;
            record + 64 + 96 * (self.v as usize - 1) + offset
        }
    }
}

/// Moves some time of this kind, if the plot has one, to its limit.
pub fn put_at_limit(plot: &mut Plot, kind: Kind, random: &mut Random) -> Option<Time> {
    let time = random.pick_any(&times_of(plot, kind))?;
    time.put(plot, time.limit(plot));
    Some(time)
}

/// Moves some time of this kind one beyond its limit, if the plot has one whose limit is not the last clock.
pub fn put_beyond(plot: &mut Plot, kind: Kind, random: &mut Random) -> Option<Time> {
    let mut times = times_of(plot, kind);
    times.retain(|time| time.limit(plot) < LAST_CLOCK);
    let time = random.pick_any(&times)?;
    time.put(plot, time.limit(plot) + 1);
    Some(time)
}

/// The same for a kind chosen by the dice.
pub fn put_any_beyond(plot: &mut Plot, random: &mut Random) -> Option<Time> {
    let kind = random.pick(&KINDS);
    put_beyond(plot, kind, random)
}
