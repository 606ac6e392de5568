//! Random histories in both: channels go up and down at one end only, messages are received in any order of channels.

mod resumes;

use crate::beside::{Beside, compare_step};
use crate::events::{any_event, likely_pairs, of_those, planted_event, receipt, waiting_pairs};
use crate::planted;
use crate::random::Random;
use crate::tally::Tally;
use reference::plot::ordered_pairs;
use reference::step::Event;
use reference::tables;
use resumes::Kept;

/// What a history does next.
#[derive(Clone, Copy)]
enum Move {
    Receipt,
    Up,
    Down,
    Link,
    Unlink,
    Settle,
    Wrong,
    Save,
    Resume,
    BadResume,
    ThereAndBack,
}

const MOVES: [Move; 11] = [
    Move::Receipt,
    Move::Up,
    Move::Down,
    Move::Link,
    Move::Unlink,
    Move::Settle,
    Move::Wrong,
    Move::Save,
    Move::Resume,
    Move::BadResume,
    Move::ThereAndBack,
];

/// How likely each move is: histories with many and with few receipts, with many breaks, and with channels that fill up.
const WEIGHTS: [[usize; 11]; 5] = [
    [60, 6, 3, 8, 3, 3, 2, 1, 1, 1, 1],
    [20, 20, 10, 10, 3, 1, 5, 1, 1, 1, 1],
    [40, 3, 2, 6, 6, 8, 2, 2, 2, 1, 2],
    [150, 20, 15, 10, 5, 1, 2, 1, 1, 1, 1],
    [10, 45, 35, 5, 0, 0, 2, 1, 1, 1, 1],
];

/// A history under way.
struct Run {
    beside: Beside,
    random: Random,
    pairs: Vec<(i64, i64)>,
    weights: [usize; 11],
    kept: Vec<Kept>,
    left: i64,
}

/// One history from the fresh plot of any n. Demand 3 is checked whenever the network is quiet, clocks at every event, and at the end
/// the channels are those that the history tells.
pub fn fresh_history(seed: u64, tally: &mut Tally) {
    let mut random = Random::new(seed);
    let n = random.between(1, 16);
    let beside = Beside::fresh(n, &mut random);
    let mut run = Run {
        beside,
        pairs: likely_pairs(n, &mut random),
        weights: random.pick(&WEIGHTS),
        kept: Vec::new(),
        left: random.between(20, 600),
        random,
    };
    while run.left > 0 {
        run.one_move(tally);
    }
    run.mend(tally);
    run.deliver(2000, tally);
    run.assert_history_agrees();
    run.beside.watch.check(tally);
}

/// One short history from a planted plot: no demand 3, but the ends of clocks, depths and channels. A few have a time beyond its clock.
pub fn planted_history(seed: u64, tally: &mut Tally) {
    let mut random = Random::new(seed);
    let n = random.between(1, 16);
    if random.chance(4) {
        return untimely_events(n, &mut random, tally);
    }
    tally.note("planted: timely");
    let plot = planted::sound_plot(n, &mut random);
    let mut beside = Beside::planted(plot);
    beside.assert_same_tables();
    for _ in 0..30 {
        let event = planted_event(&beside.plot, &mut random);
        beside.step(event, tally);
    }
    let image = beside.save(&mut random, tally);
    beside.resume(&image, tally);
}

/// Events on a plot with a time beyond its clock, each refused.
fn untimely_events(n: i64, random: &mut Random, tally: &mut Tally) {
    tally.note("planted: untimely");
    let plot = planted::untimely_plot(n, random);
    let lent = tables::store(&plot);
    for _ in 0..30 {
        compare_step(n, planted_event(&plot, random), &lent, tally);
    }
}

impl Run {
    fn one_move(&mut self, tally: &mut Tally) {
        match MOVES[self.random.weighted(&self.weights)] {
            Move::Receipt => self.receive(tally),
            Move::Up => self.up(tally),
            Move::Down => self.down(tally),
            Move::Link => self.link(tally),
            Move::Unlink => self.unlink(tally),
            Move::Settle => self.settle(tally),
            Move::Wrong => self.wrong(tally),
            Move::Save => self.save(tally),
            Move::Resume => self.resume(tally),
            Move::BadResume => self.bad_resume(tally),
            Move::ThereAndBack => self.there_and_back(tally),
        }
        self.left -= 1;
    }

    /// An event in both, and demand 3 if the network is now quiet.
    fn step(&mut self, event: Event, tally: &mut Tally) {
        self.left -= 1;
        self.beside.step(event, tally);
        self.beside.check_quiet(tally);
    }

    fn receive(&mut self, tally: &mut Tally) {
        let waiting = waiting_pairs(&self.beside.plot);
        match self.random.pick_any(&waiting) {
            Some(pair) => self.step(receipt(pair), tally),
            None => self.up(tally),
        }
    }

    /// A pair that this history mostly links, in either order; rarely any other.
    fn likely_pair(&mut self) -> Option<(i64, i64)> {
        let pairs = if self.random.chance(5) {
            ordered_pairs(self.beside.n())
        } else {
            self.pairs.clone()
        };
        let (u, v) = self.random.pick_any(&pairs)?;
        Some(if self.random.chance(50) {
            (u, v)
        } else {
            (v, u)
        })
    }

    /// One end goes up, mostly of a channel that is down.
    fn up(&mut self, tally: &mut Tally) {
        let Some((u, v)) = self.likely_pair() else {
            return;
        };
        if !self.beside.plot.is_up(u, v) || self.random.chance(15) {
            self.step(Event::Up { u, v }, tally);
        }
    }

    /// One end goes down, mostly of a channel that is up.
    fn down(&mut self, tally: &mut Tally) {
        let pairs = ordered_pairs(self.beside.n());
        let up = of_those(&pairs, |u, v| self.beside.plot.is_up(u, v));
        let pair = if self.random.chance(90) {
            self.random.pick_any(&up)
        } else {
            self.random.pick_any(&pairs)
        };
        if let Some((u, v)) = pair {
            self.step(Event::Down { u, v }, tally);
        }
    }

    /// Both ends of a pair are up.
    fn link(&mut self, tally: &mut Tally) {
        if let Some((u, v)) = self.likely_pair() {
            self.put_end(u, v, true, tally);
            self.put_end(v, u, true, tally);
        }
    }

    /// Both ends of a pair are down.
    fn unlink(&mut self, tally: &mut Tally) {
        if let Some((u, v)) = self.likely_pair() {
            self.put_end(u, v, false, tally);
            self.put_end(v, u, false, tally);
        }
    }

    /// Channel u to v is up, or down, afterwards.
    fn put_end(&mut self, u: i64, v: i64, up: bool, tally: &mut Tally) {
        if self.beside.plot.is_up(u, v) != up {
            let event = if up {
                Event::Up { u, v }
            } else {
                Event::Down { u, v }
            };
            self.step(event, tally);
        }
    }

    /// Mends what is up at one end only and delivers messages, if may be to quiet.
    fn settle(&mut self, tally: &mut Tally) {
        if self.random.chance(80) {
            self.mend(tally);
        }
        self.deliver(400, tally);
    }

    /// Each channel is up exactly when the one back is, as long as no send is refused.
    fn mend(&mut self, tally: &mut Tally) {
        for (u, v) in ordered_pairs(self.beside.n()) {
            if self.beside.plot.is_up(u, v) != self.beside.plot.is_up(v, u) {
                let up = self.random.chance(60);
                self.put_end(u, v, up, tally);
                self.put_end(v, u, up, tally);
            }
        }
    }

    /// Receives messages until none waits, or this many were tried.
    fn deliver(&mut self, most: i64, tally: &mut Tally) {
        for _ in 0..most {
            let waiting = waiting_pairs(&self.beside.plot);
            let Some(pair) = self.random.pick_any(&waiting) else {
                return;
            };
            self.step(receipt(pair), tally);
        }
    }

    fn wrong(&mut self, tally: &mut Tally) {
        let event = any_event(self.beside.n(), &mut self.random);
        self.step(event, tally);
    }

    fn assert_history_agrees(&self) {
        let agrees = self.beside.history.agrees(&self.beside.plot);
        assert_eq!(agrees, Ok(()));
        self.beside.watch.assert_waiting(self.beside.lent());
    }
}
