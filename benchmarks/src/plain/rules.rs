//! The rules: what an event decides, from one row and a height heard.

use super::heights::{height, Height, Level};
use super::refusals::{Refusal, DEPTH_END};
use super::sets::{members, only};
use crate::abi::Answer;
use std::cmp::Ordering;

/// What an accepted event decides: the rule, the height after it and whom to send it to.
pub struct Decision {
    rule: u8,
    pub own: Height,
    pub sent_to: u32,
    adopted_from: u32,
    level: Option<Level>,
}

impl Decision {
    pub fn of(rule: u8, own: Height, sent_to: u32) -> Decision {
        Decision {
            rule,
            own,
            sent_to,
            adopted_from: 0,
            level: None,
        }
    }

    pub fn answer(&self) -> Answer {
        let level = self.level;
        Answer {
            number: 0,
            fault_at: 0,
            fault_with: 0,
            rule: u32::from(self.rule),
            sent_to: self.sent_to,
            sent: self.sent_to.count_ones(),
            adopted_from: self.adopted_from,
            level_tau: level.map_or(0, |level| level.tau),
            level_originator: level.map_or(0, |level| level.originator),
            level_bit: level.map_or(0, |level| level.bit),
        }
    }
}

/// Rule E, S or Q after a channel of u went down.
pub fn after_down(row: &[u32], u: usize, clock: u32, linked: u32, forming: u32) -> Decision {
    let own = height(row, u);
    if linked == 0 {
        Decision::of(b'E', own.elected(clock), forming)
    } else if own.is_sink(members(linked).map(|k| height(row, k))) {
        Decision::of(b'S', own.started(clock), linked | forming)
    } else {
        Decision::of(b'Q', own, 0)
    }
}

/// The rule for a height heard from v, with the sets and the view after it.
pub fn hear(
    row: &[u32],
    u: usize,
    v: usize,
    clock: u32,
    linked: u32,
    forming: u32,
    theirs: Height,
) -> Result<Decision, Refusal> {
    let own = height(row, u);
    let everyone = linked | forming;
    match theirs.pair.cmp(&own.pair) {
        Ordering::Less => adopt(own, v, theirs, everyone),
        Ordering::Greater => Ok(Decision::of(b'R', own, only(v))),
        Ordering::Equal => {
            let views = members(linked).map(|k| if k == v { theirs } else { height(row, k) });
            if own.is_sink(views.clone()) {
                at_a_sink(own, clock, views, everyone)
            } else {
                Ok(Decision::of(b'Q', own, 0))
            }
        }
    }
}

/// Rule A.
fn adopt(own: Height, v: usize, theirs: Height, everyone: u32) -> Result<Decision, Refusal> {
    let station = own.station;
    let depth = in_range(theirs.depth + 1)?;
    let own = Height {
        depth,
        station,
        ..theirs
    };
    let mut done = Decision::of(b'A', own, everyone);
    done.adopted_from = v as u32 + 1;
    Ok(done)
}

/// Rule F, E, S or P at a sink.
fn at_a_sink(
    own: Height,
    clock: u32,
    views: impl Iterator<Item = Height> + Clone,
    everyone: u32,
) -> Result<Decision, Refusal> {
    let levels = views.clone().map(|view| view.level);
    let largest = levels.clone().max().unwrap_or(own.level);
    if levels.clone().all(|level| level == largest) {
        Ok(on_one_level(own, clock, largest, everyone))
    } else {
        take_the_largest(own, largest, views, everyone)
    }
}

/// Rule F, E or S: all views have one level.
fn on_one_level(own: Height, clock: u32, level: Level, everyone: u32) -> Decision {
    if level.tau > 0 && level.bit == 0 {
        let level = Level { bit: 1, ..level };
        let reflected = Height {
            level,
            depth: 0,
            ..own
        };
        Decision::of(b'F', reflected, everyone)
    } else if level.bit == 1 && level.originator == own.station {
        Decision::of(b'E', own.elected(clock), everyone)
    } else {
        Decision::of(b'S', own.started(clock), everyone)
    }
}

/// Rule P: levels differ.
fn take_the_largest(
    own: Height,
    level: Level,
    views: impl Iterator<Item = Height>,
    everyone: u32,
) -> Result<Decision, Refusal> {
    let depths = views
        .filter(|view| view.level == level)
        .map(|view| view.depth);
    let depth = in_range(depths.min().unwrap_or(0) - 1)?;
    let own = Height {
        level,
        depth,
        ..own
    };
    let mut done = Decision::of(b'P', own, everyone);
    done.level = Some(level);
    Ok(done)
}

/// A depth in range, or refusal 8.
fn in_range(depth: i32) -> Result<i32, Refusal> {
    i16::try_from(depth).map_err(|_| DEPTH_END)?;
    Ok(depth)
}
