//! Document 01, "The clock" and "The three events (001, section 3.5)": one step of a sound plot. The
//! clock of an ignored message is that of request [5] of document 02.

pub use crate::event::{Answer, Event, Rule};
use crate::plot::{
    Height, LAST_CLOCK, LEAST_DEPTH, Level, MOST_DEPTH, MOST_WAITING, Message, Plot, Station,
};
use crate::refusal::Refusal;
use std::cmp::Ordering;
use std::collections::BTreeSet;

/// What an accepted event leaves: its station afterwards, and the answer.
struct Outcome {
    station: Station,
    answer: Answer,
}

/// 01, 5.18 from 3 on: the order of the checks. A refusal changes nothing lent (5.2).
pub fn step(plot: &mut Plot, event: Event) -> Answer {
    match decide(plot, event) {
        Ok(outcome) => carry_out(plot, event, outcome),
        Err(refusal) => Answer::refused(refusal),
    }
}

/// All checks in their order, and what the event leaves if none refuses.
fn decide(plot: &Plot, event: Event) -> Result<Outcome, Refusal> {
    check_numbers(plot.n, event)?;
    check_channel(plot, event)?;
    let station = plot.station(event.at()).clone();
    let outcome = match event {
        Event::Up { v, .. } => up(station, v)?,
        Event::Down { v, .. } => down(station, v)?,
        Event::Receipt { from, to } => receipt(station, from, plot.waiting(from, to)[0])?,
    };
    check_room(plot, event.at(), &outcome.answer.sent_to)?;
    Ok(outcome)
}

/// 3: no such station, or one named twice (01, 5.5).
fn check_numbers(n: i64, event: Event) -> Result<(), Refusal> {
    let (u, v) = event.stations();
    let good = (1..=n).contains(&u) && (1..=n).contains(&v) && u != v;
    good.then_some(()).ok_or(Refusal::Station)
}

/// 4, 5, 6: already up, already down, no message waits (01, 5.6 to 5.8).
fn check_channel(plot: &Plot, event: Event) -> Result<(), Refusal> {
    match event {
        Event::Up { u, v } if plot.is_up(u, v) => Err(Refusal::AlreadyUp),
        Event::Down { u, v } if !plot.is_up(u, v) => Err(Refusal::AlreadyDown),
        Event::Receipt { from, to } if plot.waiting(from, to).is_empty() => Err(Refusal::NoMessage),
        _ => Ok(()),
    }
}

/// 9: a full channel (01, 5.11).
fn check_room(plot: &Plot, u: i64, sent_to: &BTreeSet<i64>) -> Result<(), Refusal> {
    let full = sent_to
        .iter()
        .any(|w| plot.waiting(u, *w).len() >= MOST_WAITING);
    if full {
        Err(Refusal::ChannelFull)
    } else {
        Ok(())
    }
}

/// 01, 3.2, for every receipt (02, [5]): past clock and stamp; 7 at the clock's end (5.9).
fn clock_after(clock: i64, stamp: i64) -> Result<i64, Refusal> {
    let moved = clock.max(stamp) + 1;
    if moved > LAST_CLOCK {
        Err(Refusal::ClockEnd)
    } else {
        Ok(moved)
    }
}

/// 01, 3.1, for up and down: one step on.
fn clock_by_one(clock: i64) -> Result<i64, Refusal> {
    clock_after(clock, clock)
}

/// 8: the depth is at its end (01, 5.10).
fn depth_in_range(depth: i64) -> Result<i64, Refusal> {
    let good = (LEAST_DEPTH..=MOST_DEPTH).contains(&depth);
    good.then_some(depth).ok_or(Refusal::DepthEnd)
}

/// 01, 4.1 to 4.3: the sink test.
pub fn is_sink(station: &Station) -> bool {
    let own = &station.own;
    let views = || station.linked.values();
    views().all(|view| view.pair == own.pair)
        && views().all(|view| view > own)
        && !station.is_collector()
}

/// 01, 4.4: rule U.
fn up(mut station: Station, v: i64) -> Result<Outcome, Refusal> {
    station.clock = clock_by_one(station.clock)?;
    station.forming.insert(v);
    let answer = Answer::accepted(Rule::U, BTreeSet::from([v]));
    Ok(Outcome { station, answer })
}

/// 01, 4.6 to 4.10: a down gives E, S or Q.
fn down(mut station: Station, v: i64) -> Result<Outcome, Refusal> {
    station.clock = clock_by_one(station.clock)?;
    station.linked.remove(&v);
    station.forming.remove(&v);
    if station.linked.is_empty() {
        Ok(elect_itself(station))
    } else if is_sink(&station) {
        Ok(start_level(station))
    } else {
        Ok(keep_quiet(station, Rule::Q))
    }
}

/// 01, 4.12 and 4.13, then 4.14 to 4.21: the rule by the two pairs, v's against u's. The clock moves
/// before it is asked whether v is known (02, [5]).
fn receipt(mut station: Station, v: i64, message: Message) -> Result<Outcome, Refusal> {
    station.clock = clock_after(station.clock, message.stamp)?;
    if !station.knows(v) {
        return Ok(keep_quiet(station, Rule::I));
    }
    station.forming.remove(&v);
    station.linked.insert(v, message.height);
    match message.height.pair.cmp(&station.own.pair) {
        Ordering::Less => adopt(station, v, message.height),
        Ordering::Greater => Ok(answer_back(station, v)),
        Ordering::Equal if is_sink(&station) => sink_hears(station),
        Ordering::Equal => Ok(keep_quiet(station, Rule::Q)),
    }
}

/// 01, 4.15 to 4.19: one level in view: F, E or S; several: P.
fn sink_hears(station: Station) -> Result<Outcome, Refusal> {
    let views = station.linked.values();
    let levels: BTreeSet<Level> = views.map(|view| view.level).collect();
    let largest = *levels.last().expect("v has joined N");
    if levels.len() > 1 {
        propagate(station, largest)
    } else if largest.tau > 0 && largest.bit == 0 {
        Ok(reflect(station, largest))
    } else if largest.bit == 1 && largest.originator == station.own.station {
        Ok(elect_itself(station))
    } else {
        Ok(start_level(station))
    }
}

/// Rules Q and I: the height stays and nothing is sent.
fn keep_quiet(station: Station, rule: Rule) -> Outcome {
    let answer = Answer::accepted(rule, BTreeSet::new());
    Outcome { station, answer }
}

/// 01, 4.22: to N and F; on a down with N empty this is F (4.8).
fn take_height(mut station: Station, own: Height, rule: Rule) -> Outcome {
    station.own = own;
    let answer = Answer::accepted(rule, station.everyone());
    Outcome { station, answer }
}

/// 01, 4.7: elects itself, (0, 0, 0, 0, −T, u, u). Rule E.
fn elect_itself(station: Station) -> Outcome {
    let own = Height::of_collector(station.own.station, -station.clock);
    take_height(station, own, Rule::E)
}

/// 01, 4.9: (T, u, 0, 0, own pair, u). Rule S.
fn start_level(station: Station) -> Outcome {
    let level = Level {
        tau: station.clock,
        originator: station.own.station,
        bit: 0,
    };
    let own = Height {
        level,
        depth: 0,
        ..station.own
    };
    take_height(station, own, Rule::S)
}

/// 01, 4.16: reflects the level. Rule F.
fn reflect(station: Station, common: Level) -> Outcome {
    let own = Height {
        level: Level { bit: 1, ..common },
        depth: 0,
        ..station.own
    };
    take_height(station, own, Rule::F)
}

/// 01, 4.19: the largest level, below its lowest depth. Rule P, which carries the level (4.26).
fn propagate(station: Station, largest: Level) -> Result<Outcome, Refusal> {
    let views = station.linked.values();
    let depths = views.filter(|view| view.level == largest).map(|v| v.depth);
    let smallest = depths.min().expect("the largest level is some view's");
    let own = Height {
        level: largest,
        depth: depth_in_range(smallest - 1)?,
        ..station.own
    };
    let mut outcome = take_height(station, own, Rule::P);
    outcome.answer.level_taken = Some(largest);
    Ok(outcome)
}

/// 01, 4.20: adopts v's pair. Rule A, which carries v (4.26).
fn adopt(station: Station, v: i64, view: Height) -> Result<Outcome, Refusal> {
    let own = Height {
        depth: depth_in_range(view.depth + 1)?,
        station: station.own.station,
        ..view
    };
    let mut outcome = take_height(station, own, Rule::A);
    outcome.answer.adopted_from = Some(v);
    Ok(outcome)
}

/// 01, 4.21: the own height, to v alone. Rule R.
fn answer_back(station: Station, v: i64) -> Outcome {
    let answer = Answer::accepted(Rule::R, BTreeSet::from([v]));
    Outcome { station, answer }
}

/// 01, 4.5, 4.11 and 4.23: what leaves the channels, and the stamp of what enters them.
fn carry_out(plot: &mut Plot, event: Event, outcome: Outcome) -> Answer {
    match event {
        Event::Up { .. } => {}
        Event::Down { u, v } => plot.waiting_mut(u, v).clear(),
        Event::Receipt { from, to } => {
            plot.waiting_mut(from, to).pop_front();
        }
    }
    let Outcome { station, answer } = outcome;
    let message = Message {
        height: station.own,
        stamp: station.clock,
    };
    for w in &answer.sent_to {
        plot.waiting_mut(event.at(), *w).push_back(message);
    }
    plot.stations.insert(event.at(), station);
    answer
}
