//! Request [6] of document 02: every history of a small plot with a given number of events, each as
//! one bench input (READINGS.md, section 14).

use crate::plot::Plot;
use crate::refusal::Refusal;
use crate::step::{Event, step};
use crate::tables::is_station_count;
use std::cmp::Ordering;
use std::fmt::Write;

/// The most stations of a plot whose histories are listed.
pub const MOST_LISTED_STATIONS: u64 = 3;

/// The most events of a history that is listed.
pub const MOST_LISTED_EVENTS: u64 = 5;

/// What an accepted call tells of its text.
#[derive(Clone, Copy, Debug, PartialEq, Eq)]
pub struct Listed {
    pub bytes: usize,
    pub histories: usize,
}

/// A history and the plot that it makes of the fresh one.
struct Grown {
    events: Vec<Event>,
    plot: Plot,
}

/// All histories with `length` events of a plot of n stations, in their order. They are grown event by
/// event, and sorted at the end.
pub fn histories(n: i64, length: u64) -> Vec<Vec<Event>> {
    let mut grown = vec![Grown {
        events: Vec::new(),
        plot: Plot::fresh(n),
    }];
    for _ in 0..length {
        grown = grown.iter().flat_map(longer_by_one).collect();
    }
    let mut lists: Vec<Vec<Event>> = grown.into_iter().map(|grown| grown.events).collect();
    lists.sort_by(|a, b| dictionary(a, b));
    let mut neighbours = lists.windows(2);
    assert!(neighbours.all(|two| dictionary(&two[0], &two[1]) == Ordering::Less));
    lists
}

/// The history with each event behind it that is accepted there.
fn longer_by_one(grown: &Grown) -> Vec<Grown> {
    let tried = conceivable(grown.plot.n).into_iter();
    tried.filter_map(|event| accepted(grown, event)).collect()
}

/// The history with the event behind it, if it is accepted there (01, 7.6).
fn accepted(grown: &Grown, event: Event) -> Option<Grown> {
    let mut plot = grown.plot.clone();
    let answer = step(&mut plot, event);
    let events = [&grown.events[..], &[event]].concat();
    (answer.number == 0).then_some(Grown { events, plot })
}

/// Every event with numbers from 0 to n + 1, two of which are no station's, in an order that means
/// nothing.
fn conceivable(n: i64) -> Vec<Event> {
    let numbers = || (0..=n + 1).rev();
    let pairs = numbers().flat_map(|second| numbers().map(move |first| (first, second)));
    let of_pair = |(u, v)| {
        let receipt = Event::Receipt { from: u, to: v };
        [receipt, Event::Up { u, v }, Event::Down { u, v }]
    };
    pairs.flat_map(of_pair).collect()
}

/// The letter of the event's line (01, 8.3).
fn letter(event: &Event) -> char {
    match event {
        Event::Up { .. } => 'U',
        Event::Down { .. } => 'D',
        Event::Receipt { .. } => 'M',
    }
}

/// By the kind, U before D before M, then by the first and the second station of the line.
fn rank(event: &Event) -> (Option<usize>, i64, i64) {
    let (first, second) = event.stations();
    ("UDM".find(letter(event)), first, second)
}

/// Which history comes first is up to the first place at which their events differ.
fn dictionary(a: &[Event], b: &[Event]) -> Ordering {
    let ranks = |events: &[Event]| -> Vec<_> { events.iter().map(rank).collect() };
    ranks(a).cmp(&ranks(b))
}

/// A history as the bench reads it (01, 8.2 and 8.3), the last line with its newline too.
pub fn bench_input(n: i64, events: &[Event]) -> String {
    let mut text = format!("N {n}\n");
    for event in events {
        let (first, second) = event.stations();
        writeln!(text, "{} {first} {second}", letter(event)).expect("a string takes all");
    }
    text
}

/// The inputs of several histories, with nothing between them.
pub fn text(n: i64, histories: &[Vec<Event>]) -> String {
    let inputs = histories.iter().map(|events| bench_input(n, events));
    inputs.collect()
}

/// Writes the text of all histories at the front of the room, or refuses: 1, 19, 14.
pub fn list(n: u64, length: u64, out: &mut [u8]) -> Result<Listed, Refusal> {
    let n = small_plot(n, length)?;
    let histories = histories(n, length);
    let text = text(n, &histories);
    let front = out.get_mut(..text.len()).ok_or(Refusal::Room)?;
    front.copy_from_slice(text.as_bytes());
    Ok(Listed {
        bytes: text.len(),
        histories: histories.len(),
    })
}

/// The number of stations, after 1 (n is no plot's, whatever the length) and 19.
fn small_plot(n: u64, length: u64) -> Result<i64, Refusal> {
    let stations = i64::try_from(n).ok().filter(|n| is_station_count(*n));
    let stations = stations.ok_or(Refusal::Sizes)?;
    if n > MOST_LISTED_STATIONS || length > MOST_LISTED_EVENTS {
        return Err(Refusal::NotShort);
    }
    Ok(stations)
}
