//! Document 01, "What a station holds" and "Returned numbers" (1 and 2, and with document 02 18), over
//! the lent tables of words, laid out as `include/election.h` says.

use crate::plot::{Height, MOST_STATIONS, MOST_WAITING, Message, Plot, Station};
use crate::refusal::Refusal;
use crate::sound::check_places;
use crate::step::{Answer, Event};
use crate::times::check_times;
use std::collections::{BTreeMap, BTreeSet, VecDeque};

/// 01, 2.8: the numbers of a height.
pub const HEIGHT_WORDS: usize = 7;

/// 01, 2.27: a height and a stamp.
pub const MESSAGE_WORDS: usize = HEIGHT_WORDS + 1;

/// A count and 8 messages (01, 2.25).
pub const CELL_WORDS: usize = 1 + MOST_WAITING * MESSAGE_WORDS;

/// Words before the heights of a station: clock, N, F.
const SET_WORDS: usize = 3;

/// The lent tables of one plot.
#[derive(Clone, Debug, PartialEq, Eq)]
pub struct Tables {
    pub nodes: Vec<u32>,
    pub channels: Vec<u32>,
}

/// 01, 1.1: the number of stations.
pub fn is_station_count(n: i64) -> bool {
    (1..=MOST_STATIONS).contains(&n)
}

/// A number of things or a place in a list, for n and station numbers of a plot.
fn size(number: i64) -> usize {
    usize::try_from(number).unwrap_or(0)
}

/// A lent row of n heights, in words (01, 6.17).
pub fn row_len(n: i64) -> usize {
    size(n).saturating_mul(HEIGHT_WORDS)
}

/// Clock, N, F and the heights (01, 6.3), in words.
pub fn station_len(n: i64) -> usize {
    row_len(n).saturating_add(SET_WORDS)
}

/// The length of the table of stations for n (01, 5.3).
pub fn nodes_len(n: i64) -> usize {
    size(n).saturating_mul(station_len(n))
}

/// The length of the table of channels for n, with a cell also from each station to itself.
pub fn channels_len(n: i64) -> usize {
    let cells = size(n).saturating_mul(size(n));
    cells.saturating_mul(CELL_WORDS)
}

/// What station u holds: clock, N, F and its heights.
pub fn station_words(n: i64, nodes: &[u32], u: i64) -> &[u32] {
    let start = size(u - 1) * station_len(n);
    &nodes[start..start + station_len(n)]
}

/// The height that station u holds for station v; its own for v = u.
pub fn height_words(n: i64, nodes: &[u32], u: i64, v: i64) -> &[u32] {
    let start = SET_WORDS + size(v - 1) * HEIGHT_WORDS;
    &station_words(n, nodes, u)[start..start + HEIGHT_WORDS]
}

/// Channel u to v: its count and its eight places, oldest first.
pub fn cell_words(n: i64, channels: &[u32], u: i64, v: i64) -> &[u32] {
    let start = (size(u - 1) * size(n) + size(v - 1)) * CELL_WORDS;
    &channels[start..start + CELL_WORDS]
}

/// The bit of a station (01, 2.5).
fn bit_of(k: i64) -> u32 {
    let power = u32::try_from(k.saturating_sub(1)).ok();
    power.and_then(|p| 1u32.checked_shl(p)).unwrap_or(0)
}

/// Whether station k is in the set (01, 2.5).
pub fn is_in(set: u32, k: i64) -> bool {
    set & bit_of(k) != 0
}

/// The set as one word, by the same sentence.
pub fn set_word(set: &BTreeSet<i64>) -> u32 {
    set.iter().fold(0, |word, k| word | bit_of(*k))
}

/// The word of a number: its last 32 bits, so "two's complement" for a negative one.
fn word(number: i64) -> u32 {
    number as u32
}

/// A height from its seven words: the depth in two's complement, the election time as a positive
/// number.
pub fn height_of_words(words: &[u32]) -> Height {
    let depth = i64::from(words[3] as i32);
    let plain = |place: usize| i64::from(words[place]);
    Height::of([
        plain(0),
        plain(1),
        plain(2),
        depth,
        -plain(4),
        plain(5),
        plain(6),
    ])
}

/// The same seven numbers as words.
pub fn words_of_height(height: &Height) -> [u32; HEIGHT_WORDS] {
    [
        word(height.level.tau),
        word(height.level.originator),
        word(height.level.bit),
        word(height.depth),
        word(-height.pair.negated_time),
        word(height.pair.leader),
        word(height.station),
    ]
}

/// The checks 1 and 2 of a step and of writing (01, 5.18 and 6.23), and 18 behind them (02, [3]).
pub fn check(n: i64, nodes: &[u32], channels: &[u32]) -> Result<(), Refusal> {
    load(n, nodes, channels).map(|_| ())
}

/// 1: n, or the length of a lent table (01, 5.3).
pub fn check_sizes(n: i64, nodes: usize, channels: usize) -> Result<(), Refusal> {
    let good = is_station_count(n) && nodes == nodes_len(n) && channels == channels_len(n);
    good.then_some(()).ok_or(Refusal::Sizes)
}

/// The plot that the tables hold, after the checks 1, 2 and 18.
pub fn load(n: i64, nodes: &[u32], channels: &[u32]) -> Result<Plot, Refusal> {
    check_sizes(n, nodes.len(), channels.len())?;
    check_places(n, nodes, channels)?;
    let plot = plot_of_words(n, nodes, channels);
    check_times(&plot)?;
    Ok(plot)
}

/// The plot of tables that have passed 1 and 2.
fn plot_of_words(n: i64, nodes: &[u32], channels: &[u32]) -> Plot {
    let mut plot = Plot::fresh(n);
    for (u, station) in &mut plot.stations {
        *station = station_of_words(n, nodes, *u);
    }
    for ((u, v), waiting) in &mut plot.channels {
        *waiting = waiting_of_words(cell_words(n, channels, *u, *v));
    }
    plot
}

/// 01, 2.1, 2.2 and 2.6: clock, sets, own height and views.
fn station_of_words(n: i64, nodes: &[u32], u: i64) -> Station {
    let station = station_words(n, nodes, u);
    let view = |v: i64| height_of_words(height_words(n, nodes, u, v));
    let members = |set: u32| (1..=n).filter(move |k| is_in(set, *k));
    let linked: BTreeMap<i64, Height> = members(station[1]).map(|v| (v, view(v))).collect();
    Station {
        clock: i64::from(station[0]),
        linked,
        forming: members(station[2]).collect(),
        own: view(u),
    }
}

/// The messages of a cell, oldest first.
fn waiting_of_words(cell: &[u32]) -> VecDeque<Message> {
    let places = cell[1..].chunks(MESSAGE_WORDS);
    let message = |place: &[u32]| Message {
        height: height_of_words(place),
        stamp: i64::from(place[HEIGHT_WORDS]),
    };
    places.take(cell[0] as usize).map(message).collect()
}

/// The tables that hold a plot, with zeros in unused places (01, 2.29).
pub fn store(plot: &Plot) -> Tables {
    let mut nodes = Vec::with_capacity(nodes_len(plot.n));
    let mut channels = Vec::with_capacity(channels_len(plot.n));
    for u in 1..=plot.n {
        let station = plot.station(u);
        let linked: BTreeSet<i64> = station.linked.keys().copied().collect();
        nodes.push(word(station.clock));
        nodes.push(set_word(&linked));
        nodes.push(set_word(&station.forming));
        nodes.extend(store_row(plot, u));
        for v in 1..=plot.n {
            channels.extend(words_of_waiting(plot.channels.get(&(u, v))));
        }
    }
    Tables { nodes, channels }
}

/// The heights by station (01, 6.3): the own one at its own place, zeros for no view (2.7).
pub fn store_row(plot: &Plot, u: i64) -> Vec<u32> {
    let station = plot.station(u);
    let height = |v: i64| match station.linked.get(&v) {
        _ if v == u => words_of_height(&station.own),
        Some(view) => words_of_height(view),
        None => [0; HEIGHT_WORDS],
    };
    (1..=plot.n).flat_map(height).collect()
}

/// The cell of a channel; all zero where there is no channel, from a station to itself.
fn words_of_waiting(waiting: Option<&VecDeque<Message>>) -> Vec<u32> {
    let mut cell = Vec::with_capacity(CELL_WORDS);
    let messages = waiting.into_iter().flatten();
    cell.push(waiting.map_or(0, |list| list.len() as u32));
    for message in messages {
        cell.extend(words_of_height(&message.height));
        cell.push(word(message.stamp));
    }
    cell.resize(CELL_WORDS, 0);
    cell
}

/// 01, 5.18: the order of the checks, 18 between 2 and 3 (02, [3]). A refusal changes nothing lent
/// (5.2).
pub fn step(n: i64, event: Event, tables: &mut Tables) -> Answer {
    let mut plot = match load(n, &tables.nodes, &tables.channels) {
        Ok(plot) => plot,
        Err(refusal) => return Answer::refused(refusal),
    };
    let answer = crate::step::step(&mut plot, event);
    if answer.number == 0 {
        *tables = store(&plot);
    }
    answer
}
