//! Request [2] of document 02: a plot written as a drawing, and a plot built from a sketch. What a
//! sketch is stands in `sketch`.

use crate::plot::{Plot, ordered_pairs};
use crate::refusal::Refusal;
pub use crate::sketch::{parse, stations};
use crate::step::{Event, step};
use crate::tables::{check_sizes, is_station_count, load, store};
use std::collections::BTreeSet;
use std::fmt::Write;

/// The drawing of a sound plot: every station, then every link.
pub fn draw(plot: &Plot) -> Vec<u8> {
    let mut text = String::from("digraph plot {\n");
    for k in 1..=plot.n {
        writeln!(text, "  {k};").expect("a string takes all");
    }
    for (a, b) in arrows(plot) {
        writeln!(text, "  {a} -> {b};").expect("a string takes all");
    }
    text.push_str("}\n");
    text.into_bytes()
}

/// The links (01, 2.22), each from the end of greater own height, by that end and then by the other.
fn arrows(plot: &Plot) -> Vec<(i64, i64)> {
    let own = |k: i64| plot.station(k).own;
    let pairs = ordered_pairs(plot.n).into_iter();
    pairs
        .filter(|(a, b)| plot.are_linked(*a, *b) && own(*a) > own(*b))
        .collect()
}

/// Writes the drawing at the front of the room and tells its length, or refuses: 1, 2, 18, 14.
pub fn draw_into(
    n: i64,
    nodes: &[u32],
    channels: &[u32],
    room: &mut [u8],
) -> Result<usize, Refusal> {
    let text = draw(&load(n, nodes, channels)?);
    let front = room.get_mut(..text.len()).ok_or(Refusal::Room)?;
    front.copy_from_slice(&text);
    Ok(text.len())
}

/// The bytes of the longest drawing of n stations, that with a link for every two of them; 0 for an n
/// that no plot has.
pub fn longest(n: u32) -> usize {
    if !is_station_count(i64::from(n)) {
        return 0;
    }
    let digits = |k: u32| k.to_string().len();
    let mut bytes = "digraph plot {\n}\n".len();
    for a in 1..=n {
        bytes += "  ;\n".len() + digits(a);
        for b in a + 1..=n {
            bytes += "   -> ;\n".len() + digits(a) + digits(b);
        }
    }
    bytes
}

/// The plot that a sketch builds, or the refusal: 16, 1 by the lengths of the lent tables, 17.
pub fn read(text: &[u8], nodes_len: usize, channels_len: usize) -> Result<Plot, Refusal> {
    let (n, links) = parse(text).ok_or(Refusal::SketchForm)?;
    check_sizes(i64::from(n), nodes_len, channels_len)?;
    check_links(n, &links)?;
    Ok(built(n, &links))
}

/// 17: an end that is no station, both ends one station, or a link named before, either way round.
fn check_links(n: u32, links: &[(u32, u32)]) -> Result<(), Refusal> {
    let mut named: BTreeSet<BTreeSet<u32>> = BTreeSet::new();
    for (a, b) in links {
        let ends = BTreeSet::from([*a, *b]);
        let stations = ends.iter().all(|k| (1..=n).contains(k));
        if !stations || ends.len() != 2 || !named.insert(ends) {
            return Err(Refusal::SketchLink);
        }
    }
    Ok(())
}

/// The fresh plot, and then both ups of each link. None of them is refused: every channel is brought up
/// once.
fn built(n: u32, links: &[(u32, u32)]) -> Plot {
    let mut plot = Plot::fresh(i64::from(n));
    for (a, b) in links {
        let (a, b) = (i64::from(*a), i64::from(*b));
        for event in [Event::Up { u: a, v: b }, Event::Up { u: b, v: a }] {
            assert_eq!(step(&mut plot, event).number, 0, "{event:?}");
        }
    }
    plot
}

/// Reads a sketch into the lent tables, whatever they held: 0, or the number of the refusal, which
/// leaves them as they were.
pub fn read_into(text: &[u8], nodes: &mut [u32], channels: &mut [u32]) -> i64 {
    match read(text, nodes.len(), channels.len()) {
        Ok(plot) => {
            let tables = store(&plot);
            nodes.copy_from_slice(&tables.nodes);
            channels.copy_from_slice(&tables.channels);
            0
        }
        Err(refusal) => refusal.number(),
    }
}
