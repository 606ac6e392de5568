//! Drawings and sketches in both: any tables into any room, any text into any tables, and whether links come through.

use crate::beside::{Beside, assert_same, expected_saved, junk_tables, number_of};
use crate::ffi;
use crate::planted;
use crate::random::Random;
use crate::tally::Tally;
use reference::drawing;
use reference::plot::ordered_pairs;
use reference::refusal::Refusal;
use reference::sketches;
use reference::tables::{self, Tables};
use std::collections::BTreeSet;

/// Two stations, the lower first.
type Link = (u32, u32);

fn link((a, b): (u32, u32)) -> Link {
    (a.min(b), a.max(b))
}

// ---- writing

/// A drawing of any tables into any room: the answer, the text, and the bytes behind it.
pub fn compare_draw(n: i64, lent: &Tables, room: usize, random: &mut Random, tally: &mut Tally) {
    let before = random.bytes(room);
    let mut expected = before.clone();
    let drawn = drawing::draw_into(n, &lent.nodes, &lent.channels, &mut expected);
    compare_drawn(n, lent, drawn, &before, &expected);
    tally.note(format!("draw {}", number_of(&drawn)));
}

/// The text that the reference draws of these tables, into a room that is too short by one, right, or longer: by turns.
pub fn compare_text(n: i64, lent: &Tables, text: &[u8], turn: u64, tally: &mut Tally) {
    let room = match turn % 4 {
        0 => text.len() - 1,
        1 => text.len(),
        2 => text.len() + 1,
        _ => drawing::longest(n as u32) + 3,
    };
    compare_room(n, lent, text, room, tally);
}

/// The same with any room.
fn compare_room(n: i64, lent: &Tables, text: &[u8], room: usize, tally: &mut Tally) {
    let before = vec![0xa5; room];
    let mut expected = before.clone();
    let drawn = if text.len() <= room {
        expected[..text.len()].copy_from_slice(text);
        Ok(text.len())
    } else {
        Err(Refusal::Room)
    };
    compare_drawn(n, lent, drawn, &before, &expected);
    tally.note(format!("draw {}", number_of(&drawn)));
}

/// The answer that is due, and the bytes that are due of those before.
fn compare_drawn(
    n: i64,
    lent: &Tables,
    due: Result<usize, Refusal>,
    before: &[u8],
    expected: &[u8],
) {
    let mut out = before.to_vec();
    let answer = ffi::draw(n as u32, &lent.nodes, &lent.channels, &mut out);
    assert_eq!(answer, expected_saved(due), "draw, room {}", before.len());
    assert!(out == expected, "bytes of a drawing");
    assert!(answer.size as usize <= ffi::drawing_len(n as u32));
}

/// What the library draws of sound tables.
fn drawn(n: i64, lent: &Tables) -> Vec<u8> {
    let mut out = vec![0; ffi::drawing_len(n as u32)];
    let answer = ffi::draw(n as u32, &lent.nodes, &lent.channels, &mut out);
    assert_eq!(answer.number, 0, "sound tables, and the room that is said");
    out.truncate(answer.size as usize);
    out
}

/// The two numbers of each line with an arrow.
fn arrows_in(text: &[u8]) -> Vec<(u32, u32)> {
    let text = std::str::from_utf8(text).expect("letters");
    let ends = text.lines().filter_map(|line| line.split_once(" -> "));
    let number = |word: &str| word.trim_matches([' ', ';']).parse().expect("a number");
    ends.map(|(a, b)| (number(a), number(b))).collect()
}

/// Whether channel u to v is up, by the words.
fn is_up(n: i64, lent: &Tables, u: i64, v: i64) -> bool {
    let row = tables::station_words(n, &lent.nodes, u);
    tables::is_in(row[1] | row[2], v)
}

/// The links by the words: up both ways.
fn links_of(n: i64, lent: &Tables) -> BTreeSet<Link> {
    let pairs = ordered_pairs(n).into_iter();
    let both = pairs.filter(|&(u, v)| is_up(n, lent, u, v) && is_up(n, lent, v, u));
    both.map(|(u, v)| link((u as u32, v as u32))).collect()
}

/// The library's drawing names the links of these tables, each once, and no others.
pub fn compare_links(n: i64, lent: &Tables, tally: &mut Tally) -> Vec<u8> {
    let text = drawn(n, lent);
    let arrows = arrows_in(&text);
    let named: BTreeSet<Link> = arrows.iter().copied().map(link).collect();
    assert_eq!(named.len(), arrows.len(), "a link drawn twice");
    assert_eq!(named, links_of(n, lent), "the links of a drawing");
    for (a, b) in arrows {
        let way = if a < b { "to a higher" } else { "to a lower" };
        tally.note(format!("drawn: an arrow {way} number"));
    }
    let one_way = |(u, v)| is_up(n, lent, u, v) && !is_up(n, lent, v, u);
    if ordered_pairs(n).into_iter().any(one_way) {
        tally.note("drawn: a channel one way");
    }
    text
}

/// Rooms from none to more than the drawing; some of them for tables with a time beyond its clock too.
pub fn drawn_rooms(seed: u64, tally: &mut Tally) {
    let mut random = Random::new(seed);
    let n = random.between(1, 16);
    let beside = Beside::planted(planted::sound_plot(n, &mut random));
    let text = drawing::draw(&beside.plot);
    let near = text.len() - 9..=text.len() + 9;
    let any = [random.below(text.len()), random.below(text.len())];
    for room in (0..=24).chain(near).chain(any) {
        compare_room(n, &beside.tables, &text, room, tally);
    }
    compare_draw(n, &beside.tables, text.len(), &mut random, tally);
    compare_links(n, &beside.tables, tally);
    let untimely = tables::store(&planted::untimely_plot(n, &mut random));
    for room in [0, 21, text.len(), drawing::longest(n as u32)] {
        compare_draw(n, &untimely, room, &mut random, tally);
    }
}

// ---- reading

/// A text read into any tables: the answer, every word, and how many stations the text has.
pub fn compare_read(text: &[u8], lent: &Tables, tally: &mut Tally) -> (i64, Tables) {
    let (mut expected, mut read) = (lent.clone(), lent.clone());
    let number = drawing::read_into(text, &mut expected.nodes, &mut expected.channels);
    let answer = ffi::read_sketch(text, &mut read.nodes, &mut read.channels);
    let due = ffi::Checked {
        number: number as u32,
        fault_at: 0,
        fault_with: 0,
    };
    assert_eq!(answer, due, "read {:?}", String::from_utf8_lossy(text));
    assert_same(&expected, &read);
    let stations = ffi::sketch_stations(text);
    assert_eq!(stations, drawing::stations(text), "stations of a sketch");
    tally.note(format!("sketch {number}"));
    (number, read)
}

/// A text read into tables of its own lengths that held anything, and into tables of other lengths; if it is accepted, what it names is what
/// is up, and what is drawn. Its number over tables of its own lengths.
pub fn compare_sketch(text: &[u8], random: &mut Random, tally: &mut Tally) -> i64 {
    let stations = i64::from(drawing::stations(text));
    let n = if stations == 0 {
        random.between(1, 16)
    } else {
        stations
    };
    let lent = junk_tables(n, random);
    let (number, read) = compare_read(text, &lent, tally);
    for other in other_lengths(n, &lent, random) {
        let (wrong, _) = compare_read(text, &other, tally);
        assert_eq!(wrong, if stations == 0 { 16 } else { 1 });
        tally.note(format!("sketch {wrong} before {number}"));
    }
    if number == 0 {
        compare_named(text, &read, tally);
    }
    number
}

/// Tables of which one, or both, are not of the lengths for n.
fn other_lengths(n: i64, lent: &Tables, random: &mut Random) -> [Tables; 3] {
    let mut others = [lent.clone(), lent.clone(), lent.clone()];
    let longer = random.chance(50);
    let change = |words: &mut Vec<u32>| {
        if longer {
            words.push(0);
        } else {
            words.pop();
        }
    };
    change(&mut others[0].nodes);
    change(&mut others[1].channels);
    let m = if n == 16 { 15 } else { n + 1 };
    others[2].nodes.resize(tables::nodes_len(m), 0);
    others[2].channels.resize(tables::channels_len(m), 0);
    others
}

/// The links of an accepted sketch are up both ways, nothing else is up, and the drawing names them.
fn compare_named(text: &[u8], read: &Tables, tally: &mut Tally) {
    let (n, links) = drawing::parse(text).expect("a sketch that was accepted");
    let n = i64::from(n);
    let named: BTreeSet<Link> = links.into_iter().map(link).collect();
    for (u, v) in ordered_pairs(n) {
        let due = named.contains(&link((u as u32, v as u32)));
        assert_eq!(is_up(n, read, u, v), due, "channel {u} to {v}");
    }
    assert_eq!(links_of(n, read), named);
    compare_text(n, read, &compare_links(n, read, tally), 3, tally);
    tally.note(match named.len() {
        0 => "read: no link",
        1..=9 => "read: up to 9 links",
        _ => "read: more links",
    });
}

/// How many texts a round throws.
const THROWN: usize = 50;

/// Good texts, texts with bad links, and damaged ones.
pub fn thrown_sketches(seed: u64, tally: &mut Tally) {
    let mut random = Random::new(seed);
    let corners = sketches::corners().len();
    let texts = sketches::texts(random.any(), corners + THROWN);
    for text in &texts[corners..] {
        compare_sketch(text, &mut random, tally);
    }
}

/// The texts at the edges of the form, each with the number worked for it.
pub fn every_corner(tally: &mut Tally) {
    let mut random = Random::new(1);
    for (due, text) in sketches::corners() {
        let number = compare_sketch(&text, &mut random, tally);
        assert_eq!(number, due, "{:?}", String::from_utf8_lossy(&text));
    }
}

/// Good sketches with any one byte in the place of another, put in, or taken out.
pub fn every_byte(tally: &mut Tally) {
    let mut random = Random::new(2);
    for sketch in [
        sketches::written(2, &[(2, 1)]),
        sketches::written(10, &[(9, 10)]),
    ] {
        assert_eq!(compare_sketch(&sketch, &mut random, tally), 0);
        for at in 0..=sketch.len() {
            for byte in 0..=255 {
                let (before, after) = sketch.split_at(at);
                let put_in = [before, &[byte], after].concat();
                let replaced = [before, &[byte], after.get(1..).unwrap_or(&[])].concat();
                compare_damaged(&put_in, &mut random, tally);
                compare_damaged(&replaced, &mut random, tally);
            }
            let mut without = sketch.clone();
            without.truncate(at);
            compare_damaged(&without, &mut random, tally);
            without.extend(sketch.get(at + 1..).unwrap_or(&[]));
            compare_damaged(&without, &mut random, tally);
        }
    }
}

/// A text near a sketch, over one kind of tables.
fn compare_damaged(text: &[u8], random: &mut Random, tally: &mut Tally) {
    let n = i64::from(drawing::stations(text).max(1));
    let (number, read) = compare_read(text, &junk_tables(n, random), tally);
    if number == 0 {
        compare_named(text, &read, tally);
    }
}

// ---- there and back

/// The drawing of any plot, with lines for arrows, is a sketch. It is read into a plot with the links of the first; its drawing has them too.
pub fn there_and_back(seed: u64, tally: &mut Tally) {
    let mut random = Random::new(seed);
    let n = random.between(1, 16);
    let lent = Beside::planted(planted::sound_plot(n, &mut random)).tables;
    let text = compare_links(n, &lent, tally);
    let (number, _) = compare_read(&text, &lent, tally);
    assert_eq!(number, 16, "a drawing is no sketch");
    let letters = String::from_utf8(text).expect("letters");
    let sketch = letters.replace("digraph", "graph").replace("->", "--");
    let (number, back) = compare_read(sketch.as_bytes(), &lent, tally);
    assert_eq!(number, 0, "a drawing without arrows is a sketch");
    assert_eq!(links_of(n, &back), links_of(n, &lent), "links back");
    compare_named(sketch.as_bytes(), &back, tally);
}
