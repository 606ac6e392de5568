//! Ways to damage tables.

use super::likely_word;
use crate::random::Random;
use reference::tables::{self, CELL_WORDS, HEIGHT_WORDS, MESSAGE_WORDS, Tables};

/// One damage to tables of n stations. Some leave them sound.
pub fn damage_tables(n: i64, lent: &mut Tables, random: &mut Random) {
    match random.below(12) {
        0 => flip_bit(&mut lent.nodes, random),
        1 => flip_bit(&mut lent.channels, random),
        2 => put_anywhere(&mut lent.nodes, n, random),
        3 => put_anywhere(&mut lent.channels, n, random),
        4 => change_count(n, lent, random),
        5 => use_unused_place(n, lent, random),
        6 => use_diagonal(n, lent, random),
        7 => change_set(n, lent, random),
        8 => swap_heights(n, lent, random),
        _ => change_height(n, lent, random),
    }
}

fn flip_bit(words: &mut [u32], random: &mut Random) {
    let at = random.below(words.len());
    words[at] ^= 1 << random.below(32);
}

fn put_anywhere(words: &mut [u32], n: i64, random: &mut Random) {
    let at = random.below(words.len());
    words[at] = likely_word(words[at], n, random);
}

/// The first word of a random cell.
fn any_cell(n: i64, random: &mut Random) -> usize {
    random.below((n * n) as usize) * CELL_WORDS
}

fn change_count(n: i64, lent: &mut Tables, random: &mut Random) {
    let cell = any_cell(n, random);
    lent.channels[cell] = random.between(0, 12) as u32;
}

/// A word behind the messages of a channel, mostly in the first unused place.
fn use_unused_place(n: i64, lent: &mut Tables, random: &mut Random) {
    let cell = any_cell(n, random);
    let first = 1 + lent.channels[cell].min(7) as usize * MESSAGE_WORDS;
    let at = if random.chance(70) {
        first + random.below(MESSAGE_WORDS)
    } else {
        random.between(first as i64, CELL_WORDS as i64 - 1) as usize
    };
    lent.channels[cell + at] = 1 << random.below(32);
}

fn use_diagonal(n: i64, lent: &mut Tables, random: &mut Random) {
    let cell = random.below(n as usize) * (n as usize + 1) * CELL_WORDS;
    let any = random.below(CELL_WORDS);
    let at = random.pick(&[0, 1, 7, 8, 64, any]);
    lent.channels[cell + at] = 1 << random.below(32);
}

/// One bit of N or F, mostly near n.
fn change_set(n: i64, lent: &mut Tables, random: &mut Random) {
    let station = random.below(n as usize) * tables::station_len(n);
    let bit = if random.chance(70) {
        random.between(0, n)
    } else {
        random.between(0, 31)
    };
    lent.nodes[station + random.pick(&[1, 2])] ^= 1 << bit;
}

/// The first word of a random height in the tables: in a station's row or among waiting messages.
fn any_height(n: i64, lent: &Tables, random: &mut Random) -> (bool, usize) {
    let station = random.below(n as usize);
    let row = station * tables::station_len(n) + 3;
    let held = row + random.below(n as usize) * HEIGHT_WORDS;
    let own = row + station * HEIGHT_WORDS;
    let cell = any_cell(n, random);
    let count = lent.channels[cell].min(8) as usize;
    match random.below(3) {
        0 if count > 0 => (false, cell + 1 + random.below(count) * MESSAGE_WORDS),
        1 => (true, own),
        _ => (true, held),
    }
}

/// The table in which a height stands.
fn table_of(lent: &mut Tables, in_nodes: bool) -> &mut Vec<u32> {
    if in_nodes {
        &mut lent.nodes
    } else {
        &mut lent.channels
    }
}

/// One word of a height becomes a likely one.
fn change_height(n: i64, lent: &mut Tables, random: &mut Random) {
    let (in_nodes, start) = any_height(n, lent, random);
    let at = start + random.below(HEIGHT_WORDS);
    let words = table_of(lent, in_nodes);
    words[at] = likely_word(words[at], n, random);
}

/// A height is copied over another.
fn swap_heights(n: i64, lent: &mut Tables, random: &mut Random) {
    let (from_nodes, from) = any_height(n, lent, random);
    let (to_nodes, to) = any_height(n, lent, random);
    let height = table_of(lent, from_nodes)[from..from + HEIGHT_WORDS].to_vec();
    table_of(lent, to_nodes)[to..to + HEIGHT_WORDS].copy_from_slice(&height);
}
