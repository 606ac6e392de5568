//! The self-check: the library and the plain version must answer alike and leave the same words and bytes.

use crate::plots::Tables;
use crate::random::Random;
use crate::seen::Seen;
use crate::{abi, plain, times};
use std::fmt::Debug;

/// Compares both on random histories of so many calls, for each n and seed.
pub fn run(seeds: u64, calls: usize) -> Seen {
    let mut seen = Seen::default();
    for n in [1, 2, 3, 4, 8, 16] {
        for seed in 0..seeds {
            history(
                n,
                calls,
                &mut Random::new(seed * 100 + u64::from(n)),
                &mut seen,
            );
        }
    }
    seen
}

/// One history, from the fresh plot, from one that is linked and has some messages, or from a mixed one.
fn history(n: u32, calls: usize, random: &mut Random, seen: &mut Seen) {
    let mut tables = match random.below(5) {
        0 => Tables::linked(n, random.below(9) as u32),
        1 => Tables::linked(n, 8),
        2 => Tables::mixed(n, random.next()),
        _ => Tables::fresh(n),
    };
    for call in 0..calls {
        if random.once_in(50) {
            disturb(&mut tables, random);
        }
        event(&mut tables, random, seen);
        if call % 16 == 0 {
            questions(&tables, seen);
            images(&tables, random, seen);
            damaged_tables(&tables, random, seen);
            damaged_times(&tables, random, seen);
        }
    }
}

/// Changes tables that pass the check to others that do, so that rare rules and refusals occur.
fn disturb(tables: &mut Tables, random: &mut Random) {
    let n = tables.n as usize;
    match random.below(8) {
        0 => {
            let clock = &mut tables.row(random.up_to(n as u32))[0];
            *clock = (*clock).max(u32::MAX - random.below(4) as u32);
        }
        1 => every_height(tables, |height| height[3] = -32_768i32 as u32),
        2 => every_height(tables, |height| height[3] = 32_767),
        3 => back_to(10, tables),
        _ => {
            every_height(tables, |height| scramble(n, height, random));
            every_clock(tables, |clock| *clock = (*clock).max(LATEST));
        }
    }
}

/// No time is later than this one.
fn back_to(latest: u32, tables: &mut Tables) {
    every_height(tables, |height| {
        height[0] = height[0].min(latest);
        height[4] = height[4].min(latest);
    });
    every_clock(tables, |clock| *clock = (*clock).min(latest));
}

/// Changes every height that is held or sent.
fn every_height(tables: &mut Tables, change: impl FnMut(&mut [u32])) {
    let row = 3 + 7 * tables.n as usize;
    let rows = tables.nodes.chunks_exact_mut(row);
    let held = rows.flat_map(|row| row[3..].chunks_exact_mut(7));
    let cells = tables.channels.chunks_exact_mut(65);
    let sent = cells.flat_map(|cell| cell[1..].chunks_exact_mut(8));
    let there = held.chain(sent).filter(|height| height[6] != 0);
    there.for_each(change);
}

/// Changes every clock and every stamp.
fn every_clock(tables: &mut Tables, change: impl FnMut(&mut u32)) {
    let row = 3 + 7 * tables.n as usize;
    let clocks = tables.nodes.chunks_exact_mut(row).map(|row| &mut row[0]);
    let cells = tables.channels.chunks_exact_mut(65);
    let sent = cells.flat_map(|cell| cell[1..].chunks_exact_mut(8));
    let there = sent.filter(|message| message[6] != 0);
    let stamps = there.map(|message| &mut message[7]);
    clocks.chain(stamps).for_each(change);
}

/// The latest time of a scrambled height.
const LATEST: u32 = 5;

/// A level, depth and leader pair out of few.
fn scramble(n: usize, height: &mut [u32], random: &mut Random) {
    let searching = random.below(4) > 0;
    if searching {
        height[0] = LATEST;
        height[1] = 1 + random.below(n.min(2)) as u32;
        height[2] = random.below(2) as u32;
    } else {
        height[..3].fill(0);
    }
    height[3] = (random.below(4) as u32).wrapping_sub(2);
    height[4] = u32::from(random.once_in(n));
    height[5] = 1 + u32::from(n > 1 && random.once_in(n));
}

/// One event on both sides.
fn event(tables: &mut Tables, random: &mut Random, seen: &mut Seen) {
    let n = tables.n;
    let (kind, u, v) = choose(tables, random);
    let before = tables.clone();
    let mut other = tables.clone();
    let (library, plain) = match kind {
        0 => (abi::up as Event, plain::up as Event),
        1 => (abi::down as Event, plain::down as Event),
        _ => (abi::receive as Event, plain::receive as Event),
    };
    let ours = library(n, u, v, &mut tables.nodes, &mut tables.channels);
    let theirs = plain(n, u, v, &mut other.nodes, &mut other.channels);
    let what = || format!("event {kind} of {u} {v} on {before:?}");
    same(what, &ours, &theirs);
    same(what, tables, &other);
    seen.number(ours.number);
    seen.rule(ours.rule);
}

type Event = fn(u32, u32, u32, &mut [u32], &mut [u32]) -> abi::Answer;

/// An event that is mostly possible: 0 up, 1 down, 2 receipt.
fn choose(tables: &mut Tables, random: &mut Random) -> (usize, u32, u32) {
    let n = tables.n as usize;
    let past = usize::from(random.once_in(20));
    let mut u = (1 - past + random.below(n + 2 * past)) as u32;
    let mut v = (1 - past + random.below(n + 2 * past)) as u32;
    let kind = match random.below(20) {
        0..5 => 0,
        5 => 1,
        _ => 2,
    };
    let full: Vec<usize> = (0..n * n)
        .filter(|&k| tables.channels[65 * k] > 0)
        .collect();
    if kind == 2 && past == 0 && !full.is_empty() {
        let k = full[random.below(full.len())];
        (u, v) = ((k / n + 1) as u32, (k % n + 1) as u32);
    }
    (kind, u, v)
}

/// Save, resume and look, whole and with the image damaged.
fn images(tables: &Tables, random: &mut Random, seen: &mut Seen) {
    let image = tables.image();
    let room = match random.below(4) {
        0 => random.below(image.len() + 1),
        1 => image.len(),
        2 => image.len() - 1,
        _ => image.len() + random.below(50),
    };
    save(tables, room, seen);
    restore(tables.n, &image, random, seen);
    look(tables.n, &image, random, seen);
    for _ in 0..4 {
        let mut image = image.clone();
        damage(&mut image, random);
        restore(tables.n, &image, random, seen);
        look(tables.n, &image, random, seen);
    }
}

/// A save into so much room, with marked bytes in it.
fn save(tables: &Tables, room: usize, seen: &mut Seen) {
    let (n, nodes, channels) = (tables.n, &tables.nodes, &tables.channels);
    let (mut ours, mut theirs) = (vec![0xA5; room], vec![0xA5; room]);
    let library = abi::save(n, nodes, channels, &mut ours);
    let plain = plain::save(n, nodes, channels, &mut theirs);
    let what = || format!("save into {room} of {tables:?}");
    same(what, &library, &plain);
    same(what, &ours, &theirs);
    seen.number(library.number);
}

/// Bits flipped, bytes lost or bytes added.
fn damage(image: &mut Vec<u8>, random: &mut Random) {
    let len = image.len();
    match random.below(6) {
        0 => image.truncate(random.below(len)),
        1 => image.extend((0..1 + random.below(20)).map(|_| random.next() as u8)),
        2 => image[random.below(4)] ^= 1 << random.below(8),
        _ => {
            let from = if random.once_in(2) { 0 } else { len / 2 };
            image[from + random.below(len - from)] ^= 1 << random.below(8);
        }
    }
}

/// A resume into tables that held other words, now and then of a wrong length.
fn restore(n: u32, image: &[u8], random: &mut Random, seen: &mut Seen) {
    let wrong = usize::from(random.once_in(30));
    let mut ours = Tables {
        n,
        nodes: vec![7; abi::nodes_len(n) + wrong],
        channels: vec![7; abi::channels_len(n)],
    };
    let mut theirs = ours.clone();
    let library = abi::restore(image, &mut ours.nodes, &mut ours.channels);
    let plain = plain::restore(image, &mut theirs.nodes, &mut theirs.channels);
    let what = || format!("resume for {n} (lengths off by {wrong}) of {image:?}");
    same(what, &library, &plain);
    same(what, &ours, &theirs);
    seen.number(library.number);
}

/// A look at a station, now and then at a wrong place, past n or with a wrong row.
fn look(n: u32, image: &[u8], random: &mut Random, seen: &mut Seen) {
    let k = random.below(n as usize + 2) as u32;
    let step = u64::from(64 + 96 * n);
    let right = 32 + u64::from(k).wrapping_sub(1).wrapping_mul(step);
    let place = match random.below(8) {
        0 => right.wrapping_add(1),
        1 => right.wrapping_sub(step),
        2 => random.next(),
        _ => right,
    };
    let wrong = usize::from(random.once_in(30));
    let (mut ours, mut theirs) = (
        vec![7; abi::row_len(n) + wrong],
        vec![7; abi::row_len(n) + wrong],
    );
    let library = abi::read_node(image, k, place, &mut ours);
    let plain = plain::read_node(image, k, place, &mut theirs);
    let what = || format!("look at {k}, place {place}, row off by {wrong}, of {image:?}");
    same(what, &library, &plain);
    same(what, &ours, &theirs);
    seen.number(library.number);
}

/// A check, a step and a save of tables with some words changed, or of a wrong length or n.
fn damaged_tables(tables: &Tables, random: &mut Random, seen: &mut Seen) {
    for _ in 0..4 {
        let mut tables = tables.clone();
        let table = match random.below(2) {
            0 => &mut tables.nodes,
            _ => &mut tables.channels,
        };
        for _ in 0..random.up_to(3) {
            let k = random.below(table.len());
            table[k] = random.word();
        }
        if random.once_in(20) {
            table.truncate(random.below(table.len()));
        }
        if random.once_in(20) {
            tables.n = random.word();
        }
        all_calls(&mut tables, random, seen);
    }
}

/// A time at its limit, which is accepted, and one beyond it, which is not; then up to three about their limits, now and then with other damage.
fn damaged_times(tables: &Tables, random: &mut Random, seen: &mut Seen) {
    let (times, image) = (times::of(tables), tables.image());
    let any = |random: &mut Random| &times[random.below(times.len())];
    let one = any(random);
    for (beyond, number) in [(0, 0), (1, 18)] {
        let Some(word) = one.limit.checked_add(beyond) else {
            continue;
        };
        let (mut tables, mut image) = (tables.clone(), image.clone());
        one.put(word, &mut tables, &mut image);
        let what = || format!("a time {beyond} above its limit in {tables:?}");
        same(what, &check(&tables, seen), &number);
        timed(&mut tables, &image, random, seen);
    }
    let (mut tables, mut image) = (tables.clone(), image);
    for _ in 0..random.up_to(3) {
        let time = any(random);
        let word = time.limit.wrapping_add(random.below(4) as u32);
        time.put(word.wrapping_sub(1), &mut tables, &mut image);
    }
    if random.once_in(3) {
        let k = random.below(tables.nodes.len());
        tables.nodes[k] = random.word();
        damage(&mut image, random);
    }
    timed(&mut tables, &image, random, seen);
}

/// All calls on tables and on their image.
fn timed(tables: &mut Tables, image: &[u8], random: &mut Random, seen: &mut Seen) {
    restore(tables.n, image, random, seen);
    look(tables.n, image, random, seen);
    all_calls(tables, random, seen);
}

/// A check, the questions, a save and a step of tables that may be damaged.
fn all_calls(tables: &mut Tables, random: &mut Random, seen: &mut Seen) {
    check(tables, seen);
    questions(tables, seen);
    save(tables, random.below(3000), seen);
    if tables.n.wrapping_sub(1) < 16 && tables.channels.len() >= abi::channels_len(tables.n) {
        event(tables, random, seen);
    }
}

/// The number of a check.
fn check(tables: &Tables, seen: &mut Seen) -> u32 {
    let library = abi::check(tables.n, &tables.nodes, &tables.channels);
    let plain = plain::check(tables.n, &tables.nodes, &tables.channels);
    same(|| format!("check of {tables:?}"), &library, &plain);
    seen.number(library.number);
    library.number
}

/// Quiet, groups, and the group of every number.
fn questions(tables: &Tables, seen: &mut Seen) {
    let (n, nodes, channels) = (tables.n, &tables.nodes, &tables.channels);
    let what = || format!("questions to {tables:?}");
    let quiet = abi::quiet(n, nodes, channels);
    same(what, &quiet, &plain::quiet(n, nodes, channels));
    seen.number(quiet.number);
    let groups = abi::groups(n, nodes, channels);
    same(what, &groups, &plain::groups(n, nodes, channels));
    seen.number(groups.number);
    for u in 0..=n.min(16) + 1 {
        let group = abi::group_of(n, u, nodes, channels);
        same(what, &group, &plain::group_of(n, u, nodes, channels));
        seen.number(group.number);
    }
}

/// Stops the program if the two differ.
fn same<T: PartialEq + Debug>(what: impl FnOnce() -> String, library: &T, plain: &T) {
    if library != plain {
        eprintln!("{}\n  library: {library:?}\n  plain:   {plain:?}", what());
        std::process::abort();
    }
}
