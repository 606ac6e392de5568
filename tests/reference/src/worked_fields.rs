//! Request [4] of document 02: where the fields of heights and messages start and end, worked by hand
//! from document 01, and all of their numbers found there in images.

use crate::dice::Dice;
use crate::fields::{number, place, width};
use crate::image::{longest, place_of, write};
use crate::plot::{Height, LAST_CLOCK, Plot, ordered_pairs};
use crate::step::{Rule, step};
use crate::worked_plots::{down, heard, hold, send, takes, up};
use std::collections::BTreeMap;

/// A height or a message of an image: whose, the bit that it starts at, and its numbers.
struct Record {
    kind: &'static str,
    from: usize,
    due: Vec<u32>,
}

/// How many records of a kind have another number than 0 in a field.
type Counts = BTreeMap<(&'static str, usize), usize>;

/// A height's numbers as they are packed: 16 bits of the depth, no sign at the election time.
fn packed(height: &Height) -> Vec<u32> {
    let mut numbers = height.numbers();
    numbers[3] &= 0xffff;
    numbers[4] = -numbers[4];
    let word = |number| u32::try_from(number).unwrap();
    numbers.into_iter().map(word).collect()
}

/// The n heights of each station, which fill its record behind clock and sets.
fn heights(plot: &Plot) -> Vec<Record> {
    let mut records = Vec::new();
    for u in 1..=plot.n {
        let station = plot.station(u);
        let mut from = place_of(plot.n, u) as usize + 64;
        for v in 1..=plot.n {
            let (kind, due) = match station.linked.get(&v) {
                _ if v == u => ("own", packed(&station.own)),
                Some(view) => ("view", packed(view)),
                None => ("none", vec![0; 7]),
            };
            records.push(Record { kind, from, due });
            from += place(7);
        }
        assert_eq!(from, place_of(plot.n, u + 1) as usize, "station {u}");
    }
    records
}

/// The messages behind their channels' counts, the last of which ends with the image.
fn messages(plot: &Plot, image: &[u8]) -> Vec<Record> {
    let mut records = Vec::new();
    let mut from = place_of(plot.n, plot.n + 1) as usize;
    for (u, v) in ordered_pairs(plot.n) {
        let waiting = plot.waiting(u, v);
        assert_eq!(number(image, from, 4) as usize, waiting.len(), "{u} to {v}");
        from += 4;
        for message in waiting {
            let mut due = packed(&message.height);
            due.push(u32::try_from(message.stamp).unwrap());
            let kind = "message";
            records.push(Record { kind, from, due });
            from += place(8);
        }
    }
    assert_eq!(from, image.len() * 8);
    records
}

/// Every number of every height and message of the plot's image stands at its place.
fn all_found(plot: &Plot, counts: &mut Counts) {
    let image = write(plot);
    for Record { kind, from, due } in heights(plot).into_iter().chain(messages(plot, &image)) {
        for (k, due) in due.into_iter().enumerate() {
            let found = number(&image, from + place(k), width(k));
            assert_eq!(found, due, "{kind} at {from}, field {k}");
            *counts.entry((kind, k)).or_default() += usize::from(due != 0);
        }
    }
}

#[test]
fn places_and_ends() {
    let places: Vec<usize> = (0..=8).map(place).collect();
    assert_eq!(places, [0, 32, 37, 38, 54, 86, 91, 96, 128]);
    let ends: Vec<usize> = (0..8).map(|k| place(k) + width(k)).collect();
    assert_eq!(ends, [32, 37, 38, 54, 86, 91, 96, 128]);
}

/// Also by the sizes of stations and of the longest image (case m), which do not know the list.
#[test]
fn fields_stand_end_to_end() {
    assert_eq!(place(0), 0);
    (0..8).for_each(|k| assert_eq!(place(k + 1), place(k) + width(k), "field {k}"));
    assert_eq!((place(7), place(8)), (96, 128));
    for n in 1..=16 {
        let station = 64 + n * place(7);
        let channel = 4 + 8 * place(8);
        assert_eq!(place_of(n as i64, 2) as usize, 32 + station);
        let all = 32 + n * station + n * (n - 1) * channel;
        assert_eq!(longest(n as i64), all.div_ceil(8));
    }
}

#[test]
fn numbers_out_of_bytes() {
    let bytes = [0x12, 0x34, 0x56, 0x78, 0x9a];
    for (from, width, due) in [
        (0, 0, 0),
        (40, 0, 0),
        (2, 1, 0),
        (3, 1, 1),
        (38, 1, 1),
        (39, 1, 0),
        (0, 4, 1),
        (4, 4, 2),
        (6, 5, 0b10001),
        (4, 8, 0x23),
        (8, 16, 0x3456),
        (0, 32, 0x1234_5678),
        (4, 32, 0x2345_6789),
        (8, 32, 0x3456_789a),
    ] {
        assert_eq!(number(&bytes, from, width), due, "{width} bits from {from}");
    }
    (0..=8).for_each(|from| assert_eq!(number(&[255; 5], from, 32), u32::MAX));
}

/// One field of ones and the others 0, sound or not, in the own height of 2 and in a message: the ones
/// begin at the field's place and stop at the next one's. With two stations the last height starts at
/// 32 + 256 + 64 + 96, and the one message behind both counts.
#[test]
fn a_field_of_ones() {
    let full = [LAST_CLOCK, 31, 1, -1, -LAST_CLOCK, 31, 31, LAST_CLOCK];
    for (k, full) in full.into_iter().enumerate() {
        let mut numbers = [0; 8];
        numbers[k] = full;
        let [tau, originator, bit, depth, time, leader, station, stamp] = numbers;
        let height = [tau, originator, bit, depth, time, leader, station];
        let mut plot = Plot::fresh(2);
        hold(&mut plot, 2, 0, height);
        send(&mut plot, 2, 1, height, stamp);
        let image = write(&plot);
        assert_eq!(image.len() * 8, 552 + 128);
        for (from, end) in [(448, 96), (552, 128)] {
            for bit in 0..end {
                let due = u32::from((place(k)..place(k + 1)).contains(&bit));
                assert_eq!(number(&image, from + bit, 1), due, "field {k}, bit {bit}");
            }
        }
    }
}

#[test]
fn fresh_plots_field_by_field() {
    let mut counts = Counts::new();
    (1..=16).for_each(|n| all_found(&Plot::fresh(n), &mut counts));
    let own: Vec<usize> = (0..7).map(|k| counts[&("own", k)]).collect();
    assert_eq!(own, [0, 0, 0, 0, 0, 136, 136], "leaders and stations alone");
}

/// 1 is elected at 2, and 3 is led by it over 2. 2 loses 1 and starts a level at 8; 3 reflects it and
/// hands it on to 4, whose last message has no 0 among its eight numbers.
fn reflected() -> Plot {
    let mut plot = Plot::fresh(4);
    for (event, rule, sent_to) in [
        (up(1, 2), Rule::U, &[2][..]),
        (down(1, 2), Rule::E, &[]),
        (up(1, 2), Rule::U, &[2]),
        (up(2, 1), Rule::U, &[1]),
        (heard(1, 2), Rule::A, &[1]),
        (up(2, 3), Rule::U, &[3]),
        (up(3, 2), Rule::U, &[2]),
        (heard(2, 3), Rule::A, &[2]),
        (heard(3, 2), Rule::R, &[3]),
        (heard(3, 2), Rule::Q, &[]),
        (down(2, 1), Rule::S, &[3]),
        (heard(2, 3), Rule::Q, &[]),
        (heard(2, 3), Rule::F, &[2]),
        (up(3, 4), Rule::U, &[4]),
        (up(4, 3), Rule::U, &[3]),
        (heard(3, 4), Rule::A, &[3]),
    ] {
        takes(&mut plot, event, rule, sent_to);
    }
    plot
}

/// The image's last 16 bytes are that message, sent at 11: (8, 2, 1, 1; −2, 1; 4). Its fields from the
/// second to the seventh are 00010 1 0000000000000001, 30 times 0, 10 00001 00100.
#[test]
fn a_message_without_a_zero() {
    let plot = reflected();
    let image = write(&plot);
    let bytes = [0, 0, 0, 8, 0x14, 0, 4, 0, 0, 0, 8, 0x24, 0, 0, 0, 11];
    assert_eq!(image.len(), 282);
    assert_eq!(image[266..], bytes);
    let fields: Vec<u32> = (0..8).map(|k| number(&bytes, place(k), width(k))).collect();
    assert_eq!(fields, [8, 2, 1, 1, 2, 1, 4, 11]);
    all_found(&plot, &mut Counts::new());
}

/// Some events on the plot, most of them receipts, so that searches go round.
fn go_on(dice: &mut Dice, plot: &mut Plot) {
    for _ in 0..60 * plot.n {
        let (u, v) = (1 + dice.below(plot.n), 1 + dice.below(plot.n));
        let event = match dice.below(40) {
            0..2 => down(u, v),
            2..5 => up(u, v),
            _ => heard(u, v),
        };
        step(plot, event);
    }
}

/// Own heights, views and messages of plots grown by dice: each field is often another number than 0,
/// and depths below 0 are among them.
#[test]
fn grown_plots_field_by_field() {
    let mut counts = Counts::new();
    let mut below = 0;
    for seed in 0..200 {
        let mut dice = Dice(seed);
        let mut plot = Plot::fresh(3 + dice.below(6));
        for _ in 0..4 {
            go_on(&mut dice, &mut plot);
            all_found(&plot, &mut counts);
            let depths = heights(&plot).into_iter().map(|height| height.due[3]);
            below += depths.filter(|depth| *depth > 0x7fff).count();
        }
    }
    for (kind, fields) in [("own", 7), ("view", 7), ("message", 8)] {
        let often = (0..fields).all(|k| counts[&(kind, k)] > 50);
        assert!(often, "{kind}: {counts:?}");
    }
    assert!(below > 50, "{below}");
}
