//! The comparison of heights in both: any seven words, heights that part at a chosen place, and those that histories meet.

use crate::ffi;
use crate::random::Random;
use crate::tally::Tally;
use reference::parting::{Parting, parting};
use reference::tables::{HEIGHT_WORDS, Tables, height_of_words, height_words};
use std::cmp::Ordering;

/// A height as the tables hold it: the depth in two's complement, the election time without its sign.
pub type Words = [u32; HEIGHT_WORDS];

/// The ends of the words and of the depths, and what is next to them.
const ENDS: [u32; 10] = [
    0,
    1,
    2,
    17,
    0x7fff_fffe,
    0x7fff_ffff,
    0x8000_0000,
    0x8000_0001,
    u32::MAX - 1,
    u32::MAX,
];

/// The words of the least height there can be, and of the greatest.
const LEAST: Words = [0, 0, 0, 0x8000_0000, u32::MAX, 0, 0];
const GREATEST: Words = [
    u32::MAX,
    u32::MAX,
    u32::MAX,
    0x7fff_ffff,
    0,
    u32::MAX,
    u32::MAX,
];

/// The interface's form of a height.
fn interface_height(words: Words) -> ffi::Height {
    let [
        search_time,
        originator,
        bit,
        depth,
        election_time,
        leader,
        station,
    ] = words;
    ffi::Height {
        search_time,
        originator,
        bit,
        depth: depth as i32,
        election_time,
        leader,
        station,
    }
}

/// The interface's form of what the reference says of two heights.
fn expected(parting: Parting) -> ffi::Comparison {
    ffi::Comparison {
        order: match parting.order {
            Ordering::Less => -1,
            Ordering::Equal => 0,
            Ordering::Greater => 1,
        },
        place: parting.place as u32,
    }
}

/// What lent tables have for station v at station u.
pub fn lent_height(n: i64, lent: &Tables, u: i64, v: i64) -> Words {
    let words = height_words(n, &lent.nodes, u, v);
    words.try_into().expect("seven words")
}

/// Two heights in both, each as the first.
pub fn compare_heights(a: Words, b: Words, tally: &mut Tally) {
    compare_in_turn(a, b, tally);
    compare_in_turn(b, a, tally);
}

fn compare_in_turn(a: Words, b: Words, tally: &mut Tally) {
    let due = parting(&height_of_words(&a), &height_of_words(&b));
    let answer = ffi::compare(interface_height(a), interface_height(b));
    assert_eq!(answer, expected(due), "{a:?} and {b:?}");
    let Parting { order, place } = due;
    tally.note(format!("heights: {order:?}, {place}"));
    if place > 0 {
        note_words(a, b, due, tally);
    }
}

/// Counts heights on which a narrower or differently signed number, or another one than the first, would be noticed.
fn note_words(a: Words, b: Words, due: Parting, tally: &mut Tally) {
    let place = due.place as usize;
    if (a[place - 1] ^ b[place - 1]) >> 31 == 1 {
        tally.note(format!("heights: across the top bit, {place}"));
    }
    let (a, b) = (height_of_words(&a).numbers(), height_of_words(&b).numbers());
    if a[place - 1].abs_diff(b[place - 1]) == 1 {
        tally.note(format!("heights: by one, {place}"));
    }
    let mut behind = a.iter().zip(b.iter()).skip(place);
    if place < HEIGHT_WORDS && behind.all(|(of_a, of_b)| of_b.cmp(of_a) == due.order) {
        tally.note(format!("heights: all behind the other way, {place}"));
    }
}

/// Equal heights were met, and heights that part at each of these places, both ways.
pub fn assert_parted(tally: &Tally, places: &[usize]) {
    tally.assert_met(&["heights: Equal, 0"]);
    for place in places {
        let less = format!("heights: Less, {place}");
        tally.assert_met(&[&less, &format!("heights: Greater, {place}")]);
    }
}

/// Heights of any words; of few different words, so that they part anywhere; and two that part at each place. Each also beside
/// itself.
pub fn random_heights(seed: u64, tally: &mut Tally) {
    let mut random = Random::new(seed);
    let (a, b) = (any_words(&mut random), any_words(&mut random));
    compare_heights(a, b, tally);
    compare_heights(a, a, tally);
    let (a, b) = (few_words(&mut random), few_words(&mut random));
    compare_heights(a, b, tally);
    compare_heights(b, b, tally);
    for place in 1..=HEIGHT_WORDS {
        let (a, b) = parted(place, &mut random);
        assert_ne!(a[place - 1], b[place - 1]);
        compare_heights(a, b, tally);
    }
}

fn any_words(random: &mut Random) -> Words {
    [0; HEIGHT_WORDS].map(|_| random.word())
}

fn few_words(random: &mut Random) -> Words {
    let most = random.pick(&[1, 2, 2, ENDS.len()]);
    [0; HEIGHT_WORDS].map(|_| ENDS[random.below(most)])
}

/// Words of any kind.
fn front_words(random: &mut Random) -> Words {
    match random.below(4) {
        0 => [0; HEIGHT_WORDS],
        1 => random.pick(&[LEAST, GREATEST]),
        2 => few_words(random),
        _ => any_words(random),
    }
}

/// Two heights that agree in front of a place and differ there. Behind it they are the same, anything, or as far apart as can be.
fn parted(place: usize, random: &mut Random) -> (Words, Words) {
    let front = front_words(random);
    let (backs, same) = (front_words(random), random.chance(20));
    let (back_of_a, back_of_b) = match random.below(3) {
        0 => (LEAST, GREATEST),
        1 => (GREATEST, LEAST),
        _ if same => (backs, backs),
        _ => (backs, front_words(random)),
    };
    let (here, there) = different_words(random);
    (
        joined(front, place, here, back_of_a),
        joined(front, place, there, back_of_b),
    )
}

/// Two different words: by one, in one bit, at the ends, or anyhow.
fn different_words(random: &mut Random) -> (u32, u32) {
    let word = random.word();
    let bit = 1 << random.below(32);
    let (end, other) = (random.pick(&ENDS), random.pick(&ENDS));
    match random.below(5) {
        0 => (word, word.wrapping_add(1)),
        1 => (word, word ^ 1 << 31),
        2 => (word, word ^ bit),
        3 if end != other => (end, other),
        _ => (word, word ^ random.word().max(1)),
    }
}

/// The words of `front` up to the place, then `here`, then those of `back`.
fn joined(front: Words, place: usize, here: u32, back: Words) -> Words {
    let mut words = back;
    words[..place - 1].copy_from_slice(&front[..place - 1]);
    words[place - 1] = here;
    words
}

/// At each place every two of the ends, equal ones too, behind zeros, ones and the ends of heights; what follows is the same or
/// as far apart as can be.
pub fn planted_heights(tally: &mut Tally) {
    let fronts = [[0; HEIGHT_WORDS], [1; HEIGHT_WORDS], LEAST, GREATEST];
    let backs = [(LEAST, GREATEST), (GREATEST, LEAST), (LEAST, LEAST)];
    for place in 1..=HEIGHT_WORDS {
        for front in fronts {
            for (back_of_a, back_of_b) in backs {
                for (here, there) in every_two_ends() {
                    let a = joined(front, place, here, back_of_a);
                    let b = joined(front, place, there, back_of_b);
                    compare_heights(a, b, tally);
                }
            }
        }
    }
}

fn every_two_ends() -> impl Iterator<Item = (u32, u32)> {
    ENDS.into_iter()
        .flat_map(|here| ENDS.into_iter().map(move |there| (here, there)))
}
