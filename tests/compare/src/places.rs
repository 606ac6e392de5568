//! Saved places in both: every place of small images, some of large ones, and places kept while the image was changed.

use crate::beside::compare_look;
use crate::damage;
use crate::planted;
use crate::random::Random;
use crate::tally::Tally;
use reference::image;
use reference::plot::Plot;
use reference::tables;

/// Every place of the image of a plot of n stations, for every k, and some numbers far behind.
pub fn every_place(n: i64, seed: u64, tally: &mut Tally) {
    let mut random = Random::new(seed);
    let plot = few_messages(n, &mut random);
    let bytes = image::write(&plot);
    for k in 0..=n + 1 {
        for place in 0..=8 * bytes.len() as u64 + 8 {
            look(&bytes, k, place, n, &mut random, tally);
        }
        for place in far_places(n, k.max(1)) {
            look(&bytes, k, place, n, &mut random, tally);
        }
    }
}

/// A planted plot whose image is short.
fn few_messages(n: i64, random: &mut Random) -> Plot {
    let mut plot = planted::sound_plot(n, random);
    for waiting in plot.channels.values_mut() {
        waiting.truncate(1);
    }
    plot
}

/// Places that a narrow number would take for the right one.
fn far_places(n: i64, k: i64) -> Vec<u64> {
    let right = image::place_of(n, k) as u64;
    let powers = [8, 16, 31, 32, 33, 35, 48, 63];
    let mut places: Vec<u64> = powers.iter().map(|power| right + (1 << power)).collect();
    places.extend([u64::MAX, u64::MAX - 1, right.wrapping_neg(), !right]);
    places
}

fn look(bytes: &[u8], k: i64, place: u64, n: i64, random: &mut Random, tally: &mut Tally) {
    let row = random.words(tables::row_len(n));
    compare_look(bytes, k, place, row, tally);
}

/// Some places of an image of any n, and the right place of every station.
pub fn some_places(seed: u64, tally: &mut Tally) {
    let mut random = Random::new(seed);
    let n = random.between(5, 16);
    let bytes = image::write(&few_messages(n, &mut random));
    for k in 0..=n + 1 {
        let right = image::place_of(n, k.max(1)) as u64;
        let another = image::place_of(n, random.between(1, n)) as u64;
        let any = random.below(8 * bytes.len()) as u64;
        for place in [right, right + 1, right - 1, another, any] {
            look(&bytes, k, place, n, &mut random, tally);
        }
    }
    let far = i64::from(u32::MAX);
    look(&bytes, far, 32, n, &mut random, tally);
    some_untimely_places(n, &mut random, tally);
}

/// Right and wrong places of an image with a time beyond its clock, for stations that there are and others.
fn some_untimely_places(n: i64, random: &mut Random, tally: &mut Tally) {
    let bytes = image::write(&planted::untimely_plot(n, random));
    for k in 0..=n + 1 {
        let right = image::place_of(n, k.max(1)) as u64;
        for place in [right, right + 1] {
            look(&bytes, k, place, n, random, tally);
        }
    }
}

/// A place is saved, then the header changes: length, n and version, each alone and together; then it is read at that place.
pub fn changed_headers(seed: u64, tally: &mut Tally) {
    let mut random = Random::new(seed);
    let n = random.between(1, 8);
    let plot = if random.chance(30) {
        Plot::fresh(n)
    } else {
        few_messages(n, &mut random)
    };
    let bytes = image::write(&plot);
    for which in 1..8 {
        let k = random.between(1, n);
        let place = image::place_of(n, k) as u64;
        let new_n = random.between(1, 16);
        let changed = change(&bytes, which, new_n, &mut random);
        look(&changed, k, place, n, &mut random, tally);
        look(&changed, k, place, new_n, &mut random, tally);
        let moved = image::place_of(new_n, k) as u64;
        look(&changed, k, moved, new_n, &mut random, tally);
    }
    cut_to_one_station(&bytes, &mut random, tally);
}

/// An image with another header: bit 0 of `which` changes the length, bit 1 n, bit 2 the version.
fn change(bytes: &[u8], which: u32, new_n: i64, random: &mut Random) -> Vec<u8> {
    let mut changed = bytes.to_vec();
    if which & 1 != 0 {
        let lengths = [0, 4, 16, 31, 33, 64, 96, 128, 2080, 4095];
        damage::put_bits(&mut changed, 4, 12, random.pick(&lengths));
    }
    if which & 2 != 0 {
        let n = random.pick(&[new_n as u32, new_n as u32, 0, 17, 31]);
        damage::put_bits(&mut changed, 16, 5, n);
    }
    if which & 4 != 0 {
        damage::put_bits(&mut changed, 0, 4, random.pick(&[0, 2, 3, 9, 15]));
    }
    changed
}

/// The image of a fresh plot with n changed to 1 and cut to 24 bytes is a right image of one station: its one place is good.
fn cut_to_one_station(bytes: &[u8], random: &mut Random, tally: &mut Tally) {
    let mut cut = bytes[..24].to_vec();
    damage::put_bits(&mut cut, 16, 5, 1);
    for k in 1..=2 {
        for place in [32, 192, 288] {
            look(&cut, k, place, 1, random, tally);
        }
    }
}

/// Places saved from one n, used on an image of another n.
pub fn places_of_another_n(seed: u64, tally: &mut Tally) {
    let mut random = Random::new(seed);
    let n = random.between(1, 12);
    let bytes = image::write(&few_messages(n, &mut random));
    for other in 1..=16 {
        for k in [1, 2, random.between(1, other)] {
            let place = image::place_of(other, k) as u64;
            look(&bytes, k, place, n, &mut random, tally);
            look(&bytes, k, place, other, &mut random, tally);
        }
    }
}

/// Every place of one image of 1 to 3 stations.
pub fn every_place_of_few(seed: u64, tally: &mut Tally) {
    every_place(1 + (seed % 3) as i64, seed, tally);
}
