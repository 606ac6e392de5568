//! Ways to damage images.

use super::likely_word;
use crate::random::Random;
use reference::image;
use reference::plot::{Plot, ordered_pairs};

/// One damage to bytes that were the image of this plot. Some leave it readable.
pub fn damage_image(bytes: &mut Vec<u8>, plot: &Plot, random: &mut Random) {
    match random.below(14) {
        0 | 1 => flip_bits(bytes, random),
        2 => cut(bytes, random),
        3 => cut_a_little(bytes, random),
        4 => extend(bytes, random),
        5 | 6 => change_header(bytes, random),
        7 => count_above_8(bytes, plot, random),
        8 => change_image_count(bytes, plot, random),
        9 => change_image_set(bytes, plot, random),
        10 => change_byte(bytes, random),
        _ => change_image_height(bytes, plot, random),
    }
}

fn flip_bits(bytes: &mut [u8], random: &mut Random) {
    for _ in 0..random.between(1, 3) {
        if !bytes.is_empty() {
            let at = random.below(bytes.len());
            bytes[at] ^= 1 << random.below(8);
        }
    }
}

fn cut(bytes: &mut Vec<u8>, random: &mut Random) {
    let most = if random.chance(30) { 6 } else { bytes.len() };
    bytes.truncate(random.below(most + 1));
}

fn cut_a_little(bytes: &mut Vec<u8>, random: &mut Random) {
    let less = random.between(1, 20) as usize;
    bytes.truncate(bytes.len().saturating_sub(less));
}

fn extend(bytes: &mut Vec<u8>, random: &mut Random) {
    let more = random.pick(&[1, 1, 2, 3, 16, 128]);
    let tail = if random.chance(50) {
        vec![0; more]
    } else {
        random.bytes(more)
    };
    bytes.extend(tail);
}

/// The header's fields: place and width of version, header length, n and spare.
pub const FIELDS: [(usize, usize); 4] = [(0, 4), (4, 12), (16, 5), (21, 11)];

fn change_header(bytes: &mut [u8], random: &mut Random) {
    let (place, width) = random.pick(&FIELDS);
    let number = likely_field(random);
    put_bits(bytes, place, width, number);
}

/// A number that some header field might hold.
fn likely_field(random: &mut Random) -> u32 {
    let any = random.word();
    random.pick(&[0, 1, 2, 3, 4, 8, 15, 16, 17, 31, 32, 33, 64, 1024, any])
}

fn count_above_8(bytes: &mut [u8], plot: &Plot, random: &mut Random) {
    let count = random.between(9, 15) as u32;
    if let Some(place) = random.pick_any(&count_places(plot)) {
        put_bits(bytes, place, 4, count);
    }
}

fn change_image_count(bytes: &mut [u8], plot: &Plot, random: &mut Random) {
    let count = random.between(0, 8) as u32;
    if let Some(place) = random.pick_any(&count_places(plot)) {
        put_bits(bytes, place, 4, count);
    }
}

fn change_image_set(bytes: &mut [u8], plot: &Plot, random: &mut Random) {
    let station = image::place_of(plot.n, random.between(1, plot.n)) as usize;
    let at = station + 32 + random.below(32);
    if let Some(byte) = bytes.get_mut(at / 8) {
        *byte ^= 0x80 >> (at % 8);
    }
}

fn change_byte(bytes: &mut [u8], random: &mut Random) {
    if !bytes.is_empty() {
        let at = random.below(bytes.len());
        bytes[at] = random.word() as u8;
    }
}

/// One field of a height: place in the height and width.
const HEIGHT_FIELDS: [(usize, usize); 7] = [
    (0, 32),
    (32, 5),
    (37, 1),
    (38, 16),
    (54, 32),
    (86, 5),
    (91, 5),
];

fn change_image_height(bytes: &mut [u8], plot: &Plot, random: &mut Random) {
    let start = height_place(plot, random);
    let (place, width) = random.pick(&HEIGHT_FIELDS);
    let number = likely_word(0, plot.n, random);
    put_bits(bytes, start + place, width, number);
}

/// The start of one image and the end of another, cut at the same place or not.
pub fn join_halves(one: &[u8], other: &[u8], random: &mut Random) -> Vec<u8> {
    let cut = random.below(one.len() + 1);
    let from = if random.chance(70) {
        cut.min(other.len())
    } else {
        random.below(other.len() + 1)
    };
    [&one[..cut], &other[from..]].concat()
}

/// Writes the low bits of a number into an image, as far as the image goes.
pub fn put_bits(bytes: &mut [u8], place: usize, width: usize, number: u32) {
    for at in 0..width {
        let bit = (number >> (width - 1 - at)) & 1;
        let place = place + at;
        if let Some(byte) = bytes.get_mut(place / 8) {
            let worth = 0x80 >> (place % 8);
            *byte = if bit == 1 {
                *byte | worth
            } else {
                *byte & !worth
            };
        }
    }
}

/// Where the count of each channel stands in the image of a plot.
fn count_places(plot: &Plot) -> Vec<usize> {
    let mut place = image::place_of(plot.n, plot.n + 1) as usize;
    let mut places = Vec::new();
    for (u, v) in ordered_pairs(plot.n) {
        places.push(place);
        place += 4 + 128 * plot.waiting(u, v).len();
    }
    places
}

/// Where a random height stands in the image of a plot: in a station's record or among waiting messages.
fn height_place(plot: &Plot, random: &mut Random) -> usize {
    let station = image::place_of(plot.n, random.between(1, plot.n)) as usize;
    let held = station + 64 + 96 * random.below(plot.n as usize);
    let pairs = ordered_pairs(plot.n);
    let counts = count_places(plot);
    if pairs.is_empty() || random.chance(50) {
        return held;
    }
    let chosen = random.below(pairs.len());
    let waiting = plot.channels[&pairs[chosen]].len();
    if waiting == 0 {
        return held;
    }
    counts[chosen] + 4 + 128 * random.below(waiting)
}
