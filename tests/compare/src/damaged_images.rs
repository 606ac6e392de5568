//! Damaged images in both: the same number with the same pair, and nothing lent changed.

use crate::beside::number_of;
use crate::calls::read_both_ways;
use crate::damage;
use crate::planted;
use crate::questions::compare_stations;
use crate::random::Random;
use crate::tally::Tally;
use reference::image;
use reference::plot::Plot;
use reference::tables;

/// Damages the images of two plots in several ways, each from the sound ones.
pub fn damaged_images(seed: u64, tally: &mut Tally) {
    let mut random = Random::new(seed);
    let n = random.between(1, 16);
    let one = any_plot(n, &mut random);
    let n_of_other = if random.chance(60) {
        n
    } else {
        random.between(1, 16)
    };
    let other = any_plot(n_of_other, &mut random);
    let (one_image, other_image) = (image::write(&one), image::write(&other));
    for _ in 0..5 {
        let mut bytes = one_image.clone();
        for _ in 0..random.pick(&[1, 1, 2]) {
            damage::damage_image_times(&mut bytes, &one, &mut random);
        }
        let read = image::resume(&bytes, tables::nodes_len(n), tables::channels_len(n));
        tally.note(format!("times alone: {}", number_of(&read)));
        read_both_ways(&bytes, n, &mut random, tally);
    }
    for _ in 0..15 {
        let mut bytes = if random.chance(20) {
            damage::join_halves(&one_image, &other_image, &mut random)
        } else {
            one_image.clone()
        };
        for _ in 0..random.pick(&[0, 1, 1, 1, 2, 3]) {
            damage::damage_image(&mut bytes, &one, &mut random);
        }
        read_both_ways(&bytes, n, &mut random, tally);
    }
    read_both_ways(&anything(n, &mut random), n, &mut random, tally);
}

/// A planted plot, or a fresh one whose image can be cut to that of a smaller plot.
fn any_plot(n: i64, random: &mut Random) -> Plot {
    if random.chance(20) {
        Plot::fresh(n)
    } else {
        planted::sound_plot(n, random)
    }
}

/// Bytes of anything behind a right header for n.
fn anything(n: i64, random: &mut Random) -> Vec<u8> {
    let most = image::longest(n);
    let mut bytes = random.bytes(4 + most);
    bytes.truncate(random.below(bytes.len()));
    damage::put_bits(&mut bytes, 0, 32, header_word(n));
    bytes
}

/// The 32 bits of a right header.
fn header_word(n: i64) -> u32 {
    (1 << 28) | (32 << 16) | ((n as u32) << 11)
}

/// From the header of every n of five bits: every number in every field, and every shorter piece.
pub fn every_header(tally: &mut Tally) {
    for n in 0..32 {
        let header = header_word(n).to_be_bytes();
        for (place, width) in damage::FIELDS {
            for number in 0..1 << width {
                let mut bytes = header;
                damage::put_bits(&mut bytes, place, width, number);
                compare_stations(&bytes, tally);
            }
        }
        for len in 0..header.len() {
            compare_stations(&header[..len], tally);
        }
    }
}
