//! Ways to damage tables and images: single words and bits, small changes that look right, and times alone.

mod images;
mod tables;
mod times;

pub use images::{FIELDS, damage_image, join_halves, put_bits};
pub use tables::damage_tables;
pub use times::{damage_image_times, damage_times};

use crate::random::Random;

/// A word near the old one, or near an end of some range.
fn likely_word(old: u32, n: i64, random: &mut Random) -> u32 {
    let n = n as u32;
    let depth_end = 0u32.wrapping_sub(32_768);
    let ends = [
        0,
        1,
        2,
        n,
        n + 1,
        16,
        17,
        31,
        32,
        32_767,
        32_768,
        65_535,
        65_536,
        depth_end,
        depth_end - 1,
        1 << 31,
        u32::MAX,
    ];
    match random.below(4) {
        0 => old.wrapping_add(1),
        1 => old.wrapping_sub(1),
        _ => random.pick(&ends),
    }
}
