//! The image: its lengths, its header, and heights packed into bits.

use super::words::HeightWords;

/// The bytes of the image's header, of a row's head and of a height.
pub const HEADER_BYTES: usize = 4;
pub const HEAD_BYTES: usize = 8;
pub const HEIGHT_BYTES: usize = 12;
/// The nibbles of a message in the image.
pub const MESSAGE_NIBBLES: usize = 32;

/// The bytes of a row in the image.
pub fn row_bytes(n: usize) -> usize {
    HEAD_BYTES + HEIGHT_BYTES * n
}

/// The byte where the channels start.
pub fn channels_at(n: usize) -> usize {
    HEADER_BYTES + n * row_bytes(n)
}

pub fn header_word(n: u32) -> u32 {
    1 << 28 | 32 << 16 | n << 11
}

/// The 96 bits of a height.
pub fn pack(words: &HeightWords) -> u128 {
    let [tau, originator, bit, depth, time, leader, station] = words.map(u64::from);
    let high = tau << 32 | originator << 27 | bit << 26 | (depth & 0xFFFF) << 10 | time >> 22;
    let low = time << 10 | leader << 5 | station;
    u128::from(high) << 32 | u128::from(low as u32)
}

/// The height of 96 bits.
pub fn unpack(bits: u128) -> HeightWords {
    let (high, low) = ((bits >> 32) as u64, bits as u32);
    let tau = (high >> 32) as u32;
    let originator = (high >> 27) as u32 & 31;
    let bit = (high >> 26) as u32 & 1;
    let depth = i32::from((high >> 10) as i16) as u32;
    let time = (bits >> 10) as u32;
    [tau, originator, bit, depth, time, low >> 5 & 31, low & 31]
}
