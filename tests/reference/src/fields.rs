//! Document 01, "The plot image": the fields of heights and messages by one list of widths, for
//! request [4] of document 02. Reading and writing here keep their own widths, as something to hold
//! the list against.

/// 01, 6.8 and 6.6: the seven of a height, then the stamp, in bits.
const WIDTHS: [usize; 8] = [32, 5, 1, 16, 32, 5, 5, 32];

/// How wide field k is, k from 0 to 7.
pub fn width(k: usize) -> usize {
    WIDTHS[k]
}

/// Where field k starts, k from 0 to 8, by what stands before it: 7 is also the end of a height, 8 that
/// of a message.
pub fn place(k: usize) -> usize {
    WIDTHS[..k].iter().sum()
}

/// Up to 32 bits inside an image, from a bit place on, the highest first (01, 6.1).
pub fn number(image: &[u8], from: usize, width: usize) -> u32 {
    let bit = |place: usize| u32::from(image[place / 8] >> (7 - place % 8) & 1);
    (from..from + width).fold(0, |number, place| number << 1 | bit(place))
}
