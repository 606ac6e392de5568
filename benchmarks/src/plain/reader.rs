//! Taking an image apart: its header, its rows, and its channels nibble by nibble.

use super::channels::message;
use super::image::{
    channels_at, header_word, row_bytes, unpack, HEADER_BYTES, HEAD_BYTES, HEIGHT_BYTES,
    MESSAGE_NIBBLES,
};
use super::refusals::{Refusal, IMAGE_HEADER, IMAGE_SHORT};
use super::words::{HeightWords, MessageWords, HEAD};

/// The station count of a right header.
pub fn header(image: &[u8]) -> Result<u32, Refusal> {
    let word = u32::from_be_bytes(*image.first_chunk().ok_or(IMAGE_SHORT)?);
    let n = word >> 11 & 31;
    let right = word == header_word(n) && (1..=16).contains(&n);
    right.then_some(n).ok_or(IMAGE_HEADER)
}

/// The rows of an image.
pub fn rows(n: usize, image: &[u8]) -> impl Iterator<Item = &[u8]> {
    image[HEADER_BYTES..channels_at(n)].chunks_exact(row_bytes(n))
}

/// The clock, N and F of a row.
pub fn head(row: &[u8]) -> [u32; HEAD] {
    let (words, _) = row[..HEAD_BYTES].as_chunks();
    let sets = u32::from_be_bytes(words[1]);
    [u32::from_be_bytes(words[0]), sets >> 16, sets & 0xFFFF]
}

/// The heights of a row.
pub fn heights(row: &[u8]) -> impl Iterator<Item = HeightWords> + '_ {
    let (heights, _) = row[HEAD_BYTES..].as_chunks::<HEIGHT_BYTES>();
    heights.iter().map(|bytes| {
        let mut whole = [0; 16];
        whole[4..].copy_from_slice(bytes);
        unpack(u128::from_be_bytes(whole))
    })
}

/// An image and the nibble to be read next.
#[derive(Clone, Copy)]
pub struct Reader<'a> {
    image: &'a [u8],
    pub at: usize,
}

impl Reader<'_> {
    /// At the first channel.
    pub fn at_channels(n: usize, image: &[u8]) -> Reader<'_> {
        let at = 2 * channels_at(n);
        Reader { image, at }
    }

    /// How many nibbles are left; none if the place is past the end.
    pub fn left(&self) -> Option<usize> {
        (2 * self.image.len()).checked_sub(self.at)
    }

    pub fn nibble(&mut self) -> usize {
        let byte = self.image[self.at / 2];
        let nibble = if self.at.is_multiple_of(2) {
            byte >> 4
        } else {
            byte & 15
        };
        self.at += 1;
        usize::from(nibble)
    }

    pub fn message(&mut self) -> MessageWords {
        let bytes = &self.image[self.at / 2..];
        let whole = u128::from_be_bytes(*bytes.first_chunk().expect("walked before"));
        let bits = if self.at.is_multiple_of(2) {
            whole
        } else {
            whole << 4 | u128::from(bytes[16] >> 4)
        };
        self.at += MESSAGE_NIBBLES;
        message(unpack(bits >> 32), bits as u32)
    }
}
