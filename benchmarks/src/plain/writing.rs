//! Writing an image.

use super::check::checked;
use super::image::{
    channels_at, header_word, pack, row_bytes, HEADER_BYTES, HEAD_BYTES, HEIGHT_BYTES,
    MESSAGE_NIBBLES,
};
use super::refusals::{checked_answer, Refusal, ROOM};
use super::words::{row_words, Cell, MessageWords, CELL, HEAD};
use crate::abi::{Checked, Saved};

/// The image goes to the front of `out`.
#[inline(never)]
pub fn save(n: u32, nodes: &[u32], channels: &[u32], out: &mut [u8]) -> Saved {
    let done = write(n, nodes, channels, out);
    let size = *done.as_ref().unwrap_or(&0) as u64;
    let Checked {
        number,
        fault_at,
        fault_with,
    } = checked_answer(done);
    Saved {
        number,
        fault_at,
        fault_with,
        size,
    }
}

fn write(n: u32, nodes: &[u32], channels: &[u32], out: &mut [u8]) -> Result<usize, Refusal> {
    let m = checked(n, nodes, channels)?;
    let (cells, _) = channels.as_chunks::<CELL>();
    let size = image_bytes(m, cells);
    let out = out.get_mut(..size).ok_or(ROOM)?;
    let (header, out) = out.split_at_mut(HEADER_BYTES);
    header.copy_from_slice(&header_word(n).to_be_bytes());
    let (rows, bytes) = out.split_at_mut(m * row_bytes(m));
    let nodes = nodes.chunks_exact(row_words(m));
    for (row, out) in nodes.zip(rows.chunks_exact_mut(row_bytes(m))) {
        write_row(row, out);
    }
    let (at, half) = (0, false);
    let mut writer = Writer { bytes, at, half };
    for (u, cells) in cells.chunks_exact(m).enumerate() {
        let others = cells.iter().enumerate().filter(|&(v, _)| v != u);
        others.for_each(|(_, cell)| writer.put_channel(cell));
    }
    Ok(size)
}

/// The bytes of the image of sound channels.
fn image_bytes(n: usize, cells: &[Cell]) -> usize {
    let waiting: usize = cells.iter().map(|cell| cell[0] as usize).sum();
    let nibbles = n * (n - 1) + MESSAGE_NIBBLES * waiting;
    channels_at(n) + nibbles.div_ceil(2)
}

fn write_row(row: &[u32], out: &mut [u8]) {
    let (head, heights) = out.split_at_mut(HEAD_BYTES);
    head[..4].copy_from_slice(&row[0].to_be_bytes());
    head[4..].copy_from_slice(&(row[1] << 16 | row[2]).to_be_bytes());
    let (words, _) = row[HEAD..].as_chunks();
    let (bytes, _) = heights.as_chunks_mut::<HEIGHT_BYTES>();
    for (words, bytes) in words.iter().zip(bytes) {
        bytes.copy_from_slice(&pack(words).to_be_bytes()[4..]);
    }
}

/// Bytes written from a nibble on.
struct Writer<'a> {
    bytes: &'a mut [u8],
    at: usize,
    half: bool,
}

impl Writer<'_> {
    fn put_count(&mut self, count: u32) {
        if self.half {
            self.bytes[self.at] |= count as u8;
            self.at += 1;
        } else {
            self.bytes[self.at] = (count << 4) as u8;
        }
        self.half = !self.half;
    }

    fn put_message(&mut self, message: &MessageWords) {
        let [height @ .., stamp] = message;
        let bits = pack(height) << 32 | u128::from(*stamp);
        if self.half {
            self.bytes[self.at] |= (bits >> 124) as u8;
            self.bytes[self.at + 1..][..16].copy_from_slice(&(bits << 4).to_be_bytes());
        } else {
            self.bytes[self.at..][..16].copy_from_slice(&bits.to_be_bytes());
        }
        self.at += 16;
    }

    fn put_channel(&mut self, cell: &Cell) {
        self.put_count(cell[0]);
        let (places, _) = cell[1..].as_chunks();
        let used = &places[..cell[0] as usize];
        used.iter().for_each(|message| self.put_message(message));
    }
}
