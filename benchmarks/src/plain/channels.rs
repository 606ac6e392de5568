//! Channels: messages behind each other in a cell.

use super::words::{Cell, HeightWords, MessageWords, CELL, HEIGHT, MESSAGE};

/// A height and its stamp.
pub fn message(height: HeightWords, stamp: u32) -> MessageWords {
    let mut words = [stamp; MESSAGE];
    words[..HEIGHT].copy_from_slice(&height);
    words
}

pub fn first_message(cell: &Cell) -> Option<MessageWords> {
    (cell[0] > 0).then(|| cell[1..].as_chunks().0[0])
}

/// Puts a message behind the others.
pub fn push(cell: &mut Cell, message: &MessageWords) {
    let count = cell[0] as usize;
    cell[1..].as_chunks_mut().0[count] = *message;
    cell[0] += 1;
}

/// Takes the first message away; places behind the last are zero, so all may move.
pub fn pop(cell: &mut Cell) {
    cell.copy_within(1 + MESSAGE.., 1);
    cell[CELL - MESSAGE..].fill(0);
    cell[0] -= 1;
}
