//! The words of the tables: how many make a height, a message, a channel and a row.

/// The words of a height, of a message and of a channel.
pub const HEIGHT: usize = 7;
pub const MESSAGE: usize = HEIGHT + 1;
pub const PLACES: usize = 8;
pub const CELL: usize = 1 + PLACES * MESSAGE;
/// The words of a row before its heights: clock, N, F.
pub const HEAD: usize = 3;

pub type HeightWords = [u32; HEIGHT];
pub type MessageWords = [u32; MESSAGE];
pub type Cell = [u32; CELL];

/// The words of a row.
pub fn row_words(n: usize) -> usize {
    HEAD + HEIGHT * n
}
