//! Where the times of a plot stand, in its tables and in its image, and what each must not pass.

use crate::plots::Tables;

/// A search time, an election time or a stamp.
pub struct Time {
    /// Its word, in the stations' table and behind it the channels'.
    at: usize,
    /// Its first bit in the image.
    bit: usize,
    /// The clock of the station that holds it, or the stamp of the message.
    pub limit: u32,
}

impl Time {
    /// Writes it into the tables and into their image.
    pub fn put(&self, word: u32, tables: &mut Tables, image: &mut [u8]) {
        match self.at.checked_sub(tables.nodes.len()) {
            Some(at) => tables.channels[at] = word,
            None => tables.nodes[self.at] = word,
        }
        for k in 0..32 {
            let (at, shift) = ((self.bit + k) / 8, 7 - (self.bit + k) % 8);
            let one = (word >> (31 - k) & 1) as u8;
            image[at] = image[at] & !(1 << shift) | one << shift;
        }
    }
}

/// The times of sound tables. A height without a search has no search time to change.
pub fn of(tables: &Tables) -> Vec<Time> {
    let mut found = held(tables);
    found.extend(sent(tables));
    found
}

/// The times in the stations' heights.
fn held(tables: &Tables) -> Vec<Time> {
    let n = tables.n as usize;
    let mut found = Vec::new();
    for (u, row) in tables.nodes.chunks_exact(3 + 7 * n).enumerate() {
        for (k, height) in row[3..].chunks_exact(7).enumerate() {
            let at = u * row.len() + 3 + 7 * k;
            let bit = 32 + u * (64 + 96 * n) + 64 + 96 * k;
            found.extend(in_height(height, at, bit, row[0]));
        }
    }
    found
}

/// The times and stamps of the messages.
fn sent(tables: &Tables) -> Vec<Time> {
    let n = tables.n as usize;
    let (mut found, mut bit) = (Vec::new(), 32 + n * (64 + 96 * n));
    for (place, cell) in tables.channels.chunks_exact(65).enumerate() {
        let (u, v) = (place / n, place % n);
        if u == v {
            continue;
        }
        bit += 4;
        for k in 0..cell[0] as usize {
            let message = &cell[1 + 8 * k..][..8];
            let at = tables.nodes.len() + 65 * place + 1 + 8 * k;
            found.extend(in_height(&message[..7], at, bit, message[7]));
            found.push(Time {
                at: at + 7,
                bit: bit + 96,
                limit: tables.nodes[u * (3 + 7 * n)],
            });
            bit += 128;
        }
    }
    found
}

/// The election time of a height that is there, and its search time if it has a search.
fn in_height(height: &[u32], at: usize, bit: usize, limit: u32) -> impl Iterator<Item = Time> {
    let search = (height[1] != 0).then_some(Time { at, bit, limit });
    let election = (height[6] != 0).then_some(Time {
        at: at + 4,
        bit: bit + 54,
        limit,
    });
    search.into_iter().chain(election)
}
