//! The plots that are measured: fresh ones, all-linked ones with some messages on every channel, and those of `mixed`.

use crate::abi;

/// The two lent tables of n stations.
#[derive(Clone, Debug, PartialEq, Eq)]
pub struct Tables {
    pub n: u32,
    pub nodes: Vec<u32>,
    pub channels: Vec<u32>,
}

impl Tables {
    /// The fresh plot.
    pub fn fresh(n: u32) -> Tables {
        let mut nodes = vec![0; abi::nodes_len(n)];
        let mut channels = vec![0; abi::channels_len(n)];
        let done = abi::fresh(n, &mut nodes, &mut channels);
        assert_eq!(done.number, 0, "fresh plot of {n}");
        Tables { n, nodes, channels }
    }

    /// Every station linked to every other, 1 the collector, `waiting` messages on every channel.
    pub fn linked(n: u32, waiting: u32) -> Tables {
        let mut tables = Tables::fresh(n);
        for u in 1..=n {
            tables.link(u);
            for v in (1..=n).filter(|&v| v != u) {
                tables.fill(u, v, waiting);
            }
        }
        assert_eq!(abi::check(n, &tables.nodes, &tables.channels).number, 0);
        tables
    }

    /// The words of both tables.
    pub fn words(&self) -> usize {
        self.nodes.len() + self.channels.len()
    }

    /// The words of station u.
    pub fn row(&mut self, u: u32) -> &mut [u32] {
        let len = 3 + 7 * self.n as usize;
        &mut self.nodes[(u as usize - 1) * len..][..len]
    }

    /// The words of channel u to v.
    pub fn cell(&mut self, u: u32, v: u32) -> &mut [u32] {
        let place = (u - 1) * self.n + v - 1;
        &mut self.channels[65 * place as usize..][..65]
    }

    /// The image of these tables.
    pub fn image(&self) -> Vec<u8> {
        let mut out = vec![0; abi::image_len(self.n)];
        let saved = abi::save(self.n, &self.nodes, &self.channels, &mut out);
        assert_eq!(saved.number, 0, "sound tables");
        out.truncate(saved.size as usize);
        out
    }

    /// Links station u to all others.
    fn link(&mut self, u: u32) {
        let n = self.n;
        let row = self.row(u);
        row[0] = CLOCK;
        row[1] = ((1 << n) - 1) & !(1 << (u - 1));
        for k in 1..=n {
            self.hold(u, k, &height(k));
        }
    }

    /// Station u holds this height of k.
    pub fn hold(&mut self, u: u32, k: u32, height: &[u32; 7]) {
        self.row(u)[3 + 7 * (k as usize - 1)..][..7].copy_from_slice(height);
    }

    /// Puts messages on channel u to v.
    fn fill(&mut self, u: u32, v: u32, waiting: u32) {
        let cell = self.cell(u, v);
        cell[0] = waiting;
        for place in cell[1..].chunks_exact_mut(8).take(waiting as usize) {
            place[..7].copy_from_slice(&height(u));
            place[7] = CLOCK;
        }
    }
}

/// Every clock and stamp.
const CLOCK: u32 = 100;

/// Station 1 leads; the others are one step from it.
fn height(k: u32) -> [u32; 7] {
    [0, 0, 0, u32::from(k > 1), 0, 1, k]
}
