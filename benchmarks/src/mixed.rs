//! Mixed plots: sound and timely, and alike in no two places, so that no jump of a check is foreseen.

use crate::abi;
use crate::plots::Tables;
use crate::random::Random;

/// The earliest time, before every stamp; the clocks are up to `SPAN` after it.
const EARLY: u32 = 50;
const SPAN: u32 = 10_000;

impl Tables {
    /// Levels, depths, leader pairs, views, counts, clocks and stamps that differ, some channels forming and some down: one plot for each
    /// seed. Stations 1 and 2 lead themselves, so that neither is a sink and a down or a receipt of 1 to 2 sends nothing.
    pub fn mixed(n: u32, seed: u64) -> Tables {
        let mut tables = Tables::fresh(n);
        let random = &mut Random::new(1000 * u64::from(n) + seed);
        for u in 1..=n {
            tables.mix_station(u, random);
            for v in (1..=n).filter(|&v| v != u) {
                tables.mix_pair(u, v, random);
            }
        }
        assert_eq!(abi::check(n, &tables.nodes, &tables.channels).number, 0);
        tables
    }

    /// The clock and the own height of station u.
    fn mix_station(&mut self, u: u32, random: &mut Random) {
        let clock = EARLY + random.up_to(SPAN);
        let mut own = height(self.n, u, clock, random);
        if u <= 2 {
            own[4..6].copy_from_slice(&[EARLY, u]);
        }
        self.row(u)[0] = clock;
        self.hold(u, u, &own);
    }

    /// Channel u to v is down, forming, or linked with a view; one that is up has 0 to 8 messages. 1 stays linked when it loses 2.
    fn mix_pair(&mut self, u: u32, v: u32, random: &mut Random) {
        let stays = matches!((u, v), (1, 2 | 3) | (2, 1));
        match random.below(8) {
            0 | 1 if !stays => return,
            2 if !stays => self.row(u)[2] |= 1 << (v - 1),
            _ => {
                self.row(u)[1] |= 1 << (v - 1);
                let view = height(self.n, v, self.row(u)[0], random);
                self.hold(u, v, &view);
            }
        }
        let waiting = if (u, v) == (1, 2) { 4 } else { random.below(9) };
        self.mix_channel(u, v, waiting, random);
    }

    /// Messages with any stamps up to the clock of u. Those of 1 to 2 have the leader pair of 2, which hears them by rule Q.
    fn mix_channel(&mut self, u: u32, v: u32, waiting: usize, random: &mut Random) {
        let (n, clock) = (self.n, self.row(u)[0]);
        let cell = self.cell(u, v);
        cell[0] = waiting as u32;
        for place in cell[1..].chunks_exact_mut(8).take(waiting) {
            let stamp = EARLY + random.up_to(clock - EARLY);
            place[..7].copy_from_slice(&height(n, u, stamp, random));
            place[7] = stamp;
            if (u, v) == (1, 2) {
                place[4..6].copy_from_slice(&[EARLY, 2]);
            }
        }
    }
}

/// A height of station k with times up to this one; one in two has a search, one in two an election.
fn height(n: u32, k: u32, time: u32, random: &mut Random) -> [u32; 7] {
    let [tau, originator, bit] = match random.below(2) {
        0 => [0; 3],
        _ => [random.up_to(time), random.up_to(n), random.below(2) as u32],
    };
    let depth = (random.below(41) as u32).wrapping_sub(20);
    let elected = random.below(2) as u32 * random.up_to(time);
    [tau, originator, bit, depth, elected, random.up_to(n), k]
}
