//! The check of the tables: their lengths, then each pair of stations.

use super::refusals::{checked_answer, Refusal, SIZES};
use super::sets::has;
use super::words::{row_words, Cell, HeightWords, MessageWords, CELL, HEAD, HEIGHT, MESSAGE};
use crate::abi::Checked;

/// Refusals 1, 2 and 18.
#[inline(never)]
pub fn check(n: u32, nodes: &[u32], channels: &[u32]) -> Checked {
    checked_answer(checked(n, nodes, channels))
}

/// The station count as a length, if the tables have the lengths for it.
pub fn sizes(n: u32, nodes: usize, channels: usize) -> Result<usize, Refusal> {
    let m = n as usize;
    let right = (1..=16).contains(&n) && nodes == m * row_words(m) && channels == m * m * CELL;
    right.then_some(m).ok_or(SIZES)
}

/// Refusals 1, 2 and 18, in this order. One walk finds both: a broken rule ends it, the first untimely pair is kept.
pub fn checked(n: u32, nodes: &[u32], channels: &[u32]) -> Result<usize, Refusal> {
    let n = sizes(n, nodes.len(), channels.len())?;
    let (cells, _) = channels.as_chunks::<CELL>();
    let rows = nodes.chunks_exact(row_words(n));
    let mut search = Search::default();
    for (u, (row, cells)) in rows.zip(cells.chunks_exact(n)).enumerate() {
        let holder = Holder::of(n as u32, u, [row[0], row[1], row[2]]);
        let (heights, _) = row[HEAD..].as_chunks::<HEIGHT>();
        for (v, (height, cell)) in heights.iter().zip(cells).enumerate() {
            search.meets(u, v, holder.place(v, height, cell))?;
        }
    }
    search.ends().map(|()| n)
}

/// A walk over the pairs, and the first untimely one met.
#[derive(Default)]
pub struct Search {
    untimely: Option<Refusal>,
}

impl Search {
    /// A pair whose times make sense or not, or nothing where it breaks a rule: refusal 2.
    pub fn meets(&mut self, u: usize, v: usize, timely: Option<bool>) -> Result<(), Refusal> {
        let timely = timely.ok_or(Refusal::fault(u, v))?;
        if !timely {
            self.untimely.get_or_insert(Refusal::untimely(u, v));
        }
        Ok(())
    }

    /// No pair breaks a rule: refusal 18, if one is untimely.
    pub fn ends(self) -> Result<(), Refusal> {
        self.untimely.map_or(Ok(()), Err)
    }
}

/// Station u with its clock and sets. A test says whether the times make sense, or nothing where a rule is broken.
pub struct Holder {
    n: u32,
    u: usize,
    clock: u32,
    linked: u32,
    forming: u32,
}

impl Holder {
    pub fn of(n: u32, u: usize, [clock, linked, forming]: [u32; HEAD]) -> Holder {
        Holder {
            n,
            u,
            clock,
            linked,
            forming,
        }
    }

    /// The place of the pair (u, v).
    fn place(&self, v: usize, height: &HeightWords, cell: &Cell) -> Option<bool> {
        if v == self.u {
            all_zero(cell).then(|| self.own(height))?
        } else {
            let (view, channel) = (self.view(v, height)?, self.channel(v, cell)?);
            Some(view & channel)
        }
    }

    /// Both sets and the own height.
    pub fn own(&self, height: &HeightWords) -> Option<bool> {
        let sound = self.sets_are_sound() && height_is_sound(self.n, self.u, height);
        sound.then_some(times_within(self.clock, height))
    }

    /// What u holds of v: zeros outside N.
    pub fn view(&self, v: usize, height: &HeightWords) -> Option<bool> {
        let sound = if has(self.linked, v) {
            height_is_sound(self.n, v, height)
        } else {
            all_zero(height)
        };
        sound.then_some(times_within(self.clock, height))
    }

    /// The count, the messages and the unused places of the channel to v.
    fn channel(&self, v: usize, cell: &Cell) -> Option<bool> {
        let (places, _) = cell[1..].as_chunks::<MESSAGE>();
        let (used, unused) = places.split_at_checked(cell[0] as usize)?;
        let timely = self.messages(v, used.iter().copied())?;
        all_zero(unused.as_flattened()).then_some(timely)
    }

    /// The messages on the channel to v: none if it is down, each with a sound height of u.
    pub fn messages(
        &self,
        v: usize,
        messages: impl ExactSizeIterator<Item = MessageWords>,
    ) -> Option<bool> {
        let up = has(self.linked | self.forming, v);
        if !up && messages.len() > 0 {
            return None;
        }
        let mut timely = true;
        for [height @ .., stamp] in messages {
            if !height_is_sound(self.n, self.u, &height) {
                return None;
            }
            if stamp > self.clock || !times_within(stamp, &height) {
                timely = false;
            }
        }
        Some(timely)
    }

    /// N and F are disjoint, without u and without bits above station n.
    fn sets_are_sound(&self) -> bool {
        let both = self.linked | self.forming;
        self.linked & self.forming == 0 && !has(both, self.u) && both >> self.n == 0
    }
}

/// A height of station k keeps its ranges. The tests may run in any order, so the compiler chooses one.
fn height_is_sound(n: u32, k: usize, words: &HeightWords) -> bool {
    let [tau, originator, bit, depth, _, leader, station] = *words;
    let level = (originator <= n) & ((tau == 0) == (originator == 0)) & (bit <= u32::from(tau > 0));
    let depth = depth as i32 == i32::from(depth as i16);
    level & depth & (leader.wrapping_sub(1) < n) & (station == k as u32 + 1)
}

/// Neither the search time nor the election time is above a time.
fn times_within(time: u32, words: &HeightWords) -> bool {
    let [tau, _, _, _, elected, _, _] = *words;
    tau <= time && elected <= time
}

/// No branch for each word, so the compiler can take several at once.
fn all_zero(words: &[u32]) -> bool {
    words.iter().fold(0, |all, word| all | word) == 0
}
