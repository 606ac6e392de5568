//! Events on tables: the checks in their order, the decision, and the words it changes.

use super::channels::{first_message, message, pop, push};
use super::check::checked;
use super::heights::{height, height_mut, Height};
use super::refusals::{
    Refusal, ALREADY_DOWN, ALREADY_UP, CHANNEL_FULL, CLOCK_END, NO_MESSAGE, STATION,
};
use super::rules::{after_down, hear, Decision};
use super::sets::{has, members, only};
use super::words::{row_words, Cell, HeightWords, HEIGHT, PLACES};
use crate::abi::Answer;

/// Channel u to v goes up.
#[inline(never)]
pub fn up(n: u32, u: u32, v: u32, nodes: &mut [u32], channels: &mut [u32]) -> Answer {
    let done = Plot::of(n, nodes, channels).and_then(|plot| plot.up(u, v));
    done.map_or_else(refused, |done| done.answer())
}

/// Channel u to v goes down.
#[inline(never)]
pub fn down(n: u32, u: u32, v: u32, nodes: &mut [u32], channels: &mut [u32]) -> Answer {
    let done = Plot::of(n, nodes, channels).and_then(|plot| plot.down(u, v));
    done.map_or_else(refused, |done| done.answer())
}

/// The first message of channel `from` to `to` is received.
#[inline(never)]
pub fn receive(n: u32, from: u32, to: u32, nodes: &mut [u32], channels: &mut [u32]) -> Answer {
    let done = Plot::of(n, nodes, channels).and_then(|plot| plot.receive(from, to));
    done.map_or_else(refused, |done| done.answer())
}

/// The answer of a refused event.
fn refused(refusal: Refusal) -> Answer {
    Answer {
        number: refusal.number,
        fault_at: refusal.at,
        fault_with: refusal.with,
        rule: u32::from(b'-'),
        sent_to: 0,
        sent: 0,
        adopted_from: 0,
        level_tau: 0,
        level_originator: 0,
        level_bit: 0,
    }
}

/// Sound tables of n stations.
struct Plot<'a> {
    n: usize,
    nodes: &'a mut [u32],
    cells: &'a mut [Cell],
}

impl<'a> Plot<'a> {
    /// The tables after refusals 1, 2 and 18.
    fn of(n: u32, nodes: &'a mut [u32], channels: &'a mut [u32]) -> Result<Plot<'a>, Refusal> {
        let n = checked(n, nodes, channels)?;
        let (cells, _) = channels.as_chunks_mut();
        Ok(Plot { n, nodes, cells })
    }

    fn row(&self, u: usize) -> &[u32] {
        &self.nodes[u * row_words(self.n)..][..row_words(self.n)]
    }

    fn row_mut(&mut self, u: usize) -> &mut [u32] {
        &mut self.nodes[u * row_words(self.n)..][..row_words(self.n)]
    }

    fn cell_mut(&mut self, u: usize, v: usize) -> &mut Cell {
        &mut self.cells[u * self.n + v]
    }

    /// Two different stations, or refusal 3.
    fn two(&self, u: u32, v: u32) -> Result<(usize, usize), Refusal> {
        let stations = 1..=self.n as u32;
        let right = stations.contains(&u) && stations.contains(&v) && u != v;
        right
            .then(|| (u as usize - 1, v as usize - 1))
            .ok_or(STATION)
    }

    fn up(mut self, u: u32, v: u32) -> Result<Decision, Refusal> {
        let (u, v) = self.two(u, v)?;
        let row = self.row(u);
        if has(row[1] | row[2], v) {
            return Err(ALREADY_UP);
        }
        let clock = after(row[0])?;
        let done = Decision::of(b'U', height(row, u), only(v));
        self.send(u, clock, &done)?;
        self.row_mut(u)[2] |= only(v);
        Ok(done)
    }

    fn down(mut self, u: u32, v: u32) -> Result<Decision, Refusal> {
        let (u, v) = self.two(u, v)?;
        let row = self.row(u);
        if !has(row[1] | row[2], v) {
            return Err(ALREADY_DOWN);
        }
        let clock = after(row[0])?;
        let (linked, forming) = (row[1] & !only(v), row[2] & !only(v));
        let done = after_down(row, u, clock, linked, forming);
        self.send(u, clock, &done)?;
        self.set_view(u, v, linked, forming, &[0; HEIGHT]);
        self.cell_mut(u, v).fill(0);
        Ok(done)
    }

    fn receive(mut self, from: u32, to: u32) -> Result<Decision, Refusal> {
        let (v, u) = self.two(from, to)?;
        let Some(message) = first_message(self.cell_mut(v, u)) else {
            return Err(NO_MESSAGE);
        };
        let row = self.row(u);
        let (linked, forming) = (row[1], row[2]);
        let [view @ .., stamp] = message;
        let clock = after(row[0].max(stamp))?;
        let done = if has(linked | forming, v) {
            let (linked, forming) = (linked | only(v), forming & !only(v));
            let done = hear(row, u, v, clock, linked, forming, Height::of(&view))?;
            self.send(u, clock, &done)?;
            self.set_view(u, v, linked, forming, &view);
            done
        } else {
            let done = Decision::of(b'I', height(row, u), 0);
            self.row_mut(u)[0] = clock;
            done
        };
        pop(self.cell_mut(v, u));
        Ok(done)
    }

    /// Stores the clock and the own height and sends it, or refusal 9 before any word changes.
    fn send(&mut self, u: usize, clock: u32, done: &Decision) -> Result<(), Refusal> {
        let cells = &mut self.cells[u * self.n..][..self.n];
        let mut to = members(done.sent_to);
        if to.clone().any(|v| cells[v][0] as usize >= PLACES) {
            return Err(CHANNEL_FULL);
        }
        let own = done.own.words();
        to.by_ref()
            .for_each(|v| push(&mut cells[v], &message(own, clock)));
        let row = self.row_mut(u);
        row[0] = clock;
        height_mut(row, u).copy_from_slice(&own);
        Ok(())
    }

    /// Stores both sets of u and its view of v.
    fn set_view(&mut self, u: usize, v: usize, linked: u32, forming: u32, view: &HeightWords) {
        let row = self.row_mut(u);
        row[1] = linked;
        row[2] = forming;
        height_mut(row, v).copy_from_slice(view);
    }
}

/// One more than a clock or stamp, or refusal 7.
fn after(clock: u32) -> Result<u32, Refusal> {
    clock.checked_add(1).ok_or(CLOCK_END)
}
