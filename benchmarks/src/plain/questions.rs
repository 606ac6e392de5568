//! Quiet, groups and collectors: what tables that pass the check show of a whole plot.

use super::check::checked;
use super::refusals::{Refusal, STATION};
use super::sets::{has, members, only};
use super::words::{row_words, CELL, HEAD, HEIGHT};
use crate::abi::{Group, Value};

/// Who is up from each station, and who is linked with it.
struct Links {
    n: usize,
    ups: [u32; 16],
    links: [u32; 16],
}

impl Links {
    fn of(n: usize, nodes: &[u32]) -> Links {
        let (mut ups, mut links) = ([0; 16], [0; 16]);
        for (up, row) in ups.iter_mut().zip(nodes.chunks_exact(row_words(n))) {
            *up = row[1] | row[2];
        }
        for u in 0..n {
            links[u] = members(ups[u])
                .filter(|&v| has(ups[v], u))
                .fold(0, |set, v| set | only(v));
        }
        Links { n, ups, links }
    }

    /// Everybody joined with u by links.
    fn group(&self, u: usize) -> u32 {
        let (mut group, mut open) = (only(u), only(u));
        while open != 0 {
            let near = members(open).fold(0, |set, v| set | self.links[v]);
            open = near & !group;
            group |= near;
        }
        group
    }

    /// The lowest stations of all groups.
    fn heads(&self) -> u32 {
        let (mut heads, mut left) = (0, (1u32 << self.n) - 1);
        while left != 0 {
            let u = left.trailing_zeros() as usize;
            heads |= only(u);
            left &= !self.group(u);
        }
        heads
    }
}

fn value(found: Result<u32, Refusal>) -> Value {
    let refusal = found.err().unwrap_or(Refusal::of(0));
    Value {
        number: refusal.number,
        fault_at: refusal.at,
        fault_with: refusal.with,
        value: found.unwrap_or(0),
    }
}

/// 1 if the plot is quiet, 0 if not.
#[inline(never)]
pub fn quiet(n: u32, nodes: &[u32], channels: &[u32]) -> Value {
    value(checked(n, nodes, channels).map(|n| {
        let links = Links::of(n, nodes);
        let empty = channels.chunks_exact(CELL).all(|cell| cell[0] == 0);
        u32::from(empty && links.ups == links.links)
    }))
}

/// The lowest stations of all groups.
#[inline(never)]
pub fn groups(n: u32, nodes: &[u32], channels: &[u32]) -> Value {
    value(checked(n, nodes, channels).map(|n| Links::of(n, nodes).heads()))
}

/// The group of u, and its collectors.
#[inline(never)]
pub fn group_of(n: u32, u: u32, nodes: &[u32], channels: &[u32]) -> Group {
    let found = checked(n, nodes, channels).and_then(|n| {
        let u = (u as usize).wrapping_sub(1);
        let group = (u < n)
            .then(|| Links::of(n, nodes).group(u))
            .ok_or(STATION)?;
        let width = row_words(n);
        let leads = |k: &usize| nodes[k * width + HEAD + k * HEIGHT + 5] == *k as u32 + 1;
        Ok((
            group,
            members(group).filter(leads).fold(0, |set, k| set | only(k)),
        ))
    });
    let refusal = found.err().unwrap_or(Refusal::of(0));
    let (members, collectors) = found.unwrap_or((0, 0));
    Group {
        number: refusal.number,
        fault_at: refusal.at,
        fault_with: refusal.with,
        members,
        collectors,
        collector: match collectors.count_ones() {
            1 => collectors.trailing_zeros() + 1,
            _ => 0,
        },
    }
}
