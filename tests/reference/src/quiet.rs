//! Document 01, "What a station holds" (collectors, links, groups) and "Lists of calls" (chains):
//! what demand 3 says of a quiet plot. READINGS.md tells what "quiet" is taken to be.

use crate::plot::{Plot, ordered_pairs};
use crate::refusal::Refusal;
use std::collections::BTreeSet;

/// What is told of one station's group: its members, and those of them that are collectors.
#[derive(Clone, Debug, PartialEq, Eq)]
pub struct Group {
    pub members: BTreeSet<i64>,
    pub collectors: BTreeSet<i64>,
}

impl Group {
    /// The collector, where there is one and no second.
    pub fn collector(&self) -> Option<i64> {
        let first = self.collectors.first().copied();
        first.filter(|_| self.collectors.len() == 1)
    }
}

/// The premise of demand 3, from its two measures (01, 7.8 and 7.9): no message waits on any channel,
/// and between any two stations both channels are up or both are down.
pub fn is_quiet(plot: &Plot) -> bool {
    ordered_pairs(plot.n)
        .into_iter()
        .all(|(u, v)| plot.waiting(u, v).is_empty() && plot.is_up(u, v) == plot.is_up(v, u))
}

/// 01, 2.23 and 7.12: the groups, by their smallest members, ascending.
pub fn groups(plot: &Plot) -> Vec<BTreeSet<i64>> {
    let mut found: Vec<BTreeSet<i64>> = Vec::new();
    for start in 1..=plot.n {
        if !found.iter().any(|group| group.contains(&start)) {
            found.push(reached(plot, start, |u, v| plot.are_linked(u, v)));
        }
    }
    found
}

/// The smallest member of each group.
pub fn lowest_members(plot: &Plot) -> BTreeSet<i64> {
    let groups = groups(plot);
    groups.iter().filter_map(BTreeSet::first).copied().collect()
}

/// The group that station u is in (01, 2.23), or 3 for a number that is no station's (01, 5.5). The
/// checks 1, 2 and 18 come before: they are those of `load`.
pub fn group_of(plot: &Plot, u: i64) -> Result<Group, Refusal> {
    let mut all = groups(plot).into_iter();
    let members = all.find(|group| group.contains(&u));
    let members = members.ok_or(Refusal::Station)?;
    let collectors = collectors(plot, &members).into_iter().collect();
    Ok(Group {
        members,
        collectors,
    })
}

/// The stations met from `start`, it included, by steps that are allowed.
fn reached(plot: &Plot, start: i64, allowed: impl Fn(i64, i64) -> bool) -> BTreeSet<i64> {
    let mut met = BTreeSet::from([start]);
    let mut open = vec![start];
    while let Some(u) = open.pop() {
        let next: Vec<i64> = (1..=plot.n)
            .filter(|v| !met.contains(v) && allowed(u, *v))
            .collect();
        met.extend(next.iter().copied());
        open.extend(next);
    }
    met
}

/// 01, 2.21: the collectors of a group, ascending.
pub fn collectors(plot: &Plot, group: &BTreeSet<i64>) -> Vec<i64> {
    let members = group.iter().copied();
    members
        .filter(|k| plot.station(*k).is_collector())
        .collect()
}

/// 01, 7.13: whether a chain leads from `start` to `end`. A station alone is such a row.
pub fn chain_falls(plot: &Plot, start: i64, end: i64) -> bool {
    let falls = |u: i64, v: i64| plot.are_linked(u, v) && plot.station(u).own > plot.station(v).own;
    reached(plot, start, falls).contains(&end)
}

/// The claim of demand 3: one collector in each group and no second, and falling chains to it.
pub fn settled(plot: &Plot) -> Result<(), String> {
    for group in groups(plot) {
        let found = collectors(plot, &group);
        let [collector] = found[..] else {
            return Err(format!("group {group:?} has the collectors {found:?}"));
        };
        let stray = group.iter().find(|k| !chain_falls(plot, **k, collector));
        if let Some(k) = stray {
            return Err(format!(
                "no falling chain from {k} to collector {collector}"
            ));
        }
    }
    Ok(())
}
