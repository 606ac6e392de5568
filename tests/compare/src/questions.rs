//! The questions in both: quiet, the lowest stations of the groups, the group of any number, and how many stations a header tells.

use crate::beside::{assert_same, expected_check, number_of};
use crate::events::{likely_pairs, of_those};
use crate::ffi;
use crate::planted;
use crate::random::Random;
use crate::tally::Tally;
use crate::times;
use reference::image;
use reference::plot::{Plot, ordered_pairs};
use reference::quiet::{self, Group};
use reference::refusal::Refusal;
use reference::tables::{self, Tables};

/// Tables to ask, and what the reference finds in them: a plot, or refusal 1, 2 or 18.
pub struct Asked<'a> {
    pub n: i64,
    pub lent: &'a Tables,
    pub plot: Result<&'a Plot, Refusal>,
}

/// Numbers above every n that fewer bits would take for a station's.
const FAR: [i64; 8] = [17, 32, 33, 64, 65, 257, 65_537, u32::MAX as i64];

/// Every question about any tables.
pub fn compare_questions(n: i64, lent: &Tables, tally: &mut Tally) {
    let loaded = tables::load(n, &lent.nodes, &lent.channels);
    let plot = loaded.as_ref().map_err(|&refusal| refusal);
    Asked { n, lent, plot }.compare_all(&FAR, tally);
}

impl Asked<'_> {
    /// Quiet, the groups, and the group of every number from 0 to n + 1, at most 17, and of these. Nothing lent changes.
    pub fn compare_all(&self, others: &[i64], tally: &mut Tally) {
        let before = self.lent.clone();
        self.compare_plot(tally);
        let near = 0..=self.n.min(16) + 1;
        for u in near.chain(others.iter().copied()) {
            self.compare_group_of(u, tally);
        }
        assert_same(&before, self.lent);
        if let Ok(plot) = self.plot {
            note_links(plot, tally);
        }
    }

    /// Quiet, and the set of the lowest stations of all groups.
    pub fn compare_plot(&self, tally: &mut Tally) {
        let (n, lent) = (self.n as u32, self.lent);
        let quiet = self.plot.map(|plot| u32::from(quiet::is_quiet(plot)));
        let answer = ffi::quiet(n, &lent.nodes, &lent.channels);
        assert_eq!(answer, expected_value(quiet), "quiet");
        let lowest = |plot: &Plot| tables::set_word(&quiet::lowest_members(plot));
        let groups = self.plot.map(lowest);
        let answer = ffi::groups(n, &lent.nodes, &lent.channels);
        assert_eq!(answer, expected_value(groups), "groups");
        tally.note(format!("quiet {}", number_of(&quiet)));
        tally.note(format!("groups {}", number_of(&groups)));
        if let Ok(plot) = self.plot {
            note_quiet(plot, tally);
        }
    }

    /// The group of any number.
    pub fn compare_group_of(&self, u: i64, tally: &mut Tally) {
        let (n, lent) = (self.n as u32, self.lent);
        let group = self.plot.and_then(|plot| quiet::group_of(plot, u));
        let answer = ffi::group_of(n, u as u32, &lent.nodes, &lent.channels);
        assert_eq!(answer, expected_group(&group), "group of {u}");
        let number = number_of(&group);
        tally.note(match group {
            Err(_) if number != 3 && !(1..=self.n).contains(&u) => {
                format!("group of {number} before 3")
            }
            Err(_) => format!("group of {number}"),
            Ok(group) => format!("group of 0, collectors: {}", how_many(&group)),
        });
    }
}

/// The interface's form of an answer of one number.
fn expected_value(answer: Result<u32, Refusal>) -> ffi::Value {
    let check = expected_check(answer.map(|_| ()));
    ffi::Value {
        number: check.number,
        fault_at: check.fault_at,
        fault_with: check.fault_with,
        value: answer.unwrap_or(0),
    }
}

/// The interface's form of a group; zeros if refused.
fn expected_group(answer: &Result<Group, Refusal>) -> ffi::Group {
    let check = expected_check(answer.as_ref().map(|_| ()).map_err(|&refusal| refusal));
    let group = answer.as_ref().ok();
    let collector = group.and_then(Group::collector);
    ffi::Group {
        number: check.number,
        fault_at: check.fault_at,
        fault_with: check.fault_with,
        members: group.map_or(0, |group| tables::set_word(&group.members)),
        collectors: group.map_or(0, |group| tables::set_word(&group.collectors)),
        collector: collector.unwrap_or(0) as u32,
    }
}

fn how_many(group: &Group) -> &'static str {
    match group.collectors.len() {
        0 => "none",
        1 => "one",
        _ => "several",
    }
}

/// The channels that are up one way only.
fn one_way(plot: &Plot) -> Vec<(i64, i64)> {
    let pairs = ordered_pairs(plot.n);
    of_those(&pairs, |u, v| plot.is_up(u, v) && !plot.is_up(v, u))
}

/// Counts what keeps a plot from being quiet.
fn note_quiet(plot: &Plot, tally: &mut Tally) {
    let waits = plot.channels.values().any(|waiting| !waiting.is_empty());
    tally.note(match (waits, one_way(plot).is_empty()) {
        (false, true) => "asked: quiet",
        (true, true) => "asked: only messages wait",
        (false, false) => "asked: only channels one way",
        (true, false) => "asked: messages and channels one way",
    });
}

/// Counts plots on which a link by one channel, or a collector of another group, would be noticed.
fn note_links(plot: &Plot, tally: &mut Tally) {
    let groups = quiet::groups(plot);
    let apart = |u, v| !groups.iter().any(|g| g.contains(&u) && g.contains(&v));
    if one_way(plot).into_iter().any(|(u, v)| apart(u, v)) {
        tally.note("asked: a channel one way between groups");
    }
    let led = |group: &_| !quiet::collectors(plot, group).is_empty();
    if groups.iter().filter(|group| led(group)).count() > 1 {
        tally.note("asked: collectors in two groups");
    }
    if quiet::is_quiet(plot) && !groups.iter().all(led) {
        tally.note("asked: quiet with a group that has no collector");
    }
}

/// A planted plot with groups of every size, asked everything; rarely with a time beyond its clock.
pub fn planted_groups(seed: u64, tally: &mut Tally) {
    let mut random = Random::new(seed);
    let n = random.between(1, 16);
    let pairs = likely_pairs(n, &mut random);
    let mut plot = planted::grouped_plot(n, &pairs, &mut random);
    if random.chance(5) {
        times::put_any_beyond(&mut plot, &mut random);
    }
    compare_questions(n, &tables::store(&plot), tally);
}

/// How many stations the header of any bytes tells, which may be less than 4; the same whatever follows the header.
pub fn compare_stations(image: &[u8], tally: &mut Tally) -> ffi::Value {
    let expected = image::header(image).map(|n| n as u32);
    let lent = image.to_vec();
    let answer = ffi::image_stations(&lent);
    assert_eq!(answer, expected_value(expected), "stations of an image");
    assert!(lent == image, "bytes of an image");
    let header = image[..image.len().min(4)].to_vec();
    let alone = ffi::image_stations(&header);
    assert_eq!(alone, answer, "stations of a header alone");
    tally.note(format!("stations {}", number_of(&expected)));
    answer
}
