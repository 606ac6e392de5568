//! Document 01, "What a station holds": links, groups and collectors on plots made by hand, and
//! `group_of` (READINGS.md, 1.8).

use crate::plot::Plot;
use crate::quiet::{Group, group_of, groups, is_quiet, lowest_members};
use crate::refusal::Refusal;
use crate::worked_plots::{form, hold, link, send};
use std::collections::BTreeSet;

/// Five stations: 5, 2 and 4 linked in a row, by N and by F; 3 to 1 up one way only. The leader of
/// 4 is 2, that of 5 is 1.
fn plot_5() -> Plot {
    let mut plot = Plot::fresh(5);
    link(&mut plot, 5, 2, [0, 0, 0, 0, 0, 2, 2]);
    form(&mut plot, 2, 5);
    form(&mut plot, 2, 4);
    form(&mut plot, 4, 2);
    form(&mut plot, 3, 1);
    hold(&mut plot, 4, 1, [0, 0, 0, 1, 0, 2, 4]);
    hold(&mut plot, 5, 1, [0, 0, 0, 1, 0, 1, 5]);
    plot
}

fn group(members: &[i64], collectors: &[i64]) -> Result<Group, Refusal> {
    Ok(Group {
        members: members.iter().copied().collect(),
        collectors: collectors.iter().copied().collect(),
    })
}

#[test]
fn groups_of_links_both_ways() {
    let plot = plot_5();
    let parts = [&[1][..], &[2, 4, 5], &[3]];
    let parts = parts.map(|part| part.iter().copied().collect::<BTreeSet<i64>>());
    assert_eq!(groups(&plot), parts);
    assert_eq!(lowest_members(&plot), BTreeSet::from([1, 2, 3]));
    assert_eq!(lowest_members(&Plot::fresh(2)), BTreeSet::from([1, 2]));
}

#[test]
fn no_collector_one_and_several() {
    let mut plot = plot_5();
    for u in [2, 4, 5] {
        assert_eq!(group_of(&plot, u), group(&[2, 4, 5], &[2]));
    }
    assert_eq!(group_of(&plot, 4).unwrap().collector(), Some(2));
    hold(&mut plot, 5, 1, [0, 0, 0, 1, 0, 5, 5]);
    assert_eq!(group_of(&plot, 4), group(&[2, 4, 5], &[2, 5]));
    assert_eq!(group_of(&plot, 4).unwrap().collector(), None);
    hold(&mut plot, 3, 1, [0, 0, 0, 1, 0, 1, 3]);
    assert_eq!(group_of(&plot, 3), group(&[3], &[]));
    assert_eq!(group_of(&plot, 3).unwrap().collector(), None);
    for u in [i64::MIN, -1, 0, 6, i64::MAX] {
        assert_eq!(group_of(&plot, u), Err(Refusal::Station));
    }
}

#[test]
fn quiet_asks_for_channels_and_messages() {
    let mut plot = plot_5();
    assert!(!is_quiet(&plot), "3 to 1 is up one way");
    form(&mut plot, 1, 3);
    assert!(is_quiet(&plot), "whoever is a collector");
    hold(&mut plot, 1, 1, [0, 0, 0, 0, 0, 1, 1]);
    send(&mut plot, 1, 3, [0, 0, 0, 0, 0, 1, 1], 1);
    assert!(!is_quiet(&plot), "a message waits");
}
