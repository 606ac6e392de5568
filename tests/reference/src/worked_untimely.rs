//! Request [3] of document 02: where 18 stands among the other numbers. 2 comes first wherever it is; 3
//! and all that follows it come afterwards.

use crate::drawing::draw_into;
use crate::image::{longest, look, place_of, resume, save, write};
use crate::plot::{LAST_CLOCK, MOST_DEPTH, Plot};
use crate::refusal::Refusal;
use crate::step::{Event, Rule};
use crate::tables::{self, Tables, channels_len, nodes_len, row_len, store};
use crate::worked_images::{flipped, resume_number};
use crate::worked_orders::refuses;
use crate::worked_plots::{down, form, heard, hold, link, plot_i, plot_j, send, up};
use crate::worked_times::{all_tell, latest, places, spoil, timed_places};

/// Breaks a rule of document 01 at this pair: an own height, or a message, without a leader.
fn break_rule(plot: &mut Plot, u: i64, v: i64) {
    if u == v {
        plot.stations.get_mut(&u).unwrap().own.pair.leader = 0;
    } else {
        send(plot, u, v, [0, 0, 0, 0, 0, 0, u], 0);
    }
}

/// A fault at any pair, earlier, later or the same.
#[test]
fn faults_2_before_times_18() {
    for (u, v) in timed_places() {
        for (at, with) in places(4) {
            let mut plot = latest();
            spoil(&mut plot, u, v);
            break_rule(&mut plot, at, with);
            all_tell(&plot, (2, Some((at, with))), "2 before 18");
        }
    }
    let mut plot = latest();
    timed_places()
        .into_iter()
        .for_each(|(u, v)| spoil(&mut plot, u, v));
    break_rule(&mut plot, 4, 4);
    all_tell(&plot, (2, Some((4, 4))), "the last pair");
}

/// Plots with an event that each of the numbers behind 18 is for.
fn refused_events() -> Vec<(i64, Plot, Event)> {
    let mut at_end = latest();
    hold(&mut at_end, 4, LAST_CLOCK, [0, 0, 0, 0, 0, 4, 4]);
    let mut full = plot_j(0);
    (0..8).for_each(|_| send(&mut full, 2, 1, [0, 0, 0, 0, 0, 2, 2], 1));
    let mut full_of_7 = plot_i(0, 4);
    (0..8).for_each(|_| send(&mut full_of_7, 5, 7, [0, 0, 0, 0, 0, 1, 5], 1));
    vec![
        (3, latest(), up(0, 1)),
        (3, latest(), down(2, 2)),
        (3, latest(), heard(5, 1)),
        (3, latest(), up(i64::MIN, i64::MAX)),
        (4, latest(), up(1, 2)),
        (5, latest(), down(4, 1)),
        (6, latest(), heard(1, 3)),
        (7, at_end, up(4, 1)),
        (8, plot_j(MOST_DEPTH), heard(1, 2)),
        (9, full, heard(1, 2)),
        (9, full_of_7, heard(6, 5)),
    ]
}

#[test]
fn steps_check_1_2_18_3_and_the_rest() {
    for (number, mut plot, event) in refused_events() {
        let n = plot.n;
        assert_eq!(refuses(n, event, &store(&plot)), (number, None));
        let own = &mut plot.stations.get_mut(&2).unwrap().own;
        own.pair.negated_time = -LAST_CLOCK;
        let untimely = store(&plot);
        assert_eq!(refuses(n, event, &untimely), (18, Some((2, 2))), "{number}");
        for other in [i64::MIN, -1, 0, n - 1, n + 1, 16, 17, i64::MAX] {
            assert_eq!(refuses(other, event, &untimely), (1, None), "{number}");
        }
        let mut longer = untimely.clone();
        longer.channels.push(0);
        assert_eq!(refuses(n, event, &longer), (1, None), "{number}");
        break_rule(&mut plot, n, n);
        assert_eq!(refuses(n, event, &store(&plot)), (2, Some((n, n))));
    }
}

/// How long the image of these tables is, written into this room.
fn saved(n: i64, plot: &Plot, room: usize) -> Result<usize, Refusal> {
    let Tables { nodes, channels } = store(plot);
    save(n, &nodes, &channels, room).map(|image| image.len())
}

/// How long the drawing is; a refusal leaves the room as it was.
fn drawn(n: i64, plot: &Plot, room: usize) -> Result<usize, Refusal> {
    let Tables { nodes, channels } = store(plot);
    let mut lent = vec![7; room];
    let answer = draw_into(n, &nodes, &channels, &mut lent);
    assert!(answer.is_ok() || lent == vec![7; room]);
    answer
}

/// 1, 2, 18, 14, with rooms that are too small and room enough.
#[test]
fn writing_checks_1_2_18_14() {
    for write in [saved, drawn] {
        let mut plot = latest();
        let length = write(4, &plot, longest(4)).unwrap();
        assert_eq!(write(4, &plot, length), Ok(length));
        assert_eq!(write(4, &plot, length - 1), Err(Refusal::Room));
        spoil(&mut plot, 3, 2);
        for room in [0, length - 1, length, longest(4)] {
            let due = Err(Refusal::Untimely { u: 3, v: 2 });
            assert_eq!(write(4, &plot, room), due);
        }
        break_rule(&mut plot, 4, 1);
        assert_eq!(write(4, &plot, 0), Err(Refusal::Fault { u: 4, v: 1 }));
        assert_eq!(write(3, &plot, 0), Err(Refusal::Sizes));
    }
}

/// The bit at which the count of channel 1 to 2 stands.
fn first_count(n: i64) -> i64 {
    place_of(n, n + 1)
}

/// 10, 11, 1, the walk, the end, 2, 18.
#[test]
fn reading_checks_all_of_document_01_then_18() {
    let mut plot = latest();
    spoil(&mut plot, 2, 3);
    let image = write(&plot);
    let refused = |image: &[u8]| resume(image, nodes_len(4), channels_len(4)).unwrap_err();
    assert_eq!(refused(&image), Refusal::Untimely { u: 2, v: 3 });
    (0..4).for_each(|end| assert_eq!(refused(&image[..end]), Refusal::ImageShort));
    for bit in (0..16).chain(21..32) {
        assert_eq!(refused(&flipped(&image, bit)), Refusal::ImageHeader);
    }
    assert_eq!(resume_number(&image, 3), 1);
    let (nodes, channels) = (nodes_len(4), channels_len(4));
    assert_eq!(resume(&image, nodes + 1, channels), Err(Refusal::Sizes));
    assert_eq!(resume(&image, nodes, channels - 1), Err(Refusal::Sizes));
    for end in 4..image.len() {
        assert_eq!(refused(&image[..end]), Refusal::ImageEnd);
    }
    assert_eq!(refused(&[&image[..], &[0]].concat()), Refusal::ImageEnd);
    let above_8 = flipped(&image, first_count(4));
    assert_eq!(refused(&above_8), Refusal::Fault { u: 1, v: 2 }, "count 10");
    break_rule(&mut plot, 4, 3);
    assert_eq!(refused(&write(&plot)), Refusal::Fault { u: 4, v: 3 });
}

/// The same, then 3, then 13; for every station, whichever the time is of.
#[test]
fn looking_checks_18_then_3_then_13() {
    let good = write(&latest());
    let mut plot = latest();
    spoil(&mut plot, 4, 4);
    let image = write(&plot);
    let row = row_len(4);
    let refused = |image: &[u8], k, place, row| look(image, k, place, row).unwrap_err();
    let untimely = Refusal::Untimely { u: 4, v: 4 };
    for k in [i64::MIN, -1, 0, 5, 16, i64::MAX] {
        assert_eq!(refused(&good, k, 32, row), Refusal::Station);
        assert_eq!(refused(&image, k, 32, row), untimely, "18 before 3");
    }
    for k in 1..=4 {
        let right = place_of(4, k) as u64;
        assert!(look(&good, k, right, row).is_ok());
        assert_eq!(
            refused(&image, k, right, row),
            untimely,
            "at the right place"
        );
        for place in [
            0,
            right - 1,
            right + 1,
            place_of(4, k % 4 + 1) as u64,
            u64::MAX,
        ] {
            assert_eq!(refused(&good, k, place, row), Refusal::Place);
            assert_eq!(refused(&image, k, place, row), untimely, "18 before 13");
        }
        assert_eq!(refused(&image, k, right, row - 1), Refusal::Sizes);
        assert_eq!(refused(&image[..4], k, right, row), Refusal::ImageEnd);
    }
    assert_eq!(refused(&image[..3], 9, 0, 0), Refusal::ImageShort);
    assert_eq!(refused(&flipped(&image, 3), 9, 0, 0), Refusal::ImageHeader);
    let longer = [&image[..], &[0]].concat();
    assert_eq!(refused(&longer, 9, 0, row), Refusal::ImageEnd);
    break_rule(&mut plot, 4, 3);
    assert_eq!(
        refused(&write(&plot), 9, 0, row),
        Refusal::Fault { u: 4, v: 3 }
    );
}

/// Rules S and E with a new height that is the old one (READINGS.md, 4.9): it has the time of the moved
/// clock, so it was beyond the clock before.
#[test]
fn a_height_that_would_stay_is_untimely() {
    let mut plot = Plot::fresh(3);
    hold(&mut plot, 2, 9, [10, 2, 0, 0, 0, 1, 2]);
    link(&mut plot, 2, 1, [10, 2, 1, 0, 0, 1, 1]);
    form(&mut plot, 2, 3);
    assert_eq!(refuses(3, down(2, 3), &store(&plot)), (18, Some((2, 1))));
    link(&mut plot, 2, 1, [9, 3, 1, 0, 0, 1, 1]);
    assert_eq!(refuses(3, down(2, 3), &store(&plot)), (18, Some((2, 2))));
    hold(&mut plot, 2, 9, [9, 2, 0, 0, 0, 1, 2]);
    let answer = tables::step(3, down(2, 3), &mut store(&plot));
    assert_eq!(answer.rule, Some(Rule::S), "one less, and it changes");
    let mut plot = Plot::fresh(2);
    hold(&mut plot, 1, 9, [0, 0, 0, 0, -10, 1, 1]);
    form(&mut plot, 1, 2);
    assert_eq!(refuses(2, down(1, 2), &store(&plot)), (18, Some((1, 1))));
    hold(&mut plot, 1, 9, [0, 0, 0, 0, -9, 1, 1]);
    let answer = tables::step(2, down(1, 2), &mut store(&plot));
    assert_eq!(answer.rule, Some(Rule::E), "one less, and it changes");
}
