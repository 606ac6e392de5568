//! Document 01, "Returned numbers": a test for each number of a step and of the bench program, and
//! for the orders of checks that the document states. Images stand in `worked_images`.

use crate::bench::{MOST_INPUT, listing};
use crate::plot::{LAST_CLOCK, LEAST_DEPTH, MOST_DEPTH, Plot};
use crate::refusal::Refusal;
use crate::step::{Event, step};
use crate::tables::{self, CELL_WORDS, Tables, check, station_len, store};
use crate::times::first_untimely;
use crate::worked_plots::{down, form, heard, hold, link, plot_c, plot_i, plot_j, send, up};

/// The number of a step over tables, which leaves them as they were.
pub(crate) fn refuses(n: i64, event: Event, tables: &Tables) -> (i64, Option<(i64, i64)>) {
    let mut lent = tables.clone();
    let answer = tables::step(n, event, &mut lent);
    assert_ne!(answer.number, 0, "{event:?}");
    assert_eq!(&lent, tables, "nothing lent changes");
    assert_eq!((answer.letter(), answer.sent_to.len()), ('-', 0));
    (answer.number, answer.fault)
}

/// The number of a step over a plot whose times make sense; a refused one leaves it as it was.
fn number(plot: &Plot, event: Event) -> i64 {
    assert_eq!(first_untimely(plot), None, "before {event:?}");
    let mut lent = plot.clone();
    let answer = step(&mut lent, event);
    assert_eq!(answer.number != 0, lent == *plot, "{event:?}");
    answer.number
}

/// The pair of refusal 2 after some words of sound tables are written over; none if they pass.
fn fault(plot: &Plot, nodes: &[(usize, u32)], channels: &[(usize, u32)]) -> Option<(i64, i64)> {
    let mut tables = store(plot);
    nodes
        .iter()
        .for_each(|(place, word)| tables.nodes[*place] = *word);
    channels
        .iter()
        .for_each(|(place, word)| tables.channels[*place] = *word);
    match check(plot.n, &tables.nodes, &tables.channels) {
        Ok(()) => None,
        Err(Refusal::Fault { u, v }) => Some((u, v)),
        Err(other) => panic!("{other:?}"),
    }
}

/// Three stations; 2 has 1 in N and 3 in F and one message waiting for 3.
pub(crate) fn plot_3() -> Plot {
    let mut plot = Plot::fresh(3);
    hold(&mut plot, 2, 1, [0, 0, 0, 0, 0, 2, 2]);
    link(&mut plot, 2, 1, [0, 0, 0, 0, 0, 1, 1]);
    form(&mut plot, 2, 3);
    send(&mut plot, 2, 3, [0, 0, 0, 0, 0, 2, 2], 1);
    plot
}

/// Where the words of station u, of its height for v and of cell u to v start, for n = 3.
fn places(u: usize, v: usize) -> (usize, usize, usize) {
    let station = (u - 1) * station_len(3);
    let height = station + 3 + (v - 1) * 7;
    (station, height, ((u - 1) * 3 + v - 1) * CELL_WORDS)
}

#[test]
fn numbers_1_to_19_are_in_order() {
    let all = [
        Refusal::Sizes,
        Refusal::Fault { u: 4, v: 5 },
        Refusal::Station,
        Refusal::AlreadyUp,
        Refusal::AlreadyDown,
        Refusal::NoMessage,
        Refusal::ClockEnd,
        Refusal::DepthEnd,
        Refusal::ChannelFull,
        Refusal::ImageShort,
        Refusal::ImageHeader,
        Refusal::ImageEnd,
        Refusal::Place,
        Refusal::Room,
        Refusal::BenchLine,
        Refusal::SketchForm,
        Refusal::SketchLink,
        Refusal::Untimely { u: 6, v: 7 },
        Refusal::NotShort,
    ];
    let numbers: Vec<i64> = all.into_iter().map(Refusal::number).collect();
    assert_eq!(numbers, (1..=19).collect::<Vec<i64>>());
    assert_eq!(all[1].pair(), Some((4, 5)));
    assert_eq!(all[17].pair(), Some((6, 7)));
    let pairs = all.into_iter().filter(|refusal| refusal.pair().is_some());
    assert_eq!(pairs.count(), 2);
}

#[test]
fn sizes_1_before_faults_2_before_numbers_3() {
    let mut tables = store(&plot_3());
    tables.nodes[1] = 1;
    for n in [i64::MIN, -1, 0, 2, 4, 16, 17, i64::MAX] {
        assert_eq!(refuses(n, up(9, 9), &tables), (1, None), "n = {n}");
    }
    assert_eq!(refuses(3, up(9, 9), &tables), (2, Some((1, 1))));
    let sound = store(&plot_3());
    for (u, v) in [
        (9, 9),
        (0, 1),
        (1, 0),
        (1, 4),
        (-1, 2),
        (2, 2),
        (i64::MIN, i64::MAX),
    ] {
        for event in [up(u, v), down(u, v), heard(u, v)] {
            assert_eq!(refuses(3, event, &sound), (3, None), "{event:?}");
        }
    }
    for (nodes, channels) in [(1, 0), (0, 1)] {
        let mut longer = sound.clone();
        longer.nodes.extend(vec![0; nodes]);
        longer.channels.extend(vec![0; channels]);
        assert_eq!(refuses(3, up(1, 2), &longer), (1, None));
    }
}

#[test]
fn faults_at_the_place_of_the_station() {
    let plot = plot_3();
    let (station, own, diagonal) = places(2, 2);
    assert_eq!(fault(&plot, &[(station, u32::MAX)], &[]), None, "any clock");
    for (linked, forming) in [(1, 5), (3, 4), (1, 6), (9, 4), (1, 0x0001_0004)] {
        let words = [(station + 1, linked), (station + 2, forming)];
        assert_eq!(fault(&plot, &words, &[]), Some((2, 2)), "{words:?}");
    }
    for (word, value) in [(0, 1), (1, 4), (2, 2), (3, 32_768), (5, 0), (5, 4), (6, 3)] {
        assert_eq!(
            fault(&plot, &[(own + word, value)], &[]),
            Some((2, 2)),
            "{word}"
        );
    }
    for words in [
        [(own, 5), (own + 1, 0)],
        [(own, 0), (own + 2, 1)],
        [(own, 0), (own + 1, 3)],
    ] {
        assert_eq!(fault(&plot, &words, &[]), Some((2, 2)), "{words:?}");
    }
    let late = (station, u32::MAX);
    for level in [[(own, 5), (own + 1, 3)], [(own, u32::MAX), (own + 1, 1)]] {
        let words = [late, level[0], level[1], (own + 2, 1)];
        assert_eq!(fault(&plot, &words, &[]), None, "{words:?}");
    }
    let ends = [late, (own + 3, 0xFFFF_8000), (own + 4, u32::MAX)];
    assert_eq!(fault(&plot, &ends, &[]), None);
    assert_eq!(fault(&plot, &[(own + 3, 0xFFFF_7FFF)], &[]), Some((2, 2)));
    assert_eq!(
        fault(&plot, &[], &[(diagonal + 64, 1)]),
        Some((2, 2)),
        "no such channel"
    );
}

#[test]
fn faults_of_views() {
    let plot = plot_3();
    let (station, view, _) = places(2, 1);
    for (word, value) in [(0, 1), (5, 0), (6, 2), (6, 0)] {
        let words = [(view + word, value)];
        assert_eq!(fault(&plot, &words, &[]), Some((2, 1)), "{word}");
    }
    let of_forming = [(places(2, 3).1 + 6, 3)];
    assert_eq!(fault(&plot, &of_forming, &[]), Some((2, 3)), "not in N");
    let left = [(station + 1, 0)];
    assert_eq!(fault(&plot, &left, &[]), Some((2, 1)), "not in N");
}

#[test]
fn faults_of_channels() {
    let plot = plot_3();
    let (station, _, cell) = places(2, 3);
    let (late, stamp) = ([(station, u32::MAX)], [(cell + 8, u32::MAX)]);
    assert_eq!(fault(&plot, &late, &stamp), None, "any stamp");
    let count = [(0, 0), (0, 2), (0, 9), (0, u32::MAX)];
    let message = [(1, 1), (4, 40_000), (6, 0), (7, 3)];
    let unused = [(9, 1), (64, 1)];
    for (word, value) in [&count[..], &message, &unused].concat() {
        let words = [(cell + word, value)];
        assert_eq!(fault(&plot, &[], &words), Some((2, 3)), "{word}");
    }
    let down = [(station + 2, 0)];
    assert_eq!(fault(&plot, &down, &[]), Some((2, 3)), "count 0 when down");
    let unused_of_down = [(places(3, 1).2 + 8, 1)];
    assert_eq!(fault(&plot, &[], &unused_of_down), Some((3, 1)));
    let (set, counts) = ([(station + 1, 9)], [(cell, 9), (places(2, 1).2, 9)]);
    let first = fault(&plot, &set, &counts);
    assert_eq!(first, Some((2, 1)), "before (2, 2) and (2, 3)");
}

#[test]
fn channels_4_5_6_before_the_clock_7() {
    let mut plot = plot_c();
    hold(&mut plot, 1, LAST_CLOCK, [0, 0, 0, 0, 0, 1, 1]);
    assert_eq!(number(&plot, up(1, 2)), 4);
    assert_eq!(number(&plot, heard(2, 1)), 6);
    assert_eq!(number(&plot, down(1, 2)), 7);
    let mut fresh = Plot::fresh(2);
    hold(&mut fresh, 1, LAST_CLOCK, [0, 0, 0, 0, 0, 1, 1]);
    assert_eq!(number(&fresh, down(1, 2)), 5);
    assert_eq!(number(&fresh, up(1, 2)), 7);
}

#[test]
fn clock_7_before_depth_8_before_room_9() {
    let full = |plot: &mut Plot, u, v| {
        (0..8).for_each(|_| send(plot, u, v, [0, 0, 0, 0, 0, u, u], 1));
    };
    let mut plot = plot_j(MOST_DEPTH);
    full(&mut plot, 2, 1);
    assert_eq!(number(&plot, heard(1, 2)), 8);
    hold(&mut plot, 1, LAST_CLOCK, [0, 0, 0, 0, -5, 1, 1]);
    plot.waiting_mut(1, 2)[0].stamp = LAST_CLOCK;
    assert_eq!(number(&plot, heard(1, 2)), 7, "by the stamp");
    plot.stations.get_mut(&2).unwrap().forming.clear();
    plot.waiting_mut(2, 1).clear();
    assert_eq!(number(&plot, heard(1, 2)), 7, "ignored, by the stamp");
    plot.waiting_mut(1, 2)[0].stamp = LAST_CLOCK - 1;
    assert_eq!(number(&plot, heard(1, 2)), 0, "ignored, one before");
    hold(&mut plot, 2, LAST_CLOCK, [0, 0, 0, 0, 0, 2, 2]);
    assert_eq!(number(&plot, heard(1, 2)), 7, "ignored, by its own clock");
    let mut plot = plot_i(LEAST_DEPTH, 4);
    full(&mut plot, 5, 7);
    assert_eq!(number(&plot, heard(6, 5)), 8);
    let mut plot = plot_i(0, LEAST_DEPTH);
    hold(&mut plot, 5, 7, [0, 0, 0, LEAST_DEPTH, 0, 1, 5]);
    assert_eq!(number(&plot, heard(6, 5)), 0, "7 has a smaller level");
    full(&mut plot, 5, 7);
    assert_eq!(number(&plot, heard(6, 5)), 9);
}

#[test]
fn bench_lines() {
    let bad = [
        "", "\n", "N 0\n", "N 17\n", "N 02\n", "n 2\n", "N 2 \n", "N  2\n", "N 2\r\n", "U 1 2",
    ];
    for input in bad {
        assert_eq!(listing(input.as_bytes()), b"bad plot\n", "{input:?}");
    }
    let lines = "\nN 2\nU 01 2\nU 1 2 \nu 1 2\nU 1  2\nU 1 100\nU 1\nU 1 2 1\nU 1 2\r\nU -1 2";
    let text = String::from_utf8(listing(format!("N 2\n{lines}").as_bytes())).unwrap();
    let codes: Vec<&str> = text.lines().skip(1).take(11).collect();
    let due: Vec<String> = (1..=11).map(|k| format!("{k} 15 - 0")).collect();
    assert_eq!(codes, due);
    let text = String::from_utf8(listing(b"N 1\nU 0 1\nD 99 1\nM 1 1")).unwrap();
    assert!(text.starts_with("event code rule sent\n1 3 - 0\n2 3 - 0\n3 3 - 0\nstation"));
    let mut long = b"N 1\n".to_vec();
    long.resize(MOST_INPUT, b'x');
    assert!(listing(&long).starts_with(b"event"));
    long.push(b'\n');
    assert_eq!(listing(&long), b"bad plot\n");
}
