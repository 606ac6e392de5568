//! Request [2] of document 02, reading: sketches worked by hand, and the refusals with their order.

use crate::drawing::{draw, parse, read, read_into, stations};
use crate::plot::{Plot, ordered_pairs};
use crate::sketches::{corners, written};
use crate::tables::{Tables, channels_len, nodes_len, store};
use crate::worked_plots::{form, hold, send};

/// One link of two stations.
pub(crate) const SMALL: &[u8] = b"graph plot {\n  1;\n  2;\n  1 -- 2;\n}\n";

/// Tables of these lengths that hold no plot.
fn nonsense(nodes: usize, channels: usize) -> Tables {
    Tables {
        nodes: vec![u32::MAX; nodes],
        channels: vec![u32::MAX; channels],
    }
}

/// What reading answers with tables of these lengths, which a refusal leaves as they were and 0 fills
/// with the plot.
fn number_with(text: &[u8], nodes: usize, channels: usize) -> i64 {
    let mut tables = nonsense(nodes, channels);
    let number = read_into(text, &mut tables.nodes, &mut tables.channels);
    let (due, left) = match read(text, nodes, channels) {
        Ok(plot) => (0, store(&plot)),
        Err(refusal) => (refusal.number(), nonsense(nodes, channels)),
    };
    assert!(number == due && tables == left, "{number}, {due}");
    number
}

/// The same with tables for n stations.
fn number_for(text: &[u8], n: i64) -> i64 {
    number_with(text, nodes_len(n), channels_len(n))
}

/// The same with tables for the text's own n; for one station where it has none.
pub(crate) fn number(text: &[u8]) -> i64 {
    number_for(text, i64::from(stations(text).max(1)))
}

/// The plot that a text gives.
fn plot_of(text: &[u8]) -> Plot {
    let n = i64::from(stations(text));
    read(text, nodes_len(n), channels_len(n)).unwrap()
}

#[test]
fn the_parts_of_a_sketch() {
    assert_eq!(parse(b"graph plot {\n  1;\n}\n"), Some((1, vec![])));
    assert_eq!(parse(SMALL), Some((2, vec![(1, 2)])));
    let text =
        b"graph plot {\n  1;\n  2;\n  3;\n  3 -- 2;\n  0 -- 99;\n  3 -- 2;\n  10 -- 10;\n}\n";
    let links = vec![(3, 2), (0, 99), (3, 2), (10, 10)];
    assert_eq!(parse(text), Some((3, links)));
    assert_eq!((stations(text), number(text)), (3, 17));
    assert_eq!(written(2, &[(1, 2)]), SMALL);
}

/// The lines' order is that of the ups, so it shows in the stamps.
#[test]
fn a_plot_built_by_hand() {
    let text = b"graph plot {\n  1;\n  2;\n  3;\n  3 -- 1;\n  1 -- 2;\n}\n";
    let mut plot = Plot::fresh(3);
    for (u, v, clock) in [(3, 1, 1), (1, 3, 1), (1, 2, 2), (2, 1, 1)] {
        form(&mut plot, u, v);
        hold(&mut plot, u, clock, [0, 0, 0, 0, 0, u, u]);
        send(&mut plot, u, v, [0, 0, 0, 0, 0, u, u], clock);
    }
    assert_eq!(plot_of(text), plot);
    let mut tables = nonsense(nodes_len(3), channels_len(3));
    assert_eq!(read_into(text, &mut tables.nodes, &mut tables.channels), 0);
    assert_eq!(tables, store(&plot));
    assert_eq!(tables.nodes[..10], [2, 0, 6, 0, 0, 0, 0, 0, 1, 1]);
    let one_to_two = &tables.channels[65..65 + 10];
    assert_eq!(one_to_two, [1, 0, 0, 0, 0, 0, 1, 1, 2, 0]);
    let other_order = b"graph plot {\n  1;\n  2;\n  3;\n  1 -- 2;\n  3 -- 1;\n}\n";
    assert_eq!(plot_of(other_order).waiting(1, 2)[0].stamp, 1);
    assert_eq!(plot_of(other_order).waiting(1, 3)[0].stamp, 2);
    let other_way = b"graph plot {\n  1;\n  2;\n  3;\n  1 -- 3;\n  2 -- 1;\n}\n";
    assert_eq!(plot_of(other_way), plot, "both ups in either case");
}

#[test]
fn a_plot_without_links_is_fresh() {
    for n in 1..=16 {
        assert_eq!(plot_of(&written(n, &[])), Plot::fresh(i64::from(n)));
    }
}

/// What is read can be drawn: the stations stay, the links become arrows from larger to smaller.
#[test]
fn read_and_drawn() {
    let drawn = draw(&plot_of(
        b"graph plot {\n  1;\n  2;\n  3;\n  1 -- 3;\n  2 -- 1;\n}\n",
    ));
    assert_eq!(
        drawn,
        b"digraph plot {\n  1;\n  2;\n  3;\n  2 -> 1;\n  3 -> 1;\n}\n"
    );
    assert_eq!(number(&drawn), 16, "a drawing is no sketch");
}

#[test]
fn corners_worked_by_hand() {
    for (due, text) in corners() {
        assert_eq!(number(&text), due, "{}", start(&text));
        assert_eq!(stations(&text) == 0, due == 16, "{}", start(&text));
    }
}

/// As much of a text as can be shown.
pub(crate) fn start(text: &[u8]) -> String {
    let shown = String::from_utf8_lossy(&text[..text.len().min(300)]);
    format!("{} bytes: {shown:?}", text.len())
}

/// 16 before 1 before 17. The lengths of tables of other plots, one table right, and neighbours.
#[test]
fn form_16_then_tables_1_then_links_17() {
    let good = written(3, &[(1, 2)]);
    let bad_link = written(3, &[(0, 1), (1, 2)]);
    let bad_last_line = b"graph plot {\n  1;\n  2;\n  3;\n  0 -- 1;\n  1 -- 2\n}\n".to_vec();
    let bad_end = bad_link[..bad_link.len() - 1].to_vec();
    let (nodes, channels) = (nodes_len(3), channels_len(3));
    for (nodes, channels) in [
        (0, 0),
        (nodes, 0),
        (0, channels),
        (nodes - 1, channels),
        (nodes + 1, channels),
        (nodes, channels - 1),
        (nodes, channels + 1),
        (nodes + 1, channels - 1),
        (channels, nodes),
        (nodes_len(2), channels_len(2)),
        (nodes_len(4), channels_len(4)),
        (nodes_len(16), channels_len(16)),
        (nodes_len(4), channels),
        (nodes, channels_len(4)),
    ] {
        assert_eq!(number_with(&good, nodes, channels), 1);
        assert_eq!(number_with(&bad_link, nodes, channels), 1);
        assert_eq!(number_with(&bad_last_line, nodes, channels), 16);
        assert_eq!(number_with(&bad_end, nodes, channels), 16);
    }
    assert_eq!(number_for(&good, 3), 0);
    assert_eq!(number_for(&bad_link, 3), 17);
    assert_eq!(number_for(&bad_last_line, 3), 16);
    assert_eq!(number_for(&bad_end, 3), 16);
    assert_eq!(number_with(b"graph plot {\n}\n", 0, 0), 16, "no plot of 0");
    let many = written(17, &[(1, 2)]);
    assert_eq!(number_for(&many, 17), 16);
    assert_eq!(number_for(&many, 16), 16);
}

/// Every kind of link that 17 is for, at every place among good ones.
#[test]
fn bad_links_at_every_place() {
    let good: [(u32, u32); 4] = [(1, 2), (4, 1), (3, 2), (3, 4)];
    assert_eq!(number(&written(4, &good)), 0);
    for bad in [
        (0, 1),
        (1, 0),
        (0, 0),
        (5, 1),
        (1, 5),
        (5, 5),
        (99, 2),
        (2, 99),
        (1, 1),
        (4, 4),
    ] {
        for place in 0..=good.len() {
            let mut links = good.to_vec();
            links.insert(place, bad);
            assert_eq!(number(&written(4, &links)), 17, "{links:?}");
        }
    }
    for (a, b) in good {
        for again in [(a, b), (b, a)] {
            for place in 0..=good.len() {
                let mut links = good.to_vec();
                links.insert(place, again);
                assert_eq!(number(&written(4, &links)), 17, "{links:?}");
            }
        }
    }
    for more in [(1, 3), (3, 1), (2, 4), (4, 2)] {
        assert_eq!(number(&written(4, &[&good[..], &[more]].concat())), 0);
    }
}

/// Every number that can be written, at either end, in plots of every size.
#[test]
fn every_number() {
    for n in 1..=16 {
        for k in 0..=99 {
            let due = if (2..=n).contains(&k) { 0 } else { 17 };
            assert_eq!(number(&written(n, &[(1, k)])), due, "{n}, {k}");
            assert_eq!(number(&written(n, &[(k, 1)])), due, "{n}, {k}");
        }
        for k in [100, 101, 110, 116, 257, 65_537, u32::MAX] {
            assert_eq!(number(&written(n, &[(1, k)])), 16, "{n}, {k}");
            assert_eq!(number(&written(n, &[(k, 1)])), 16, "{n}, {k}");
        }
    }
}

/// Every set of links of up to four stations, named in both orders and either way round: the channels
/// of the links are up, each with its one message, and no others.
#[test]
fn exactly_the_channels_named() {
    for n in 1..=4u32 {
        let pairs: Vec<(u32, u32)> = (1..=n)
            .flat_map(|a| (a + 1..=n).map(move |b| (a, b)))
            .collect();
        for set in 0..1u32 << pairs.len() {
            let named = |k: &usize| set >> k & 1 == 1;
            let links: Vec<(u32, u32)> = (0..pairs.len()).filter(named).map(|k| pairs[k]).collect();
            let turned: Vec<(u32, u32)> = links.iter().rev().map(|(a, b)| (*b, *a)).collect();
            for links in [links, turned] {
                let plot = plot_of(&written(n, &links));
                for (u, v) in ordered_pairs(i64::from(n)) {
                    let (a, b) = (u as u32, v as u32);
                    let up = links.contains(&(a, b)) || links.contains(&(b, a));
                    assert_eq!(plot.is_up(u, v), up);
                    assert_eq!(plot.waiting(u, v).len(), usize::from(up));
                }
                for (u, station) in &plot.stations {
                    let degree = links
                        .iter()
                        .filter(|(a, b)| [*a, *b].contains(&(*u as u32)));
                    assert_eq!(station.clock, degree.count() as i64);
                    assert!(station.linked.is_empty());
                }
            }
        }
    }
}

/// Well formed however long; over 65,536 bytes too, which is the bench's limit and not this one's.
#[test]
fn long_texts() {
    for count in [120, 121, 5_000, 10_000] {
        let text = written(16, &vec![(1, 16); count]);
        assert_eq!((stations(&text), number(&text)), (16, 17));
        assert_eq!(number_for(&text, 15), 1);
        assert_eq!(number_for(&text[..text.len() - 1], 15), 16);
    }
    let every: Vec<(u32, u32)> = (1..=16).flat_map(|a| (1..a).map(move |b| (a, b))).collect();
    assert_eq!(every.len(), 120);
    assert_eq!(number(&written(16, &every)), 0);
    let plot = plot_of(&written(16, &every));
    assert!(ordered_pairs(16).into_iter().all(|(u, v)| plot.is_up(u, v)));
    assert_eq!(draw(&plot).len(), 1409);
}
