//! Request [2] of document 02, writing: drawings worked by hand.

use crate::drawing::draw;
use crate::plot::Plot;
use crate::step::Rule;
use crate::tables::{load, store};
use crate::times::first_untimely;
use crate::worked_heights::worked;
use crate::worked_plots::{down, form, heard, hold, link, plot_c, plot_i, send, takes, up};
use std::cmp::Ordering;
use std::collections::BTreeSet;

/// The fresh plot of n with these channels up, both ways.
pub(crate) fn joined(n: i64, links: &[(i64, i64)]) -> Plot {
    let mut plot = Plot::fresh(n);
    for (a, b) in links {
        form(&mut plot, *a, *b);
        form(&mut plot, *b, *a);
    }
    plot
}

/// The whole drawing, of which the papers settle every byte.
fn draws(plot: &Plot, due: &str) {
    assert_eq!(first_untimely(plot), None);
    assert_eq!(String::from_utf8(draw(plot)).unwrap(), due);
}

/// The lines of the links alone.
fn links_drawn(plot: &Plot) -> Vec<String> {
    assert_eq!(first_untimely(plot), None);
    let text = String::from_utf8(draw(plot)).unwrap();
    let lines = text.lines().filter(|line| line.contains('>'));
    lines.map(String::from).collect()
}

#[test]
fn plots_without_links() {
    draws(&Plot::fresh(1), "digraph plot {\n  1;\n}\n");
    assert_eq!(draw(&Plot::fresh(1)).len(), 22);
    draws(&Plot::fresh(2), "digraph plot {\n  1;\n  2;\n}\n");
    draws(
        &Plot::fresh(16),
        concat!(
            "digraph plot {\n  1;\n  2;\n  3;\n  4;\n  5;\n  6;\n  7;\n  8;\n",
            "  9;\n  10;\n  11;\n  12;\n  13;\n  14;\n  15;\n  16;\n}\n",
        ),
    );
}

/// In a fresh plot the higher of two own heights is that of the larger number, by the leader.
#[test]
fn fresh_heights() {
    draws(
        &joined(3, &[(1, 2)]),
        "digraph plot {\n  1;\n  2;\n  3;\n  2 -> 1;\n}\n",
    );
    draws(
        &joined(4, &[(2, 4), (1, 2), (1, 4)]),
        "digraph plot {\n  1;\n  2;\n  3;\n  4;\n  2 -> 1;\n  4 -> 1;\n  4 -> 2;\n}\n",
    );
}

/// By the first end, then by the second, and as numbers: 2 before 10.
#[test]
fn the_order_of_links() {
    let plot = joined(4, &[(1, 4), (2, 3)]);
    assert_eq!(links_drawn(&plot), ["  3 -> 2;", "  4 -> 1;"]);
    let plot = joined(
        12,
        &[
            (1, 12),
            (10, 1),
            (2, 1),
            (9, 12),
            (9, 10),
            (10, 12),
            (2, 12),
        ],
    );
    let due = [
        "  2 -> 1;",
        "  10 -> 1;",
        "  10 -> 9;",
        "  12 -> 1;",
        "  12 -> 2;",
        "  12 -> 9;",
        "  12 -> 10;",
    ];
    assert_eq!(links_drawn(&plot), due);
    let mut plot = joined(12, &[(1, 2), (1, 11), (2, 11), (3, 1)]);
    hold(&mut plot, 1, 0, [0, 0, 0, 5, 0, 1, 1]);
    let due = ["  1 -> 2;", "  1 -> 3;", "  1 -> 11;", "  11 -> 2;"];
    assert_eq!(links_drawn(&plot), due);
}

/// Cases a to d of document 01: both ups are a link; a down of one of them ends it.
#[test]
fn cases_a_to_d_drawn() {
    let none = "digraph plot {\n  1;\n  2;\n}\n";
    let falling = "digraph plot {\n  1;\n  2;\n  2 -> 1;\n}\n";
    let mut plot = Plot::fresh(2);
    takes(&mut plot, up(1, 2), Rule::U, &[2]);
    draws(&plot, none);
    takes(&mut plot, up(2, 1), Rule::U, &[1]);
    draws(&plot, falling);
    let mut plot = plot_c();
    draws(&plot, falling);
    takes(&mut plot, down(1, 2), Rule::E, &[]);
    draws(&plot, none);
}

/// Cases e to h, with 1 knowing 2: the link of 1 goes with the first event, that of 3 turns twice.
#[test]
fn cases_e_to_h_drawn() {
    let mut plot = Plot::fresh(3);
    hold(&mut plot, 2, 9, [0, 0, 0, 1, 0, 1, 2]);
    link(&mut plot, 2, 1, [0, 0, 0, 0, 0, 1, 1]);
    link(&mut plot, 2, 3, [0, 0, 0, 2, 0, 1, 3]);
    hold(&mut plot, 3, 6, [0, 0, 0, 2, 0, 1, 3]);
    link(&mut plot, 3, 2, [0, 0, 0, 1, 0, 1, 2]);
    link(&mut plot, 1, 2, [0, 0, 0, 1, 0, 1, 2]);
    assert_eq!(links_drawn(&plot), ["  2 -> 1;", "  3 -> 2;"]);
    takes(&mut plot, down(2, 1), Rule::S, &[3]);
    assert_eq!(
        links_drawn(&plot),
        ["  2 -> 3;"],
        "e: 3 still has its old view"
    );
    takes(&mut plot, heard(2, 3), Rule::F, &[2]);
    assert_eq!(links_drawn(&plot), ["  3 -> 2;"]);
    takes(&mut plot, heard(3, 2), Rule::E, &[3]);
    assert_eq!(links_drawn(&plot), ["  3 -> 2;"]);
    takes(&mut plot, heard(2, 3), Rule::A, &[2]);
    assert_eq!(links_drawn(&plot), ["  3 -> 2;"]);
}

/// Case i: 5 and 6 are linked through F; 5 to 7 is up one way.
#[test]
fn case_i_drawn() {
    let mut plot = plot_i(0, 4);
    assert_eq!(links_drawn(&plot), ["  6 -> 5;"]);
    takes(&mut plot, heard(6, 5), Rule::P, &[6, 7]);
    assert_eq!(links_drawn(&plot), ["  6 -> 5;"], "5 stays below 6");
    takes(&mut plot, down(6, 5), Rule::E, &[]);
    assert_eq!(links_drawn(&plot), [""; 0]);
}

/// A channel one way draws nothing, through whichever set and with messages on it.
#[test]
fn one_way_channels() {
    let mut plot = Plot::fresh(4);
    form(&mut plot, 1, 2);
    link(&mut plot, 3, 1, [0, 0, 0, 0, 0, 1, 1]);
    form(&mut plot, 4, 3);
    hold(&mut plot, 4, 1, [0, 0, 0, 0, 0, 4, 4]);
    send(&mut plot, 4, 3, [0, 0, 0, 0, 0, 4, 4], 1);
    assert_eq!(draw(&plot), draw(&Plot::fresh(4)));
    form(&mut plot, 1, 3);
    assert_eq!(links_drawn(&plot), ["  3 -> 1;"], "N one way, F the other");
    link(&mut plot, 2, 1, [0, 0, 0, 0, 0, 1, 1]);
    assert_eq!(links_drawn(&plot), ["  2 -> 1;", "  3 -> 1;"]);
}

/// Views and messages have no say, however far from the own heights they are.
#[test]
fn own_heights_alone_decide() {
    let mut plot = Plot::fresh(2);
    hold(&mut plot, 1, 9, [0, 0, 0, 0, 0, 1, 1]);
    hold(&mut plot, 2, 7, [0, 0, 0, 0, 0, 2, 2]);
    link(&mut plot, 1, 2, [0, 0, 0, -9, 0, 2, 2]);
    link(&mut plot, 2, 1, [7, 2, 1, 9, 0, 1, 1]);
    send(&mut plot, 1, 2, [9, 1, 0, 9, 0, 1, 1], 9);
    assert_eq!(links_drawn(&plot), ["  2 -> 1;"]);
    hold(&mut plot, 1, 9, [1, 2, 0, 0, 0, 1, 1]);
    assert_eq!(links_drawn(&plot), ["  1 -> 2;"]);
}

/// The pairs of heights that part at each place from 1 to 7, on two stations that are linked.
#[test]
fn arrows_by_every_place_of_the_heights() {
    let mut places = BTreeSet::new();
    for (a, b, order, place) in worked() {
        let (higher, lower) = match order {
            Ordering::Greater => (a.station, b.station),
            _ => (b.station, a.station),
        };
        if higher != lower {
            let mut plot = joined(8, &[(a.station, b.station)]);
            hold(&mut plot, a.station, 20, a.numbers());
            hold(&mut plot, b.station, 20, b.numbers());
            let tables = store(&plot);
            assert!(load(8, &tables.nodes, &tables.channels).is_ok(), "sound");
            let due = [format!("  {higher} -> {lower};")];
            assert_eq!(links_drawn(&plot), due, "{a:?}, {b:?}");
            places.insert(place);
        }
    }
    assert_eq!(places, (1..=7).collect());
}
