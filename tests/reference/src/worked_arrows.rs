//! Request [2] of document 02, writing: what the arrows of a drawing tell, of plots thrown by dice and of
//! all small ones.

use crate::dice::Dice;
use crate::drawing::{draw, longest};
use crate::plot::{Plot, ordered_pairs};
use crate::step::step;
use crate::times::first_untimely;
use crate::worked_drawings::joined;
use crate::worked_plots::{down, heard, hold, up};
use std::collections::{BTreeMap, BTreeSet};

/// Other own heights, of which neither the lower numbers have the higher ones nor the higher numbers.
/// No clock goes back, and none is below the new times.
pub(crate) fn stir(dice: &mut Dice, plot: &mut Plot) {
    for k in 1..=plot.n {
        let (time, leader) = (-dice.below(3), 1 + dice.below(plot.n));
        let depth = dice.below(7) - 3;
        let level = [[0, 0, 0], [5, k, 0], [5, 1, 1], [6, 1, 0]][dice.place(4)];
        let [tau, originator, bit] = level;
        let clock = plot.station(k).clock.max(9);
        let own = [tau, originator, bit, depth, time, leader, k];
        hold(plot, k, clock, own);
    }
}

/// A plot after some events, half of them ups, from the fresh one.
fn grown(dice: &mut Dice, n: i64) -> Plot {
    let mut plot = Plot::fresh(n);
    for _ in 0..dice.below(40 * n) {
        let (u, v) = (1 + dice.below(n), 1 + dice.below(n));
        let event = [
            up(u, v),
            up(u, v),
            up(u, v),
            down(u, v),
            heard(u, v),
            heard(u, v),
        ][dice.place(6)];
        step(&mut plot, event);
    }
    plot
}

/// The arrows of a drawing, and that it has the form asked for around them.
fn arrows_of(plot: &Plot) -> Vec<(i64, i64)> {
    let text = String::from_utf8(draw(plot)).unwrap();
    let mut lines: Vec<&str> = text.split('\n').collect();
    assert_eq!(lines.pop(), Some(""), "a newline at the end");
    assert_eq!(lines.pop(), Some("}"));
    let arrows = lines.split_off(1 + plot.n as usize);
    let mut due = vec![String::from("digraph plot {")];
    due.extend((1..=plot.n).map(|k| format!("  {k};")));
    assert_eq!(lines, due);
    let arrow = |line: &&str| {
        let inside = line
            .strip_prefix("  ")
            .and_then(|rest| rest.strip_suffix(';'));
        let (a, b) = inside.unwrap().split_once(" -> ").unwrap();
        (a.parse().unwrap(), b.parse().unwrap())
    };
    arrows.iter().map(arrow).collect()
}

/// Whatever the plot: an arrow for every link and for nothing else, falling, sorted and none twice; and
/// never longer than the longest.
#[test]
fn drawings_of_any_plot() {
    let mut turned = BTreeMap::from([(true, 0), (false, 0)]);
    for seed in 0..400 {
        let mut dice = Dice(seed);
        let n = 1 + dice.below(16);
        let mut plot = grown(&mut dice, n);
        if seed % 2 == 0 {
            stir(&mut dice, &mut plot);
        }
        assert_eq!(first_untimely(&plot), None);
        let arrows = arrows_of(&plot);
        assert!(arrows.windows(2).all(|two| two[0] < two[1]), "sorted");
        let own = |k: i64| plot.station(k).own;
        assert!(arrows.iter().all(|(a, b)| own(*a) > own(*b)), "falling");
        let drawn: BTreeSet<(i64, i64)> =
            arrows.iter().map(|(a, b)| (*a.min(b), *a.max(b))).collect();
        assert_eq!(drawn.len(), arrows.len());
        let pairs = ordered_pairs(n).into_iter().filter(|(a, b)| a < b);
        let both_ways = pairs.filter(|(a, b)| plot.is_up(*a, *b) && plot.is_up(*b, *a));
        assert_eq!(drawn, both_ways.collect());
        assert!(draw(&plot).len() <= longest(n as u32), "seed {seed}");
        arrows
            .iter()
            .for_each(|(a, b)| *turned.get_mut(&(a < b)).unwrap() += 1);
    }
    assert!(turned.values().all(|count| *count > 1000), "{turned:?}");
}

/// All sets of links of up to five stations, with fresh and with other heights: no two drawings agree.
#[test]
fn other_links_other_drawings() {
    let mut dice = Dice(2);
    let mut drawn: BTreeMap<Vec<u8>, (i64, u32)> = BTreeMap::new();
    let mut plots = 0;
    for n in 1..=5 {
        let pairs: Vec<(i64, i64)> = ordered_pairs(n)
            .into_iter()
            .filter(|(a, b)| a < b)
            .collect();
        for set in 0..1u32 << pairs.len() {
            let links: Vec<(i64, i64)> = (0..pairs.len())
                .filter(|k| set >> k & 1 == 1)
                .map(|k| pairs[k])
                .collect();
            let mut plot = joined(n, &links);
            for _ in 0..2 {
                let before = drawn.insert(draw(&plot), (n, set));
                assert!(
                    before.is_none_or(|links| links == (n, set)),
                    "{before:?}, {n}, {set}"
                );
                stir(&mut dice, &mut plot);
            }
            plots += 1;
        }
    }
    assert_eq!(plots, 1 + 2 + 8 + 64 + 1024);
    assert!(drawn.len() > plots);
}
