//! Document 01, "Lists of calls", with demand 3's claim of quiet plots; and tests of some readings
//! of "The three events" (READINGS.md).

use crate::dice::Dice;
use crate::history::History;
use crate::image::{longest, resume, save};
use crate::plot::Plot;
use crate::quiet::{is_quiet, settled};
use crate::step::{Rule, is_sink, step};
use crate::tables::{self, channels_len, nodes_len, store};
use crate::times::first_untimely;
use crate::worked_plots::{down, form, heard, hold, link, send, stands, takes, up};
use std::collections::BTreeSet;

/// Makes both channels between any two stations alike and lets every message be heard.
fn calm(plot: &mut Plot, history: &mut History) {
    for (u, v) in crate::plot::ordered_pairs(plot.n) {
        if plot.is_up(u, v) && !plot.is_up(v, u) {
            let answer = step(plot, down(u, v));
            history.note(down(u, v), &answer);
        }
    }
    for _ in 0..1000 {
        for (u, v) in crate::plot::ordered_pairs(plot.n) {
            let answer = step(plot, heard(u, v));
            history.note(heard(u, v), &answer);
        }
        assert_eq!(first_untimely(plot), None);
    }
}

/// A list of calls from the fresh plot of n: events with any numbers, saves and resumes. After each of
/// them the tables agree with the history, and no call ever gives 18 (02, [3]).
fn random_list(dice: &mut Dice, n: i64) -> (Plot, History) {
    let (mut plot, mut history) = (Plot::fresh(n), History::default());
    let mut saved: Option<(Vec<u8>, Plot, History)> = None;
    for _ in 0..dice.below(120) {
        let (u, v) = (dice.below(n + 2), dice.below(n + 2));
        let event = [up(u, v), down(u, v), heard(u, v), heard(u, v)][dice.below(4) as usize];
        let mut tables = store(&plot);
        let answer = step(&mut plot, event);
        assert_eq!(tables::step(n, event, &mut tables), answer);
        assert_eq!(tables, store(&plot));
        history.note(event, &answer);
        if dice.below(9) == 0 {
            let image = save(n, &tables.nodes, &tables.channels, longest(n)).unwrap();
            saved = Some((image, plot.clone(), history.clone()));
        }
        if let Some((image, then, past)) = saved.as_ref().filter(|_| dice.below(20) == 0) {
            plot = resume(image, nodes_len(n), channels_len(n)).unwrap();
            history = past.clone();
            assert_eq!(plot, *then, "the plot at the save");
        }
        assert_eq!(history.agrees(&plot), Ok(()));
        assert_eq!(first_untimely(&plot), None, "18 from a grown plot");
    }
    (plot, history)
}

#[test]
fn lists_of_calls() {
    let mut quiet = 0;
    for seed in 0..300 {
        let mut dice = Dice(seed);
        let n = 1 + dice.below(5);
        let (mut plot, mut history) = random_list(&mut dice, n);
        calm(&mut plot, &mut history);
        assert_eq!(history.agrees(&plot), Ok(()));
        if is_quiet(&plot) {
            quiet += 1;
            assert_eq!(settled(&plot), Ok(()), "seed {seed}");
        }
    }
    assert!(quiet > 200, "only {quiet} plots became quiet");
}

#[test]
fn history_tells_a_wrong_table() {
    let (mut plot, mut history) = (Plot::fresh(2), History::default());
    let answer = step(&mut plot, up(1, 2));
    assert!(history.agrees(&plot).is_err());
    history.note(up(1, 2), &answer);
    assert_eq!(history.agrees(&plot), Ok(()));
    let refused = step(&mut plot, up(1, 2));
    history.note(up(1, 2), &refused);
    assert_eq!((history.waiting(1, 2), history.is_up(1, 2)), (1, true));
    plot.waiting_mut(1, 2).clear();
    assert!(history.agrees(&plot).is_err());
}

/// Reading: the empty N of 01, 4.7 asks nothing of where v was, nor of who led.
#[test]
fn down_of_a_forming_channel() {
    let mut plot = Plot::fresh(3);
    takes(&mut plot, up(1, 2), Rule::U, &[2]);
    takes(&mut plot, up(1, 3), Rule::U, &[3]);
    takes(&mut plot, down(1, 2), Rule::E, &[3]);
    stands(&plot, 1, 3, [0, 0, 0, 0, -3, 1, 1]);
    let mut plot = Plot::fresh(3);
    hold(&mut plot, 2, 4, [0, 0, 0, 1, 0, 1, 2]);
    link(&mut plot, 2, 3, [0, 0, 0, 2, 0, 1, 3]);
    form(&mut plot, 2, 1);
    assert!(is_sink(plot.station(2)));
    takes(&mut plot, down(2, 1), Rule::S, &[3]);
    stands(&plot, 2, 5, [5, 2, 0, 0, 0, 1, 2]);
}

/// 01, 4.1: one view of another pair keeps a station from acting on a message of its own pair.
#[test]
fn another_pair_in_view_keeps_a_station_quiet() {
    let mut plot = Plot::fresh(3);
    hold(&mut plot, 2, 4, [0, 0, 0, 1, 0, 1, 2]);
    link(&mut plot, 2, 1, [0, 0, 0, 5, 0, 3, 1]);
    form(&mut plot, 2, 3);
    hold(&mut plot, 3, 2, [0, 0, 0, 2, 0, 1, 3]);
    form(&mut plot, 3, 2);
    send(&mut plot, 3, 2, [0, 0, 0, 2, 0, 1, 3], 2);
    takes(&mut plot, heard(3, 2), Rule::Q, &[]);
    stands(&plot, 2, 5, [0, 0, 0, 1, 0, 1, 2]);
    assert_eq!(plot.station(2).everyone(), BTreeSet::from([1, 3]));
    assert!(plot.station(2).forming.is_empty());
}
