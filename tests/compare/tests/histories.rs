//! Random histories beside the reference: after every event every answer field and every table word.

use compare::beside::compare_step;
use compare::heights::assert_parted;
use compare::rounds::run;
use compare::tally::Tally;
use reference::plot::{Height, Plot};
use reference::step::Event;
use reference::tables;

/// The rules that each event can end in.
const RULES: [&str; 12] = [
    "up U",
    "down E",
    "down S",
    "down Q",
    "receipt I",
    "receipt Q",
    "receipt F",
    "receipt E",
    "receipt S",
    "receipt P",
    "receipt A",
    "receipt R",
];

/// What the questions meet along histories.
const ASKED: [&str; 10] = [
    "quiet 0",
    "groups 0",
    "group of 3",
    "group of 0, collectors: none",
    "group of 0, collectors: one",
    "group of 0, collectors: several",
    "asked: quiet",
    "asked: only messages wait",
    "asked: only channels one way",
    "asked: a channel one way between groups",
];

/// What the drawings of the plots met have to show.
const DRAWN: [&str; 5] = [
    "draw 0",
    "draw 14",
    "drawn: an arrow to a lower number",
    "drawn: an arrow to a higher number",
    "drawn: a channel one way",
];

/// Receipts at which another rule for the clock, or another sending taken for theirs, would be noticed; and histories gone through whole.
const CAUSAL: [&str; 9] = [
    "causal: used",
    "causal: ignored",
    "causal: used, and by one would not do",
    "causal: ignored, and by one would not do",
    "causal: used, and its own clock is later",
    "causal: ignored, and its own clock is later",
    "causal: a newer message waits",
    "causal: behind a down that lost messages",
    "causal: checked whole",
];

/// From the fresh plots of 1 to 16 stations, with saves and resumes between, and demand 3 on every quiet network met.
#[test]
fn fresh_histories() {
    let tally = run("fresh history", 800);
    tally.assert_met(&RULES);
    tally.assert_met(&["up 3", "down 3", "receipt 3"]);
    tally.assert_met(&["up 4", "down 5", "receipt 6"]);
    tally.assert_met(&["down 9", "receipt 9"]);
    tally.assert_met(&["save 0", "restore 0", "lists repeated after a resume"]);
    tally.assert_met(&["restore 2", "restore 12"]);
    tally.assert_met(&[
        "quiet networks",
        "quiet groups of one",
        "quiet groups of 2 to 4",
        "quiet groups of 5 to 16",
    ]);
    tally.assert_met(&ASKED);
    tally.assert_met(&DRAWN);
    tally.assert_met(&CAUSAL);
    // Not 2: levels of one time by two originators are rare here.
    assert_parted(&tally, &[1, 3, 4, 5, 6, 7]);
    // Document 02, [3]: a grown plot, resumed or not, never meets 18; only images that were damaged do.
    tally.assert_met(&["restore 18"]);
    for call in ["up", "down", "receipt", "save", "draw", "quiet", "groups"] {
        tally.assert_never(&[&format!("{call} 18")]);
    }
    tally.assert_never(&["group of 18", "group of 18 before 3"]);
}

/// From planted plots: clocks and depths at their ends and full channels.
#[test]
fn planted_histories() {
    let tally = run("planted history", 4000);
    tally.assert_met(&RULES);
    tally.assert_met(&["up 3", "down 3", "receipt 3"]);
    tally.assert_met(&["up 4", "down 5", "receipt 6"]);
    tally.assert_met(&["up 7", "down 7", "receipt 7"]);
    tally.assert_met(&["receipt 7, ignored, by its stamp"]);
    tally.assert_met(&["receipt 8", "down 9", "receipt 9"]);
    tally.assert_met(&ASKED);
    tally.assert_met(&DRAWN);
    assert_parted(&tally, &[1, 2, 3, 4, 5, 6, 7]);
    tally.assert_met(&["planted: untimely"]);
    assert!(tally.count("planted: untimely") * 10 < tally.count("planted: timely"));
    for event in ["up", "down", "receipt"] {
        let refused = tally.count(&format!("{event} 18"));
        let all = tally.sum(&format!("{event} "));
        assert!(
            refused > 0 && refused * 10 < all,
            "{event}: {refused} of {all}"
        );
    }
}

/// n = 3, station 1 at clock 9 with this height and 3 in F, about to lose 3.
fn about_to_lose_3(own: [i64; 7], view: Option<[i64; 7]>) -> Plot {
    let mut plot = Plot::fresh(3);
    let station = plot.stations.get_mut(&1).expect("station 1");
    station.clock = 9;
    station.own = Height::of(own);
    station.forming.insert(3);
    if let Some(view) = view {
        station.linked.insert(2, Height::of(view));
    }
    plot
}

/// S or E on this down would give station 1 the height that it has: its time is one beyond the clock, so 18. One less, and it changes.
#[test]
fn a_height_that_would_stay_is_refused() {
    let view = Some([9, 2, 1, 0, 0, 2, 2]);
    for (own, view, met) in [
        ([10, 1, 0, 0, 0, 2, 1], view, "down 18"),
        ([9, 1, 0, 0, 0, 2, 1], view, "down S"),
        ([0, 0, 0, 0, -10, 1, 1], None, "down 18"),
        ([0, 0, 0, 0, -9, 1, 1], None, "down E"),
    ] {
        let mut tally = Tally::default();
        let lent = tables::store(&about_to_lose_3(own, view));
        compare_step(3, Event::Down { u: 1, v: 3 }, &lent, &mut tally);
        tally.assert_met(&[met]);
    }
}
