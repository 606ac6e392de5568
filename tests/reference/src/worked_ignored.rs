//! Request [5] of document 02: how an ignored message moves the clock, worked by hand, and 7 at the
//! clock's end, by the clock or by the stamp. Up and down still move it by one.

use crate::bench::listing;
use crate::plot::{LAST_CLOCK, Plot};
use crate::step::{Rule, step};
use crate::tables::store;
use crate::times::first_untimely;
use crate::worked_orders::refuses;
use crate::worked_plots::{down, form, heard, hold, link, send, stands, takes, up};

/// Around the clock's ends and its top bit.
const CLOCKS: [i64; 10] = [
    0,
    1,
    2,
    40,
    (1 << 31) - 1,
    1 << 31,
    (1 << 31) + 1,
    LAST_CLOCK - 2,
    LAST_CLOCK - 1,
    LAST_CLOCK,
];

/// Station 2 at this clock knows 3 and not 1, who has sent it two messages of different depths, both
/// with this stamp, which is the clock of 1.
fn ignoring(clock: i64, stamp: i64) -> Plot {
    let mut plot = Plot::fresh(3);
    hold(&mut plot, 1, stamp, [0, 0, 0, 0, 0, 1, 1]);
    hold(&mut plot, 2, clock, [0, 0, 0, 0, 0, 2, 2]);
    link(&mut plot, 2, 3, [0, 0, 0, 0, 0, 3, 3]);
    form(&mut plot, 1, 2);
    send(&mut plot, 1, 2, [0, 0, 0, 5, 0, 1, 1], stamp);
    send(&mut plot, 1, 2, [0, 0, 0, 6, 0, 1, 1], stamp);
    plot
}

/// The same, and 2 does know 1.
fn listening(clock: i64, stamp: i64) -> Plot {
    let mut plot = ignoring(clock, stamp);
    form(&mut plot, 2, 1);
    plot
}

/// The clock that an ignored message leaves. Besides it the message is gone, and that is all.
fn moved(clock: i64, stamp: i64) -> i64 {
    let mut plot = ignoring(clock, stamp);
    let mut due = plot.clone();
    takes(&mut plot, heard(1, 2), Rule::I, &[]);
    let moved = plot.station(2).clock;
    due.stations.get_mut(&2).unwrap().clock = moved;
    let gone = due.waiting_mut(1, 2).pop_front().unwrap();
    assert_eq!((gone.height.depth, gone.stamp), (5, stamp));
    assert_eq!(plot, due, "clock {clock}, stamp {stamp}");
    moved
}

/// 7, and everything is as it was, in the plot and in its tables: both messages still wait.
fn stays(clock: i64, stamp: i64) {
    let before = ignoring(clock, stamp);
    assert_eq!(first_untimely(&before), None);
    assert_eq!(refuses(3, heard(1, 2), &store(&before)), (7, None));
    let mut plot = before.clone();
    let answer = step(&mut plot, heard(1, 2));
    assert_eq!((answer.number, answer.rule), (7, None));
    assert_eq!(plot, before, "clock {clock}, stamp {stamp}");
    let depths = plot.waiting(1, 2).iter().map(|sent| sent.height.depth);
    assert_eq!(depths.collect::<Vec<i64>>(), [5, 6]);
}

#[test]
fn late_and_early_stamps() {
    for (clock, stamp, due) in [
        (0, 0, 1),
        (0, 1, 2),
        (0, 2, 3),
        (1, 0, 2),
        (3, 40, 41),
        (38, 40, 41),
        (39, 40, 41),
        (40, 40, 41),
        (41, 40, 42),
        (50, 40, 51),
        (0, 4_294_967_294, 4_294_967_295),
        (2_147_483_647, 2_147_483_648, 2_147_483_649),
        (2_147_483_648, 2_147_483_647, 2_147_483_649),
        (7, 2_147_483_648, 2_147_483_649),
        (2_147_483_648, 7, 2_147_483_649),
    ] {
        assert_eq!(moved(clock, stamp), due, "clock {clock}, stamp {stamp}");
    }
}

/// One before the end is accepted and stands at the end then; at the end nothing moves.
#[test]
fn the_end_by_the_clock() {
    for stamp in [0, 1, 40, LAST_CLOCK - 2, LAST_CLOCK - 1] {
        assert_eq!(moved(LAST_CLOCK - 2, stamp.min(7)), LAST_CLOCK - 1);
        assert_eq!(moved(LAST_CLOCK - 1, stamp), LAST_CLOCK);
        stays(LAST_CLOCK, stamp);
    }
}

/// The same by the stamp, however early the station is.
#[test]
fn the_end_by_the_stamp() {
    for clock in [0, 1, 40, LAST_CLOCK - 2, LAST_CLOCK - 1] {
        assert_eq!(moved(clock.min(7), LAST_CLOCK - 2), LAST_CLOCK - 1);
        assert_eq!(moved(clock, LAST_CLOCK - 1), LAST_CLOCK);
        stays(clock, LAST_CLOCK);
    }
    stays(LAST_CLOCK, LAST_CLOCK);
}

/// What 7 left waiting can be heard of no more, but its channel may still lose it, where its sender has
/// a clock to move.
#[test]
fn a_message_that_stays() {
    let mut plot = ignoring(4, LAST_CLOCK - 1);
    plot.waiting_mut(1, 2)[1].stamp = 9;
    takes(&mut plot, heard(1, 2), Rule::I, &[]);
    for _ in 0..3 {
        assert_eq!(step(&mut plot, heard(1, 2)).number, 7);
        assert_eq!(plot.waiting(1, 2).len(), 1);
    }
    takes(&mut plot, down(1, 2), Rule::E, &[]);
    assert_eq!(step(&mut plot, heard(1, 2)).number, 6);
}

/// Whether the message is used makes no difference to the clock, nor to 7.
#[test]
fn as_any_other_receipt() {
    let (mut moved, mut ended) = (0, 0);
    for clock in CLOCKS {
        for stamp in CLOCKS {
            let (mut used, mut ignored) = (listening(clock, stamp), ignoring(clock, stamp));
            let (used_as, ignored_as) = (
                step(&mut used, heard(1, 2)),
                step(&mut ignored, heard(1, 2)),
            );
            assert_eq!(used_as.number, ignored_as.number);
            assert_eq!(used.station(2).clock, ignored.station(2).clock);
            match ignored_as.rule {
                Some(rule) => {
                    assert_eq!((used_as.rule, rule), (Some(Rule::A), Rule::I));
                    moved += 1;
                }
                None => {
                    assert_eq!(ignored_as.number, 7);
                    ended += 1;
                }
            }
        }
    }
    assert_eq!((moved, ended), (81, 19));
}

/// Full channels are no matter to a message that nothing is sent for.
#[test]
fn ignored_beside_full_channels() {
    let mut plot = ignoring(4, 9);
    (0..8).for_each(|_| send(&mut plot, 2, 3, [0, 0, 0, 0, 0, 2, 2], 4));
    takes(&mut plot, heard(1, 2), Rule::I, &[]);
    assert_eq!(plot.station(2).clock, 10);
}

/// Whatever stamps wait for the station, known or not: one step for an up or a down, and 7 at the end.
#[test]
fn ups_and_downs_move_by_one() {
    for clock in CLOCKS {
        for stamp in CLOCKS {
            for (plot, events) in [
                (ignoring(clock, stamp), [up(2, 1), down(2, 3)]),
                (listening(clock, stamp), [down(2, 1), down(2, 3)]),
            ] {
                for event in events {
                    let mut after = plot.clone();
                    let answer = step(&mut after, event);
                    if clock == LAST_CLOCK {
                        assert_eq!((answer.number, &after), (7, &plot), "{event:?}");
                    } else {
                        assert_eq!(answer.number, 0, "{event:?}");
                        assert_eq!(after.station(2).clock, clock + 1, "{event:?}");
                        assert_eq!(after.waiting(1, 2), plot.waiting(1, 2));
                    }
                }
            }
        }
    }
}

/// From a fresh plot: 1 loses 3 and finds it again while 2 and 3 know nobody. Their later ups, downs and
/// elections go on from the clocks that the ignored messages left.
#[test]
fn a_run_with_ignored_messages() {
    let mut plot = Plot::fresh(3);
    takes(&mut plot, up(1, 2), Rule::U, &[2]);
    takes(&mut plot, up(1, 3), Rule::U, &[3]);
    takes(&mut plot, down(1, 3), Rule::E, &[2]);
    takes(&mut plot, up(1, 3), Rule::U, &[3]);
    stands(&plot, 1, 4, [0, 0, 0, 0, -3, 1, 1]);
    takes(&mut plot, heard(1, 2), Rule::I, &[]);
    stands(&plot, 2, 2, [0, 0, 0, 0, 0, 2, 2]);
    takes(&mut plot, heard(1, 2), Rule::I, &[]);
    stands(&plot, 2, 4, [0, 0, 0, 0, 0, 2, 2]);
    takes(&mut plot, heard(1, 3), Rule::I, &[]);
    stands(&plot, 3, 5, [0, 0, 0, 0, 0, 3, 3]);
    assert_eq!(step(&mut plot, heard(1, 3)).number, 6, "one was lost");
    takes(&mut plot, up(3, 1), Rule::U, &[1]);
    assert_eq!(plot.waiting(3, 1)[0].stamp, 6);
    takes(&mut plot, heard(3, 1), Rule::R, &[3]);
    assert_eq!(plot.station(1).clock, 7);
    takes(&mut plot, down(3, 1), Rule::E, &[]);
    stands(&plot, 3, 7, [0, 0, 0, 0, -7, 3, 3]);
    takes(&mut plot, heard(1, 3), Rule::I, &[]);
    stands(&plot, 3, 8, [0, 0, 0, 0, -7, 3, 3]);
}

/// On the bench: the second message is ignored at clock 0, and the up behind it goes on from 3.
#[test]
fn a_late_stamp_on_the_bench() {
    let output = "event code rule sent\n1 0 U 1\n2 0 U 1\n3 0 I 0\n4 0 U 1\n\
        station leader clock\n1 1 2\n2 2 0\n3 3 4\n";
    let printed = listing(b"N 3\nU 1 2\nU 1 3\nM 1 3\nU 3 2\n");
    assert_eq!(String::from_utf8(printed).unwrap(), output);
}
