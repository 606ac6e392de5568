//! Request [5] of document 02: the chronicle on runs worked by hand, right ones and wrong ones. Grown
//! runs stand in `worked_runs`.

use crate::causal::Chronicle;
use crate::step::Event;
use crate::tables::set_word;
use crate::worked_plots::{down, heard, up};

/// An event, whom it sent to, and the clock after it.
type Told<'a> = (Event, &'a [i64], u32);

/// The set as a word.
fn set(members: &[i64]) -> u32 {
    set_word(&members.iter().copied().collect())
}

/// A run that is right up to here.
fn right(run: &[Told]) -> Chronicle {
    let mut chronicle = Chronicle::default();
    for (event, sent_to, clock) in run {
        let answer = chronicle.record(*event, set(sent_to), *clock);
        assert_eq!(answer, Ok(()), "{event:?}");
        assert_eq!(chronicle.check(), Ok(()), "{event:?}");
    }
    chronicle
}

/// A run that is right but for its last event, and what is said against that one; the whole run is then
/// found wrong too.
fn wrong(run: &[Told]) -> String {
    let ((event, sent_to, clock), before) = run.split_last().unwrap();
    let mut chronicle = right(before);
    let fault = chronicle.record(*event, set(sent_to), *clock).unwrap_err();
    assert!(chronicle.check().is_err(), "{fault}");
    assert_eq!(chronicle.run().len(), run.len(), "taken down all the same");
    fault
}

/// Against the last event of the run: an earlier one at its station, named by its place.
fn not_past_its_station(run: &[Told], earlier: usize) {
    let due = format!(
        "of event {earlier}, {:?}, earlier at its station",
        run[earlier].0
    );
    let fault = wrong(run);
    assert!(fault.ends_with(&due), "{fault}");
}

/// Against the last event of the run: the sending of its message, named by its place.
fn not_past_its_sending(run: &[Told], sending: usize) {
    let due = format!(
        "of event {sending}, {:?}, which sent its message",
        run[sending].0
    );
    let fault = wrong(run);
    assert!(fault.ends_with(&due), "{fault}");
}

/// Against the last event of the run: nothing is left to be received.
fn nothing_waits(run: &[Told]) {
    let fault = wrong(run);
    assert!(fault.ends_with("no message waits"), "{fault}");
}

/// The clocks that the last event of a run may have: all from `first` on.
fn first_right(run: &[Told], first: u32) {
    let (last, before) = run.split_last().unwrap();
    for clock in 0..first + 4 {
        let mut chronicle = right(before);
        let answer = chronicle.record(last.0, set(last.1), clock);
        assert_eq!(answer.is_ok(), clock >= first, "{clock}: {answer:?}");
        assert_eq!(chronicle.check().is_ok(), clock >= first, "{clock}");
    }
}

/// The example of the bench: 2 by the new rule; 1, as document 01 had it, equals the clock of the
/// sending.
#[test]
fn the_bench_example() {
    let sent = (up(1, 2), &[2][..], 1);
    let chronicle = right(&[sent, (heard(1, 2), &[], 2)]);
    assert_eq!(chronicle.sender_of(1), Some(0));
    assert_eq!(
        (chronicle.waiting(1, 2), right(&[sent]).waiting(1, 2)),
        (0, 1)
    );
    not_past_its_sending(&[sent, (heard(1, 2), &[], 1)], 0);
    first_right(&[sent, (heard(1, 2), &[], 0)], 2);
}

/// Cases a to d of document 01.
fn run_d() -> [Told<'static>; 7] {
    [
        (up(1, 2), &[2], 1),
        (up(2, 1), &[1], 1),
        (heard(1, 2), &[1], 2),
        (heard(2, 1), &[2], 2),
        (heard(2, 1), &[], 3),
        (heard(1, 2), &[], 3),
        (down(1, 2), &[], 4),
    ]
}

/// At 1 are the events 0, 3, 4 and 6, at 2 the events 1, 2 and 5. Neither up is before the other, nor are
/// 2 and 3, 4 and 5, 5 and 6.
#[test]
fn cases_a_to_d_as_a_run() {
    let chronicle = right(&run_d());
    let senders: Vec<Option<usize>> = (0..8).map(|k| chronicle.sender_of(k)).collect();
    let due = [None, None, Some(0), Some(1), Some(2), Some(3), None, None];
    assert_eq!(senders, due);
    let after = [
        &[2, 3, 4, 5, 6][..],
        &[2, 3, 4, 5, 6],
        &[4, 5, 6],
        &[4, 5, 6],
        &[6],
        &[],
        &[],
    ];
    let due: Vec<(usize, usize)> = (0..7)
        .flat_map(|a| after[a].iter().map(move |b| (a, *b)))
        .collect();
    assert_eq!(due.len(), 17);
    assert_eq!(chronicle.happens_before(), due);
    for a in 0..9 {
        for b in 0..9 {
            assert_eq!(chronicle.is_before(a, b), due.contains(&(a, b)), "{a}, {b}");
        }
    }
}

#[test]
fn a_run_of_nothing() {
    let chronicle = Chronicle::default();
    assert_eq!(chronicle.check(), Ok(()));
    assert_eq!(chronicle.happens_before(), []);
    assert_eq!((chronicle.run().len(), chronicle.waiting(1, 2)), (0, 0));
    assert_eq!(chronicle.sender_of(0), None);
}

/// A message goes round over 2 and 3: 0 is before all but 4, which nobody hears of.
#[test]
fn before_over_two_others() {
    let run = [
        (up(1, 2), &[2][..], 7),
        (heard(1, 2), &[3], 8),
        (heard(2, 3), &[1], 9),
        (heard(3, 1), &[], 10),
        (up(4, 1), &[1], 1),
    ];
    let chronicle = right(&run);
    let due = [(0, 1), (0, 2), (0, 3), (1, 2), (1, 3), (2, 3)];
    assert_eq!(chronicle.happens_before(), due);
    let (event, sent_to, _) = run[2];
    not_past_its_sending(&[run[0], run[1], (event, sent_to, 8)], 1);
    not_past_its_station(&[run[0], run[1], run[2], (heard(3, 1), &[], 7)], 0);
}

/// The rule of document 01, by one: where the receiver is behind, and where it is ahead and right.
#[test]
fn an_ignored_message_by_one() {
    let sent = [
        (up(1, 2), &[2][..], 1),
        (up(1, 3), &[3], 2),
        (up(1, 4), &[4], 3),
    ];
    let [to_2, to_3, to_4] = sent;
    not_past_its_sending(&[to_2, to_3, to_4, (heard(1, 2), &[], 1)], 0);
    not_past_its_sending(&[to_2, to_3, to_4, (heard(1, 3), &[], 1)], 1);
    not_past_its_sending(&[to_2, to_3, to_4, (heard(1, 4), &[], 1)], 2);
    let ahead = [
        (up(2, 3), &[3][..], 1),
        (up(2, 4), &[4], 2),
        to_2,
        (heard(1, 2), &[], 3),
    ];
    right(&ahead);
}

/// To the stamp and not past it: the receipt has the clock of its sending.
#[test]
fn an_ignored_message_to_its_stamp() {
    let sent = [(up(1, 2), &[2][..], 1), (up(1, 3), &[3], 2)];
    not_past_its_sending(&[sent[0], sent[1], (heard(1, 3), &[], 2)], 1);
    first_right(&[sent[0], sent[1], (heard(1, 3), &[], 0)], 3);
}

/// One past the stamp where the station is later already: its clock stands still, or goes back.
#[test]
fn an_ignored_message_past_its_stamp_alone() {
    let sent = (up(1, 2), &[2][..], 1);
    let own = [
        (up(2, 3), &[3][..], 1),
        (down(2, 3), &[], 2),
        (up(2, 3), &[3], 3),
    ];
    let [first, second, third] = own;
    not_past_its_station(&[sent, first, second, (heard(1, 2), &[], 2)], 2);
    not_past_its_station(&[sent, first, second, third, (heard(1, 2), &[], 2)], 3);
    first_right(&[sent, first, second, third, (heard(1, 2), &[], 0)], 4);
}

/// Clocks that stand or go back, at each kind of event; those of other stations are no matter.
#[test]
fn a_station_goes_forward() {
    let first = (up(1, 2), &[2][..], 5);
    not_past_its_station(&[first, (up(1, 3), &[3], 5)], 0);
    not_past_its_station(&[first, (down(1, 2), &[], 4)], 0);
    let heard_it = (heard(2, 1), &[][..], 5);
    not_past_its_station(&[first, (up(2, 1), &[1], 2), heard_it], 0);
    right(&[first, (up(2, 1), &[1], 1), (up(3, 1), &[1], 0)]);
    first_right(&[first, (down(1, 2), &[], 0)], 6);
    let end = (up(1, 2), &[2][..], u32::MAX);
    not_past_its_station(&[first, end, (up(1, 3), &[], 0)], 1);
}

/// Behind a fault the station still has all its earlier events to exceed.
#[test]
fn every_earlier_one_counts() {
    let mut chronicle = right(&[(up(1, 2), &[2], 5)]);
    for (clock, good) in [(3, false), (4, false), (5, false), (6, true), (6, false)] {
        let answer = chronicle.record(down(1, 2), 0, clock);
        assert_eq!(answer.is_ok(), good, "{clock}: {answer:?}");
        assert!(chronicle.check().is_err());
    }
    assert_eq!(chronicle.run().len(), 6);
    let clocks: Vec<u32> = chronicle.run().iter().map(|told| told.clock).collect();
    assert_eq!(clocks, [5, 3, 4, 5, 6, 6]);
}

#[test]
fn a_receipt_of_nothing() {
    let sent = (up(1, 2), &[2][..], 1);
    nothing_waits(&[(heard(1, 2), &[], 9)]);
    nothing_waits(&[sent, (heard(2, 1), &[], 9)]);
    nothing_waits(&[sent, (heard(1, 3), &[], 9)]);
    nothing_waits(&[sent, (heard(3, 2), &[], 9)]);
    nothing_waits(&[sent, (heard(1, 2), &[], 9), (heard(1, 2), &[], 10)]);
    nothing_waits(&[(up(1, 2), &[], 1), (heard(1, 2), &[], 9)]);
    nothing_waits(&[(up(1, 2), &[3], 1), (heard(1, 2), &[], 9)]);
}

/// 1 sends to 2 at 1, at 3 and at 5. Each receipt is of the oldest message that is left: the newest would
/// refuse the first two, the oldest of all would let the last two be too early.
#[test]
fn first_in_first_out() {
    let sent = [
        (up(1, 2), &[2][..], 1),
        (up(1, 3), &[3], 2),
        (down(1, 3), &[2], 3),
        (up(1, 3), &[3], 4),
        (down(1, 3), &[2], 5),
    ];
    let [a, b, c, d, e] = sent;
    let (one, two, three) = (
        (heard(1, 2), &[][..], 2),
        (heard(1, 2), &[][..], 4),
        (heard(1, 2), &[][..], 6),
    );
    let chronicle = right(&[a, b, c, d, e, one, two, three]);
    let senders: Vec<Option<usize>> = (5..8).map(|k| chronicle.sender_of(k)).collect();
    assert_eq!(senders, [Some(0), Some(2), Some(4)]);
    assert!(chronicle.is_before(0, 5) && !chronicle.is_before(1, 5));
    assert!(chronicle.is_before(2, 6) && !chronicle.is_before(3, 6));
    not_past_its_sending(&[a, b, c, d, e, one, (heard(1, 2), &[], 3)], 2);
    not_past_its_sending(&[a, b, c, d, e, one, two, (heard(1, 2), &[], 5)], 4);
    right(&[a, b, c, one, d, e, two]);
    not_past_its_sending(&[a, b, c, one, d, e, two, (heard(1, 2), &[], 5)], 5);
}

/// 1 loses 2 with two messages under way and finds it again. What is then heard was sent at 6, not at 1
/// or 4, and there is one of it.
#[test]
fn a_down_loses_what_is_under_way() {
    let lost = [
        (up(1, 2), &[2][..], 1),
        (up(1, 3), &[3], 2),
        (heard(3, 1), &[2, 3], 4),
        (down(1, 2), &[3], 5),
        (up(1, 2), &[2], 6),
    ];
    let [a, b, c, d, e] = lost;
    let other = (up(3, 1), &[1][..], 3);
    let before = right(&[a, b, other, c]);
    let waiting =
        |chronicle: &Chronicle| [(1, 2), (1, 3), (3, 1)].map(|(u, v)| chronicle.waiting(u, v));
    assert_eq!(waiting(&before), [2, 2, 0]);
    assert_eq!(waiting(&right(&[a, b, other, c, d])), [0, 3, 0]);
    let found = right(&[a, b, other, c, d, e]);
    assert_eq!(waiting(&found), [1, 3, 0]);
    for early in [2, 5, 6] {
        not_past_its_sending(&[a, b, other, c, d, e, (heard(1, 2), &[], early)], 5);
    }
    let heard_it = (heard(1, 2), &[][..], 7);
    let chronicle = right(&[a, b, other, c, d, e, heard_it]);
    assert_eq!(chronicle.sender_of(6), Some(5));
    nothing_waits(&[a, b, other, c, d, e, heard_it, (heard(1, 2), &[], 8)]);
    nothing_waits(&[a, b, other, c, d, (heard(1, 2), &[], 8)]);
}

/// Nor do receipts count across a down: the first message was heard before it, the second is the first
/// behind it.
#[test]
fn a_down_forgets_receipts() {
    let run = [
        (up(1, 2), &[2][..], 1),
        (heard(1, 2), &[], 2),
        (down(1, 2), &[], 2),
        (up(1, 2), &[2], 3),
        (heard(1, 2), &[], 4),
    ];
    let chronicle = right(&run);
    assert_eq!(
        (chronicle.sender_of(1), chronicle.sender_of(4)),
        (Some(0), Some(3))
    );
    let [a, b, c, d, _] = run;
    not_past_its_sending(&[a, b, c, d, (heard(1, 2), &[], 3)], 3);
}

/// A down of 2, 1 is at 2 and loses what 2 sent; what 1 sent stays. Nor does a down of 1, 3 matter.
#[test]
fn a_down_of_another_channel() {
    let run = [
        (up(1, 2), &[2][..], 1),
        (up(2, 1), &[1], 1),
        (up(1, 3), &[3], 2),
        (down(2, 1), &[], 2),
        (down(1, 3), &[2], 3),
    ];
    let chronicle = right(&run);
    let pairs = [(1, 2), (2, 1), (1, 3), (3, 1)];
    let waiting = pairs.map(|(u, v)| chronicle.waiting(u, v));
    assert_eq!(waiting, [2, 0, 0, 0]);
    let [a, b, c, d, e] = run;
    let chronicle = right(&[a, b, c, d, e, (heard(1, 2), &[], 3)]);
    assert_eq!(chronicle.sender_of(5), Some(0));
    nothing_waits(&[a, b, c, d, e, (heard(2, 1), &[], 9)]);
}

/// No down sends over the channel that it is of. Told so, the chronicle has it lost with the rest.
#[test]
fn a_down_that_would_send_on_its_channel() {
    let run = [(up(1, 2), &[2][..], 1), (down(1, 2), &[2, 3], 2)];
    let chronicle = right(&run);
    assert_eq!((chronicle.waiting(1, 2), chronicle.waiting(1, 3)), (0, 1));
    nothing_waits(&[run[0], run[1], (heard(1, 2), &[], 9)]);
}

/// One event sends to every other station of sixteen, under one clock.
#[test]
fn a_set_of_many() {
    let all: Vec<i64> = (2..=16).collect();
    let sent = (down(1, 2), &all[1..], 9);
    let chronicle = right(&[sent]);
    assert_eq!(chronicle.run()[0].sent_to, 0xfffc);
    for v in 1..=16 {
        assert_eq!(chronicle.waiting(1, v), usize::from(v > 2), "{v}");
        assert_eq!(chronicle.waiting(v, 1), 0);
    }
    for v in 3..=16 {
        first_right(&[sent, (heard(1, v), &[], 0)], 10);
    }
    nothing_waits(&[sent, (heard(1, 2), &[], 10)]);
}

/// A resume puts clocks back, so the claim is about runs without: the same up again has the same clock.
/// With a copy of the save put back, as for the history, the events that count are right.
#[test]
fn a_resume_is_no_part_of_it() {
    let saved = right(&[(up(1, 2), &[2], 1)]);
    let mut told = saved.clone();
    assert_eq!(told.record(up(1, 3), set(&[3]), 2), Ok(()));
    assert!(told.record(up(1, 3), set(&[3]), 2).is_err());
    told = saved;
    assert_eq!(told.record(up(1, 3), set(&[3]), 2), Ok(()));
    assert_eq!(told.check(), Ok(()));
}
