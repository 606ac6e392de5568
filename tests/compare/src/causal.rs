//! Causal clocks (document 02, [5]): the reference's chronicle watches every history from a fresh plot. It is told what the interface answers and leaves, and
//! nothing else.

use crate::ffi;
use crate::tally::Tally;
use reference::causal::{Chronicle, Occurrence};
use reference::plot::{Plot, ordered_pairs};
use reference::step::{Answer, Event};
use reference::tables::{self, Tables};
use std::collections::BTreeSet;

/// Up to this many events a history is checked once more from the definition of happens-before.
const SHORT: usize = 150;

/// The first message's stamp in a cell: behind the count and a height.
const STAMP: usize = 8;

/// Tables of n stations.
#[derive(Clone, Copy)]
pub struct Lent<'a> {
    pub n: i64,
    pub tables: &'a Tables,
}

impl Lent<'_> {
    /// The stamp of the message that the event would receive; 0 for other events and wrong numbers.
    pub fn stamp_for(self, event: Event) -> u32 {
        match event {
            Event::Receipt { from, to } if ordered_pairs(self.n).contains(&(from, to)) => {
                tables::cell_words(self.n, &self.tables.channels, from, to)[STAMP]
            }
            _ => 0,
        }
    }
}

/// The chronicle of a history; none of one from a planted plot, some of whose messages nobody sent.
#[derive(Clone, Default)]
pub struct Watch {
    chronicle: Option<Chronicle>,
    /// Channels that went down with messages on them.
    lost: BTreeSet<(i64, i64)>,
}

impl Watch {
    pub fn fresh() -> Watch {
        Watch {
            chronicle: Some(Chronicle::default()),
            lost: BTreeSet::new(),
        }
    }

    /// An event through the interface, which left these tables: if it was carried out, its clock is later than those that it has to exceed, and the
    /// stamp received is the clock of the event that sent it.
    pub fn see(
        &mut self,
        event: Event,
        answer: &ffi::Answer,
        stamp: u32,
        left: Lent,
        tally: &mut Tally,
    ) {
        let Some(chronicle) = &mut self.chronicle else {
            return;
        };
        if answer.number == 0 {
            if let Event::Down { u, v } = event
                && chronicle.waiting(u, v) > 0
            {
                self.lost.insert((u, v));
            }
            let clock = tables::station_words(left.n, &left.tables.nodes, event.at())[0];
            let told = chronicle.record(event, answer.sent_to, clock);
            assert_eq!(told, Ok(()), "causal clocks");
            self.note_receipt(answer.rule, stamp, tally);
        }
    }

    /// As many messages wait by the chronicle as in the tables.
    pub fn assert_waiting(&self, lent: Lent) {
        let Some(chronicle) = &self.chronicle else {
            return;
        };
        for (u, v) in ordered_pairs(lent.n) {
            let held = tables::cell_words(lent.n, &lent.tables.channels, u, v)[0] as usize;
            assert_eq!(chronicle.waiting(u, v), held, "waiting on {u} to {v}");
        }
    }

    /// A short history whole: whatever happens before an event has a smaller clock. Counted where it has a receipt.
    pub fn check(&self, tally: &mut Tally) {
        let chronicle = self.chronicle.as_ref();
        if let Some(short) = chronicle.filter(|told| told.run().len() <= SHORT) {
            assert_eq!(short.check(), Ok(()), "happens-before");
            if short.run().iter().any(|told| told.sender.is_some()) {
                tally.note("causal: checked whole");
            }
        }
    }

    /// The receipt that was told last: its stamp; and counts of what would be noticed of another rule.
    fn note_receipt(&self, rule: u32, stamp: u32, tally: &mut Tally) {
        let run = self.chronicle.as_ref().map_or(&[][..], Chronicle::run);
        let Some((told, before)) = run.split_last() else {
            return;
        };
        let (Event::Receipt { from, to }, Some(sender)) = (told.event, told.sender) else {
            return;
        };
        let sent_at = before[sender].clock;
        assert_eq!(stamp, sent_at, "stamp of a sending");
        let kind = if rule == u32::from(b'I') {
            "ignored"
        } else {
            "used"
        };
        tally.note(format!("causal: {kind}"));
        let at_home = |other: &&Occurrence| other.event.at() == to;
        let clock = before.iter().rev().find(at_home).map_or(0, |own| own.clock);
        if sent_at > clock {
            tally.note(format!("causal: {kind}, and by one would not do"));
        }
        if clock > sent_at {
            tally.note(format!("causal: {kind}, and its own clock is later"));
        }
        let waiting = self
            .chronicle
            .as_ref()
            .map_or(0, |told| told.waiting(from, to));
        if waiting > 0 {
            tally.note("causal: a newer message waits");
        }
        if self.lost.contains(&(from, to)) {
            tally.note("causal: behind a down that lost messages");
        }
    }
}

/// Counts a receipt that is refused with 7 though its message would be ignored, and the clock is not at its end: by the stamp.
pub fn note_end(plot: &Plot, event: Event, answer: &Answer, tally: &mut Tally) {
    let Event::Receipt { from, to } = event else {
        return;
    };
    let below = |station: i64| plot.stations[&station].clock < i64::from(u32::MAX);
    if answer.number == 7 && !plot.is_up(to, from) && below(to) {
        tally.note("receipt 7, ignored, by its stamp");
    }
}
