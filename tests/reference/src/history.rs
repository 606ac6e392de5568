//! Document 01, "Lists of calls": the history and what the tables have to hold after it.

use crate::plot::{Plot, ordered_pairs};
use crate::step::{Answer, Event};
use std::collections::BTreeSet;

/// An accepted event and the set that it sent to.
#[derive(Clone, Debug, PartialEq, Eq)]
struct Accepted {
    event: Event,
    sent_to: BTreeSet<i64>,
}

/// 01, 7.6 and 7.7: the accepted events. For a resume the caller keeps a copy at each save and puts it
/// back.
#[derive(Clone, Debug, Default, PartialEq, Eq)]
pub struct History {
    events: Vec<Accepted>,
}

impl History {
    /// 01, 7.6: a refused event is not taken up.
    pub fn note(&mut self, event: Event, answer: &Answer) {
        if answer.number == 0 {
            let sent_to = answer.sent_to.clone();
            self.events.push(Accepted { event, sent_to });
        }
    }

    /// 01, 7.8: whether the channel is up, by the events alone.
    pub fn is_up(&self, u: i64, v: i64) -> bool {
        let (up, down) = (Event::Up { u, v }, Event::Down { u, v });
        let mut newest_first = self.events.iter().rev().map(|accepted| accepted.event);
        newest_first.find(|event| *event == up || *event == down) == Some(up)
    }

    /// 01, 7.9 and 7.10: how many messages wait, by the events alone.
    pub fn waiting(&self, u: i64, v: i64) -> i64 {
        let since = self.since_last_down(u, v);
        let sent = since
            .iter()
            .filter(|accepted| accepted.event.at() == u && accepted.sent_to.contains(&v));
        let receipt = Event::Receipt { from: u, to: v };
        let received = since.iter().filter(|accepted| accepted.event == receipt);
        sent.count() as i64 - received.count() as i64
    }

    /// The events behind the newest down of u, v, or all (01, 7.10).
    fn since_last_down(&self, u: i64, v: i64) -> &[Accepted] {
        let down = Event::Down { u, v };
        let last = self.events.iter().rposition(|a| a.event == down);
        &self.events[last.map_or(0, |place| place + 1)..]
    }

    /// 01, 7.11: the tables agree with the history.
    pub fn agrees(&self, plot: &Plot) -> Result<(), String> {
        for (u, v) in ordered_pairs(plot.n) {
            if plot.is_up(u, v) != self.is_up(u, v) {
                let up = self.is_up(u, v);
                return Err(format!("channel {u} to {v}: up by the history is {up}"));
            }
            let (held, due) = (plot.waiting(u, v).len() as i64, self.waiting(u, v));
            if held != due {
                return Err(format!("channel {u} to {v}: {held} held, {due} due"));
            }
        }
        Ok(())
    }
}
