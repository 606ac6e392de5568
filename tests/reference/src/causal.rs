//! Request [5] of document 02: the causal clock of 001, section 2.3, watched from outside. A chronicle
//! is told the accepted events of a run from fresh without resumes, whom each sent to and the clock
//! after it; of heights, sets and tables it knows nothing (READINGS.md, section 13).

use crate::step::Event;
use std::collections::{BTreeMap, VecDeque};

/// An accepted event as it was told.
#[derive(Clone, Copy, Debug, PartialEq, Eq)]
pub struct Occurrence {
    pub event: Event,
    /// The set sent to, as a word (01, 2.5).
    pub sent_to: u32,
    /// The clock of the event's station after it.
    pub clock: u32,
    /// Of a receipt: the place of the event that sent its message, if the history has one.
    pub sender: Option<usize>,
}

/// The events of one run. Each is named by its place in it, from 0.
#[derive(Clone, Debug, Default, PartialEq, Eq)]
pub struct Chronicle {
    run: Vec<Occurrence>,
    /// For each event, of each station the newest event that happens before it.
    pasts: Vec<BTreeMap<i64, usize>>,
    /// For each channel, the sendings since its last down that are not received, oldest first.
    under_way: BTreeMap<(i64, i64), VecDeque<usize>>,
    /// For each station, its newest event.
    newest: BTreeMap<i64, usize>,
    /// For each station, its event with the largest clock.
    largest: BTreeMap<i64, usize>,
}

impl Occurrence {
    /// Whether the event sent on channel u to v.
    fn sends(&self, u: i64, v: i64) -> bool {
        self.event.at() == u && is_in(self.sent_to, v)
    }
}

impl Chronicle {
    /// Takes an accepted event down and tells what the claim of [5] has against it. It is taken down
    /// either way, and the next ones are judged with it.
    pub fn record(&mut self, event: Event, sent_to: u32, clock: u32) -> Result<(), String> {
        let earlier = self.largest.get(&event.at()).copied();
        let sender = self.receive(event);
        let place = self.take_down(Occurrence {
            event,
            sent_to,
            clock,
            sender,
        });
        if let Some(earlier) = earlier {
            self.exceeds(place, earlier, "earlier at its station")?;
        }
        self.has_sender(place)?;
        if let Some(sender) = sender {
            self.exceeds(place, sender, "which sent its message")?;
        }
        Ok(())
    }

    /// The events so far, in their order.
    pub fn run(&self) -> &[Occurrence] {
        &self.run
    }

    /// How many messages wait on channel u to v, by the history.
    pub fn waiting(&self, u: i64, v: i64) -> usize {
        self.under_way.get(&(u, v)).map_or(0, VecDeque::len)
    }

    /// The event that sent the message of this receipt. None for other events, and for a receipt of
    /// nothing.
    pub fn sender_of(&self, receipt: usize) -> Option<usize> {
        self.run.get(receipt).and_then(|told| told.sender)
    }

    /// Whether one event of the run happens before another, by what was kept.
    pub fn is_before(&self, earlier: usize, later: usize) -> bool {
        let station = self.run.get(earlier).map(|told| told.event.at());
        let past = self.pasts.get(later);
        let newest = station.and_then(|station| past?.get(&station));
        newest.is_some_and(|newest| earlier <= *newest)
    }

    /// 001, section 2.3: every two events of which the first happens before the second, sorted, from
    /// the definition and the events alone. For short runs.
    pub fn happens_before(&self) -> Vec<(usize, usize)> {
        let events = self.run.len();
        let mut before = vec![vec![false; events]; events];
        for (earlier, later) in self.pairs(|a, b| self.is_directly_before(a, b)) {
            before[earlier][later] = true;
        }
        for middle in 0..events {
            for earlier in 0..events {
                for later in 0..events {
                    before[earlier][later] |= before[earlier][middle] && before[middle][later];
                }
            }
        }
        self.pairs(|a, b| before[a][b])
    }

    /// The whole run once more, from the definition: every receipt has its sending, and whatever
    /// happens before an event has a smaller clock. What was kept has to agree. For short runs.
    pub fn check(&self) -> Result<(), String> {
        for place in 0..self.run.len() {
            self.has_sender(place)?;
            let (kept, counted) = (self.sender_of(place), self.sending_of(place));
            if kept != counted {
                return Err(format!(
                    "sender of event {place}: {kept:?} kept, {counted:?} counted"
                ));
            }
        }
        let before = self.happens_before();
        if before != self.pairs(|a, b| self.is_before(a, b)) {
            return Err(String::from("happens-before: kept otherwise"));
        }
        let mut pairs = before.into_iter();
        pairs.try_for_each(|(a, b)| self.exceeds(b, a, "which happens before it"))
    }

    /// What a receipt takes off its channel (01, 4.11): the oldest sending that is left.
    fn receive(&mut self, event: Event) -> Option<usize> {
        match event {
            Event::Receipt { from, to } => self.under_way.get_mut(&(from, to))?.pop_front(),
            _ => None,
        }
    }

    /// Keeps the event, what happens before it and what it sends; its place. A down loses whatever its
    /// channel holds, its own sending too (01, 7.10).
    fn take_down(&mut self, told: Occurrence) -> usize {
        let (place, at) = (self.run.len(), told.event.at());
        self.pasts.push(self.past(at, told.sender));
        self.run.push(told);
        for v in (1..=32).filter(|v| told.sends(at, *v)) {
            self.under_way.entry((at, v)).or_default().push_back(place);
        }
        if let Event::Down { u, v } = told.event {
            self.under_way.remove(&(u, v));
        }
        self.newest.insert(at, place);
        let largest = self.largest.entry(at).or_insert(place);
        if self.run[*largest].clock < told.clock {
            *largest = place;
        }
        place
    }

    /// The past of the next event at a station: its newest event, the sending, and their pasts.
    fn past(&self, at: i64, sender: Option<usize>) -> BTreeMap<i64, usize> {
        let causes = self.newest.get(&at).copied().into_iter().chain(sender);
        let mut past = BTreeMap::new();
        for cause in causes {
            let own = (self.run[cause].event.at(), cause);
            let others = self.pasts[cause].iter().map(|(k, event)| (*k, *event));
            for (k, event) in others.chain([own]) {
                let newest = past.entry(k).or_insert(event);
                *newest = event.max(*newest);
            }
        }
        past
    }

    /// The clock of one event exceeds that of another.
    fn exceeds(&self, later: usize, earlier: usize, why: &str) -> Result<(), String> {
        let (told, other) = (self.run[later], self.run[earlier]);
        if told.clock > other.clock {
            return Ok(());
        }
        let Occurrence { event, clock, .. } = told;
        Err(format!(
            "event {later}, {event:?}: clock {clock} does not exceed {} of event {earlier}, {:?}, {why}",
            other.clock, other.event
        ))
    }

    /// A receipt is one of a message that waited.
    fn has_sender(&self, place: usize) -> Result<(), String> {
        let Occurrence { event, sender, .. } = self.run[place];
        if sender.is_none() && matches!(event, Event::Receipt { .. }) {
            return Err(format!("event {place}, {event:?}: no message waits"));
        }
        Ok(())
    }

    /// The sending of a receipt, by counting: as many sendings since the last down of the channel
    /// stand before it as receipts before this one.
    fn sending_of(&self, receipt: usize) -> Option<usize> {
        let Event::Receipt { from, to } = self.run[receipt].event else {
            return None;
        };
        let down = Event::Down { u: from, v: to };
        let before = &self.run[..receipt];
        let start = before.iter().rposition(|told| told.event == down);
        let since = start.map_or(0, |down| down + 1)..receipt;
        let received = since
            .clone()
            .filter(|place| self.run[*place].event == self.run[receipt].event);
        let mut sent = since
            .clone()
            .filter(|place| self.run[*place].sends(from, to));
        sent.nth(received.count())
    }

    /// The first two cases of the definition: earlier at the same station, or the sending of what is
    /// received.
    fn is_directly_before(&self, earlier: usize, later: usize) -> bool {
        let station = |place: usize| self.run[place].event.at();
        let in_turn = earlier < later && station(earlier) == station(later);
        in_turn || self.sending_of(later) == Some(earlier)
    }

    /// Every two events of which this holds, sorted.
    fn pairs(&self, holds: impl Fn(usize, usize) -> bool) -> Vec<(usize, usize)> {
        let events = 0..self.run.len();
        let all = events
            .clone()
            .flat_map(|a| events.clone().map(move |b| (a, b)));
        all.filter(|(a, b)| holds(*a, *b)).collect()
    }
}

/// Whether station k is in the set (01, 2.5).
fn is_in(set: u32, k: i64) -> bool {
    (1..=32).contains(&k) && set >> (k - 1) & 1 == 1
}
