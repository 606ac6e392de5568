//! Request [5] of document 02: runs thrown by dice, each accepted event told to a chronicle; and the same
//! runs with clocks of wrong rules, which it finds.

use crate::causal::Chronicle;
use crate::dice::Dice;
use crate::history::History;
use crate::image::{longest, save, write};
use crate::plot::{Plot, ordered_pairs};
use crate::step::{Event, Rule, step};
use crate::tables::{self, set_word, store};
use crate::worked_plots::{down, heard, up};
use std::collections::{BTreeMap, BTreeSet, VecDeque};

/// How often each thing that the runs are for was met.
type Met = BTreeMap<&'static str, usize>;

/// An accepted event, what a chronicle is told of it, and whether it was an ignored message.
struct Accepted {
    event: Event,
    sent_to: u32,
    clock: u32,
    ignored: bool,
}

/// What a run throws: these stations, some of them none of the plot's, and of 8 events so many that hear
/// a message that waits.
struct Throws {
    first: i64,
    count: i64,
    hearing: i64,
}

/// A run from the fresh plot of n, with all that watches it.
struct Watched {
    plot: Plot,
    chronicle: Chronicle,
    history: History,
    accepted: Vec<Accepted>,
    /// The channels that had a down: what is heard over them was sent after an up again.
    reopened: BTreeSet<(i64, i64)>,
}

impl Throws {
    /// Any 3 to n + 2 numbers in a row of 0 to n + 1.
    fn new(dice: &mut Dice, n: i64) -> Throws {
        let count = 3 + dice.below(n);
        Throws {
            first: dice.below(n + 3 - count),
            count,
            hearing: 1 + dice.below(5),
        }
    }

    /// One of its numbers.
    fn station(&self, dice: &mut Dice) -> i64 {
        self.first + dice.below(self.count)
    }

    /// A message that waits is heard, or else anything.
    fn event(&self, dice: &mut Dice, plot: &Plot) -> Event {
        let waiting = plot.channels.iter().filter(|(_, list)| !list.is_empty());
        let waiting: Vec<(i64, i64)> = waiting.map(|(pair, _)| *pair).collect();
        if dice.below(8) < self.hearing && !waiting.is_empty() {
            let (u, v) = waiting[dice.place(waiting.len())];
            return heard(u, v);
        }
        let (u, v) = (self.station(dice), self.station(dice));
        [up(u, v), up(u, v), down(u, v), heard(u, v)][dice.place(4)]
    }
}

impl Watched {
    fn fresh(n: i64) -> Watched {
        Watched {
            plot: Plot::fresh(n),
            chronicle: Chronicle::default(),
            history: History::default(),
            accepted: Vec::new(),
            reopened: BTreeSet::new(),
        }
    }

    /// One event, on the plot and on its tables.
    fn throw(&mut self, event: Event, met: &mut Met) {
        let before = self.plot.clone();
        let mut tables = store(&before);
        let answer = step(&mut self.plot, event);
        assert_eq!(tables::step(before.n, event, &mut tables), answer);
        assert_eq!(tables, store(&self.plot));
        self.history.note(event, &answer);
        if answer.number != 0 {
            assert_eq!(self.plot, before, "{event:?}");
            *met.entry("refused").or_default() += 1;
            return;
        }
        let accepted = Accepted {
            event,
            sent_to: set_word(&answer.sent_to),
            clock: self.plot.station(event.at()).clock as u32,
            ignored: answer.rule == Some(Rule::I),
        };
        self.tell(&accepted);
        self.count(&before, &accepted, met);
        self.accepted.push(accepted);
    }

    /// The chronicle has nothing against the event, and sees the channels as they are.
    fn tell(&mut self, accepted: &Accepted) {
        let Accepted {
            event,
            sent_to,
            clock,
            ..
        } = *accepted;
        assert_eq!(self.chronicle.record(event, sent_to, clock), Ok(()));
        for (u, v) in ordered_pairs(self.plot.n) {
            let held = self.plot.waiting(u, v).len();
            assert_eq!(self.chronicle.waiting(u, v), held, "{u} to {v}, {event:?}");
        }
    }

    /// What the event was, by the plot before it. A receipt's message is the one that the chronicle
    /// names the sending of.
    fn count(&mut self, before: &Plot, accepted: &Accepted, met: &mut Met) {
        let mut meet = |what, is_so| *met.entry(what).or_default() += usize::from(is_so);
        meet("accepted", true);
        match accepted.event {
            Event::Up { .. } => {}
            Event::Down { u, v } => {
                meet("lost", !before.waiting(u, v).is_empty());
                self.reopened.insert((u, v));
            }
            Event::Receipt { from, to } => {
                let stamp = before.waiting(from, to)[0].stamp;
                let sender = self.chronicle.sender_of(self.accepted.len()).unwrap();
                let told = self.chronicle.run()[sender];
                assert_eq!((told.event.at(), i64::from(told.clock)), (from, stamp));
                let behind = before.station(to).clock < stamp;
                let reopened = self.reopened.contains(&(from, to));
                meet("ignored", accepted.ignored);
                meet("ignored, behind", accepted.ignored && behind);
                meet("ignored, ahead", accepted.ignored && !behind);
                meet("ignored, reopened", accepted.ignored && reopened);
                meet("used", !accepted.ignored);
                meet("used, behind", !accepted.ignored && behind);
                meet("reopened", reopened);
                meet("others wait", before.waiting(from, to).len() > 1);
            }
        }
    }

    /// A save between two events, which leaves no trace.
    fn save(&self, met: &mut Met) {
        let tables = store(&self.plot);
        let (n, room) = (self.plot.n, longest(self.plot.n));
        let image = save(n, &tables.nodes, &tables.channels, room);
        assert_eq!(image, Ok(write(&self.plot)));
        assert_eq!(tables, store(&self.plot));
        *met.entry("saved").or_default() += 1;
    }
}

/// A run with as many calls.
fn thrown(dice: &mut Dice, n: i64, calls: i64, met: &mut Met) -> Watched {
    let mut run = Watched::fresh(n);
    let throws = Throws::new(dice, n);
    for _ in 0..calls {
        let event = throws.event(dice, &run.plot);
        run.throw(event, met);
        if dice.below(9) == 0 {
            run.save(met);
        }
    }
    run
}

/// Short runs, looked at as a whole.
fn short_runs(met: &mut Met) -> Vec<Watched> {
    let run = |seed: u64| {
        let mut dice = Dice(seed);
        let n = 1 + (seed % 16) as i64;
        let calls = 20 + dice.below(100);
        thrown(&mut dice, n, calls, met)
    };
    (0..320).map(run).collect()
}

/// Everything that the claim is about was met this often.
fn often(met: &Met, least: usize) {
    for what in [
        "accepted",
        "refused",
        "saved",
        "lost",
        "ignored",
        "ignored, behind",
        "ignored, ahead",
        "ignored, reopened",
        "used",
        "used, behind",
        "reopened",
        "others wait",
    ] {
        assert!(met[what] >= least, "{what}: {met:?}");
    }
}

/// No event has the chronicle against it, and the whole run is right by the definition too. In a plot of
/// one station there is nothing to accept.
#[test]
fn short_runs_are_causal() {
    let mut met = Met::new();
    let mut stations = BTreeSet::new();
    for (seed, run) in short_runs(&mut met).iter().enumerate() {
        assert_eq!(run.chronicle.check(), Ok(()), "seed {seed}");
        assert_eq!(run.history.agrees(&run.plot), Ok(()), "seed {seed}");
        if !run.accepted.is_empty() {
            stations.insert(run.plot.n);
        }
    }
    assert_eq!(stations, (2..=16).collect());
    often(&met, 100);
}

#[test]
fn long_runs_are_causal() {
    let mut met = Met::new();
    for n in 2..=16 {
        let run = thrown(&mut Dice(n as u64), n, 1500, &mut met);
        assert_eq!(run.history.agrees(&run.plot), Ok(()), "n = {n}");
        assert_eq!(run.chronicle.run().len(), run.accepted.len());
    }
    often(&met, 300);
}

/// Where a receipt puts the clock, by the clock and the stamp.
type ReceiptRule = fn(i64, i64) -> i64;

/// Past clock and stamp.
const RIGHT: ReceiptRule = |clock, stamp| clock.max(stamp) + 1;

/// Others that might be taken.
const WRONG: [(&str, ReceiptRule); 5] = [
    ("by one", |clock, _| clock + 1),
    ("not at all", |clock, _| clock),
    ("to the stamp", |clock, stamp| clock.max(stamp)),
    ("by one and to the stamp", |clock, stamp| {
        stamp.max(clock + 1)
    }),
    ("past the stamp alone", |_, stamp| stamp + 1),
];

/// The clocks of a run's events by one rule for ignored messages and one for others; ups and downs by
/// one.
fn clocks_by(run: &[Accepted], ignored: ReceiptRule, used: ReceiptRule) -> Vec<u32> {
    let mut clocks: BTreeMap<i64, i64> = BTreeMap::new();
    let mut stamps: BTreeMap<(i64, i64), VecDeque<i64>> = BTreeMap::new();
    let mut all = Vec::new();
    for accepted in run {
        let at = accepted.event.at();
        let clock = clocks.entry(at).or_default();
        *clock = match accepted.event {
            Event::Up { .. } => *clock + 1,
            Event::Down { u, v } => {
                stamps.remove(&(u, v));
                *clock + 1
            }
            Event::Receipt { from, to } => {
                let stamp = stamps.get_mut(&(from, to)).unwrap().pop_front();
                let rule = if accepted.ignored { ignored } else { used };
                rule(*clock, stamp.unwrap())
            }
        };
        for v in (1..=16).filter(|v| accepted.sent_to >> (v - 1) & 1 == 1) {
            stamps.entry((at, v)).or_default().push_back(*clock);
        }
        all.push(u32::try_from(*clock).unwrap());
    }
    all
}

/// Whether a chronicle has something against the run with these clocks: against some event of it, or by
/// the definition against the whole, which is the same.
fn is_found(run: &[Accepted], clocks: &[u32]) -> bool {
    let mut chronicle = Chronicle::default();
    let mut faults = 0;
    for (accepted, clock) in run.iter().zip(clocks) {
        let answer = chronicle.record(accepted.event, accepted.sent_to, *clock);
        faults += usize::from(answer.is_err());
    }
    assert_eq!(chronicle.check().is_err(), faults > 0);
    faults > 0
}

/// The right rule gives the clocks that the runs had. Each wrong one is found in many runs, taken for
/// ignored messages alone, for the others alone and for all.
#[test]
fn wrong_rules_are_found() {
    let runs = short_runs(&mut Met::new());
    for run in &runs {
        let clocks = clocks_by(&run.accepted, RIGHT, RIGHT);
        let had: Vec<u32> = run.accepted.iter().map(|told| told.clock).collect();
        assert_eq!(clocks, had);
        assert!(!is_found(&run.accepted, &clocks));
    }
    for (name, wrong) in WRONG {
        for (ignored, used) in [(wrong, RIGHT), (RIGHT, wrong), (wrong, wrong)] {
            let clocks = runs
                .iter()
                .map(|run| clocks_by(&run.accepted, ignored, used));
            let both = runs.iter().zip(clocks);
            let found = both.filter(|(run, clocks)| is_found(&run.accepted, clocks));
            let count = found.count();
            assert!(count > 100, "{name}: {count} of {}", runs.len());
        }
    }
}
