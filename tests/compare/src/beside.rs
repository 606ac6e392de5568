//! One plot in both: the reference's plot and the tables lent to the interface.

use crate::causal::{Lent, Watch, note_end};
use crate::drawings::{compare_links, compare_text};
use crate::ffi;
use crate::heights::{compare_heights, lent_height};
use crate::questions::{Asked, compare_stations};
use crate::random::Random;
use crate::tally::Tally;
use reference::drawing;
use reference::history::History;
use reference::image;
use reference::plot::Plot;
use reference::quiet;
use reference::refusal::Refusal;
use reference::step::{self, Answer, Event};
use reference::tables::{self, Tables};
use reference::times::first_untimely;

pub struct Beside {
    pub plot: Plot,
    pub tables: Tables,
    pub history: History,
    pub watch: Watch,
    pub events: u64,
}

impl Beside {
    /// The fresh plot of n in both, from tables that held anything.
    pub fn fresh(n: i64, random: &mut Random) -> Beside {
        let mut tables = junk_tables(n, random);
        let answer = ffi::fresh(n as u32, &mut tables.nodes, &mut tables.channels);
        assert_eq!(answer, expected_check(Ok(())));
        let beside = Beside {
            tables,
            watch: Watch::fresh(),
            ..Beside::planted(Plot::fresh(n))
        };
        beside.assert_same_tables();
        beside
    }

    /// A given plot in both, with no time beyond its clock. Its history is unknown, so nothing is asked of it.
    pub fn planted(plot: Plot) -> Beside {
        assert_eq!(first_untimely(&plot), None, "a plot to step");
        Beside {
            tables: tables::store(&plot),
            plot,
            history: History::default(),
            watch: Watch::default(),
            events: 0,
        }
    }

    pub fn n(&self) -> i64 {
        self.plot.n
    }

    /// The same event in both: the same answer, and the same words in the tables. No time is beyond its clock afterwards either.
    pub fn step(&mut self, event: Event, tally: &mut Tally) -> Answer {
        self.events += 1;
        let answer = step::step(&mut self.plot, event);
        let stamp = self.lent().stamp_for(event);
        let answered = call(self.n(), event, &mut self.tables);
        let count = self.events;
        assert_eq!(
            answered,
            expected_answer(&answer),
            "event {count}: {event:?}"
        );
        self.assert_same_tables();
        assert_eq!(first_untimely(&self.plot), None, "after event {count}");
        let left = Lent {
            n: self.plot.n,
            tables: &self.tables,
        };
        self.watch.see(event, &answered, stamp, left, tally);
        self.ask(tally);
        self.ask_heights(tally);
        self.ask_drawing(tally);
        self.history.note(event, &answer);
        note_event(event, &answer, tally);
        note_end(&self.plot, event, &answer, tally);
        answer
    }

    /// Quiet, the groups and the group of one number, another at each event; of every number at each eighth.
    fn ask(&self, tally: &mut Tally) {
        if self.events.is_multiple_of(8) {
            self.watch.assert_waiting(self.lent());
            self.asked().compare_all(&[], tally);
        } else {
            let u = self.events as i64 % (self.n() + 2);
            self.asked().compare_plot(tally);
            self.asked().compare_group_of(u, tally);
        }
    }

    /// Two stations, others at each event: their own heights, and the first one's beside what it holds for the second.
    fn ask_heights(&self, tally: &mut Tally) {
        let (n, count) = (self.n(), self.events as i64);
        let (u, v) = (count % n + 1, count / n % n + 1);
        let held = |u, v| lent_height(n, &self.tables, u, v);
        compare_heights(held(u, u), held(v, v), tally);
        compare_heights(held(u, u), held(u, v), tally);
    }

    /// The drawing, at each event with another room; its links beside the words at each eighth.
    fn ask_drawing(&self, tally: &mut Tally) {
        let text = drawing::draw(&self.plot);
        compare_text(self.n(), &self.tables, &text, self.events, tally);
        if self.events.is_multiple_of(8) {
            compare_links(self.n(), &self.tables, tally);
        }
    }

    pub fn lent(&self) -> Lent<'_> {
        Lent {
            n: self.n(),
            tables: &self.tables,
        }
    }

    fn asked(&self) -> Asked<'_> {
        Asked {
            n: self.n(),
            lent: &self.tables,
            plot: Ok(&self.plot),
        }
    }

    /// The tables hold exactly the reference's plot.
    pub fn assert_same_tables(&self) {
        assert_same(&tables::store(&self.plot), &self.tables);
    }

    /// Saves in both, with bytes to spare: the same bytes, and those behind stay. The image tells n.
    pub fn save(&self, random: &mut Random, tally: &mut Tally) -> Vec<u8> {
        let image = image::write(&self.plot);
        let room = image.len() + random.below(9);
        compare_save(self.n(), &self.tables, room, random, tally);
        let told = compare_stations(&image, tally).value;
        assert_eq!(i64::from(told), self.n(), "stations of a save");
        image
    }

    /// Resumes the plot of an image that an earlier save wrote.
    pub fn resume(&mut self, image: &[u8], tally: &mut Tally) {
        let (nodes, channels) = (self.tables.nodes.len(), self.tables.channels.len());
        self.plot = image::resume(image, nodes, channels).expect("a saved image");
        let answer = ffi::restore(image, &mut self.tables.nodes, &mut self.tables.channels);
        assert_eq!(answer, expected_check(Ok(())));
        self.assert_same_tables();
        tally.note("restore 0");
    }

    /// Demand 3 and every question, if the network is quiet. The tables are those of the interface, read afresh.
    pub fn check_quiet(&self, tally: &mut Tally) {
        if !quiet::is_quiet(&self.plot) {
            return;
        }
        let lent = tables::load(self.n(), &self.tables.nodes, &self.tables.channels);
        let lent = lent.expect("sound tables");
        assert_eq!(quiet::settled(&lent), Ok(()), "demand 3: {lent:?}");
        tally.note("quiet networks");
        self.asked().compare_all(&[], tally);
        for group in quiet::groups(&lent) {
            let size = match group.len() {
                1 => "one",
                2..=4 => "2 to 4",
                _ => "5 to 16",
            };
            tally.note(format!("quiet groups of {size}"));
        }
    }
}

/// One of the three events through the interface; its numbers are from 0 to the largest word.
fn call(n: i64, event: Event, lent: &mut Tables) -> ffi::Answer {
    let call = match event {
        Event::Up { .. } => ffi::up,
        Event::Down { .. } => ffi::down,
        Event::Receipt { .. } => ffi::receive,
    };
    let word = |number: i64| u32::try_from(number).expect("a number that fits the interface");
    let (first, second) = event.stations();
    let (nodes, channels) = (&mut lent.nodes, &mut lent.channels);
    call(n as u32, word(first), word(second), nodes, channels)
}

/// Tables of the length for n that hold anything.
pub fn junk_tables(n: i64, random: &mut Random) -> Tables {
    Tables {
        nodes: random.words(tables::nodes_len(n)),
        channels: random.words(tables::channels_len(n)),
    }
}

/// Panics at the first word that differs.
pub fn assert_same(expected: &Tables, lent: &Tables) {
    assert_same_words("nodes", &expected.nodes, &lent.nodes);
    assert_same_words("channels", &expected.channels, &lent.channels);
}

/// Panics at the first word that differs.
pub fn assert_same_words(name: &str, expected: &[u32], lent: &[u32]) {
    assert_eq!(expected.len(), lent.len(), "length of {name}");
    let differing = (0..lent.len()).find(|&at| expected[at] != lent[at]);
    if let Some(at) = differing {
        panic!(
            "word {at} of {name}: {} expected, {} found",
            expected[at], lent[at]
        );
    }
}

/// Counts an event by its kind and its rule, or its refusal.
pub fn note_event(event: Event, answer: &Answer, tally: &mut Tally) {
    let kind = match event {
        Event::Up { .. } => "up",
        Event::Down { .. } => "down",
        Event::Receipt { .. } => "receipt",
    };
    match answer.rule {
        Some(rule) => tally.note(format!("{kind} {}", rule.letter())),
        None => tally.note(format!("{kind} {}", answer.number)),
    }
}

/// The interface's form of an answer.
pub fn expected_answer(answer: &Answer) -> ffi::Answer {
    let (fault_at, fault_with) = answer.fault.unwrap_or((0, 0));
    let level = answer.level_taken.unwrap_or(reference::plot::NO_SEARCH);
    ffi::Answer {
        number: answer.number as u32,
        fault_at: fault_at as u32,
        fault_with: fault_with as u32,
        rule: answer.letter() as u32,
        sent_to: tables::set_word(&answer.sent_to),
        sent: answer.sent_to.len() as u32,
        adopted_from: answer.adopted_from.unwrap_or(0) as u32,
        level_tau: level.tau as u32,
        level_originator: level.originator as u32,
        level_bit: level.bit as u32,
    }
}

/// The interface's form of a check.
pub fn expected_check(result: Result<(), Refusal>) -> ffi::Checked {
    let refusal = result.err();
    let (fault_at, fault_with) = refusal.and_then(Refusal::pair).unwrap_or((0, 0));
    ffi::Checked {
        number: refusal.map_or(0, Refusal::number) as u32,
        fault_at: fault_at as u32,
        fault_with: fault_with as u32,
    }
}

/// The interface's form of a save or a drawing with this many bytes.
pub fn expected_saved(size: Result<usize, Refusal>) -> ffi::Saved {
    let check = expected_check(size.map(|_| ()));
    ffi::Saved {
        number: check.number,
        fault_at: check.fault_at,
        fault_with: check.fault_with,
        size: size.unwrap_or(0) as u64,
    }
}

/// The number of a result, for the tally.
pub fn number_of<T>(result: &Result<T, Refusal>) -> i64 {
    result.as_ref().err().map_or(0, |refusal| refusal.number())
}

/// A check of any tables in both.
pub fn compare_check(n: i64, lent: &Tables, tally: &mut Tally) {
    let expected = tables::check(n, &lent.nodes, &lent.channels);
    tally.note(format!("check {}", number_of(&expected)));
    let answer = ffi::check(n as u32, &lent.nodes, &lent.channels);
    assert_eq!(answer, expected_check(expected), "check");
}

/// An event on any tables in both.
pub fn compare_step(n: i64, event: Event, lent: &Tables, tally: &mut Tally) {
    let mut expected = lent.clone();
    let answer = tables::step(n, event, &mut expected);
    note_event(event, &answer, tally);
    let mut changed = lent.clone();
    let answered = call(n, event, &mut changed);
    assert_eq!(answered, expected_answer(&answer), "{event:?}");
    assert_same(&expected, &changed);
}

/// A save of any tables into any room in both: the answer, the image, and the bytes behind it.
pub fn compare_save(n: i64, lent: &Tables, room: usize, random: &mut Random, tally: &mut Tally) {
    let expected = image::save(n, &lent.nodes, &lent.channels, room);
    tally.note(format!("save {}", number_of(&expected)));
    let mut out = random.bytes(room);
    let mut filled = out.clone();
    let answer = ffi::save(n as u32, &lent.nodes, &lent.channels, &mut out);
    let image = expected.as_deref().unwrap_or(&[]);
    filled[..image.len()].copy_from_slice(image);
    assert!(out == filled, "bytes of a save");
    let size = expected.as_ref().map(Vec::len).map_err(|&refusal| refusal);
    assert_eq!(answer, expected_saved(size), "save");
}

/// A resume of any image into tables that held anything, in both.
pub fn compare_restore(image: &[u8], mut lent: Tables, tally: &mut Tally) {
    let resumed = image::resume(image, lent.nodes.len(), lent.channels.len());
    tally.note(format!("restore {}", number_of(&resumed)));
    let before = lent.clone();
    let answer = ffi::restore(image, &mut lent.nodes, &mut lent.channels);
    let check = resumed.as_ref().map(|_| ()).map_err(|&refusal| refusal);
    assert_eq!(answer, expected_check(check), "restore");
    compare_header(image, answer.number, tally);
    assert_same(&resumed.map_or(before, |plot| tables::store(&plot)), &lent);
}

/// A look at one station of any image, into a row that held anything, in both.
pub fn compare_look(image: &[u8], k: i64, place: u64, mut row: Vec<u32>, tally: &mut Tally) {
    let looked = image::look(image, k, place, row.len());
    tally.note(format!("look {}", number_of(&looked)));
    let mut lent = row.clone();
    let answer = ffi::read_node(image, k as u32, place, &mut lent);
    let check = expected_check(looked.as_ref().map(|_| ()).map_err(|&refusal| refusal));
    let mut expected = ffi::Station {
        number: check.number,
        fault_at: check.fault_at,
        fault_with: check.fault_with,
        clock: 0,
        linked: 0,
        forming: 0,
    };
    if let Ok(look) = looked {
        expected.clock = look.clock;
        expected.linked = look.linked;
        expected.forming = look.forming;
        row = look.row;
    }
    assert_eq!(answer, expected, "look at {k}, place {place}");
    compare_header(image, answer.number, tally);
    assert_same_words("row", &row, &lent);
}

/// A header tells its stations exactly when the number of a resume or a look is neither 10 nor 11.
fn compare_header(image: &[u8], number: u32, tally: &mut Tally) {
    let of_header = match number {
        10 | 11 => number,
        _ => 0,
    };
    assert_eq!(compare_stations(image, tally).number, of_header);
}
