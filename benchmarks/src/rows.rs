//! The rows of the table: what is called on which plot.

use crate::measure::{sides, Samples, Times};
use crate::plots::Tables;
use crate::{abi, floor, plain};
use std::hint::black_box;

/// What a row measures.
#[derive(Clone, Copy, PartialEq, Eq)]
pub enum Kind {
    Refusal,
    UpDown,
    Receipt,
    Check,
    Save,
    Restore,
    ReadNode,
    Quiet,
    Groups,
    GroupOf,
}

/// What the plots hold.
#[derive(Clone, Copy, PartialEq, Eq)]
pub enum Fill {
    Fresh,
    Linked(u32),
    Mixed,
}

/// What is called, for how many stations, on which plots.
#[derive(Clone, Copy)]
pub struct Case {
    pub kind: Kind,
    pub n: u32,
    pub fill: Fill,
}

/// One measured row.
pub struct Row {
    pub case: Case,
    pub words: usize,
    pub times: Times,
}

type Look<A> = fn(u32, &[u32], &[u32]) -> A;
type Event = fn(u32, u32, u32, &mut [u32], &mut [u32]) -> abi::Answer;

/// The machine may be faster or slower for seconds, so all rows are measured in each of these rounds.
const ROUNDS: usize = 10;

/// Measures all rows with so many batches of each side.
pub fn measure(batches: usize) -> Vec<Row> {
    let cases = cases();
    let mut samples: Vec<Samples> = cases.iter().map(|_| Samples::default()).collect();
    for _ in 0..ROUNDS {
        for (case, samples) in cases.iter().zip(&mut samples) {
            samples.add(one_round(*case, batches / ROUNDS));
        }
    }
    let rows = cases.iter().zip(samples).map(|(case, samples)| Row {
        case: *case,
        words: case.plots()[0].words(),
        times: samples.times(),
    });
    rows.collect()
}

/// All cases, in the table's order.
fn cases() -> Vec<Case> {
    let case = |kind, n, fill| Case { kind, n, fill };
    let mut cases = vec![case(Kind::Refusal, 1, Fill::Fresh)];
    for n in [2, 4, 8, 16] {
        cases.extend([0, 4, 8].map(|waiting| case(Kind::UpDown, n, Fill::Linked(waiting))));
        cases.push(case(Kind::UpDown, n, Fill::Mixed));
        cases.extend([1, 4, 8].map(|waiting| case(Kind::Receipt, n, Fill::Linked(waiting))));
        cases.push(case(Kind::Receipt, n, Fill::Mixed));
    }
    for n in [4, 8, 16] {
        cases.extend([Fill::Linked(4), Fill::Mixed].map(|fill| case(Kind::Check, n, fill)));
    }
    for kind in [Kind::Quiet, Kind::Groups, Kind::GroupOf] {
        cases.extend(fills(0).map(|(n, fill)| case(kind, n, fill)));
    }
    for kind in [Kind::Save, Kind::Restore, Kind::ReadNode] {
        cases.extend(fills(8).map(|(n, fill)| case(kind, n, fill)));
    }
    cases
}

/// The plots for a question or an image, with so many waiting where all are linked.
fn fills(waiting: u32) -> [(u32, Fill); 8] {
    let linked = Fill::Linked(waiting);
    [
        (1, Fill::Fresh),
        (4, Fill::Fresh),
        (4, linked),
        (4, Fill::Mixed),
        (8, Fill::Mixed),
        (16, Fill::Fresh),
        (16, linked),
        (16, Fill::Mixed),
    ]
}

impl Case {
    /// The plots that are taken in turn: one, or so many mixed ones that the processor cannot learn by heart which jumps they take.
    fn plots(self) -> Vec<Tables> {
        match self.fill {
            Fill::Fresh => vec![Tables::fresh(self.n)],
            Fill::Linked(waiting) => vec![Tables::linked(self.n, waiting)],
            Fill::Mixed => {
                let seeds = 0..u64::from(8192 / (self.n * self.n));
                seeds.map(|seed| Tables::mixed(self.n, seed)).collect()
            }
        }
    }

    /// A batch of mixed plots takes all of them, so fewer will do.
    fn batches(self, batches: usize) -> usize {
        if self.fill == Fill::Mixed {
            batches / 4
        } else {
            batches
        }
    }
}

/// Measures one case.
fn one_round(case: Case, batches: usize) -> Samples {
    let (plots, batches) = (case.plots(), case.batches(batches));
    match case.kind {
        Kind::Refusal => refusal(&plots, batches),
        Kind::UpDown => up_down(&plots, batches),
        Kind::Receipt => receipt(&plots, batches),
        Kind::Check => look(abi::check, plain::check, |a| a.number, &plots, batches),
        Kind::Save => save(&plots, batches),
        Kind::Restore => restore(&plots, batches),
        Kind::ReadNode => read_node(&plots, batches),
        Kind::Quiet => look(abi::quiet, plain::quiet, |a| a.number, &plots, batches),
        Kind::Groups => look(abi::groups, plain::groups, |a| a.number, &plots, batches),
        // of the last station
        Kind::GroupOf => look(
            |n, nodes, channels| abi::group_of(n, n, nodes, channels),
            |n, nodes, channels| plain::group_of(n, n, nodes, channels),
            |a| a.number,
            &plots,
            batches,
        ),
    }
}

/// One event, with nothing known to the compiler, and its answer as it must be.
fn event(f: Event, u: u32, v: u32, tables: &mut Tables, number: u32) {
    let n = black_box(tables.n);
    let answer = f(
        n,
        black_box(u),
        black_box(v),
        &mut tables.nodes,
        &mut tables.channels,
    );
    assert_eq!(black_box(answer).number, number);
}

/// One pass over both tables of every plot.
fn pass(plots: &[Tables]) -> impl FnMut() + '_ {
    move || {
        for tables in plots {
            black_box(floor::pass(
                black_box(&tables.nodes),
                black_box(&tables.channels),
            ));
        }
    }
}

/// For n = 1 no event is possible: the check, then refusal 3.
fn refusal(plots: &[Tables], batches: usize) -> Samples {
    let (mut ours, mut theirs) = (plots.to_vec(), plots.to_vec());
    sides(
        batches,
        plots.len(),
        1,
        || {
            for tables in &mut ours {
                event(abi::up, 1, 1, tables, 3);
            }
        },
        || {
            for tables in &mut theirs {
                event(plain::up, 1, 1, tables, 3);
            }
        },
        pass(plots),
    )
}

/// Channel 1 to 2 goes down and up again.
fn up_down(plots: &[Tables], batches: usize) -> Samples {
    let (mut ours, mut theirs) = (plots.to_vec(), plots.to_vec());
    let samples = sides(
        batches,
        plots.len(),
        2,
        || {
            for tables in &mut ours {
                event(abi::down, 1, 2, tables, 0);
            }
            for tables in &mut ours {
                event(abi::up, 1, 2, tables, 0);
            }
        },
        || {
            for tables in &mut theirs {
                event(plain::down, 1, 2, tables, 0);
            }
            for tables in &mut theirs {
                event(plain::up, 1, 2, tables, 0);
            }
        },
        pass(plots),
    );
    assert_eq!(ours, theirs);
    samples
}

/// All messages of channel 1 to 2 are received, then put back by a copy of their words.
fn receipt(plots: &[Tables], batches: usize) -> Samples {
    let (mut ours, mut theirs) = (plots.to_vec(), plots.to_vec());
    let waiting = ours[0].cell(1, 2)[0] as usize;
    let words = |tables: &mut Tables| tables.cell(1, 2)[..1 + 8 * waiting].to_vec();
    let words: Vec<Vec<u32>> = ours.iter_mut().map(words).collect();
    let run = |f: Event, plots: &mut [Tables]| {
        for _ in 0..waiting {
            for tables in &mut *plots {
                event(f, 1, 2, tables, 0);
            }
        }
        for (tables, words) in plots.iter_mut().zip(&words) {
            tables.cell(1, 2)[..words.len()].copy_from_slice(words);
        }
    };
    let samples = sides(
        batches,
        plots.len(),
        waiting,
        || run(abi::receive, &mut ours),
        || run(plain::receive, &mut theirs),
        pass(plots),
    );
    assert_eq!(ours, theirs);
    samples
}

/// Times a save.
fn save(plots: &[Tables], batches: usize) -> Samples {
    let room = abi::image_len(plots[0].n);
    let (mut ours, mut theirs) = (vec![0; room], vec![0; room]);
    let samples = sides(
        batches,
        plots.len(),
        1,
        || {
            for tables in plots {
                let (nodes, channels) = (black_box(&tables.nodes), black_box(&tables.channels));
                let done = abi::save(black_box(tables.n), nodes, channels, black_box(&mut ours));
                assert_eq!(done.number, 0);
            }
        },
        || {
            for tables in plots {
                let (nodes, channels) = (black_box(&tables.nodes), black_box(&tables.channels));
                let done =
                    plain::save(black_box(tables.n), nodes, channels, black_box(&mut theirs));
                assert_eq!(done.number, 0);
            }
        },
        pass(plots),
    );
    assert_eq!(ours, theirs);
    samples
}

/// Times a resume.
fn restore(plots: &[Tables], batches: usize) -> Samples {
    let images: Vec<Vec<u8>> = plots.iter().map(Tables::image).collect();
    let (mut ours, mut theirs) = (plots.to_vec(), plots.to_vec());
    let samples = sides(
        batches,
        plots.len(),
        1,
        || {
            for (image, tables) in images.iter().zip(&mut ours) {
                let done = abi::restore(black_box(image), &mut tables.nodes, &mut tables.channels);
                assert_eq!(black_box(done).number, 0);
            }
        },
        || {
            for (image, tables) in images.iter().zip(&mut theirs) {
                let done =
                    plain::restore(black_box(image), &mut tables.nodes, &mut tables.channels);
                assert_eq!(black_box(done).number, 0);
            }
        },
        pass(plots),
    );
    assert_eq!(ours, theirs);
    samples
}

/// A look at the last station.
fn read_node(plots: &[Tables], batches: usize) -> Samples {
    let images: Vec<Vec<u8>> = plots.iter().map(Tables::image).collect();
    let n = plots[0].n;
    let place = u64::from(32 + (n - 1) * (64 + 96 * n));
    let (mut ours, mut theirs) = (vec![0; abi::row_len(n)], vec![0; abi::row_len(n)]);
    let samples = sides(
        batches,
        plots.len(),
        1,
        || {
            for image in &images {
                let done = abi::read_node(black_box(image), n, place, &mut ours);
                assert_eq!(black_box(done).number, 0);
            }
        },
        || {
            for image in &images {
                let done = plain::read_node(black_box(image), n, place, &mut theirs);
                assert_eq!(black_box(done).number, 0);
            }
        },
        pass(plots),
    );
    assert_eq!(ours, theirs);
    samples
}

/// A look at whole tables, a check or a question, and how its answer says its number.
fn look<A>(
    ours: Look<A>,
    theirs: Look<A>,
    number: fn(A) -> u32,
    plots: &[Tables],
    batches: usize,
) -> Samples {
    let ask = |f: Look<A>| {
        for tables in plots {
            let (nodes, channels) = (black_box(&tables.nodes), black_box(&tables.channels));
            assert_eq!(number(f(black_box(tables.n), nodes, channels)), 0);
        }
    };
    sides(
        batches,
        plots.len(),
        1,
        || ask(ours),
        || ask(theirs),
        pass(plots),
    )
}
