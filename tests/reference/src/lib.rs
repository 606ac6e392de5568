//! Document 01, step, image and bench (1.3), said again with maps, sets, lists and wide signed
//! numbers. It shares nothing with the implementation it is compared with; READINGS.md has its
//! readings of unclear points. "01, 4.13" is that sentence of document 01 as docs/TRACEABILITY.md
//! numbers them.
//!
//! | Module | Section of document 01 |
//! |---|---|
//! | [`plot`] | What a station holds |
//! | [`parting`] | What a station holds (the order of heights), with request [1] of document 02 |
//! | [`step`] | The clock, with request [5] of document 02; The three events |
//! | [`refusal`] | Returned numbers |
//! | [`tables`] | Returned numbers (1 and 2), over the lent tables |
//! | [`image`] | The plot image |
//! | [`fields`] | The plot image (heights and messages), with request [4] of document 02 |
//! | [`history`] | Lists of calls (what the events make of the channels) |
//! | [`quiet`] | Lists of calls (demand 3: groups, collectors and chains) |
//! | [`bench`] | The bench program |
//! | [`drawing`] | none: request [2] of document 02 |
//! | [`times`] | none: request [3] of document 02 |
//! | [`causal`] | none: request [5] of document 02, with section 2.3 of source 001 |
//! | [`short`] | none: request [6] of document 02, over the events and the bench's lines |
//!
//! [`sketches`] has texts for the reader of [`drawing`], good and bad, for tests here and elsewhere.
#![forbid(unsafe_code)]

pub mod bench;
mod bits;
pub mod causal;
mod dice;
pub mod drawing;
mod event;
pub mod fields;
pub mod history;
pub mod image;
pub mod parting;
pub mod plot;
pub mod quiet;
pub mod refusal;
pub mod short;
mod sketch;
mod sketch_corners;
pub mod sketches;
mod sound;
pub mod step;
pub mod tables;
pub mod times;

#[cfg(test)]
mod worked_arrows;
#[cfg(test)]
mod worked_causal;
#[cfg(test)]
mod worked_drawings;
#[cfg(test)]
mod worked_fields;
#[cfg(test)]
mod worked_forms;
#[cfg(test)]
mod worked_groups;
#[cfg(test)]
mod worked_heights;
#[cfg(test)]
mod worked_ignored;
#[cfg(test)]
mod worked_images;
#[cfg(test)]
mod worked_joined;
#[cfg(test)]
mod worked_lists;
#[cfg(test)]
mod worked_orders;
#[cfg(test)]
mod worked_plots;
#[cfg(test)]
mod worked_rooms;
#[cfg(test)]
mod worked_runs;
#[cfg(test)]
mod worked_short;
#[cfg(test)]
mod worked_short_rooms;
#[cfg(test)]
mod worked_sketches;
#[cfg(test)]
mod worked_times;
#[cfg(test)]
mod worked_untimely;
