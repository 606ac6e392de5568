//! Leader election for up to 16 loggers on a plot, over the proved library `libabi.a`.
//!
//! - [`lent`]: the calls, over tables and bytes that the caller lends.
//! - [`View`]: reads tables without copying them.
#![cfg_attr(feature = "std", doc = "- [`Plot`]: a plot that owns its tables.")]
#![cfg_attr(
    not(feature = "std"),
    doc = "- `Plot`, with the feature `std`: a plot that owns its tables."
)]
//!
//! Every call takes any numbers; what cannot be done is refused, and then nothing has changed. Nothing here is `std` but `Plot`, and
//! nothing else allocates. A number or a letter of a newer library becomes [`Refusal::Other`] or [`Rule::Other`].

#![no_std]
#![deny(missing_docs)]
#![warn(clippy::missing_errors_doc, clippy::missing_panics_doc)]

#[cfg(feature = "std")]
extern crate std;

mod answers;
mod ffi;
mod histories;
pub mod lent;
#[cfg(feature = "std")]
mod plot;
mod view;

pub use answers::{Comparison, Group, Height, Level, Place, Record, Refusal, Rule, Stations, Step};
#[cfg(feature = "std")]
pub use plot::Plot;
#[cfg(feature = "std")]
pub use view::SavedStation;
pub use view::{Station, View};

/// The examples of README.md.
#[cfg(all(doctest, feature = "std"))]
#[doc = include_str!("../README.md")]
struct ReadMe;
