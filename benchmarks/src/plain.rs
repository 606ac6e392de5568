//! Document 01 in plain Rust over the same words and bytes as the library: the same checks in the same order, no unsafe code.
//!
//! Station numbers are from 1 at the interface and from 0 inside.
#![forbid(unsafe_code)]

mod channels;
mod check;
mod events;
mod heights;
mod image;
mod questions;
mod reader;
mod reading;
mod refusals;
mod rules;
mod sets;
mod words;
mod writing;

pub use check::check;
pub use events::{down, receive, up};
pub use questions::{group_of, groups, quiet};
pub use reading::{read_node, restore};
pub use writing::save;
