//! The election of libabi.a beside the reference: the same calls to both, and every answer, word and byte compared.
//!
//! A round is a function of a seed and a tally; it panics at the first difference. The tests run a fixed number of each kind of
//! round, the binary `soak` runs them for a given time.

pub mod beside;
pub mod calls;
pub mod causal;
pub mod damage;
pub mod damaged_images;
pub mod damaged_tables;
pub mod drawings;
pub mod events;
pub mod fields;
// rust/src/ffi.rs, taken in whole; it says why.
#[path = "../../../rust/src/ffi.rs"]
pub mod ffi;
pub mod heights;
pub mod histories;
pub mod places;
pub mod planted;
pub mod planted_times;
pub mod questions;
pub mod random;
pub mod rounds;
pub mod short;
pub mod sizes;
pub mod tally;
pub mod times;
