//! The refusals, and the answer of a call that only checks.

use crate::abi::Checked;

/// Why a call is refused: the number, and the pair of refusals 2 and 18.
#[derive(Clone, Copy)]
pub struct Refusal {
    pub number: u32,
    pub at: u32,
    pub with: u32,
}

pub const SIZES: Refusal = Refusal::of(1);
pub const STATION: Refusal = Refusal::of(3);
pub const ALREADY_UP: Refusal = Refusal::of(4);
pub const ALREADY_DOWN: Refusal = Refusal::of(5);
pub const NO_MESSAGE: Refusal = Refusal::of(6);
pub const CLOCK_END: Refusal = Refusal::of(7);
pub const DEPTH_END: Refusal = Refusal::of(8);
pub const CHANNEL_FULL: Refusal = Refusal::of(9);
pub const IMAGE_SHORT: Refusal = Refusal::of(10);
pub const IMAGE_HEADER: Refusal = Refusal::of(11);
pub const IMAGE_END: Refusal = Refusal::of(12);
pub const PLACE: Refusal = Refusal::of(13);
pub const ROOM: Refusal = Refusal::of(14);

impl Refusal {
    pub const fn of(number: u32) -> Refusal {
        Refusal {
            number,
            at: 0,
            with: 0,
        }
    }

    /// Refusal 2 at the pair (u, v).
    pub fn fault(u: usize, v: usize) -> Refusal {
        Refusal::at(2, u, v)
    }

    /// Refusal 18 at the pair (u, v).
    pub fn untimely(u: usize, v: usize) -> Refusal {
        Refusal::at(18, u, v)
    }

    fn at(number: u32, u: usize, v: usize) -> Refusal {
        Refusal {
            number,
            at: u as u32 + 1,
            with: v as u32 + 1,
        }
    }
}

/// The number of a refusal and its pair, or 0.
pub fn checked_answer<T>(done: Result<T, Refusal>) -> Checked {
    let refusal = done.err().unwrap_or(Refusal::of(0));
    Checked {
        number: refusal.number,
        fault_at: refusal.at,
        fault_with: refusal.with,
    }
}
