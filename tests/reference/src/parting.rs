//! Document 01, "What a station holds": the order of heights (2.18), and request [1] of document 02:
//! where two heights part. Heights are compared here and nowhere else; `<` and `>` lead here.

use crate::plot::Height;
use std::cmp::Ordering;

/// 02, [1]: how one height stands to another, and which of the seven numbers says so.
#[derive(Clone, Copy, Debug, PartialEq, Eq)]
pub struct Parting {
    pub order: Ordering,
    /// From 1 to 7, in the order of 01, 2.8; 0 for equal heights.
    pub place: i64,
}

/// The list of both heights' numbers with their places, and in it the first two that differ.
pub fn parting(a: &Height, b: &Height) -> Parting {
    let numbers = a.numbers().into_iter().zip(b.numbers());
    let placed = (1..).zip(numbers);
    let mut orders = placed.map(|(place, (of_a, of_b))| Parting {
        order: of_a.cmp(&of_b),
        place,
    });
    let first = orders.find(|number| number.order.is_ne());
    first.unwrap_or(Parting {
        order: Ordering::Equal,
        place: 0,
    })
}

impl Ord for Height {
    fn cmp(&self, other: &Height) -> Ordering {
        parting(self, other).order
    }
}

impl PartialOrd for Height {
    fn partial_cmp(&self, other: &Height) -> Option<Ordering> {
        Some(self.cmp(other))
    }
}
