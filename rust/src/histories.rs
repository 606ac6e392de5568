//! All short histories of a small plot, as bench inputs.

use crate::answers::Refusal;
use crate::ffi;
use core::iter::FusedIterator;

/// How many histories of 0 to 5 events plots of 1, 2 and 3 stations have.
const COUNTS: [[usize; 6]; 3] = [
    [1, 0, 0, 0, 0, 0],
    [1, 2, 6, 16, 46, 128],
    [1, 6, 42, 312, 2418, 19254],
];

/// The most bytes that a list takes: 654,636, for 3 stations and 5 events.
pub const HISTORIES_MOST: usize = histories_len(3, 5);

/// Bytes of the list of all histories of `length` events of n stations, to the byte; 0 for n outside 1 to 3 or a length above 5, and where
/// there is no history (n = 1, length 1 to 5).
pub const fn histories_len(n: u32, length: u32) -> usize {
    if n < 1 || n > 3 || length > 5 {
        return 0;
    }
    let length = length as usize;
    COUNTS[n as usize - 1][length] * (4 + 6 * length)
}

/// A list of histories.
#[derive(Clone, Copy, Debug, PartialEq, Eq, Hash)]
pub struct Listed {
    /// The length of its text.
    pub bytes: usize,
    /// How many histories it has.
    pub histories: u32,
}

/// All histories of `length` events of n stations go to the front of `out` as a text; the bytes behind it stay.
///
/// A history is a row of events that are all carried out, one after the other, from the fresh plot. Each is there once, as one bench input: the
/// line `N n`, then `U u v`, `D u v` or `M u v` (at v, from u) for each event, every line with its newline, nothing between. They stand in
/// dictionary order, of events U before D before M, then by the first and the second number.
///
/// ```
/// use plot_election::{lent, Refusal};
///
/// let mut out = [0; lent::histories_len(2, 1)];
/// let listed = lent::histories(2, 1, &mut out)?;
/// assert_eq!((listed.bytes, listed.histories), (20, 2));
/// assert_eq!(&out, b"N 2\nU 1 2\nN 2\nU 2 1\n");
/// assert_eq!(lent::histories(4, 1, &mut out), Err(Refusal::TooLarge));
/// # Ok::<(), Refusal>(())
/// ```
///
/// # Errors
///
/// The first of [`Refusal::Sizes`], for n outside 1 to 16, [`Refusal::TooLarge`], for n above 3 or a length above 5, and [`Refusal::Room`]; with room
/// of [`histories_len`] never the last.
pub fn histories(n: u32, length: u32, out: &mut [u8]) -> Result<Listed, Refusal> {
    let l = ffi::histories(n, length, out);
    Refusal::check(l.number, l.fault_at, l.fault_with)?;
    Ok(Listed {
        bytes: l.size as usize,
        histories: l.histories,
    })
}

/// The histories of a list one by one, each with its own bytes: a whole bench input.
///
/// ```
/// use plot_election::{lent, Refusal};
///
/// let mut out = [0; lent::HISTORIES_MOST];
/// let listed = lent::histories(3, 2, &mut out)?;
/// let mut inputs = lent::inputs(&out[..listed.bytes]);
/// assert_eq!(inputs.next(), Some(&b"N 3\nU 1 2\nU 1 3\n"[..]));
/// assert_eq!(inputs.count(), 41);
/// # Ok::<(), Refusal>(())
/// ```
///
/// Of any other text: the parts from each line that starts with `N` to the next; what stands before the first is a part too.
pub fn inputs(list: &[u8]) -> Inputs<'_> {
    Inputs { rest: list }
}

/// What [`inputs`] gives.
#[derive(Clone, Debug)]
pub struct Inputs<'a> {
    rest: &'a [u8],
}

impl<'a> Iterator for Inputs<'a> {
    type Item = &'a [u8];

    fn next(&mut self) -> Option<&'a [u8]> {
        if self.rest.is_empty() {
            return None;
        }
        let next = self.rest.windows(2).position(|two| two == b"\nN");
        let (input, rest) = self
            .rest
            .split_at(next.map_or(self.rest.len(), |at| at + 1));
        self.rest = rest;
        Some(input)
    }
}

impl FusedIterator for Inputs<'_> {}

#[cfg(test)]
mod tests {
    use super::*;

    /// What is worked out here is what the library says.
    #[test]
    fn lengths_are_the_library_s() {
        for n in (0..=20).chain([256, 65_536 + 2, u32::MAX]) {
            for length in (0..=8).chain([256, u32::MAX]) {
                let len = ffi::histories_len(n, length);
                assert_eq!(histories_len(n, length), len, "{n} {length}");
            }
        }
        assert_eq!(HISTORIES_MOST, 654_636);
    }

    #[test]
    fn parts_of_any_text() {
        for (text, parts) in [
            ("", &[][..]),
            ("N", &["N"]),
            ("\n", &["\n"]),
            ("N 1\nN 1\n", &["N 1\n", "N 1\n"]),
            ("N\nN\nN", &["N\n", "N\n", "N"]),
            ("U N\n\nN 2\nUN\n", &["U N\n\n", "N 2\nUN\n"]),
        ] {
            let same = inputs(text.as_bytes()).eq(parts.iter().map(|part| part.as_bytes()));
            assert!(same, "{text}");
        }
    }
}
