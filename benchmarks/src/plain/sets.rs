//! Sets of stations as bits of a word.

/// The set of one station.
pub fn only(k: usize) -> u32 {
    1 << k
}

pub fn has(set: u32, k: usize) -> bool {
    set & only(k) != 0
}

/// The members of a set, ascending.
pub fn members(mut set: u32) -> impl Iterator<Item = usize> + Clone {
    std::iter::from_fn(move || {
        let k = (set != 0).then(|| set.trailing_zeros() as usize)?;
        set &= set - 1;
        Some(k)
    })
}
