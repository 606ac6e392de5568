//! Reading tables and rows without copying them.

use crate::answers::{Group, Height, Record, Refusal, Stations};
use crate::lent;

/// Tables of a plot, only read. Stations outside 1 to n have nothing: `None`, `false` or 0.
#[derive(Clone, Copy, Debug, PartialEq, Eq)]
pub struct View<'a> {
    pub(crate) n: u32,
    pub(crate) nodes: &'a [u32],
    pub(crate) channels: &'a [u32],
}

impl<'a> View<'a> {
    /// The tables of n stations. Only their lengths are looked at; see [`View::check`].
    ///
    /// # Errors
    ///
    /// [`Refusal::Sizes`].
    pub fn new(n: u32, nodes: &'a [u32], channels: &'a [u32]) -> Result<View<'a>, Refusal> {
        let lengths = (lent::nodes_len(n), lent::channels_len(n));
        if lengths.0 == 0 || lengths != (nodes.len(), channels.len()) {
            return Err(Refusal::Sizes);
        }
        Ok(View { n, nodes, channels })
    }

    /// The number of stations.
    pub fn size(self) -> u32 {
        self.n
    }

    /// Station k as it stands.
    pub fn station(self, k: u32) -> Option<Station<'a>> {
        let width = 3 + lent::row_len(self.n);
        let row = self
            .nodes
            .chunks_exact(width)
            .nth(k.checked_sub(1)? as usize)?;
        let record = Record {
            clock: row[0],
            linked: Stations::from_word(row[1]),
            forming: Stations::from_word(row[2]),
        };
        Station::new(k, record, &row[3..])
    }

    /// Station k's clock.
    pub fn clock(self, k: u32) -> Option<u32> {
        Some(self.station(k)?.record().clock)
    }

    /// The leader of station k's own height: k itself if k is a collector.
    pub fn leader(self, k: u32) -> Option<u32> {
        Some(self.station(k)?.own().leader)
    }

    /// Whether station k is a collector.
    pub fn is_collector(self, k: u32) -> bool {
        self.leader(k) == Some(k)
    }

    /// Whether channel u to v is up.
    pub fn is_up(self, u: u32, v: u32) -> bool {
        u != v
            && (1..=self.n).contains(&v)
            && self
                .station(u)
                .is_some_and(|s| s.record().linked.contains(v) || s.record().forming.contains(v))
    }

    /// Whether both channels between u and v are up.
    pub fn is_linked(self, u: u32, v: u32) -> bool {
        self.is_up(u, v) && self.is_up(v, u)
    }

    /// How many messages wait on channel u to v.
    pub fn waiting(self, u: u32, v: u32) -> u32 {
        let known = |k| (1..=self.n).contains(&k);
        if u == v || !known(u) || !known(v) {
            return 0;
        }
        self.channels[((u - 1) * self.n + (v - 1)) as usize * 65]
    }

    /// The first channel on which a message waits, from and to.
    pub fn first_waiting(self) -> Option<(u32, u32)> {
        let mut cells = self.channels.chunks_exact(65);
        let cell = cells.position(|cell| cell[0] > 0)? as u32;
        Some((cell / self.n + 1, cell % self.n + 1))
    }

    /// Looks whether the tables hold a plot.
    ///
    /// # Errors
    ///
    /// [`Refusal::Fault`], then [`Refusal::Untimely`].
    pub fn check(self) -> Result<(), Refusal> {
        lent::check(self.n, self.nodes, self.channels)
    }

    /// See [`lent::quiet`].
    ///
    /// # Errors
    ///
    /// [`Refusal::Fault`], then [`Refusal::Untimely`].
    pub fn quiet(self) -> Result<bool, Refusal> {
        lent::quiet(self.n, self.nodes, self.channels)
    }

    /// See [`lent::groups`].
    ///
    /// # Errors
    ///
    /// [`Refusal::Fault`], then [`Refusal::Untimely`].
    pub fn groups(self) -> Result<Stations, Refusal> {
        lent::groups(self.n, self.nodes, self.channels)
    }

    /// See [`lent::group_of`].
    ///
    /// # Errors
    ///
    /// The first of [`Refusal::Fault`], [`Refusal::Untimely`], [`Refusal::Station`].
    pub fn group_of(self, u: u32) -> Result<Group, Refusal> {
        lent::group_of(self.n, u, self.nodes, self.channels)
    }

    /// The stations' table: see [`lent`].
    pub fn nodes(self) -> &'a [u32] {
        self.nodes
    }

    /// The channels' table: see [`lent`].
    pub fn channels(self) -> &'a [u32] {
        self.channels
    }
}

/// A station: its record and its n heights, its own among them, where they lie.
#[derive(Clone, Copy, Debug, PartialEq, Eq)]
pub struct Station<'a> {
    record: Record,
    own: Height,
    row: &'a [u32],
}

/// The heights of a row.
fn heights(row: &[u32]) -> impl Iterator<Item = Height> + '_ {
    let sevens = row.chunks_exact(7).filter_map(|w| w.try_into().ok());
    sevens.map(Height::from_words)
}

impl<'a> Station<'a> {
    /// Station k, if the row has a height of it.
    pub(crate) fn new(k: u32, record: Record, row: &'a [u32]) -> Option<Station<'a>> {
        let own = heights(row).nth(k.checked_sub(1)? as usize)?;
        Some(Station { record, own, row })
    }

    /// Clock and sets.
    pub fn record(self) -> Record {
        self.record
    }

    /// Its own height.
    pub fn own(self) -> Height {
        self.own
    }

    /// What it holds of stations 1 to n, its own height among them; all zero where it has no view.
    pub fn heights(self) -> impl Iterator<Item = Height> + 'a {
        heights(self.row)
    }

    /// What it holds of station v; `None` for v outside 1 to n.
    pub fn height(self, v: u32) -> Option<Height> {
        self.heights().nth(v.checked_sub(1)? as usize)
    }
}

/// A station read from an image, with a row of its own: it is part of no plot.
#[cfg(feature = "std")]
#[derive(Clone, Copy, Debug, PartialEq, Eq)]
pub struct SavedStation {
    record: Record,
    own: Height,
    row: [u32; lent::row_len(lent::MAX_STATIONS)],
    len: usize,
}

#[cfg(feature = "std")]
impl SavedStation {
    /// Station k of an image of n stations, at the bit `place`.
    pub(crate) fn read(n: u32, image: &[u8], k: u32, place: u64) -> Result<SavedStation, Refusal> {
        let (mut row, len) = ([0; lent::row_len(lent::MAX_STATIONS)], lent::row_len(n));
        let seen = lent::read_station(image, k, place, &mut row[..len])?;
        let (record, own) = (seen.record(), seen.own());
        Ok(SavedStation {
            record,
            own,
            row,
            len,
        })
    }

    /// The station, to be read.
    pub fn station(&self) -> Station<'_> {
        Station {
            record: self.record,
            own: self.own,
            row: &self.row[..self.len],
        }
    }
}
