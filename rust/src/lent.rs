//! The calls over tables, bytes and rows that the caller lends. Any numbers, words and lengths may be handed over.
//!
//! - `nodes`: n rows of 3 + 7 n words: clock, linked set, forming set, then n heights of seven words (search time, originator, bit,
//!   depth, election time, leader, station).
//! - `channels`: n n cells of 65 words: how many messages wait, then eight places of a height and its stamp, oldest first.
//!
//! ```
//! use plot_election::{lent, Refusal, View};
//!
//! let mut nodes = [0; lent::nodes_len(2)];
//! let mut channels = [0; lent::channels_len(2)];
//! lent::fresh(2, &mut nodes, &mut channels)?;
//! assert_eq!(lent::up(2, 1, 2, &mut nodes, &mut channels)?.sent, 1);
//! assert_eq!(lent::up(3, 1, 2, &mut nodes, &mut channels), Err(Refusal::Sizes));
//! let plot = View::new(2, &nodes, &channels)?;
//! assert_eq!((plot.clock(1), plot.waiting(1, 2)), (Some(1), 1));
//! # Ok::<(), Refusal>(())
//! ```

use crate::answers::{Group, Record, Refusal, Stations, Step};
use crate::ffi;
use crate::view::Station;

pub use crate::histories::{histories, histories_len, inputs, Inputs, Listed, HISTORIES_MOST};

/// The most stations that a plot can have.
pub const MAX_STATIONS: u32 = 16;

/// The most messages that wait on a channel.
pub const CAPACITY: u32 = 8;

/// n as a length, if a plot can have n stations.
const fn size(n: u32) -> usize {
    if n <= MAX_STATIONS {
        n as usize
    } else {
        0
    }
}

/// Bits of an image's header, of a clock, a set and a count in it.
const HEADER_BITS: usize = 32;
const CLOCK_BITS: usize = 32;
const SET_BITS: usize = 16;
const COUNT_BITS: usize = 4;

/// Bits of a height's seven numbers in an image, and of the stamp behind them in a message.
const FIELD_BITS: [usize; 8] = [32, 5, 1, 16, 32, 5, 5, 32];

/// Where field k of a height or a message starts: behind those before it.
const fn field_place(k: usize) -> usize {
    if k == 0 {
        return 0;
    }
    field_place(k - 1) + FIELD_BITS[k - 1]
}

/// Bits of a station's record: its clock, both sets and n heights.
const fn station_bits(n: usize) -> usize {
    CLOCK_BITS + 2 * SET_BITS + n * field_place(7)
}

/// Bits of a full channel: the count, and its messages.
const CHANNEL_BITS: usize = COUNT_BITS + CAPACITY as usize * field_place(8);

/// Words of the stations' table, n (3 + 7 n); 0 for n outside 1 to 16.
pub const fn nodes_len(n: u32) -> usize {
    size(n) * (3 + 7 * size(n))
}

/// Words of the channels' table, 65 n n; 0 for n outside 1 to 16.
pub const fn channels_len(n: u32) -> usize {
    65 * size(n) * size(n)
}

/// Words of one station's row of heights, 7 n; 0 for n outside 1 to 16.
pub const fn row_len(n: u32) -> usize {
    7 * size(n)
}

/// Bytes that hold every image of n stations, 34,044 for 16; 0 for n outside 1 to 16.
pub const fn image_len(n: u32) -> usize {
    let k = size(n);
    if k == 0 {
        return 0;
    }
    (HEADER_BITS + k * station_bits(k) + k * (k - 1) * CHANNEL_BITS) / 8
}

/// Bytes that hold every drawing of n stations, 1,409 for 16; 0 for n outside 1 to 16.
pub const fn drawing_len(n: u32) -> usize {
    let k = size(n);
    if k == 0 {
        return 0;
    }
    let digits = if k < 10 { k } else { 2 * k - 9 };
    17 + k * (4 * k + digits)
}

/// The bit at which station k's record starts in an image of n stations; `None` for n outside 1 to 16 and k outside 1 to n.
pub const fn place(n: u32, k: u32) -> Option<u64> {
    if n > MAX_STATIONS || k < 1 || k > n {
        return None;
    }
    Some((HEADER_BITS + (k as usize - 1) * station_bits(n as usize)) as u64)
}

fn checked(c: ffi::Checked) -> Result<(), Refusal> {
    Refusal::check(c.number, c.fault_at, c.fault_with)
}

fn saved(s: ffi::Saved) -> Result<usize, Refusal> {
    Refusal::check(s.number, s.fault_at, s.fault_with)?;
    Ok(s.size as usize)
}

fn value(v: ffi::Value) -> Result<u32, Refusal> {
    Refusal::check(v.number, v.fault_at, v.fault_with)?;
    Ok(v.value)
}

/// The fresh plot of n stations, whatever the tables held.
///
/// # Errors
///
/// [`Refusal::Sizes`].
pub fn fresh(n: u32, nodes: &mut [u32], channels: &mut [u32]) -> Result<(), Refusal> {
    checked(ffi::fresh(n, nodes, channels))
}

/// Looks whether any tables hold a plot of n stations.
///
/// # Errors
///
/// The first of [`Refusal::Sizes`], [`Refusal::Fault`], [`Refusal::Untimely`].
pub fn check(n: u32, nodes: &[u32], channels: &[u32]) -> Result<(), Refusal> {
    checked(ffi::check(n, nodes, channels))
}

/// Channel u to v goes up, at u.
///
/// # Errors
///
/// The first of [`Refusal::Sizes`], [`Fault`](Refusal::Fault), [`Untimely`](Refusal::Untimely), [`Station`](Refusal::Station),
/// [`AlreadyUp`](Refusal::AlreadyUp), [`ClockEnd`](Refusal::ClockEnd).
pub fn up(
    n: u32,
    u: u32,
    v: u32,
    nodes: &mut [u32],
    channels: &mut [u32],
) -> Result<Step, Refusal> {
    Step::of(ffi::up(n, u, v, nodes, channels))
}

/// Channel u to v goes down, at u; its messages are lost.
///
/// # Errors
///
/// The first of [`Refusal::Sizes`], [`Fault`](Refusal::Fault), [`Untimely`](Refusal::Untimely), [`Station`](Refusal::Station),
/// [`AlreadyDown`](Refusal::AlreadyDown), [`ClockEnd`](Refusal::ClockEnd), [`ChannelFull`](Refusal::ChannelFull).
pub fn down(
    n: u32,
    u: u32,
    v: u32,
    nodes: &mut [u32],
    channels: &mut [u32],
) -> Result<Step, Refusal> {
    Step::of(ffi::down(n, u, v, nodes, channels))
}

/// The first message of channel `from` to `to` is received, at `to`.
///
/// # Errors
///
/// The first of [`Refusal::Sizes`], [`Fault`](Refusal::Fault), [`Untimely`](Refusal::Untimely), [`Station`](Refusal::Station),
/// [`NoMessage`](Refusal::NoMessage), [`ClockEnd`](Refusal::ClockEnd), [`DepthEnd`](Refusal::DepthEnd),
/// [`ChannelFull`](Refusal::ChannelFull). The message then stays.
pub fn receive(
    n: u32,
    from: u32,
    to: u32,
    nodes: &mut [u32],
    channels: &mut [u32],
) -> Result<Step, Refusal> {
    Step::of(ffi::receive(n, from, to, nodes, channels))
}

/// Whether the plot is quiet: no message waits, and each two stations are up both ways or neither.
///
/// # Errors
///
/// Those of [`check`].
pub fn quiet(n: u32, nodes: &[u32], channels: &[u32]) -> Result<bool, Refusal> {
    Ok(value(ffi::quiet(n, nodes, channels))? != 0)
}

/// The lowest stations of all linked groups, one for each group.
///
/// # Errors
///
/// Those of [`check`].
pub fn groups(n: u32, nodes: &[u32], channels: &[u32]) -> Result<Stations, Refusal> {
    Ok(Stations::from_word(value(ffi::groups(n, nodes, channels))?))
}

/// The linked group of station u.
///
/// # Errors
///
/// Those of [`check`], then [`Refusal::Station`].
pub fn group_of(n: u32, u: u32, nodes: &[u32], channels: &[u32]) -> Result<Group, Refusal> {
    Group::of(ffi::group_of(n, u, nodes, channels))
}

/// The image of the plot goes to the front of `out`, and its length in bytes is answered; the bytes behind it stay.
///
/// # Errors
///
/// Those of [`check`], then [`Refusal::Room`].
pub fn save(n: u32, nodes: &[u32], channels: &[u32], out: &mut [u8]) -> Result<usize, Refusal> {
    saved(ffi::save(n, nodes, channels, out))
}

/// The number of stations in an image's header. The rest of the image is not looked at.
///
/// # Errors
///
/// [`Refusal::ImageShort`], then [`Refusal::ImageHeader`].
pub fn image_stations(image: &[u8]) -> Result<u32, Refusal> {
    value(ffi::image_stations(image))
}

/// Resumes the plot of an image in tables of the header's n.
///
/// # Errors
///
/// The first of [`Refusal::ImageShort`], [`ImageHeader`](Refusal::ImageHeader), [`Sizes`](Refusal::Sizes); then, on the walk over the
/// records, [`Fault`](Refusal::Fault) for a count above 8 or [`ImageEnd`](Refusal::ImageEnd), whichever comes first; then
/// [`ImageEnd`](Refusal::ImageEnd) for what is left over, and [`Fault`](Refusal::Fault) or [`Untimely`](Refusal::Untimely) for the contents.
pub fn restore(image: &[u8], nodes: &mut [u32], channels: &mut [u32]) -> Result<(), Refusal> {
    checked(ffi::restore(image, nodes, channels))
}

/// Looks at station k, whose record is said to start at the bit `place` (see [`place`]); its n heights go into `row`.
///
/// # Errors
///
/// Those of [`restore`], with `row` in the place of the tables; then [`Refusal::Station`], then [`Refusal::Place`].
pub fn read_station<'r>(
    image: &[u8],
    k: u32,
    place: u64,
    row: &'r mut [u32],
) -> Result<Station<'r>, Refusal> {
    let s = ffi::read_node(image, k, place, row);
    Refusal::check(s.number, s.fault_at, s.fault_with)?;
    let record = Record {
        clock: s.clock,
        linked: Stations::from_word(s.linked),
        forming: Stations::from_word(s.forming),
    };
    Station::new(k, record, row).ok_or(Refusal::Station)
}

/// The drawing of the plot goes to the front of `out`, and its length in bytes is answered; the bytes behind it stay. It is a text in the
/// DOT language of Graphviz: every station, and every link as it leads, from the larger own height to the smaller.
///
/// # Errors
///
/// Those of [`check`], then [`Refusal::Room`]; with room of [`drawing_len`] never the last.
pub fn draw(n: u32, nodes: &[u32], channels: &[u32], out: &mut [u8]) -> Result<usize, Refusal> {
    saved(ffi::draw(n, nodes, channels, out))
}

/// How many stations a sketch has, whatever its links are; `None` for a text that is no sketch.
pub fn sketch_stations(text: &[u8]) -> Option<u32> {
    Some(ffi::sketch_stations(text)).filter(|&n| n != 0)
}

/// The plot of a sketch goes into tables of the sketch's n, whatever they held: the fresh plot, and then both channels of each link up, line
/// by line.
///
/// ```
/// use plot_election::{lent, Refusal, View};
///
/// let sketch = b"graph plot {\n  1;\n  2;\n  2 -- 1;\n}\n";
/// assert_eq!(lent::sketch_stations(sketch), Some(2));
/// let mut nodes = [0; lent::nodes_len(2)];
/// let mut channels = [0; lent::channels_len(2)];
/// lent::read_sketch(sketch, &mut nodes, &mut channels)?;
/// assert!(View::new(2, &nodes, &channels)?.is_linked(1, 2));
///
/// let mut out = [0; lent::drawing_len(2)];
/// let size = lent::draw(2, &nodes, &channels, &mut out)?;
/// assert_eq!(&out[..size], b"digraph plot {\n  1;\n  2;\n  2 -> 1;\n}\n");
/// # Ok::<(), Refusal>(())
/// ```
///
/// # Errors
///
/// The first of [`Refusal::SketchForm`], by the whole text, [`Refusal::Sizes`], by its n, and [`Refusal::SketchLink`].
pub fn read_sketch(text: &[u8], nodes: &mut [u32], channels: &mut [u32]) -> Result<(), Refusal> {
    checked(ffi::read_sketch(text, nodes, channels))
}

#[cfg(test)]
mod tests {
    use super::*;

    /// What is worked out here is what the library says.
    #[test]
    fn lengths_are_the_library_s() {
        for n in (0..=20).chain([256, 65_536 + 6, u32::MAX]) {
            assert_eq!(nodes_len(n), ffi::nodes_len(n), "{n}");
            assert_eq!(channels_len(n), ffi::channels_len(n), "{n}");
            assert_eq!(row_len(n), ffi::row_len(n), "{n}");
            assert_eq!(image_len(n), ffi::image_len(n), "{n}");
            assert_eq!(drawing_len(n), ffi::drawing_len(n), "{n}");
        }
    }
}
