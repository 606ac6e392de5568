//! Document 01, "The plot image": writing a plot, reading it whole, and looking at one station.

use crate::bits::{Reader, Writer};
use crate::plot::{MOST_WAITING, Plot, ordered_pairs};
use crate::refusal::Refusal;
use crate::tables::{
    self, CELL_WORDS, Tables, channels_len, check_sizes, is_station_count, load, nodes_len,
    set_word, store_row, words_of_height,
};
use std::collections::BTreeSet;

/// 01, 6.2, the header: 4, 12, 5, 11.
pub const HEADER_BITS: i64 = 32;

/// The one version that is read (01, 5.13).
const VERSION: i64 = 1;

/// The shortest image that is looked at, in bytes (01, 5.12).
const HEADER_BYTES: usize = 4;

/// What a look answers and fills (01, 6.17).
#[derive(Clone, Debug, PartialEq, Eq)]
pub struct Look {
    pub clock: u32,
    pub linked: u32,
    pub forming: u32,
    pub row: Vec<u32>,
}

/// 01, 6.4: a station's 64 + 96 n bits.
fn station_bits(n: i64) -> i64 {
    64 + 96 * n
}

/// 01, 6.11: where station k starts.
pub fn place_of(n: i64, k: i64) -> i64 {
    HEADER_BITS + (k - 1) * station_bits(n)
}

/// The bytes of an image with 8 messages on every channel (01, 9.17), by the sizes of 6.5 and 6.7.
pub fn longest(n: i64) -> usize {
    let channel = 4 + MOST_WAITING as i64 * 128;
    let bits = HEADER_BITS + n * station_bits(n) + n * (n - 1) * channel;
    usize::try_from((bits + 7) / 8).unwrap_or(0)
}

/// 01, 6.1: header, stations, channels, zero bits.
pub fn write(plot: &Plot) -> Vec<u8> {
    let mut writer = Writer::new();
    writer.put(VERSION, 4);
    writer.put(HEADER_BITS, 12);
    writer.put(plot.n, 5);
    writer.put(0, 11);
    for u in 1..=plot.n {
        write_station(&mut writer, plot, u);
    }
    for (u, v) in ordered_pairs(plot.n) {
        let waiting = plot.waiting(u, v);
        writer.put(waiting.len() as i64, 4);
        waiting.iter().for_each(|m| writer.put_message(m));
    }
    writer.finish()
}

/// 01, 6.3, a station: 32, 16, 16, its heights.
fn write_station(writer: &mut Writer, plot: &Plot, u: i64) {
    let station = plot.station(u);
    let linked: BTreeSet<i64> = station.linked.keys().copied().collect();
    writer.put(station.clock, 32);
    writer.put(i64::from(set_word(&linked)), 16);
    writer.put(i64::from(set_word(&station.forming)), 16);
    for v in 1..=plot.n {
        let own = (v == u).then_some(&station.own);
        writer.put_height(own.or(station.linked.get(&v)));
    }
}

/// 01, 6.23 and 6.24: the checks of writing, 18 before 14 (02, [3]). The answer is the image alone.
pub fn save(n: i64, nodes: &[u32], channels: &[u32], room: usize) -> Result<Vec<u8>, Refusal> {
    let image = write(&load(n, nodes, channels)?);
    if image.len() > room {
        return Err(Refusal::Room);
    }
    Ok(image)
}

/// 01, 6.19: the header first; n, or 10, or 11.
pub fn header(image: &[u8]) -> Result<i64, Refusal> {
    if image.len() < HEADER_BYTES {
        return Err(Refusal::ImageShort);
    }
    let mut reader = Reader::new(image);
    let version = reader.take(4)?;
    let length = reader.take(12)?;
    let n = reader.take(5)?;
    let spare = reader.take(11)?;
    let good = version == VERSION && length == HEADER_BITS && is_station_count(n) && spare == 0;
    good.then_some(n).ok_or(Refusal::ImageHeader)
}

/// 01, 6.12 to 6.14: the walk and the end. What it walks over is taken down as words, its contents
/// not yet judged.
fn walk(image: &[u8], n: i64) -> Result<Tables, Refusal> {
    let mut reader = Reader::new(image);
    reader.take(HEADER_BITS as usize)?;
    let mut nodes = Vec::with_capacity(nodes_len(n));
    for _ in 1..=n {
        walk_station(&mut reader, n, &mut nodes)?;
    }
    let mut channels = Vec::with_capacity(channels_len(n));
    for u in 1..=n {
        for v in 1..=n {
            channels.extend(walk_channel(&mut reader, u, v)?);
        }
    }
    reader.finish()?;
    Ok(Tables { nodes, channels })
}

/// 01, 6.3, a station: 32, 16, 16, its heights.
fn walk_station(reader: &mut Reader, n: i64, nodes: &mut Vec<u32>) -> Result<(), Refusal> {
    for width in [32, 16, 16] {
        nodes.push(reader.take(width)? as u32);
    }
    for _ in 1..=n {
        nodes.extend(words_of_height(&reader.take_height()?));
    }
    Ok(())
}

/// 01, 6.5: the channels, each count judged where it stands (6.13). The image has nothing for v = u.
fn walk_channel(reader: &mut Reader, u: i64, v: i64) -> Result<Vec<u32>, Refusal> {
    let mut cell = vec![0];
    if u != v {
        let count = reader.take(4)?;
        if count > MOST_WAITING as i64 {
            return Err(Refusal::Fault { u, v });
        }
        cell[0] = count as u32;
        for _ in 0..count {
            let message = reader.take_message()?;
            cell.extend(words_of_height(&message.height));
            cell.push(message.stamp as u32);
        }
    }
    cell.resize(CELL_WORDS, 0);
    Ok(cell)
}

/// The walk, then the contents (01, 6.15) and the times (02, [3]): as for tables.
fn read_plot(image: &[u8], n: i64) -> Result<Plot, Refusal> {
    let tables = walk(image, n)?;
    load(n, &tables.nodes, &tables.channels)
}

/// 01, 6.20: a resume; 6.18: tables of another length.
pub fn resume(image: &[u8], nodes_len: usize, channels_len: usize) -> Result<Plot, Refusal> {
    let n = header(image)?;
    check_sizes(n, nodes_len, channels_len)?;
    read_plot(image, n)
}

/// 01, 6.16 and 6.17: a look, its checks and its answer.
pub fn look(image: &[u8], k: i64, place: u64, row_len: usize) -> Result<Look, Refusal> {
    let n = header(image)?;
    if row_len != tables::row_len(n) {
        return Err(Refusal::Sizes);
    }
    let plot = read_plot(image, n)?;
    if !(1..=n).contains(&k) {
        return Err(Refusal::Station);
    }
    if u64::try_from(place_of(n, k)) != Ok(place) {
        return Err(Refusal::Place);
    }
    Ok(look_at(&plot, k))
}

/// What is seen of one station, which enters no tables (01, 6.21).
fn look_at(plot: &Plot, k: i64) -> Look {
    let station = plot.station(k);
    let linked: BTreeSet<i64> = station.linked.keys().copied().collect();
    Look {
        clock: station.clock as u32,
        linked: set_word(&linked),
        forming: set_word(&station.forming),
        row: store_row(plot, k),
    }
}
