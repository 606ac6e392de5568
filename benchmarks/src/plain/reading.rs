//! Reading an image: all of it is checked before a lent word changes.

use super::check::{sizes, Holder, Search};
use super::image::{row_bytes, HEADER_BYTES, MESSAGE_NIBBLES};
use super::reader::{head, header, heights, rows, Reader};
use super::refusals::{checked_answer, Refusal, IMAGE_END, PLACE, SIZES, STATION};
use super::words::{row_words, Cell, CELL, HEAD, HEIGHT, PLACES};
use crate::abi::{Checked, Station};

/// Resumes the plot of an image.
#[inline(never)]
pub fn restore(image: &[u8], nodes: &mut [u32], channels: &mut [u32]) -> Checked {
    checked_answer(resume(image, nodes, channels))
}

/// Looks at one station of an image.
#[inline(never)]
pub fn read_node(image: &[u8], k: u32, place: u64, row: &mut [u32]) -> Station {
    let done = look(image, k, place, row);
    let [clock, linked, forming] = *done.as_ref().unwrap_or(&[0; HEAD]);
    let Checked {
        number,
        fault_at,
        fault_with,
    } = checked_answer(done);
    Station {
        number,
        fault_at,
        fault_with,
        clock,
        linked,
        forming,
    }
}

fn resume(image: &[u8], nodes: &mut [u32], channels: &mut [u32]) -> Result<(), Refusal> {
    let n = sizes(header(image)?, nodes.len(), channels.len())?;
    examine(n, image)?;
    for (bytes, row) in rows(n, image).zip(nodes.chunks_exact_mut(row_words(n))) {
        fill_row(bytes, row);
    }
    let mut reader = Reader::at_channels(n, image);
    let (cells, _) = channels.as_chunks_mut::<CELL>();
    for (u, cells) in cells.chunks_exact_mut(n).enumerate() {
        for (v, cell) in cells.iter_mut().enumerate() {
            if v == u {
                cell.fill(0);
            } else {
                fill_cell(&mut reader, cell);
            }
        }
    }
    Ok(())
}

fn look(image: &[u8], k: u32, place: u64, row: &mut [u32]) -> Result<[u32; HEAD], Refusal> {
    let n = header(image)? as usize;
    if row.len() != HEIGHT * n {
        return Err(SIZES);
    }
    examine(n, image)?;
    let k = k.wrapping_sub(1) as usize;
    let bytes = rows(n, image).nth(k).ok_or(STATION)?;
    if place != 8 * (HEADER_BYTES + k * row_bytes(n)) as u64 {
        return Err(PLACE);
    }
    fill_heights(bytes, row);
    Ok(head(bytes))
}

/// All that is checked after the lengths.
fn examine(n: usize, image: &[u8]) -> Result<(), Refusal> {
    walk(n, image)?;
    contents(n, image)
}

/// The counts and the end of an image.
fn walk(n: usize, image: &[u8]) -> Result<(), Refusal> {
    let mut reader = Reader::at_channels(n, image);
    for u in 0..n {
        for v in (0..n).filter(|&v| v != u) {
            if reader.left().is_none_or(|left| left == 0) {
                return Err(IMAGE_END);
            }
            let count = reader.nibble();
            if count > PLACES {
                return Err(Refusal::fault(u, v));
            }
            reader.at += MESSAGE_NIBBLES * count;
        }
    }
    match reader.left() {
        Some(0) => Ok(()),
        Some(1) if reader.nibble() == 0 => Ok(()),
        _ => Err(IMAGE_END),
    }
}

/// Refusals 2 and 18 of a walked image, in one walk as for tables.
fn contents(n: usize, image: &[u8]) -> Result<(), Refusal> {
    let mut reader = Reader::at_channels(n, image);
    let mut search = Search::default();
    for (u, row) in rows(n, image).enumerate() {
        let holder = Holder::of(n as u32, u, head(row));
        for (v, height) in heights(row).enumerate() {
            let timely = if v == u {
                holder.own(&height)
            } else {
                let waiting = 0..reader.nibble();
                let view = holder.view(v, &height);
                let messages = waiting.map(|_| reader.message());
                view.and_then(|view| Some(view & holder.messages(v, messages)?))
            };
            search.meets(u, v, timely)?;
        }
    }
    search.ends()
}

fn fill_row(bytes: &[u8], row: &mut [u32]) {
    row[..HEAD].copy_from_slice(&head(bytes));
    fill_heights(bytes, &mut row[HEAD..]);
}

fn fill_heights(bytes: &[u8], row: &mut [u32]) {
    let (words, _) = row.as_chunks_mut();
    for (words, height) in words.iter_mut().zip(heights(bytes)) {
        *words = height;
    }
}

fn fill_cell(reader: &mut Reader, cell: &mut Cell) {
    let count = reader.nibble();
    let (places, _) = cell[1..].as_chunks_mut();
    let (used, unused) = places.split_at_mut(count);
    used.iter_mut().for_each(|place| *place = reader.message());
    unused.as_flattened_mut().fill(0);
    cell[0] = count as u32;
}
