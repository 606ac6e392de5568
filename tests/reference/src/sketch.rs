//! Request [2] of document 02, the form of the texts that are read. Such a text is called a sketch
//! here, to tell it from a drawing, which is written and has arrows.

use crate::bench::number;
use crate::tables::is_station_count;

/// The number of stations and the links, in the order and the direction in which they are named. The
/// links are any numbers that can be written. None for a text of another form, which 16 is for.
pub fn parse(text: &[u8]) -> Option<(u32, Vec<(u32, u32)>)> {
    let lines = lines(text)?;
    let [b"graph plot {", inner @ .., b"}"] = &lines[..] else {
        return None;
    };
    let (stations, links) = inner.split_at(leading_stations(inner));
    let n = u32::try_from(stations.len()).ok()?;
    let links: Option<Vec<(u32, u32)>> = links.iter().map(|line| link(line)).collect();
    Some((n, links?)).filter(|_| is_station_count(i64::from(n)))
}

/// How many stations the sketch has, whatever its links are; 0 for a text of another form.
pub fn stations(text: &[u8]) -> u32 {
    parse(text).map_or(0, |(n, _)| n)
}

/// The lines without their newlines, of which the last has one too.
fn lines(text: &[u8]) -> Option<Vec<&[u8]>> {
    let all_but_last = text.strip_suffix(b"\n")?;
    Some(all_but_last.split(|byte| *byte == b'\n').collect())
}

/// How many lines from the first on name the stations 1, 2, 3 and so on.
fn leading_stations(lines: &[&[u8]]) -> usize {
    let named = (1..).zip(lines);
    named
        .take_while(|(k, line)| **line == format!("  {k};").as_bytes())
        .count()
}

/// `  a -- b;`, both numbers as on the bench (01, 8.5).
fn link(line: &[u8]) -> Option<(u32, u32)> {
    let inside = line.strip_prefix(b"  ")?.strip_suffix(b";")?;
    let pieces: Vec<&[u8]> = inside.split(|byte| *byte == b' ').collect();
    let [a, b"--", b] = pieces[..] else {
        return None;
    };
    let end = |piece: &[u8]| u32::try_from(number(piece)?).ok();
    Some((end(a)?, end(b)?))
}
