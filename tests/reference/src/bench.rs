//! Document 01, "The bench program": from its whole input to its whole output.

use crate::plot::Plot;
use crate::refusal::Refusal;
use crate::step::{Answer, Event, step};
use crate::tables::is_station_count;
use std::fmt::Write;

/// 01, 8.1: standard input and its 65,536 bytes.
pub const MOST_INPUT: usize = 65_536;

/// The whole output; `bad plot` alone where the first line or the length is wrong (01, 8.8).
pub fn listing(input: &[u8]) -> Vec<u8> {
    let lines = lines(input);
    let count = lines.first().and_then(|line| station_count(line));
    let text = match count {
        Some(n) if input.len() <= MOST_INPUT => run(n, &lines[1..]),
        _ => String::from("bad plot\n"),
    };
    text.into_bytes()
}

/// The lines without their newlines; behind the last one it may be missing (01, 8.6).
fn lines(input: &[u8]) -> Vec<&[u8]> {
    let mut pieces: Vec<&[u8]> = input.split(|byte| *byte == b'\n').collect();
    if pieces.last().is_some_and(|piece| piece.is_empty()) {
        pieces.pop();
    }
    pieces
}

/// 01, 8.2: `N n`, n from 1 to 16.
fn station_count(line: &[u8]) -> Option<i64> {
    let pieces: Vec<&[u8]> = line.split(|byte| *byte == b' ').collect();
    match pieces[..] {
        [b"N", n] => number(n).filter(|n| is_station_count(*n)),
        _ => None,
    }
}

/// 01, 8.3 and 8.4: `U`, `D` or `M` and two numbers, of which `M` names the sender first. None if
/// malformed.
fn event(line: &[u8]) -> Option<Event> {
    let pieces: Vec<&[u8]> = line.split(|byte| *byte == b' ').collect();
    let [letter, u, v] = pieces[..] else {
        return None;
    };
    let (u, v) = (number(u)?, number(v)?);
    match letter {
        b"U" => Some(Event::Up { u, v }),
        b"D" => Some(Event::Down { u, v }),
        b"M" => Some(Event::Receipt { from: u, to: v }),
        _ => None,
    }
}

/// 01, 8.5: how numbers are written.
pub(crate) fn number(piece: &[u8]) -> Option<i64> {
    match *piece {
        [digit @ b'0'..=b'9'] => Some(i64::from(digit - b'0')),
        [tens @ b'1'..=b'9', digit @ b'0'..=b'9'] => {
            Some(i64::from(tens - b'0') * 10 + i64::from(digit - b'0'))
        }
        _ => None,
    }
}

/// The answer to one line, malformed ones included (01, 8.7).
fn answer(plot: &mut Plot, line: &[u8]) -> Answer {
    match event(line) {
        Some(event) => step(plot, event),
        None => Answer::refused(Refusal::BenchLine),
    }
}

/// 01, 8.10 to 8.12: a line for each event, a line for each station.
fn run(n: i64, lines: &[&[u8]]) -> String {
    let mut plot = Plot::fresh(n);
    let mut text = String::from("event code rule sent\n");
    for (before, line) in lines.iter().enumerate() {
        let answer = answer(&mut plot, line);
        let (code, rule, sent) = (answer.number, answer.letter(), answer.sent_to.len());
        writeln!(text, "{} {code} {rule} {sent}", before + 1).expect("a string takes all");
    }
    text.push_str("station leader clock\n");
    for (k, station) in &plot.stations {
        let (leader, clock) = (station.own.pair.leader, station.clock);
        writeln!(text, "{k} {leader} {clock}").expect("a string takes all");
    }
    text
}
