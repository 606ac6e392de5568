//! Lists of short histories in both: every answer, the text byte by byte, and what stands behind it; each history on the reference's bench.

use crate::beside::{expected_check, number_of};
use crate::ffi;
use crate::tally::Tally;
use reference::bench;
use reference::refusal::Refusal;
use reference::short::{self, Listed};

/// The interface's form of a list.
fn expected_listed(listed: Result<Listed, Refusal>) -> ffi::Listed {
    let check = expected_check(listed.map(|_| ()));
    let (bytes, histories) = listed.map_or((0, 0), |l| (l.bytes, l.histories));
    ffi::Listed {
        number: check.number,
        fault_at: check.fault_at,
        fault_with: check.fault_with,
        histories: histories as u32,
        size: bytes as u64,
    }
}

/// A list into any room: the answer, and all bytes afterwards. Gives the text where there is one.
pub fn compare_list(n: u32, length: u32, room: usize, tally: &mut Tally) -> Vec<u8> {
    let before = vec![0xa5; room];
    let mut expected = before.clone();
    let listed = short::list(n.into(), length.into(), &mut expected);
    let mut out = before;
    let answer = ffi::histories(n, length, &mut out);
    assert_eq!(answer, expected_listed(listed), "n {n}, length {length}, room {room}");
    assert!(out == expected, "bytes of a list: n {n}, length {length}, room {room}");
    tally.note(format!("list {}", number_of(&listed)));
    out.truncate(answer.size as usize);
    out
}

/// Every list that there is, with a room that is just enough and with one a byte short; the bytes that are said to be enough.
pub fn every_list(tally: &mut Tally) {
    for n in 1..=3 {
        for length in 0..=5 {
            let size = ffi::histories_len(n, length);
            let text = compare_list(n, length, size, tally);
            assert_eq!(text.len(), size, "n {n}, length {length}");
            if size > 0 {
                compare_list(n, length, size - 1, tally);
            }
            compare_list(n, length, size + 5, tally);
            on_the_bench(&text, length as usize, tally);
        }
    }
}

/// Each history of a text on the reference's bench: every event has the code 0.
fn on_the_bench(text: &[u8], length: usize, tally: &mut Tally) {
    for input in text.chunks(4 + 6 * length) {
        let listing = String::from_utf8(bench::listing(input)).expect("a listing in ASCII");
        let lines: Vec<&str> = listing.lines().skip(1).take(length).collect();
        assert_eq!(lines.len(), length);
        for line in lines {
            assert_eq!(line.split(' ').nth(1), Some("0"), "{listing}");
            tally.note("an event on the bench");
        }
    }
}

/// Any numbers, inside and outside of what is listed, with room for nothing and for much.
pub fn every_limit(tally: &mut Tally) {
    for n in [0, 1, 2, 3, 4, 5, 15, 16, 17, 255, 256, 65539, u32::MAX] {
        for length in [0, 1, 2, 3, 6, 7, 255, 256, 65541, u32::MAX] {
            for room in [0, 3, 4, 10_000] {
                compare_list(n, length, room, tally);
            }
            let size = ffi::histories_len(n, length);
            let refused = !(1..=3).contains(&n) || length > 5;
            assert!(!refused || size == 0, "n {n}, length {length}");
        }
    }
}

/// Every room from none to a little more than the text.
pub fn every_room(n: u32, length: u32, tally: &mut Tally) {
    for room in 0..=ffi::histories_len(n, length) + 9 {
        compare_list(n, length, room, tally);
    }
}
