//! Request [6] of document 02, writing a list into lent room: the refusals with their order, and what is
//! touched.

use crate::refusal::Refusal;
use crate::short::{Listed, list};
use crate::worked_short::{all_lists, bytes, listed};

/// What the call answers, and the room afterwards, which was full of one byte.
fn writes(n: u64, length: u64, room: usize, filled: u8) -> (Result<Listed, Refusal>, Vec<u8>) {
    let mut lent = vec![filled; room];
    let answer = list(n, length, &mut lent);
    (answer, lent)
}

/// The call gives this refusal and touches nothing.
fn refuses(n: u64, length: u64, room: usize, due: Refusal) {
    let untouched = (Err(due), vec![7; room]);
    let why = format!("n = {n}, length {length}, room {room}");
    assert_eq!(writes(n, length, room, 7), untouched, "{why}");
}

/// Some rooms for each of the lengths: none at all, and 999 bytes.
fn rooms(lengths: &[u64]) -> impl Iterator<Item = (u64, usize)> {
    let rooms = |length: &u64| [(*length, 0), (*length, 999)];
    lengths.iter().flat_map(rooms)
}

/// 1 by n alone, then 19, and 14 only where both are good. The wide numbers would be 0 or 2 if cut
/// short.
#[test]
fn refusals_1_19_14() {
    let wide = [1 << 8, 1 << 16, 1 << 32, 1 << 63].map(|power: u64| [power, power + 2]);
    let wide = wide.concat();
    let listed = [0, 1, 2, 3, 4, 5];
    let longer = [&[6, 7, 8, 16, 17, 65_536, u64::MAX][..], &wide].concat();
    let no_plot = [&[0, 17, 18, 99, u64::MAX - 1, u64::MAX][..], &wide].concat();
    for (length, room) in rooms(&listed).chain(rooms(&longer)) {
        for n in &no_plot {
            refuses(*n, length, room, Refusal::Sizes);
        }
        for n in 4..=16 {
            refuses(n, length, room, Refusal::NotShort);
        }
    }
    for (length, room) in rooms(&longer) {
        for n in 1..=3 {
            refuses(n, length, room, Refusal::NotShort);
        }
    }
    for (n, length, histories) in all_lists().filter(|(_, _, histories)| *histories > 0) {
        refuses(n, length, 0, Refusal::Room);
        refuses(n, length, bytes(length, histories) - 1, Refusal::Room);
    }
}

/// Every list in a room of its own size, and in one with a byte left.
#[test]
fn the_room_that_is_enough() {
    for (n, length, histories) in all_lists() {
        let (told, text) = listed(n, length);
        let bytes = bytes(length, histories);
        assert_eq!(told, Listed { bytes, histories });
        let exact = writes(n, length, bytes, 7);
        assert_eq!(exact, (Ok(told), text.clone().into_bytes()));
        let left = writes(n, length, bytes + 1, 7);
        assert_eq!(left, (Ok(told), [text.as_bytes(), &[7]].concat()));
    }
}

/// The text needs its own bytes and no more; what lies behind it stays.
#[test]
fn every_room_for_one_list() {
    let text = "N 2\nU 1 2\nU 2 1\nN 2\nU 1 2\nD 1 2\nN 2\nU 1 2\nM 1 2\n\
                N 2\nU 2 1\nU 1 2\nN 2\nU 2 1\nD 2 1\nN 2\nU 2 1\nM 2 1\n";
    let (bytes, histories) = (96, 6);
    assert_eq!(text.len(), bytes);
    for (room, filled) in (0..=110).flat_map(|room| [(room, 0), (room, 7), (room, 255)]) {
        let (answer, lent) = writes(2, 2, room, filled);
        if room < bytes {
            assert_eq!((answer, lent), (Err(Refusal::Room), vec![filled; room]));
        } else {
            assert_eq!(answer, Ok(Listed { bytes, histories }));
            assert_eq!(lent[..bytes], *text.as_bytes());
            assert_eq!(lent[bytes..], vec![filled; room - bytes]);
        }
    }
}

/// A list without histories has no bytes, so no room is too small for it.
#[test]
fn no_room_for_no_text() {
    let (bytes, histories) = (0, 0);
    for (length, room) in (1..=5).flat_map(|length| [(length, 0), (length, 5)]) {
        let answer = Ok(Listed { bytes, histories });
        assert_eq!(writes(1, length, room, 7), (answer, vec![7; room]));
    }
}
