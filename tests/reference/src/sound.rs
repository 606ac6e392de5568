//! Document 01, "What a station holds" and, in "Returned numbers", 5.19 to 5.23: what each place
//! (u, v) of the lent tables has to obey.

use crate::plot::{LAST_CLOCK, MOST_WAITING};
use crate::refusal::Refusal;
use crate::tables::{
    MESSAGE_WORDS, cell_words, height_of_words, height_words, is_in, station_words,
};

/// 01, 5.19 and 5.20: the first faulty pair ends both walks.
pub(crate) fn check_places(n: i64, nodes: &[u32], channels: &[u32]) -> Result<(), Refusal> {
    let places = (1..=n).flat_map(|u| (1..=n).map(move |v| (u, v)));
    for (u, v) in places {
        let cell = cell_words(n, channels, u, v);
        let station = station_words(n, nodes, u);
        let height = height_words(n, nodes, u, v);
        let sound = if u == v {
            own_place_is_sound(n, u, station, height) && is_zero(cell)
        } else {
            let (linked, forming) = (is_in(station[1], v), is_in(station[2], v));
            view_is_sound(n, v, linked, height) && channel_is_sound(n, u, linked || forming, cell)
        };
        if !sound {
            return Err(Refusal::Fault { u, v });
        }
    }
    Ok(())
}

/// 01, 2.29: zeros in unused places.
fn is_zero(words: &[u32]) -> bool {
    words.iter().all(|word| *word == 0)
}

/// 01, 5.21: what stands at the place v = u. Every word is a clock.
fn own_place_is_sound(n: i64, u: i64, station: &[u32], own: &[u32]) -> bool {
    let (clock, linked, forming) = (station[0], station[1], station[2]);
    (0..=LAST_CLOCK).contains(&i64::from(clock))
        && linked & forming == 0
        && !is_in(linked | forming, u)
        && i64::from(linked | forming) < 1 << n
        && height_of_words(own).obeys(n, u)
}

/// 01, 5.22: the view of v, or zeros.
fn view_is_sound(n: i64, v: i64, in_linked: bool, view: &[u32]) -> bool {
    if in_linked {
        height_of_words(view).obeys(n, v)
    } else {
        is_zero(view)
    }
}

/// 01, 5.23: the channel u to v.
fn channel_is_sound(n: i64, u: i64, is_up: bool, cell: &[u32]) -> bool {
    let count = cell[0] as usize;
    if count > MOST_WAITING || (count > 0 && !is_up) {
        return false;
    }
    let (used, unused) = cell[1..].split_at(count * MESSAGE_WORDS);
    let mut messages = used.chunks(MESSAGE_WORDS);
    is_zero(unused) && messages.all(|message| message_is_sound(n, u, message))
}

/// 01, 2.27 and 2.28: a message. Every word is a stamp.
fn message_is_sound(n: i64, sender: i64, message: &[u32]) -> bool {
    height_of_words(message).obeys(n, sender)
}
