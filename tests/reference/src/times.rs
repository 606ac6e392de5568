//! Request [3] of document 02: no time of a plot lies beyond the clock that it was read off. Asked of
//! plots that break no rule of document 01 (READINGS.md, section 12).

use crate::plot::{Height, Message, Plot};
use crate::refusal::Refusal;

/// 18 with the first pair; in the order of 01, 5.19, and like it out of both walks.
pub(crate) fn check_times(plot: &Plot) -> Result<(), Refusal> {
    match first_untimely(plot) {
        Some((u, v)) => Err(Refusal::Untimely { u, v }),
        None => Ok(()),
    }
}

/// The first pair at which some time is beyond its clock or its stamp.
pub fn first_untimely(plot: &Plot) -> Option<(i64, i64)> {
    let mut places = (1..=plot.n).flat_map(|u| (1..=plot.n).map(move |v| (u, v)));
    places.find(|(u, v)| !place_is_timely(plot, *u, *v))
}

/// At v = u the own height; else the view of v, if there is one, and the channel u to v. All of it
/// goes by the clock of u, who holds the view and sends the messages.
fn place_is_timely(plot: &Plot, u: i64, v: i64) -> bool {
    let station = plot.station(u);
    if u == v {
        return height_is_timely(&station.own, station.clock);
    }
    let mut view = station.linked.get(&v).into_iter();
    let mut messages = plot.waiting(u, v).iter();
    view.all(|view| height_is_timely(view, station.clock))
        && messages.all(|message| message_is_timely(message, station.clock))
}

/// Neither the search nor the election is later than `latest`.
fn height_is_timely(height: &Height, latest: i64) -> bool {
    let (searched, elected) = (height.level.tau, -height.pair.negated_time);
    searched <= latest && elected <= latest
}

/// Sent no later than the sender's clock, with a height no later than the sending.
fn message_is_timely(message: &Message, clock: i64) -> bool {
    message.stamp <= clock && height_is_timely(&message.height, message.stamp)
}
