//! Damage to times alone: one time near its limit, or one clock near the latest time that it limits.

use super::put_bits;
use crate::random::Random;
use crate::times::{KINDS, Kind, Time, times_of};
use reference::image;
use reference::plot::{LAST_CLOCK, Plot};
use reference::tables::{self, Tables};

/// A time, or the clock of a station, and the number that it gets.
#[derive(Clone, Copy)]
enum Change {
    Time(Time, u32),
    Clock(i64, u32),
}

/// One damage to the tables of a sound plot. Some leave them sound.
pub fn damage_times(plot: &Plot, lent: &mut Tables, random: &mut Random) {
    match any_change(plot, random) {
        Change::Time(time, number) => *time.word(plot.n, lent) = number,
        Change::Clock(u, number) => {
            lent.nodes[(u as usize - 1) * tables::station_len(plot.n)] = number;
        }
    }
}

/// One damage to bytes that were the image of a sound plot. Some leave it sound.
pub fn damage_image_times(bytes: &mut [u8], plot: &Plot, random: &mut Random) {
    let (place, number) = match any_change(plot, random) {
        Change::Time(time, number) => (time.bit(plot), number),
        Change::Clock(u, number) => (image::place_of(plot.n, u) as usize, number),
    };
    put_bits(bytes, place, 32, number);
}

fn any_change(plot: &Plot, random: &mut Random) -> Change {
    match any_time(plot, random).filter(|_| random.chance(75)) {
        Some(time) => {
            let near = time.limit(plot) + random.pick(&[-1, 0, 0, 1, 1, 2]);
            let least = u32::from(time.is_search());
            Change::Time(time, near_or_any(near, random).max(least))
        }
        None => {
            let u = random.between(1, plot.n);
            let near = latest_held(plot, u) + random.pick(&[-2, -1, -1, 0, 0, 1]);
            Change::Clock(u, near_or_any(near, random))
        }
    }
}

/// Some time of a kind chosen by the dice; of searches only those with an originator, whose time is above 0 and stays so.
fn any_time(plot: &Plot, random: &mut Random) -> Option<Time> {
    let mut times = times_of(plot, random.pick(&KINDS));
    times.retain(|time| !time.is_search() || time.number(plot) > 0);
    random.pick_any(&times)
}

fn near_or_any(near: i64, random: &mut Random) -> u32 {
    let any = random.word();
    if random.chance(90) {
        near.clamp(0, LAST_CLOCK) as u32
    } else {
        any
    }
}

/// The latest of the times that the clock of a station limits.
fn latest_held(plot: &Plot, u: i64) -> i64 {
    let by_clock = [
        Kind::OwnSearch,
        Kind::OwnElection,
        Kind::ViewSearch,
        Kind::ViewElection,
        Kind::Stamp,
    ];
    let times = by_clock.iter().flat_map(|&kind| times_of(plot, kind));
    let of_u = times.filter(|time| time.u == u);
    of_u.map(|time| time.number(plot)).max().unwrap_or(0)
}
