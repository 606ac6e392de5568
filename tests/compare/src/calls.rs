//! Every call that reads tables or images, over any of them, in both.

use crate::beside::{
    compare_check, compare_look, compare_restore, compare_save, compare_step, junk_tables,
};
use crate::drawings::compare_draw;
use crate::questions::compare_questions;
use crate::random::Random;
use crate::tally::Tally;
use reference::drawing;
use reference::image;
use reference::step::Event;
use reference::tables::{self, Tables};

/// The calls over tables: the check, the questions, an event, and a save and a drawing, mostly with room enough.
pub fn compare_tables(n: i64, event: Event, lent: &Tables, random: &mut Random, tally: &mut Tally) {
    compare_check(n, lent, tally);
    compare_questions(n, lent, tally);
    compare_step(n, event, lent, tally);
    let longest = image::longest(n);
    let room = random.pick(&[longest, longest, longest, 0, 24, longest / 2]);
    compare_save(n, lent, room, random, tally);
    let longest = drawing::longest(n as u32);
    let room = random.pick(&[longest, longest, longest + 1, 0, 21, longest / 2]);
    compare_draw(n, lent, room, random, tally);
}

/// Reads bytes as a whole image and as one station, mostly into tables and a row of the header's length.
pub fn read_both_ways(bytes: &[u8], n: i64, random: &mut Random, tally: &mut Tally) {
    let said = image::header(bytes).unwrap_or(n);
    let lent_n = if random.chance(90) {
        said
    } else {
        random.between(0, 16)
    };
    let mut lent = junk_tables(lent_n, random);
    if random.chance(3) {
        lent.nodes.push(7);
    }
    if random.chance(3) {
        lent.channels.pop();
    }
    compare_restore(bytes, lent, tally);

    let k = random.between(0, said + 1);
    let place = image::place_of(said, k.max(1)) as u64 + random.pick(&[0, 0, 0, 1, 96]);
    let row = random.words(tables::row_len(lent_n));
    compare_look(bytes, k, place, row, tally);
}
