//! Refusal 1 and the lengths to lend, in both.

use crate::beside::{compare_check, compare_restore, compare_save, compare_step, expected_check};
use crate::drawings::{compare_draw, compare_read};
use crate::ffi;
use crate::planted;
use crate::questions::compare_questions;
use crate::random::Random;
use crate::tally::Tally;
use reference::drawing;
use reference::image;
use reference::plot::Plot;
use reference::refusal::Refusal;
use reference::sketches;
use reference::step::Event;
use reference::tables::{self, Tables};

/// The five lengths for one n; 0 outside 1 to 16.
pub fn compare_lengths(n: u32) {
    let wide = i64::from(n);
    let expected = if tables::is_station_count(wide) {
        [
            tables::nodes_len(wide),
            tables::channels_len(wide),
            tables::row_len(wide),
            image::longest(wide),
            drawing::longest(n),
        ]
    } else {
        [0; 5]
    };
    let said = [
        ffi::nodes_len(n),
        ffi::channels_len(n),
        ffi::row_len(n),
        ffi::image_len(n),
        ffi::drawing_len(n),
    ];
    assert_eq!(said, expected, "lengths for {n}");
}

/// Tables of one n, of the right lengths or a word too long or too short, lent with a right or wrong n; sound ones, and ones with a time
/// beyond its clock.
pub fn wrong_sizes(seed: u64, tally: &mut Tally) {
    let mut random = Random::new(seed);
    let n = random.between(1, 8);
    wrong_sizes_of(&planted::sound_plot(n, &mut random), &mut random, tally);
    wrong_sizes_of(&planted::untimely_plot(n, &mut random), &mut random, tally);
}

fn wrong_sizes_of(plot: &Plot, random: &mut Random, tally: &mut Tally) {
    let n = plot.n;
    let far = i64::from(u32::MAX);
    let counts = [n, n, 0, n - 1, n + 1, 16, 17, 32, 256 + n, 65_536 + n, far];
    for said in counts {
        let mut lent = tables::store(plot);
        resize(&mut lent.nodes, random);
        resize(&mut lent.channels, random);
        compare_check(said, &lent, tally);
        compare_questions(said, &lent, tally);
        compare_questions(said, &all_ones(&lent), tally);
        for (u, v) in [(1, 2), (0, 0)] {
            compare_step(said, Event::Up { u, v }, &lent, tally);
            compare_step(said, Event::Down { u, v }, &lent, tally);
            compare_step(said, Event::Receipt { from: u, to: v }, &lent, tally);
        }
        compare_save(said, &lent, image::longest(8), random, tally);
        compare_restore(&image::write(plot), lent.clone(), tally);
        for room in [0, drawing::longest(8)] {
            compare_draw(said, &lent, room, random, tally);
            compare_draw(said, &all_ones(&lent), room, random, tally);
        }
        for links in [&[(1, 1)][..], &[]] {
            compare_read(&sketches::written(n as u32, links), &lent, tally);
        }
        compare_fresh(said, lent, tally);
    }
}

/// n = 17 with zeros of exactly the length for 17: nothing but n is wrong, so both answer 1.
pub fn seventeen_stations(tally: &mut Tally) {
    let lent = Tables {
        nodes: vec![0; 17 * 122],
        channels: vec![0; 17 * 17 * 65],
    };
    assert_eq!(lent.nodes.len(), tables::nodes_len(17));
    assert_eq!(lent.channels.len(), tables::channels_len(17));
    compare_check(17, &lent, tally);
    compare_questions(17, &lent, tally);
    compare_step(17, Event::Up { u: 1, v: 2 }, &lent, tally);
    compare_step(17, Event::Down { u: 1, v: 2 }, &lent, tally);
    compare_step(17, Event::Receipt { from: 1, to: 2 }, &lent, tally);
    compare_save(17, &lent, image::longest(17), &mut Random::new(17), tally);
    compare_draw(17, &lent, 4000, &mut Random::new(17), tally);
    for links in [&[(1, 1)][..], &[]] {
        compare_read(&sketches::written(17, links), &lent, tally);
    }
    compare_fresh(17, lent, tally);
}

/// Tables of the same lengths that break the rules.
fn all_ones(lent: &Tables) -> Tables {
    Tables {
        nodes: vec![u32::MAX; lent.nodes.len()],
        channels: vec![u32::MAX; lent.channels.len()],
    }
}

/// As it is, longer, shorter or empty.
fn resize(words: &mut Vec<u32>, random: &mut Random) {
    match random.below(8) {
        0 => words.push(0),
        1 => words.truncate(words.len() - 1),
        2 => words.clear(),
        3 => words.extend([0; 65]),
        _ => (),
    }
}

/// A fresh plot into any tables: all words, or none.
fn compare_fresh(n: i64, mut lent: Tables, tally: &mut Tally) {
    let expected = tables::check_sizes(n, lent.nodes.len(), lent.channels.len());
    let after = match expected {
        Ok(()) => tables::store(&Plot::fresh(n)),
        Err(_) => lent.clone(),
    };
    let answer = ffi::fresh(n as u32, &mut lent.nodes, &mut lent.channels);
    assert_eq!(answer, expected_check(expected), "fresh {n}");
    assert_eq!(lent, after, "fresh {n}");
    tally.note(format!(
        "fresh {}",
        expected.err().map_or(0, Refusal::number)
    ));
}

/// Rooms from none to more than the image: 14 exactly when it is below the image's length, and never for tables with a time beyond its clock.
pub fn small_rooms(seed: u64, tally: &mut Tally) {
    let mut random = Random::new(seed);
    let n = random.between(1, 16);
    small_rooms_of(&planted::sound_plot(n, &mut random), &mut random, tally);
    small_rooms_of(&planted::untimely_plot(n, &mut random), &mut random, tally);
}

fn small_rooms_of(plot: &Plot, random: &mut Random, tally: &mut Tally) {
    let lent = tables::store(plot);
    let right = image::write(plot).len();
    let rooms = [
        0,
        1,
        3,
        4,
        right / 2,
        right - 1,
        right,
        right + 1,
        right + 100,
    ];
    for room in rooms {
        compare_save(plot.n, &lent, room, random, tally);
    }
}
