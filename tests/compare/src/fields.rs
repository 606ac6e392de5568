//! Images put together number by number, each at the place that the reference has for it (document 02 [4]): the library saves the same
//! bytes, and reads the same words out of them.

use crate::damage::put_bits;
use crate::ffi;
use crate::planted;
use crate::random::Random;
use crate::tally::Tally;
use reference::fields::{place, width};
use reference::image;
use reference::tables::{self, Tables};

/// The words of a height or a message, from a bit place on; of a depth the last 16 bits.
fn put_record(image: &mut [u8], start: usize, words: &[u32], tally: &mut Tally) {
    for (k, &word) in words.iter().enumerate() {
        let kept = if k == 3 { word & 0xffff } else { word };
        put_bits(image, start + place(k), width(k), kept);
        if word != 0 {
            tally.note(format!("field {k}"));
        }
    }
}

/// The image of tables, and where its last number ends.
fn built(n: i64, lent: &Tables, tally: &mut Tally) -> (Vec<u8>, usize) {
    let mut image = vec![0; image::longest(n)];
    for (at, width, number) in [(0, 4, 1), (4, 12, 32), (16, 5, n as u32)] {
        put_bits(&mut image, at, width, number);
    }
    let mut at = 32;
    for u in 1..=n {
        let station = tables::station_words(n, &lent.nodes, u);
        for (behind, width, number) in [
            (0, 32, station[0]),
            (32, 16, station[1]),
            (48, 16, station[2]),
        ] {
            put_bits(&mut image, at + behind, width, number);
        }
        at += 64;
        for v in 1..=n {
            put_record(
                &mut image,
                at,
                tables::height_words(n, &lent.nodes, u, v),
                tally,
            );
            at += 96;
        }
    }
    for u in 1..=n {
        for v in (1..=n).filter(|&v| v != u) {
            let cell = tables::cell_words(n, &lent.channels, u, v);
            put_bits(&mut image, at, 4, cell[0]);
            at += 4;
            for message in cell[1..].chunks(8).take(cell[0] as usize) {
                put_record(&mut image, at, message, tally);
                at += 128;
            }
        }
    }
    (image, at)
}

/// A planted plot: its image built, saved, resumed, and looked at station by station.
pub fn placed_fields(seed: u64, tally: &mut Tally) {
    let mut random = Random::new(seed);
    let n = random.between(1, 16);
    let lent = tables::store(&planted::sound_plot(n, &mut random));
    let (mut image, end) = built(n, &lent, tally);
    let mut out = vec![0; image.len()];
    let saved = ffi::save(n as u32, &lent.nodes, &lent.channels, &mut out);
    assert_eq!(
        (saved.number, saved.size),
        (0, end.div_ceil(8) as u64),
        "a save"
    );
    assert!(image == out, "the bytes of a save");
    image.truncate(end.div_ceil(8));
    let mut nodes = random.words(lent.nodes.len());
    let mut channels = random.words(lent.channels.len());
    let restored = ffi::restore(&image, &mut nodes, &mut channels);
    assert_eq!(restored.number, 0, "a restore");
    assert!(
        nodes == lent.nodes && channels == lent.channels,
        "the words of a restore"
    );
    for k in 1..=n {
        let mut row = random.words(tables::row_len(n));
        let start = image::place_of(n, k) as u64;
        let looked = ffi::read_node(&image, k as u32, start, &mut row);
        assert_eq!(looked.number, 0, "a look");
        assert!(
            row == tables::station_words(n, &lent.nodes, k)[3..],
            "the row of a look"
        );
    }
}
