//! Document 01, "The plot image": a test for each refusal number of reading, looking and writing,
//! and for their orders of checks.

use crate::image::{header, longest, look, place_of, resume, save, write};
use crate::plot::Plot;
use crate::refusal::Refusal;
use crate::tables::{self, Tables, channels_len, nodes_len, row_len, store};
use crate::worked_orders::plot_3;
use crate::worked_plots::{form, hold, send};

/// The number that a resume of n stations' tables refuses the image with.
pub(crate) fn resume_number(image: &[u8], n: i64) -> i64 {
    let refused = resume(image, nodes_len(n), channels_len(n));
    refused.err().map_or(0, Refusal::number)
}

/// The image with one bit turned over.
pub(crate) fn flipped(image: &[u8], bit: i64) -> Vec<u8> {
    let mut other = image.to_vec();
    other[bit as usize / 8] ^= 128 >> (bit % 8);
    other
}

#[test]
fn reading_checks_10_11_1_then_the_walk() {
    let image = write(&plot_3());
    (0..4).for_each(|len| assert_eq!(header(&image[..len]), Err(Refusal::ImageShort)));
    assert_eq!(header(&image[..4]), Ok(3));
    (0..32)
        .filter(|bit| !(16..21).contains(bit))
        .for_each(|bit| {
            assert_eq!(
                resume_number(&flipped(&image, bit)[..4], 9),
                11,
                "bit {bit}"
            );
        });
    for n in [0u8, 17, 31] {
        assert_eq!(header(&[0x10, 0x20, n << 3, 0]), Err(Refusal::ImageHeader));
    }
    assert_eq!(resume_number(&image[..4], 2), 1);
    (4..image.len()).for_each(|len| assert_eq!(resume_number(&image[..len], 3), 12));
    assert_eq!(resume_number(&[&image[..], &[0]].concat(), 3), 12);
    assert_eq!(resume(&image, nodes_len(3), channels_len(3)), Ok(plot_3()));
}

#[test]
fn a_good_header_tells_n_whatever_follows() {
    for n in 0..32u8 {
        let told = (1..=16).contains(&n).then_some(i64::from(n));
        for tail in [&[][..], &[0], &[255; 40]] {
            let bytes = [&[0x10, 0x20, n << 3, 0], tail].concat();
            assert_eq!(header(&bytes), told.ok_or(Refusal::ImageHeader));
        }
    }
}

#[test]
fn the_walk_12_or_2_whichever_comes_first_then_the_contents_2() {
    let image = write(&Plot::fresh(4));
    let counts = place_of(4, 5);
    let leader = place_of(4, 1) + 64 + 32 + 5 + 1 + 16 + 32 + 4;
    let broken = flipped(&image, leader);
    let lent = (nodes_len(4), channels_len(4));
    let pair = |image: &[u8]| resume(image, lent.0, lent.1).unwrap_err().pair();
    assert_eq!(pair(&broken), Some((1, 1)), "leader 0");
    let longer = [&broken[..], &[0]].concat();
    assert_eq!(resume_number(&longer, 4), 12, "left bytes before contents");
    let nine = flipped(&flipped(&broken, counts + 4), counts + 7);
    assert_eq!(pair(&nine), Some((1, 3)), "the count before the contents");
    let end = (counts as usize + 8) / 8;
    assert_eq!(pair(&nine[..end]), Some((1, 3)), "the count first");
    assert_eq!(resume_number(&nine[..end - 1], 4), 12, "the end first");
    let eight = flipped(&image, counts);
    assert_eq!(resume_number(&eight, 4), 12, "8 messages are missing");
}

#[test]
fn the_last_bit_is_no_pad() {
    let image = write(&plot_stamp());
    let last = image.len() as i64 * 8 - 1;
    assert_eq!(resume_number(&image, 2), 0);
    assert_eq!(resume_number(&flipped(&image, last), 2), 0);
}

/// Every image ends on a byte, n times (n − 1) counts being an even number of them: here the last
/// bit is the last message's stamp.
fn plot_stamp() -> Plot {
    let mut plot = Plot::fresh(2);
    hold(&mut plot, 2, 1, [0, 0, 0, 0, 0, 2, 2]);
    form(&mut plot, 2, 1);
    send(&mut plot, 2, 1, [0, 0, 0, 0, 0, 2, 2], 1);
    plot
}

#[test]
fn contents_are_judged_by_place_not_by_order_in_the_image() {
    let mut plot = Plot::fresh(2);
    hold(&mut plot, 1, 1, [0, 0, 0, 0, 0, 1, 1]);
    form(&mut plot, 1, 2);
    send(&mut plot, 1, 2, [0, 0, 0, 0, 0, 1, 2], 1);
    plot.stations.get_mut(&2).unwrap().own.station = 1;
    let refused = |plot: &Plot| resume(&write(plot), nodes_len(2), channels_len(2)).unwrap_err();
    assert_eq!(refused(&plot), Refusal::Fault { u: 1, v: 2 }, "the message");
    plot.waiting_mut(1, 2)[0].height.station = 1;
    assert_eq!(
        refused(&plot),
        Refusal::Fault { u: 2, v: 2 },
        "the own height"
    );
    plot.stations.get_mut(&2).unwrap().own.station = 2;
    plot.stations.get_mut(&1).unwrap().forming.clear();
    assert_eq!(
        refused(&plot),
        Refusal::Fault { u: 1, v: 2 },
        "waiting while down"
    );
}

#[test]
fn looking_checks_all_that_then_3_then_13() {
    let plot = plot_3();
    let image = write(&plot);
    let refused = |image: &[u8], k, place, row| look(image, k, place, row).unwrap_err().number();
    assert_eq!(refused(&image[..3], 9, 0, 0), 10);
    assert_eq!(refused(&[0; 4], 9, 0, 0), 11);
    assert_eq!(refused(&image[..4], 9, 0, 20), 1);
    assert_eq!(refused(&image[..4], 9, 0, 21), 12);
    assert_eq!(refused(&flipped(&image, 64 + 15), 9, 0, 21), 2);
    for k in [i64::MIN, 0, 4, i64::MAX] {
        assert_eq!(refused(&image, k, 0, 21), 3);
    }
    assert_eq!(refused(&image, 2, place_of(3, 3) as u64, 21), 13);
    assert_eq!(refused(&image, 2, u64::MAX, 21), 13);
    let seen = look(&image, 2, place_of(3, 2) as u64, row_len(3)).unwrap();
    assert_eq!((seen.clock, seen.linked, seen.forming), (1, 1, 4));
    assert_eq!(seen.row, tables::store_row(&plot, 2));
}

#[test]
fn writing_checks_1_2_14() {
    let mut tables = store(&plot_3());
    let refused = |n, tables: &Tables| save(n, &tables.nodes, &tables.channels, 0).unwrap_err();
    assert_eq!(refused(3, &tables), Refusal::Room);
    tables.nodes[1] = 1;
    assert_eq!(refused(3, &tables), Refusal::Fault { u: 1, v: 1 });
    assert_eq!(refused(2, &tables), Refusal::Sizes);
    let Tables { nodes, channels } = store(&Plot::fresh(2));
    assert_eq!(save(2, &nodes, &channels, 68), Err(Refusal::Room));
    assert_eq!(save(2, &nodes, &channels, 69), Ok(write(&Plot::fresh(2))));
    assert!(longest(2) > 69);
}
