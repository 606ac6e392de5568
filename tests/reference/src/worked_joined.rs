//! Request [3] of document 02: two halves of images of one plot, earlier and later, joined by hand. No
//! check of document 01 refuses them, or it would be told before 18.

use crate::dice::Dice;
use crate::image::{resume, write};
use crate::plot::Plot;
use crate::refusal::Refusal;
use crate::step::step;
use crate::tables::{channels_len, nodes_len};
use crate::times::first_untimely;
use crate::worked_plots::{down, heard, plot_c, stands, up};
use std::collections::BTreeMap;

/// The first bytes of one image, the other bytes of another.
fn joined(front: &[u8], cut: usize, back: &[u8]) -> Vec<u8> {
    [&front[..cut], &back[cut..]].concat()
}

/// The pair that a resume of two stations gives with 18; none if it is accepted.
fn untimely(image: &[u8]) -> Option<(i64, i64)> {
    match resume(image, nodes_len(2), channels_len(2)) {
        Ok(_) => None,
        Err(Refusal::Untimely { u, v }) => Some((u, v)),
        Err(other) => panic!("{other:?}"),
    }
}

/// Case c, and then station 1 loses station 2, finds it again and leads anew, elected at 4: quiet as
/// before, with clocks 7 and 6 in place of 3 and 3.
fn earlier_and_later() -> (Plot, Plot) {
    let (earlier, mut later) = (plot_c(), plot_c());
    for event in [down(1, 2), up(1, 2), heard(1, 2), heard(2, 1)] {
        assert_eq!(step(&mut later, event).number, 0, "{event:?}");
    }
    stands(&later, 1, 7, [0, 0, 0, 0, -4, 1, 1]);
    stands(&later, 2, 6, [0, 0, 0, 1, -4, 1, 2]);
    (earlier, later)
}

/// Of two stations each record has 32 bytes, from byte 4 on: clock 4, sets 4, a height of 12 for each.
/// The election time of a height ends in its bytes 10 and 11.
#[test]
fn halves_of_quiet_plots() {
    let (earlier, later) = earlier_and_later();
    let (early, late) = (write(&earlier), write(&later));
    assert_eq!((early.len(), late.len()), (69, 69));
    let told = |cuts: &[usize], due| {
        for cut in cuts {
            let image = joined(&early, *cut, &late);
            assert_eq!(untimely(&image), due, "early up to byte {cut}");
        }
    };
    told(&[0, 4, 7], None);
    told(&[8, 12, 16, 22], Some((1, 1)));
    told(&[24, 28, 34], Some((1, 2)));
    told(&[36, 39], None);
    told(&[40, 44, 48, 54], Some((2, 1)));
    told(&[56, 60, 66], Some((2, 2)));
    told(&[68, 69], None);
    for cut in 0..=69 {
        let image = joined(&late, cut, &early);
        assert_eq!(untimely(&image), None, "a later clock, {cut}");
    }
}

/// Later channels behind earlier stations: the stamp is beyond the sender's clock.
#[test]
fn stations_of_one_image_and_channels_of_another() {
    let (early, mut later) = (write(&plot_c()), plot_c());
    for event in [down(2, 1), up(2, 1)] {
        assert_eq!(step(&mut later, event).number, 0, "{event:?}");
    }
    let late = write(&later);
    assert_eq!((early.len(), late.len()), (69, 69 + 16));
    assert_eq!(later.waiting(2, 1)[0].stamp, 5);
    assert_eq!(untimely(&joined(&early, 68, &late)), Some((2, 1)));
    assert_eq!(untimely(&joined(&early, 36, &late)), None, "2 is later too");
}

/// A message cut in two: its height of the later image, its stamp of the earlier.
#[test]
fn one_message_of_two_images() {
    let mut plot = plot_c();
    let mut lose_and_find = || {
        for event in [down(2, 1), up(2, 1)] {
            assert_eq!(step(&mut plot, event).number, 0, "{event:?}");
        }
        plot.clone()
    };
    let (earlier, later) = (lose_and_find(), lose_and_find());
    assert_eq!(earlier.waiting(2, 1)[0].stamp, 5);
    assert_eq!(later.waiting(2, 1)[0].height.pair.negated_time, -6);
    let (early, late) = (write(&earlier), write(&later));
    let image = joined(&late, 69 + 12, &early);
    assert_eq!(untimely(&image), Some((2, 1)));
    assert_eq!(
        untimely(&joined(&late, 69, &early)),
        None,
        "an older message"
    );
}

/// Images of grown plots cut at every byte, in both orders: what is accepted makes sense, and 18 is met
/// often, though never with the one image or the other whole.
#[test]
fn halves_of_grown_plots() {
    let mut numbers: BTreeMap<i64, usize> = BTreeMap::new();
    for seed in 0..60 {
        let mut dice = Dice(seed);
        let n = 2 + dice.below(2);
        let mut plot = Plot::fresh(n);
        let mut images = Vec::new();
        for _ in 0..2 {
            for _ in 0..60 {
                let (u, v) = (1 + dice.below(n), 1 + dice.below(n));
                let event = [up(u, v), heard(u, v), heard(u, v), down(u, v)][dice.place(4)];
                step(&mut plot, event);
            }
            images.push(write(&plot));
        }
        for (front, back) in [(0, 1), (1, 0)] {
            let (front, back) = (&images[front], &images[back]);
            for cut in 0..=front.len().min(back.len()) {
                let image = joined(front, cut, back);
                let number = match resume(&image, nodes_len(n), channels_len(n)) {
                    Ok(plot) => {
                        assert_eq!(first_untimely(&plot), None, "seed {seed}, cut {cut}");
                        0
                    }
                    Err(refusal) => refusal.number(),
                };
                let whole = image == *front || image == *back;
                assert!(!whole || number == 0, "seed {seed}, cut {cut}: {number}");
                *numbers.entry(number).or_default() += 1;
            }
        }
    }
    let met: Vec<i64> = numbers.keys().copied().collect();
    assert_eq!(met, [0, 2, 12, 18]);
    assert!(numbers[&18] > 1000, "{numbers:?}");
}
