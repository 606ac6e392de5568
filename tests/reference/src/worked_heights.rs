//! Request [1] of document 02 on pairs of heights worked by hand: those of document 01's plots, of
//! 001's sample execution, and at the ends of what a height can hold.

use crate::parting::{Parting, parting};
use crate::plot::{Height, Plot};
use crate::step::{Rule, is_sink};
use crate::tables::height_of_words;
use crate::worked_plots::{down, hold, link, plot_i, stands, takes};
use std::cmp::Ordering::{self, Equal, Greater, Less};

/// A place, two heights as document 01 writes them with their order between, and where they come
/// from. "fig. 4" is 001's, its nodes A to H being stations 1 to 8.
const WORKED: &str = "
    1 (10,2,0,0;0,1;2)    > (0,0,0,2;0,1;3)     e: 2 rises above its view of 3
    1 (10,2,1,0;0,1;3)    > (0,0,0,0;-12,2;2)   h: 3 and what it hears
    1 (0,0,0,3;0,1;5)     < (8,6,0,0;0,1;6)     i: 5 and what it hears
    1 (8,6,0,0;0,1;6)     > (0,0,0,4;0,1;7)     i: the two views
    1 (8,6,0,-1;0,1;5)    < (10,2,0,0;0,1;2)    i and e: the originators point the other way
    2 (8,5,0,0;0,1;5)     < (8,6,0,0;0,1;6)     i: had 5 brought 6 down, it would start a level at 8
    2 (10,3,0,0;0,1;3)    > (10,2,0,0;0,1;2)    e: had 3 started a level at 10 too
    2 (10,2,1,9;0,1;3)    < (10,3,0,-9;0,1;2)   bits, depths and stations the other way
    3 (10,2,1,0;0,1;3)    > (10,2,0,0;0,1;2)    f: 3 reflects
    3 (1,7,0,-1;0,8;4)    < (1,7,1,-1;0,8;2)    fig. 4 f: D and B, the stations the other way
    3 (1,7,0,0;0,8;7)     < (1,7,1,-2;0,8;4)    fig. 4 g: G and D, the depths the other way
    4 (0,0,0,1;0,1;2)     > (0,0,0,0;0,1;1)     a and c: 2 and its collector
    4 (0,0,0,1;0,1;2)     < (0,0,0,2;0,1;3)     e: 2 before, and its view of 3
    4 (0,0,0,1;-12,2;3)   > (0,0,0,0;-12,2;2)   h: 3 afterwards
    4 (0,0,0,1;-12,2;3)   > (0,0,0,0;0,1;1)     h and e: the elections the other way
    4 (8,6,0,-1;0,1;5)    < (8,6,0,0;0,1;6)     i: 5 afterwards, below 6
    4 (1,7,0,-2;0,8;2)    < (1,7,0,-1;0,8;4)    fig. 4 d: B and D
    4 (1,7,0,-2;0,8;3)    < (1,7,0,1;0,8;2)     depths on both sides of 0
    5 (0,0,0,0;-4,1;1)    < (0,0,0,0;0,1;1)     d: afterwards and before
    5 (0,0,0,0;-12,2;2)   < (0,0,0,0;0,1;1)     g: 2 and the view of 1 in e
    5 (0,0,0,1;-12,2;3)   < (0,0,0,1;0,1;2)     h and e: leaders and stations the other way
    5 (0,0,0,0;-4,1;1)    > (0,0,0,0;-12,2;2)   d and g: the later election is the smaller
    6 (0,0,0,0;0,1;1)     < (0,0,0,0;0,2;2)     the fresh plot
    6 (0,0,0,0;0,7;7)     > (0,0,0,0;0,5;5)     a fresh plot of 7
    6 (0,0,0,1;-7,7;4)    < (0,0,0,1;-7,8;3)    two elections at 7, the stations the other way
    7 (1,7,0,-1;0,8;4)    < (1,7,0,-1;0,8;5)    fig. 4 c: D and E
    7 (1,7,1,-1;0,8;3)    > (1,7,1,-1;0,8;2)    fig. 4 f: C and B
    7 (0,0,0,1;-7,7;4)    < (0,0,0,1;-7,7;6)    fig. 4, the end: D and F
    7 (0,0,0,1;0,1;3)     > (0,0,0,1;0,1;2)     a: had 3 adopted from 1 too
";

/// The least numbers that the interface can hand over, the times already negated.
const LEAST: [i64; 7] = [0, 0, 0, -2_147_483_648, -4_294_967_295, 0, 0];

/// The most.
const MOST: [i64; 7] = [
    4_294_967_295,
    4_294_967_295,
    4_294_967_295,
    2_147_483_647,
    0,
    4_294_967_295,
    4_294_967_295,
];

/// A height as document 01 writes it.
fn written(text: &str) -> Height {
    let inside = text.trim_matches(['(', ')']);
    let numbers = inside.split([',', ';']).map(|number| number.parse());
    let numbers: Vec<i64> = numbers.map(|number| number.expect("a number")).collect();
    Height::of(numbers.try_into().expect("seven numbers"))
}

/// The lines of the table: the heights, their order and the place.
pub(crate) fn worked() -> Vec<(Height, Height, Ordering, i64)> {
    let lines = WORKED.lines().filter(|line| !line.trim().is_empty());
    lines
        .map(|line| {
            let parts: Vec<&str> = line.split_whitespace().take(4).collect();
            let order = match parts[2] {
                "<" => Less,
                ">" => Greater,
                sign => panic!("{sign} in {line}"),
            };
            let place = parts[0].parse().expect("a place");
            (written(parts[1]), written(parts[3]), order, place)
        })
        .collect()
}

/// The two part so; turned round, at the same place and the other way; neither parts from itself.
fn assert_part(a: Height, b: Height, order: Ordering, place: i64) {
    assert_eq!(parting(&a, &b), Parting { order, place }, "{a:?}, {b:?}");
    let order = order.reverse();
    assert_eq!(parting(&b, &a), Parting { order, place }, "{b:?}, {a:?}");
    assert_same(a);
    assert_same(b);
}

/// Equal, and no place.
fn assert_same(height: Height) {
    let same = Parting {
        order: Equal,
        place: 0,
    };
    assert_eq!(parting(&height, &height), same, "{height:?}");
}

/// The numbers of `front` up to the place, then `here`, then those of `back`.
fn joined(front: [i64; 7], place: usize, here: i64, back: [i64; 7]) -> Height {
    let mut numbers = back;
    numbers[..place - 1].copy_from_slice(&front[..place - 1]);
    numbers[place - 1] = here;
    Height::of(numbers)
}

#[test]
fn worked_pairs() {
    for (a, b, order, place) in worked() {
        assert_part(a, b, order, place);
    }
    for decided in 1..=7 {
        let lines = worked().into_iter();
        let count = lines.filter(|(.., place)| *place == decided).count();
        assert!(count >= 2, "{count} pairs for place {decided}");
    }
}

/// The first line for place 2 is case i with another event.
#[test]
fn a_level_started_beside_another() {
    let mut plot = plot_i(0, 4);
    takes(&mut plot, down(5, 6), Rule::S, &[7]);
    stands(&plot, 5, 8, [8, 5, 0, 0, 0, 1, 5]);
    assert_part(plot.station(5).own, plot.station(6).own, Less, 2);
}

#[test]
fn equal_heights() {
    for numbers in [[0; 7], [1; 7], [-1; 7], LEAST, MOST] {
        assert_same(Height::of(numbers));
    }
    for (a, b, ..) in worked() {
        assert_eq!(Height::of(a.numbers()), a);
        assert_eq!(Height::of(b.numbers()), b);
    }
    assert_eq!(
        Height::of([1, 2, 3, 4, 5, 6, 7]).numbers(),
        [1, 2, 3, 4, 5, 6, 7]
    );
}

/// The ends of each number's range, and the numbers next to them, with every number behind them as
/// far as can be the other way, or the same.
#[test]
fn ends_of_ranges() {
    for place in 1..=7 {
        let (least, most) = (LEAST[place - 1], MOST[place - 1]);
        for (less, more) in [(least, most), (least, least + 1), (most - 1, most)] {
            for front in [LEAST, MOST, [0; 7], [5, 5, 5, -5, -5, 5, 5]] {
                for (back_of_less, back_of_more) in [(MOST, LEAST), (MOST, MOST), (LEAST, LEAST)] {
                    let a = joined(front, place, less, back_of_less);
                    let b = joined(front, place, more, back_of_more);
                    assert_part(a, b, Less, place as i64);
                }
            }
        }
    }
}

/// 01, 2.12: a depth below 0 is below one above it, as far as both go.
#[test]
fn depths_across_0() {
    let depths = [
        i64::from(i32::MIN),
        -32_768,
        -2,
        -1,
        0,
        1,
        32_767,
        i64::from(i32::MAX),
    ];
    for two in depths.windows(2) {
        let a = Height::of([3, 2, 1, two[0], 0, 9, 9]);
        let b = Height::of([3, 2, 1, two[1], -9, 1, 1]);
        assert_part(a, b, Less, 4);
    }
}

/// 01, 2.19 and 2.20: of two elections the later is the smaller, though its time is the larger.
#[test]
fn later_elections() {
    for (later, earlier) in [
        (1, 0),
        (12, 4),
        (u32::MAX, 0),
        (u32::MAX, u32::MAX - 1),
        (1 << 31, 1),
    ] {
        let a = height_of_words(&[0, 0, 0, 7, later, 16, 16]);
        let b = height_of_words(&[0, 0, 0, 7, earlier, 1, 1]);
        assert_part(a, b, Less, 5);
    }
}

/// Words that no sound table holds are numbers all the same.
#[test]
fn any_words() {
    let zero = [0; 7];
    for place in 1..=7 {
        for word in [1, 2, 17, 1 << 16, 1 << 31, u32::MAX] {
            let mut words = zero;
            words[place - 1] = word;
            let negative = place == 4 && word >= 1 << 31;
            let order = if negative || place == 5 {
                Less
            } else {
                Greater
            };
            let (a, b) = (height_of_words(&words), height_of_words(&zero));
            assert_part(a, b, order, place as i64);
        }
    }
    let (two, three) = ([9, 0, 2, 5, 0, 0, 0], [9, 0, 3, 4, 0, 0, 0]);
    assert_part(height_of_words(&two), height_of_words(&three), Less, 3);
}

/// Every two heights of the table: the order is that of the lists, and levels and pairs are ordered
/// as the heights are that part in them.
#[test]
fn orders_as_before() {
    let heights: Vec<Height> = worked().into_iter().flat_map(|(a, b, ..)| [a, b]).collect();
    let twos = heights
        .iter()
        .flat_map(|a| heights.iter().map(move |b| (a, b)));
    for (a, b) in twos {
        let Parting { order, place } = parting(a, b);
        assert_eq!(order, a.numbers().cmp(&b.numbers()));
        assert_eq!(
            (a.cmp(b), a < b, a > b, a == b),
            (order, order == Less, order == Greater, order == Equal)
        );
        match place {
            1..=3 => assert_eq!(a.level.cmp(&b.level), order),
            _ => assert_eq!(a.level, b.level),
        }
        match place {
            5 | 6 => assert_eq!(a.pair.cmp(&b.pair), order),
            0 | 7 => assert_eq!(a.pair, b.pair),
            _ => (),
        }
    }
}

/// Whether station 2 with this height is a sink under its one view.
fn sinks(own: [i64; 7], view: [i64; 7]) -> bool {
    let mut plot = Plot::fresh(3);
    hold(&mut plot, 2, 9, own);
    link(&mut plot, 2, view[6], view);
    is_sink(plot.station(2))
}

/// 01, 4.1 and 4.2: the sink test with views that part at each place, the later numbers the other
/// way. At 5 and 6 another pair is in view, so neither way is a sink.
#[test]
fn sink_test_as_before() {
    let own = [5, 2, 0, 1, -4, 1, 2];
    for view in [
        [6, 1, 0, 0, -4, 1, 1],
        [5, 3, 0, 0, -4, 1, 1],
        [5, 2, 1, 0, -4, 1, 1],
        [5, 2, 0, 2, -4, 1, 1],
        [5, 2, 0, 1, -4, 1, 3],
    ] {
        assert!(sinks(own, view), "{view:?}");
    }
    let reflected = [5, 2, 1, 1, -4, 1, 2];
    for view in [
        [4, 3, 1, 2, -4, 1, 3],
        [5, 1, 1, 2, -4, 1, 3],
        [5, 2, 0, 2, -4, 1, 3],
        [5, 2, 1, 0, -4, 1, 3],
        [5, 2, 1, 1, -4, 1, 1],
    ] {
        assert!(!sinks(reflected, view), "{view:?}");
    }
    for (negated_time, leader) in [(-3, 1), (-5, 1), (-4, 3), (-5, 3)] {
        let view = [5, 2, 0, 1, negated_time, leader, 3];
        assert!(!sinks(own, view), "{view:?}");
    }
}
