//! Heights compared: the table that the Rattle program `height_cases` prints, and what a plot shows. Runs with and without the feature `std`.

use plot_election::{lent, Height, Level, Place, View};
use std::cmp::Ordering;

const TABLE: &str = include_str!("../../crates/height_cases/stdout");

/// A height of its seven numbers, the election time negated.
fn height(numbers: &[i64]) -> Height {
    let word = |k: usize| u32::try_from(numbers[k]).unwrap();
    Height {
        level: Level {
            search_time: word(0),
            originator: word(1),
            bit: word(2),
        },
        depth: i32::try_from(numbers[3]).unwrap(),
        election_time: u32::try_from(-numbers[4]).unwrap(),
        leader: word(5),
        station: word(6),
    }
}

/// The fifteen numbers of a line, and its sign.
fn parsed(line: &str) -> (Vec<i64>, Ordering) {
    let between = |c: char| !c.is_ascii_digit() && c != '-';
    let words = line.split(between).filter(|w| !w.is_empty());
    let order = match line.chars().find(|c| "<=>".contains(*c)) {
        Some('<') => Ordering::Less,
        Some('=') => Ordering::Equal,
        Some(_) => Ordering::Greater,
        None => panic!("no sign: {line}"),
    };
    (words.map(|w| w.parse().unwrap()).collect(), order)
}

#[test]
fn the_table() {
    let mut met = [[0; 3]; 8];
    for line in TABLE.lines() {
        let (numbers, order) = parsed(line);
        assert_eq!(numbers.len(), 15, "{line}");
        let (a, b) = (height(&numbers[..7]), height(&numbers[7..14]));
        let (ab, ba) = (a.compare(b), b.compare(a));
        assert_eq!(ab.order, order, "{line}");
        assert_eq!((ba.order, ba.place), (order.reverse(), ab.place), "{line}");
        let place = ab.place.map_or(0, Place::number);
        assert_eq!(i64::from(place), numbers[14], "{line}");
        assert_eq!(ab.place.is_none(), a == b, "{line}");
        met[place as usize][(order as i8 + 1) as usize] += 1;
    }
    assert!(TABLE.lines().count() >= 14);
    assert!(met[0][1] >= 2 && met[1..].iter().all(|m| m[0] >= 1 && m[2] >= 1));
}

#[test]
fn places_have_numbers_and_names() {
    for (k, place) in Place::ALL.into_iter().enumerate() {
        assert_eq!(place.number() as usize, k + 1);
    }
    let names = Place::ALL.map(|p| p.to_string());
    let expected = [
        "search time",
        "originator",
        "bit",
        "depth",
        "election time",
        "leader",
        "station",
    ];
    assert_eq!(names, expected);
}

/// Case a of document 01: station 2 adopts from 1, and stands above it by its depth. Fresh, the leaders decide.
#[test]
fn what_decides_a_link() {
    let mut nodes = [0; lent::nodes_len(2)];
    let mut channels = [0; lent::channels_len(2)];
    lent::fresh(2, &mut nodes, &mut channels).unwrap();
    let decided = |nodes: &[u32], channels: &[u32]| {
        let plot = View::new(2, nodes, channels).unwrap();
        let own = |k| plot.station(k).unwrap().own();
        own(1).compare(own(2))
    };
    let fresh = decided(&nodes, &channels);
    assert_eq!(
        (fresh.order, fresh.place),
        (Ordering::Less, Some(Place::Leader))
    );
    lent::up(2, 1, 2, &mut nodes, &mut channels).unwrap();
    lent::up(2, 2, 1, &mut nodes, &mut channels).unwrap();
    lent::receive(2, 1, 2, &mut nodes, &mut channels).unwrap();
    let linked = decided(&nodes, &channels);
    assert_eq!(
        (linked.order, linked.place),
        (Ordering::Less, Some(Place::Depth))
    );
}

/// Tables that break a rule are read as they stand, and what stands there is compared.
#[test]
fn a_bit_of_7_stays() {
    let mut nodes = [0; lent::nodes_len(2)];
    let mut channels = [0; lent::channels_len(2)];
    lent::fresh(2, &mut nodes, &mut channels).unwrap();
    let own = |nodes: &[u32], k| {
        let plot = View::new(2, nodes, &channels).unwrap();
        plot.station(k).unwrap().own()
    };
    let fresh = own(&nodes, 1);
    let bit = 3 + 2;
    nodes[bit] = 7;
    let seven = own(&nodes, 1);
    nodes[bit] = 1;
    let one = own(&nodes, 1);
    assert_eq!((seven.level.bit, one.level.bit), (7, 1));
    for (lower, higher) in [(fresh, one), (one, seven), (fresh, seven)] {
        let c = higher.compare(lower);
        assert_eq!((c.order, c.place), (Ordering::Greater, Some(Place::Bit)));
    }
}
