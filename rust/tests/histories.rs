//! The lists of all short histories, beside the same worked out from the events. Runs with and without the feature `std`.

use plot_election::{lent, Refusal};

const COUNTS: [[u32; 6]; 3] = [
    [1, 0, 0, 0, 0, 0],
    [1, 2, 6, 16, 46, 128],
    [1, 6, 42, 312, 2418, 19254],
];

type Event = (char, u32, u32);

/// A plot of 1 to 3 stations.
#[derive(Clone)]
struct Tables {
    n: u32,
    nodes: Vec<u32>,
    channels: Vec<u32>,
}

impl Tables {
    fn fresh(n: u32) -> Tables {
        let mut nodes = vec![0; lent::nodes_len(n)];
        let mut channels = vec![0; lent::channels_len(n)];
        lent::fresh(n, &mut nodes, &mut channels).unwrap();
        Tables { n, nodes, channels }
    }

    fn accepts(&mut self, (kind, u, v): Event) -> bool {
        let (n, nodes, channels) = (self.n, &mut self.nodes, &mut self.channels);
        match kind {
            'U' => lent::up(n, u, v, nodes, channels).is_ok(),
            'D' => lent::down(n, u, v, nodes, channels).is_ok(),
            _ => lent::receive(n, u, v, nodes, channels).is_ok(),
        }
    }
}

/// All histories, level by level: each of a length is one of the length before and an event more.
fn worked_out(n: u32, length: u32) -> Vec<String> {
    let mut level = vec![(format!("N {n}\n"), Tables::fresh(n))];
    for _ in 0..length {
        let mut next = Vec::new();
        for (text, tables) in &level {
            for kind in ['U', 'D', 'M'] {
                for (u, v) in (1..=n).flat_map(|u| (1..=n).map(move |v| (u, v))) {
                    let mut after = tables.clone();
                    if after.accepts((kind, u, v)) {
                        next.push((format!("{text}{kind} {u} {v}\n"), after));
                    }
                }
            }
        }
        level = next;
    }
    level.into_iter().map(|(text, _)| text).collect()
}

#[test]
fn every_list() {
    for n in 1..=3 {
        for length in 0..=5 {
            let expected = worked_out(n, length);
            let text = expected.concat();
            let mut out = vec![b'#'; text.len() + 7];
            let listed = lent::histories(n, length, &mut out).unwrap();
            assert_eq!(listed.bytes, text.len());
            assert_eq!(listed.bytes, lent::histories_len(n, length));
            assert_eq!(listed.histories, COUNTS[n as usize - 1][length as usize]);
            assert!(out[..listed.bytes] == *text.as_bytes(), "{n} {length}");
            assert_eq!(&out[listed.bytes..], b"#######");
            let inputs = lent::inputs(&out[..listed.bytes]);
            assert!(inputs.eq(expected.iter().map(|input| input.as_bytes())));
        }
    }
}

/// As events, each history is carried out whole and comes behind the one before it.
#[test]
fn carried_out_and_in_order() {
    let mut out = vec![0; lent::HISTORIES_MOST];
    for (n, length) in [(2, 5), (3, 3), (3, 5)] {
        let listed = lent::histories(n, length, &mut out).unwrap();
        let mut last: Vec<(usize, u32, u32)> = Vec::new();
        for input in lent::inputs(&out[..listed.bytes]) {
            let mut lines = std::str::from_utf8(input).unwrap().lines();
            assert_eq!(lines.next(), Some(format!("N {n}").as_str()));
            let mut tables = Tables::fresh(n);
            let mut events = Vec::new();
            for line in lines {
                let mut words = line.split(' ');
                let kind = words.next().unwrap();
                let (u, v) = (words.next().unwrap(), words.next().unwrap());
                let (u, v) = (u.parse().unwrap(), v.parse().unwrap());
                assert!(tables.accepts((kind.parse().unwrap(), u, v)), "{line}");
                events.push(("UDM".find(kind).unwrap(), u, v));
            }
            assert_eq!(events.len(), length as usize);
            assert!(last < events);
            last = events;
        }
    }
}

/// By hand.
#[test]
fn two_stations_and_two_events() {
    let mut out = [0; lent::histories_len(2, 2)];
    lent::histories(2, 2, &mut out).unwrap();
    let lists: [&[u8]; 6] = [
        b"N 2\nU 1 2\nU 2 1\n",
        b"N 2\nU 1 2\nD 1 2\n",
        b"N 2\nU 1 2\nM 1 2\n",
        b"N 2\nU 2 1\nU 1 2\n",
        b"N 2\nU 2 1\nD 2 1\n",
        b"N 2\nU 2 1\nM 2 1\n",
    ];
    assert!(lent::inputs(&out).eq(lists));
}

/// 1, then 19, then 14; whatever is refused, the bytes stay.
#[test]
fn what_is_refused() {
    let mut out = vec![b'#'; lent::HISTORIES_MOST];
    for n in [0, 1, 2, 3, 4, 16, 17, u32::MAX] {
        for length in (0..=7).chain([u32::MAX]) {
            let size = lent::histories_len(n, length);
            let why = if !(1..=16).contains(&n) {
                Refusal::Sizes
            } else if n > 3 || length > 5 {
                Refusal::TooLarge
            } else {
                Refusal::Room
            };
            if why == Refusal::Room && size == 0 {
                continue;
            }
            for room in [0, size.saturating_sub(1)] {
                let answer = lent::histories(n, length, &mut out[..room]);
                assert_eq!(answer, Err(why), "{n} {length} {room}");
            }
            if why != Refusal::Room {
                let answer = lent::histories(n, length, &mut out);
                assert_eq!(answer, Err(why), "{n} {length}");
                assert_eq!(size, 0);
            }
        }
    }
    assert!(out.iter().all(|&byte| byte == b'#'));
    assert_eq!(Refusal::TooLarge.number(), 19);
}

#[test]
fn every_room() {
    let text = worked_out(2, 3).concat();
    for room in 0..text.len() + 4 {
        let mut out = vec![b'#'; room];
        let answer = lent::histories(2, 3, &mut out);
        if room < text.len() {
            assert_eq!(answer, Err(Refusal::Room));
            assert!(out.iter().all(|&byte| byte == b'#'));
        } else {
            assert_eq!(answer.map(|listed| listed.bytes), Ok(text.len()));
            assert_eq!(&out[..text.len()], text.as_bytes());
            assert!(out[text.len()..].iter().all(|&byte| byte == b'#'));
        }
    }
}

/// One station has the empty history and no other, and these lists need no room.
#[test]
fn one_station() {
    let mut out = [0; 4];
    let listed = lent::histories(1, 0, &mut out).unwrap();
    assert_eq!((listed.histories, &out), (1, b"N 1\n"));
    for length in 1..=5 {
        let listed = lent::histories(1, length, &mut []).unwrap();
        assert_eq!((listed.bytes, listed.histories), (0, 0));
    }
    assert_eq!(lent::inputs(b"").next(), None);
}
