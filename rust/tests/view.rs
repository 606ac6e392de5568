//! Reading lent tables, with no allocation: every answer beside the words. Runs with and without the feature `std`.

use plot_election::{lent, Refusal, View};

const N: u32 = 4;
const NODES: usize = lent::nodes_len(N);
const CHANNELS: usize = lent::channels_len(N);

/// 1 to 3 in a row, 2 to 4 up one way only, some messages delivered.
fn tables() -> ([u32; NODES], [u32; CHANNELS]) {
    let (mut nodes, mut channels) = ([0; NODES], [0; CHANNELS]);
    lent::fresh(N, &mut nodes, &mut channels).unwrap();
    for (u, v) in [(1, 2), (2, 1), (2, 3), (3, 2), (2, 4)] {
        lent::up(N, u, v, &mut nodes, &mut channels).unwrap();
    }
    lent::receive(N, 1, 2, &mut nodes, &mut channels).unwrap();
    lent::receive(N, 2, 3, &mut nodes, &mut channels).unwrap();
    (nodes, channels)
}

#[test]
fn stations_and_channels() {
    let (nodes, channels) = tables();
    let view = View::new(N, &nodes, &channels).unwrap();
    assert_eq!((view.size(), view.check()), (N, Ok(())));
    let width = 3 + 7 * N as usize;
    for u in 1..=N {
        let row = &nodes[(u as usize - 1) * width..][..width];
        let own = &row[3 + 7 * (u as usize - 1)..][..7];
        let station = view.station(u).unwrap();
        assert_eq!(view.clock(u), Some(row[0]));
        assert_eq!(view.leader(u), Some(own[5]));
        assert_eq!(view.is_collector(u), own[5] == u);
        assert_eq!(station.own(), station.height(u).unwrap());
        assert_eq!(station.own().depth, own[3] as i32);
        assert_eq!(station.heights().count(), N as usize);
        for v in 1..=N {
            let cell = &channels[((u - 1) * N + v - 1) as usize * 65..][..65];
            let up = (row[1] | row[2]) >> (v - 1) & 1 == 1;
            assert_eq!(view.is_up(u, v), up);
            assert_eq!(view.is_linked(u, v), view.is_linked(v, u));
            assert_eq!(view.waiting(u, v), cell[0]);
            let height = station.height(v).unwrap();
            let seen = v == u || station.record().linked.contains(v);
            assert_eq!(height.station, if seen { v } else { 0 });
        }
    }
    assert!(view.is_linked(1, 2) && view.is_up(2, 4) && !view.is_linked(2, 4));
    let (from, to) = view.first_waiting().unwrap();
    assert!(view.waiting(from, to) > 0);
}

#[test]
fn outside() {
    let (nodes, channels) = tables();
    let view = View::new(N, &nodes, &channels).unwrap();
    for u in [0, N + 1, 17, u32::MAX] {
        assert_eq!((view.station(u), view.leader(u)), (None, None));
        assert!(!view.is_collector(u) && !view.is_up(u, 1) && !view.is_up(1, u));
        assert_eq!(view.waiting(u, 1) + view.waiting(1, u), 0);
        assert_eq!(view.station(1).unwrap().height(u), None);
        assert_eq!(
            (lent::place(N, u), lent::place(u, 1).is_some()),
            (None, u == N + 1)
        );
    }
    for n in [0, N - 1, N + 1, 17] {
        assert_eq!(View::new(n, &nodes, &channels), Err(Refusal::Sizes));
    }
    assert_eq!(View::new(N, &nodes[1..], &channels), Err(Refusal::Sizes));
    assert_eq!(View::new(0, &[], &[]), Err(Refusal::Sizes));
}
