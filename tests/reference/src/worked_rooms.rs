//! Request [2] of document 02, writing into lent room: how long drawings are, and the refusals with their
//! order.

use crate::dice::Dice;
use crate::drawing::{draw, draw_into, longest};
use crate::plot::{Plot, ordered_pairs};
use crate::refusal::Refusal;
use crate::tables::{Tables, channels_len, nodes_len, store};
use crate::worked_arrows::stir;
use crate::worked_drawings::joined;
use crate::worked_orders::plot_3;
use crate::worked_plots::plot_c;

/// Up to 9 stations all lines of a kind have one length, 17 + 5 n + 10 n (n − 1) / 2. Each station
/// from 10 on adds its own line of 6, nine links of 11 and one of 12 to each from 10 on.
#[test]
fn the_longest_drawings() {
    let due = [
        22, 37, 62, 97, 142, 197, 262, 337, 422, 527, 644, 773, 914, 1067, 1232, 1409,
    ];
    for (n, due) in (1..).zip(due) {
        assert_eq!(longest(n), due, "n = {n}");
        let n = i64::from(n);
        let mut full = joined(n, &ordered_pairs(n));
        assert_eq!(draw(&full).len(), due, "n = {n}");
        stir(&mut Dice(7), &mut full);
        assert_eq!(draw(&full).len(), due, "n = {n}");
        if n > 1 {
            full.stations.get_mut(&1).unwrap().forming.remove(&2);
            assert_eq!(draw(&full).len(), due - 10, "n = {n}");
        }
    }
    for n in [0, 17, 18, 99, 256, 257, u32::MAX] {
        assert_eq!(longest(n), 0);
    }
}

/// What writing answers, and the room afterwards, which was full of 7s.
fn writes(n: i64, tables: &Tables, room: usize) -> (Result<usize, Refusal>, Vec<u8>) {
    let mut lent = vec![7; room];
    let answer = draw_into(n, &tables.nodes, &tables.channels, &mut lent);
    (answer, lent)
}

#[test]
fn writing_touches_its_text_alone() {
    let tables = store(&plot_c());
    let text = b"digraph plot {\n  1;\n  2;\n  2 -> 1;\n}\n";
    assert_eq!(text.len(), 37);
    for room in [37, 38, 39, 60, 2000] {
        let (answer, lent) = writes(2, &tables, room);
        assert_eq!(answer, Ok(37));
        assert_eq!(lent[..37], text[..]);
        assert_eq!(lent[37..], vec![7; room - 37]);
    }
    for room in 0..37 {
        assert_eq!(
            writes(2, &tables, room),
            (Err(Refusal::Room), vec![7; room])
        );
    }
    let full = store(&joined(16, &ordered_pairs(16)));
    assert_eq!(writes(16, &full, 1409).0, Ok(1409));
    assert_eq!(writes(16, &full, 1408), (Err(Refusal::Room), vec![7; 1408]));
    assert_eq!(
        writes(16, &store(&Plot::fresh(16)), 104).0,
        Ok(104),
        "what it takes, not the longest"
    );
}

/// 1 before 2 before 14, and nothing written by any of them.
#[test]
fn writing_checks_1_2_14_for_drawings() {
    let mut tables = store(&plot_3());
    assert_eq!(writes(3, &tables, 31).0, Err(Refusal::Room));
    assert_eq!(writes(3, &tables, 32).0, Ok(32));
    tables.nodes[1] = 1;
    for room in [0, 2000] {
        let fault = Err(Refusal::Fault { u: 1, v: 1 });
        assert_eq!(writes(3, &tables, room), (fault, vec![7; room]));
        for n in [i64::MIN, -1, 0, 1, 2, 4, 16, 17, i64::MAX] {
            assert_eq!(
                writes(n, &tables, room),
                (Err(Refusal::Sizes), vec![7; room])
            );
        }
    }
    let (nodes, channels) = (nodes_len(3), channels_len(3));
    for (nodes, channels) in [
        (nodes - 1, channels),
        (nodes + 1, channels),
        (nodes, channels - 1),
        (nodes, channels + 1),
        (nodes - 1, channels + 1),
        (channels, nodes),
        (0, 0),
    ] {
        let mut other = tables.clone();
        other.nodes.resize(nodes, 0);
        other.channels.resize(channels, 0);
        assert_eq!(writes(3, &other, 0).0, Err(Refusal::Sizes));
    }
    let mut late = store(&plot_3());
    *late.channels.last_mut().unwrap() = 1;
    assert_eq!(writes(3, &late, 0).0, Err(Refusal::Fault { u: 3, v: 3 }));
}
