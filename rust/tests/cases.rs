//! Plots worked by hand: document 01's cases a to d and m, groups, and what is refused.
#![cfg(feature = "std")]

use plot_election::{lent, Group, Height, Level, Plot, Refusal, Rule};

fn own(plot: &Plot, k: u32) -> Height {
    plot.station(k).unwrap().own()
}

fn clock(plot: &Plot, k: u32) -> u32 {
    plot.station(k).unwrap().record().clock
}

/// A height without a search: depth; election time, leader; station.
fn height(depth: i32, election_time: u32, leader: u32, station: u32) -> Height {
    let level = Level {
        search_time: 0,
        originator: 0,
        bit: 0,
    };
    Height {
        level,
        depth,
        election_time,
        leader,
        station,
    }
}

/// Case a: by rule A station 2 follows 1 at depth 1; its clock is 2.
fn adopted() -> Plot {
    let mut plot = Plot::new(2).unwrap();
    assert_eq!(plot.up(1, 2).unwrap().rule, Rule::ChannelUp);
    assert_eq!(plot.up(2, 1).unwrap().sent_to.bits(), 1);
    let step = plot.receive(1, 2).unwrap();
    assert_eq!(
        (step.rule, step.sent_to.bits(), step.sent),
        (Rule::AdoptLpIfPriority(1), 1, 1)
    );
    assert_eq!((clock(&plot, 2), own(&plot, 2)), (2, height(1, 0, 1, 2)));
    plot
}

/// Cases b and c: R with clock 2; then Q, Q, both clocks 3, quiet, collector 1.
fn quiet() -> Plot {
    let mut plot = adopted();
    assert_eq!(plot.receive(2, 1).unwrap().rule, Rule::Reply);
    assert_eq!(clock(&plot, 1), 2);
    assert_eq!(plot.receive(2, 1).unwrap().rule, Rule::NoChange);
    assert_eq!(plot.receive(1, 2).unwrap().rule, Rule::NoChange);
    assert_eq!((clock(&plot, 1), clock(&plot, 2)), (3, 3));
    assert_eq!(
        (plot.leader(1), plot.leader(2), plot.first_waiting()),
        (Some(1), Some(1), None)
    );
    assert_eq!(plot.quiet(), Ok(true));
    plot
}

/// Document 02, [5]: station 2 has nobody in its sets, and its clock moves past the stamp of what it ignores.
#[test]
fn ignored_messages_move_the_clock() {
    let mut plot = Plot::new(3).unwrap();
    plot.up(1, 3).unwrap();
    plot.up(1, 2).unwrap();
    assert_eq!(plot.receive(1, 2).unwrap().rule, Rule::Ignored);
    assert_eq!((clock(&plot, 1), clock(&plot, 2)), (2, 3));
    assert_eq!(plot.receive(1, 2), Err(Refusal::NoMessage));
    let last = u32::MAX;
    assert_eq!(ignored_at(last - 2), (Ok(Rule::Ignored), last));
    assert_eq!(ignored_at(last - 1), (Err(Refusal::ClockEnd), 0));
}

/// Station 1 sends at this clock; what 2 answers when it ignores that, and its clock then. Refused, nothing has changed.
fn ignored_at(clock: u32) -> (Result<Rule, Refusal>, u32) {
    let [nodes_len, channels_len, ..] = lengths(2);
    let (mut nodes, mut channels) = (vec![0; nodes_len], vec![0; channels_len]);
    lent::fresh(2, &mut nodes, &mut channels).unwrap();
    nodes[0] = clock;
    lent::up(2, 1, 2, &mut nodes, &mut channels).unwrap();
    let before = (nodes.clone(), channels.clone());
    let heard = lent::receive(2, 1, 2, &mut nodes, &mut channels);
    assert!(heard.is_ok() || (&nodes, &channels) == (&before.0, &before.1));
    (heard.map(|step| step.rule), nodes[nodes_len / 2])
}

/// What to lend for n stations.
fn lengths(n: u32) -> [usize; 4] {
    [
        lent::nodes_len(n),
        lent::channels_len(n),
        lent::row_len(n),
        lent::image_len(n),
    ]
}

/// n = 16 with every channel full, as lent tables.
fn full() -> (Vec<u32>, Vec<u32>) {
    let (mut nodes, mut channels) = (
        vec![0; lent::nodes_len(16)],
        vec![0; lent::channels_len(16)],
    );
    lent::fresh(16, &mut nodes, &mut channels).unwrap();
    for u in 0..16 {
        let station = u as u32 + 1;
        let message = [0, 0, 0, 0, 0, station, station, 1];
        nodes[u * 115] = 1;
        nodes[u * 115 + 2] = 0xffff & !(1 << u);
        for v in (0..16).filter(|&v| v != u) {
            let at = (u * 16 + v) * 65;
            channels[at] = 8;
            channels[at + 1..at + 65].copy_from_slice(&message.repeat(8));
        }
    }
    (nodes, channels)
}

#[test]
fn cases_a_to_d() {
    let mut plot = quiet();
    // d: by rule E, at clock 4
    let step = plot.down(1, 2).unwrap();
    assert_eq!((step.rule, step.sent), (Rule::ElectSelf, 0));
    assert_eq!((clock(&plot, 1), own(&plot, 1)), (4, height(0, 4, 1, 1)));
}

#[test]
fn case_m_lengths() {
    assert_eq!(Plot::new(1).unwrap().save().unwrap().len(), 24);
    assert_eq!(Plot::new(2).unwrap().save().unwrap().len(), 69);
    let (nodes, channels) = full();
    assert_eq!(lent::check(16, &nodes, &channels), Ok(()));
    let mut out = vec![0; lent::image_len(16)];
    assert_eq!(lent::save(16, &nodes, &channels, &mut out), Ok(34_044));
    assert_eq!(
        lent::save(16, &nodes, &channels, &mut out[..34_043]),
        Err(Refusal::Room)
    );
}

#[test]
fn case_m_places() {
    let plot = Plot::new(4).unwrap();
    let image = plot.save().unwrap();
    let mut row = [0; lent::row_len(4)];
    assert_eq!(lent::place(4, 3), Some(928));
    let look = lent::read_station(&image, 3, 928, &mut row);
    assert_eq!(look.ok(), plot.station(3));
    let saved = plot.read_station(&image, 3, 928).unwrap();
    assert_eq!(Some(saved.station()), plot.station(3));
    let other = Plot::new(5).unwrap();
    assert_eq!(other.read_station(&image, 3, 928), Err(Refusal::Sizes));
    for (k, place, why) in [
        (3, 927, Refusal::Place),
        (3, 929, Refusal::Place),
        (5, 928, Refusal::Station),
    ] {
        let look = lent::read_station(&image, k, place, &mut row);
        assert_eq!(look, Err(why));
        assert_eq!(plot.read_station(&image, k, place), Err(why));
    }
    let look = lent::read_station(&image, 3, 928, &mut row[1..]);
    assert_eq!(look, Err(Refusal::Sizes));
}

/// The members, the collectors and the collector of a group.
fn group(plot: &Plot, u: u32) -> (u16, u16, Option<u32>) {
    let Group {
        members,
        collectors,
        collector,
    } = plot.group_of(u).unwrap();
    (members.bits(), collectors.bits(), collector)
}

#[test]
fn quiet_and_groups() {
    let mut plot = Plot::new(3).unwrap();
    assert_eq!(plot.quiet(), Ok(true));
    assert_eq!(plot.groups().unwrap().bits(), 0b111);
    plot.up(1, 2).unwrap();
    assert_eq!(plot.quiet(), Ok(false));
    assert_eq!(plot.groups().unwrap().bits(), 0b111);
    plot.up(2, 1).unwrap();
    assert_eq!(plot.groups().unwrap().bits(), 0b101);
    assert_eq!(group(&plot, 2), (0b11, 0b11, None));
    while let Some((from, to)) = plot.first_waiting() {
        plot.receive(from, to).unwrap();
    }
    assert_eq!(plot.quiet(), Ok(true));
    assert_eq!(group(&plot, 2), (0b11, 0b01, Some(1)));
    assert_eq!(group(&plot, 3), (0b100, 0b100, Some(3)));
    assert_eq!(plot.group_of(4), Err(Refusal::Station));
    // case d: no message waits, but 2 is still up to 1, whose collector it follows
    plot.down(1, 2).unwrap();
    assert_eq!((plot.first_waiting(), plot.quiet()), (None, Ok(false)));
    assert_eq!(group(&plot, 2), (0b10, 0, None));
}

#[test]
fn from_image() {
    for n in 1..=16 {
        let plot = Plot::new(n).unwrap();
        let image = plot.save().unwrap();
        assert_eq!(lent::image_stations(&image), Ok(n));
        assert_eq!(Plot::from_image(&image), Ok(plot));
        let cut = Plot::from_image(&image[..image.len() - 1]);
        assert_eq!(cut, Err(Refusal::ImageEnd));
    }
    assert_eq!(Plot::from_image(&[0; 3]), Err(Refusal::ImageShort));
    assert_eq!(Plot::from_image(&[0; 4]), Err(Refusal::ImageHeader));
}

#[test]
fn saved_comes_back() {
    let saved = quiet();
    let image = saved.save().unwrap();
    let mut plot = saved.clone();
    plot.down(1, 2).unwrap();
    assert_ne!(plot, saved);
    plot.restore(&image).unwrap();
    assert_eq!(plot, saved);
    let (mut nodes, mut channels) = full();
    let mut out = vec![0; 40_000];
    let size = lent::save(16, &nodes, &channels, &mut out).unwrap();
    let (n, c) = (nodes.clone(), channels.clone());
    lent::fresh(16, &mut nodes, &mut channels).unwrap();
    lent::restore(&out[..size], &mut nodes, &mut channels).unwrap();
    assert_eq!((nodes, channels), (n, c));
}

#[test]
fn refused_and_unchanged() {
    let mut plot = quiet();
    let before = plot.clone();
    let image = plot.save().unwrap();
    assert_eq!(plot.up(1, 2), Err(Refusal::AlreadyUp));
    assert_eq!(plot.up(1, 1), Err(Refusal::Station));
    assert_eq!(plot.receive(1, 2), Err(Refusal::NoMessage));
    assert_eq!(plot.restore(&image[..68]), Err(Refusal::ImageEnd));
    assert_eq!(plot.restore(&image[..3]), Err(Refusal::ImageShort));
    assert_eq!(plot.restore(&[0; 69]), Err(Refusal::ImageHeader));
    assert_eq!(
        plot.restore(&Plot::new(3).unwrap().save().unwrap()),
        Err(Refusal::Sizes)
    );
    assert_eq!(plot, before);
    assert_eq!(
        plot.down(1, 2).and(plot.down(1, 2)),
        Err(Refusal::AlreadyDown)
    );
}

#[test]
fn sizes_and_faults() {
    for n in [0, 17, u32::MAX] {
        assert_eq!(Plot::new(n), Err(Refusal::Sizes));
        assert_eq!(lengths(n), [0, 0, 0, 0]);
    }
    assert_eq!(lengths(16), [1840, 16_640, 112, 34_044]);
    let (mut nodes, channels) = full();
    nodes[115 * 2 + 1] = 1;
    assert_eq!(
        lent::check(16, &nodes, &channels),
        Err(Refusal::Fault { at: 3, with: 1 })
    );
    assert_eq!(Refusal::Fault { at: 3, with: 1 }.number(), 2);
}
