//! Refusal 18 at every call that reads tables or images: each kind of time at its limit and one beyond, and images joined by hand. Runs with
//! and without the feature `std`.

use plot_election::{lent, Refusal, Rule, Step, View};

const N: u32 = 3;
const NODES: usize = lent::nodes_len(N);
const CHANNELS: usize = lent::channels_len(N);
const WIDTH: usize = NODES / N as usize;
/// Where row 2, its own height, its view of 1 and the message on channel 2 to 3 start, in words.
const ROW: usize = WIDTH;
const OWN: usize = ROW + 3 + 7;
const VIEW: usize = ROW + 3;
const MESSAGE: usize = (N as usize + 2) * 65 + 1;

/// The tables of a plot.
#[derive(Clone, Debug, PartialEq)]
struct Tables {
    nodes: [u32; NODES],
    channels: [u32; CHANNELS],
}

impl Tables {
    fn fresh() -> Tables {
        let (mut nodes, mut channels) = ([0; NODES], [0; CHANNELS]);
        lent::fresh(N, &mut nodes, &mut channels).unwrap();
        Tables { nodes, channels }
    }

    /// Station 2 has clock 9, a view of 1, and a message on its way to 3, each with a search and an election.
    fn planted() -> Tables {
        let mut tables = Tables::fresh();
        tables.nodes[ROW..ROW + 3].copy_from_slice(&[9, 0b001, 0b100]);
        tables.nodes[OWN..OWN + 7].copy_from_slice(&[4, 1, 0, 0, 5, 1, 2]);
        tables.nodes[VIEW..VIEW + 7].copy_from_slice(&[6, 3, 1, 1, 7, 3, 1]);
        tables.channels[MESSAGE - 1] = 1;
        tables.channels[MESSAGE..MESSAGE + 8].copy_from_slice(&[2, 2, 0, 1, 3, 2, 2, 8]);
        tables
    }

    fn image(&self) -> Vec<u8> {
        let mut out = vec![0; lent::image_len(N)];
        let size = lent::save(N, &self.nodes, &self.channels, &mut out).unwrap();
        out.truncate(size);
        out
    }
}

/// A time of the planted plot: its word, the first of its 32 bits in the image, what bounds it, and the pair.
struct Time {
    word: fn(&mut Tables) -> &mut u32,
    bit: usize,
    limit: u32,
    pair: (u32, u32),
}

/// Both times of the own height and of the view, the message's own two, and its stamp.
fn times() -> [Time; 7] {
    let time = |word, bit, limit, pair| Time {
        word,
        bit,
        limit,
        pair,
    };
    let heights = lent::place(N, 2).unwrap() as usize + 64;
    let message = 32 + N as usize * (64 + 96 * N as usize) + 4 * 4;
    [
        time(|t| &mut t.nodes[OWN], heights + 96, 9, (2, 2)),
        time(|t| &mut t.nodes[OWN + 4], heights + 96 + 54, 9, (2, 2)),
        time(|t| &mut t.nodes[VIEW], heights, 9, (2, 1)),
        time(|t| &mut t.nodes[VIEW + 4], heights + 54, 9, (2, 1)),
        time(|t| &mut t.channels[MESSAGE], message, 8, (2, 3)),
        time(|t| &mut t.channels[MESSAGE + 4], message + 54, 8, (2, 3)),
        time(|t| &mut t.channels[MESSAGE + 7], message + 96, 9, (2, 3)),
    ]
}

impl Time {
    /// The planted plot with this time, in tables and image.
    fn put(&self, word: u32) -> (Tables, Vec<u8>) {
        let mut tables = Tables::planted();
        let mut image = tables.image();
        *(self.word)(&mut tables) = word;
        for k in 0..32 {
            let (at, shift) = ((self.bit + k) / 8, 7 - (self.bit + k) % 8);
            image[at] = image[at] & !(1 << shift) | ((word >> (31 - k) & 1) as u8) << shift;
        }
        (tables, image)
    }
}

/// Every call on tables. Each refused one also has what is checked later: no such station, no room.
fn on_tables(tables: &Tables, why: Result<(), Refusal>) {
    let Tables { nodes, channels } = tables;
    let view = View::new(N, nodes, channels).unwrap();
    assert_eq!(lent::check(N, nodes, channels), why);
    assert_eq!(view.check(), why);
    assert_eq!(view.quiet().map(drop), why);
    assert_eq!(view.groups().map(drop), why);
    let mut out = [7; 2000];
    let (k, room) = if why.is_ok() { (2, 2000) } else { (0, 0) };
    assert_eq!(view.group_of(k).map(drop), why);
    let saved = lent::save(N, nodes, channels, &mut out[..room]);
    assert_eq!(saved.map(drop), why);
    let drawn = lent::draw(N, nodes, channels, &mut out[..room]);
    assert_eq!(drawn.map(drop), why);
    assert!(why.is_ok() || out == [7; 2000]);
}

/// Every event; a refused one leaves the tables.
fn on_events(tables: &Tables, why: Result<(), Refusal>) {
    let calls: [(Event, u32, u32, Rule); 3] = [
        (lent::up, 1, 2, Rule::ChannelUp),
        (lent::down, 2, 3, Rule::NoChange),
        (lent::receive, 2, 3, Rule::Ignored),
    ];
    for (call, u, v, rule) in calls {
        let mut after = tables.clone();
        let (u, v) = if why.is_ok() { (u, v) } else { (0, 0) };
        let step = call(N, u, v, &mut after.nodes, &mut after.channels);
        assert_eq!(step.map(|step| step.rule), why.map(|()| rule));
        assert_eq!(after == *tables, why.is_err());
        let check = lent::check(N, &after.nodes, &after.channels);
        assert_eq!(check, why);
    }
}

type Event = fn(u32, u32, u32, &mut [u32], &mut [u32]) -> Result<Step, Refusal>;

/// A resume, and a look at a station, or where it is refused at none and at no place; what was lent stays then.
fn on_image(image: &[u8], why: Result<(), Refusal>, held: &Tables) {
    let before = Tables {
        nodes: [7; NODES],
        channels: [7; CHANNELS],
    };
    let mut resumed = before.clone();
    let done = lent::restore(image, &mut resumed.nodes, &mut resumed.channels);
    assert_eq!(done, why);
    assert_eq!(resumed, if why.is_ok() { held.clone() } else { before });
    let mut row = [7; lent::row_len(N)];
    let (k, place) = if why.is_ok() {
        (2, lent::place(N, 2).unwrap())
    } else {
        (9, 9)
    };
    assert_eq!(lent::read_station(image, k, place, &mut row).map(drop), why);
    let heights: &[u32] = if why.is_ok() {
        &held.nodes[VIEW..ROW + WIDTH]
    } else {
        &[7; 21]
    };
    assert_eq!(row, heights);
}

#[test]
fn at_the_limit_and_beyond() {
    for time in times() {
        let (tables, image) = time.put(time.limit);
        assert_eq!(tables.image(), image);
        on_tables(&tables, Ok(()));
        on_events(&tables, Ok(()));
        on_image(&image, Ok(()), &tables);

        let (at, with) = time.pair;
        let why = Refusal::Untimely { at, with };
        assert_eq!(why.number(), 18);
        assert_eq!(
            why.to_string(),
            format!("18: a time is later than its clock or stamp at {at} {with}")
        );
        for word in [time.limit + 1, u32::MAX] {
            let (tables, image) = time.put(word);
            on_tables(&tables, Err(why));
            on_events(&tables, Err(why));
            on_image(&image, Err(why), &tables);
        }
    }
}

/// A clock set back by one from the latest time that it bounds.
#[test]
fn a_clock_set_back() {
    let mut tables = Tables::planted();
    for (clock, why) in [
        (8, Ok(())),
        (7, Err((2, 3))),
        (6, Err((2, 1))),
        (4, Err((2, 1))),
        (3, Err((2, 1))),
    ] {
        tables.nodes[ROW] = clock;
        let why = why.map_err(|(at, with)| Refusal::Untimely { at, with });
        on_tables(&tables, why);
    }
    tables.nodes[VIEW] = 1;
    tables.nodes[VIEW + 4] = 1;
    on_tables(&tables, Err(Refusal::Untimely { at: 2, with: 2 }));
}

/// 1, then 2 at whatever pair, then 18.
#[test]
fn a_broken_rule_comes_first() {
    let mut tables = Tables::planted();
    tables.nodes[OWN] = 10;
    on_tables(&tables, Err(Refusal::Untimely { at: 2, with: 2 }));
    tables.nodes[2 * WIDTH + 3] = 1; // a view of 1 at 3, which has none
    let fault = Refusal::Fault { at: 3, with: 1 };
    on_tables(&tables, Err(fault));
    on_events(&tables, Err(fault));
    let sizes = lent::check(N, &tables.nodes[1..], &tables.channels);
    assert_eq!(sizes, Err(Refusal::Sizes));
}

/// The images after the third event and after the last of a history, and one of the front of the first and the rest of the other.
fn halves() -> [Vec<u8>; 3] {
    const EVENTS: &str = "U31 U13 M31 M13 M31 M13 U32 U23 M23 M32 M23 M32 D31 U31 M31";
    let Tables {
        mut nodes,
        mut channels,
    } = Tables::fresh();
    let mut images = Vec::new();
    for event in EVENTS.split(' ') {
        let call: Event = match &event[..1] {
            "U" => lent::up,
            "D" => lent::down,
            _ => lent::receive,
        };
        let stations: u32 = event[1..].parse().unwrap();
        call(N, stations / 10, stations % 10, &mut nodes, &mut channels).unwrap();
        images.push(Tables { nodes, channels }.image());
    }
    let (early, late) = (images[2].clone(), images[14].clone());
    let joined = [&early[..12], &late[12..]].concat();
    [early, late, joined]
}

/// Station 1 has its clock and sets from the one image and all else from the other.
#[test]
fn joined_halves() {
    let [early, late, joined] = halves();
    let mut tables = Tables::fresh();
    for whole in [early, late] {
        assert_eq!(
            lent::restore(&whole, &mut tables.nodes, &mut tables.channels),
            Ok(())
        );
    }
    on_image(&joined, Err(Refusal::Untimely { at: 1, with: 3 }), &tables);
}

#[cfg(feature = "std")]
#[test]
fn a_plot_of_joined_halves() {
    use plot_election::Plot;
    let [early, _, joined] = halves();
    let why = Refusal::Untimely { at: 1, with: 3 };
    let mut plot = Plot::from_image(&early).unwrap();
    let before = plot.clone();
    assert_eq!(plot.restore(&joined), Err(why));
    assert_eq!(plot.read_station(&joined, 9, 9), Err(why));
    assert_eq!(Plot::from_image(&joined), Err(why));
    assert_eq!(plot, before);
}
