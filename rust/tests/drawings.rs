//! Drawings and sketches worked by hand, over lent tables. Runs with and without the feature `std`.

use plot_election::{lent, Refusal, View};

const N: u32 = 3;
const NODES: usize = lent::nodes_len(N);
const CHANNELS: usize = lent::channels_len(N);
const SKETCH: &[u8] = b"graph plot {\n  1;\n  2;\n  3;\n  3 -- 2;\n  1 -- 2;\n}\n";
const DRAWING: &[u8] = b"digraph plot {\n  1;\n  2;\n  3;\n  2 -> 1;\n  3 -> 2;\n}\n";

fn tables() -> ([u32; NODES], [u32; CHANNELS]) {
    let (mut nodes, mut channels) = ([7; NODES], [7; CHANNELS]);
    lent::read_sketch(SKETCH, &mut nodes, &mut channels).unwrap();
    (nodes, channels)
}

/// What the two ups of each line leave, in their order.
#[test]
fn a_sketch_is_fresh_and_its_ups() {
    let (mut nodes, mut channels) = ([0; NODES], [0; CHANNELS]);
    lent::fresh(N, &mut nodes, &mut channels).unwrap();
    for (u, v) in [(3, 2), (2, 3), (1, 2), (2, 1)] {
        lent::up(N, u, v, &mut nodes, &mut channels).unwrap();
    }
    assert_eq!(tables(), (nodes, channels));
    let view = View::new(N, &nodes, &channels).unwrap();
    assert!(view.is_linked(1, 2) && view.is_linked(2, 3) && !view.is_linked(1, 3));
}

#[test]
fn a_drawing_and_the_bytes_behind_it() {
    let (nodes, channels) = tables();
    for room in 0..DRAWING.len() {
        let mut out = vec![b'#'; room];
        let answer = lent::draw(N, &nodes, &channels, &mut out);
        assert_eq!(answer, Err(Refusal::Room));
        assert!(out.iter().all(|&byte| byte == b'#'));
    }
    for behind in 0..9 {
        let mut out = vec![b'#'; DRAWING.len() + behind];
        let answer = lent::draw(N, &nodes, &channels, &mut out);
        assert_eq!(answer, Ok(DRAWING.len()));
        assert_eq!(&out[..DRAWING.len()], DRAWING);
        assert!(out[DRAWING.len()..].iter().all(|&byte| byte == b'#'));
    }
}

/// A channel that is up one way does not show; each link leads down by the own heights, not by the numbers.
#[test]
fn what_a_drawing_shows() {
    let (mut nodes, mut channels) = tables();
    lent::up(N, 1, 3, &mut nodes, &mut channels).unwrap();
    let mut out = [0; lent::drawing_len(N)];
    let size = lent::draw(N, &nodes, &channels, &mut out).unwrap();
    assert_eq!(&out[..size], DRAWING);
    let width = NODES / N as usize;
    nodes[3 + 3] = 5; // station 1's depth
    lent::check(N, &nodes, &channels).unwrap();
    let size = lent::draw(N, &nodes, &channels, &mut out).unwrap();
    let lines = b"digraph plot {\n  1;\n  2;\n  3;\n  1 -> 2;\n  3 -> 2;\n}\n";
    assert_eq!(&out[..size], lines);
    nodes[width + 1] = 1 << 1; // station 2 linked to itself
    let fault = Refusal::Fault { at: 2, with: 2 };
    assert_eq!(lent::draw(N, &nodes, &channels, &mut []), Err(fault));
    let sizes = lent::draw(N, &nodes[1..], &channels, &mut []);
    assert_eq!(sizes, Err(Refusal::Sizes));
}

/// 16, then 1, then 17; whatever is refused, the tables stay.
#[test]
fn what_a_sketch_is_refused_for() {
    let (mut nodes, mut channels) = ([7; NODES], [7; CHANNELS]);
    let no_sketch: [&[u8]; 6] = [
        b"",
        DRAWING,
        b"graph plot {\n}\n",
        b"graph plot {\n  2;\n  1;\n}\n",
        b"graph plot {\n  1;\n  2;\n  3;\n  1 -- 0;\n  01 -- 2;\n}\n",
        b"graph plot {\n  1;\n  2;\n  3;\n}",
    ];
    for text in no_sketch {
        assert_eq!(lent::sketch_stations(text), None);
        let answer = lent::read_sketch(text, &mut nodes[..2], &mut channels);
        assert_eq!(answer, Err(Refusal::SketchForm));
    }
    let bad_links: [&[u8]; 4] = [
        b"  0 -- 1;\n",
        b"  1 -- 4;\n",
        b"  2 -- 2;\n",
        b"  1 -- 2;\n  2 -- 1;\n",
    ];
    for links in bad_links {
        let text = [b"graph plot {\n  1;\n  2;\n  3;\n", links, b"}\n"].concat();
        assert_eq!(lent::sketch_stations(&text), Some(N));
        let answer = lent::read_sketch(&text, &mut nodes, &mut channels);
        assert_eq!(answer, Err(Refusal::SketchLink));
        let answer = lent::read_sketch(&text, &mut nodes, &mut channels[1..]);
        assert_eq!(answer, Err(Refusal::Sizes));
    }
    assert_eq!((nodes, channels), ([7; NODES], [7; CHANNELS]));
}

#[cfg(feature = "std")]
mod owned {
    use super::*;
    use plot_election::Plot;

    #[test]
    fn a_plot_of_a_sketch() {
        let plot = Plot::from_sketch(SKETCH).unwrap();
        let (nodes, channels) = tables();
        assert_eq!(plot.view(), View::new(N, &nodes, &channels).unwrap());
        assert_eq!(plot.draw().unwrap().as_bytes(), DRAWING);
        let mut four = Plot::new(4).unwrap();
        assert_eq!(four.read_sketch(SKETCH), Err(Refusal::Sizes));
        assert_eq!(four, Plot::new(4).unwrap());
        assert_eq!(Plot::from_sketch(DRAWING), Err(Refusal::SketchForm));
        let twice = b"graph plot {\n  1;\n  2;\n  1 -- 2;\n  1 -- 2;\n}\n";
        assert_eq!(Plot::from_sketch(twice), Err(Refusal::SketchLink));
    }

    /// The longest drawing of each n, of which every two stations are linked, is as long as is said.
    #[test]
    fn all_linked() {
        for n in 1..=16 {
            let mut plot = Plot::new(n).unwrap();
            let pairs = (1..=n).flat_map(|u| (1..=n).map(move |v| (u, v)));
            for (u, v) in pairs.filter(|(u, v)| u != v) {
                plot.up(u, v).unwrap();
            }
            let text = plot.draw().unwrap();
            assert_eq!(text.len(), lent::drawing_len(n));
            let links = (n * (n - 1) / 2) as usize;
            assert_eq!(text.matches(" -> ").count(), links);
            let undirected = text.replace("digraph", "graph").replace("->", "--");
            let read = Plot::from_sketch(undirected.as_bytes()).unwrap();
            assert_eq!(read.draw().unwrap(), text);
        }
    }
}
