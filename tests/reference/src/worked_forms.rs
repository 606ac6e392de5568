//! Request [2] of document 02, reading: the form of a sketch said a second time, by the lines that there
//! are, and compared with the first on the texts of the generator and on all small changes.

use crate::drawing::{parse, stations};
use crate::sketches::{corners, texts, written};
use crate::worked_sketches::{SMALL, number, start};
use std::collections::{BTreeMap, BTreeSet};

/// Every first line and station line that a sketch can have.
const HEAD: &str = concat!(
    "graph plot {\n  1;\n  2;\n  3;\n  4;\n  5;\n  6;\n  7;\n  8;\n",
    "  9;\n  10;\n  11;\n  12;\n  13;\n  14;\n  15;\n  16;\n",
);

/// The form a second time, by all the lines that there are: the links of each link line.
struct Form {
    links: BTreeMap<Vec<u8>, (u32, u32)>,
}

impl Form {
    fn new() -> Form {
        let ends = (0..=99).flat_map(|a| (0..=99).map(move |b| (a, b)));
        let line = |(a, b)| (format!("  {a} -- {b};\n").into_bytes(), (a, b));
        Form {
            links: ends.map(line).collect(),
        }
    }

    /// n and the links, where the text is the head of n stations, link lines, and the end.
    fn parts(&self, text: &[u8]) -> Option<(u32, Vec<(u32, u32)>)> {
        let heads =
            (1..=16).map(|n| (n, HEAD.split_inclusive('\n').take(1 + n as usize).collect()));
        heads.into_iter().find_map(|(n, head): (u32, String)| {
            let rest = text.strip_prefix(head.as_bytes())?.strip_suffix(b"}\n")?;
            let lines = rest.split_inclusive(|byte| *byte == b'\n');
            let links: Option<Vec<(u32, u32)>> =
                lines.map(|line| self.links.get(line).copied()).collect();
            Some((n, links?))
        })
    }

    /// The number that is due over tables of the right lengths.
    fn number(&self, text: &[u8]) -> i64 {
        let Some((n, links)) = self.parts(text) else {
            return 16;
        };
        let times = |a: u32, b: u32| {
            links
                .iter()
                .filter(|link| **link == (a, b) || **link == (b, a))
                .count()
        };
        let pairs = (1..=n).flat_map(|a| (a + 1..=n).map(move |b| (a, b)));
        let named: Vec<usize> = pairs.map(|(a, b)| times(a, b)).collect();
        let once = named.iter().all(|count| *count <= 1);
        let good = once && named.iter().sum::<usize>() == links.len();
        if good { 0 } else { 17 }
    }
}

/// Both ways of saying the form agree on every text of the generator; what is taken apart can be put
/// together again; and the generator leaves no kind out.
#[test]
fn the_form_said_twice() {
    let form = Form::new();
    let mut count: BTreeMap<i64, usize> = BTreeMap::new();
    let corners = corners().len();
    for seed in 0..2 {
        let texts = texts(seed, 3_000);
        assert_eq!(texts.len(), 3_000);
        let new = if seed == 0 { 0 } else { corners };
        for text in &texts[new..] {
            let (parts, number) = (parse(text), number(text));
            assert_eq!(parts, form.parts(text), "{}", start(text));
            assert_eq!(number, form.number(text), "{}", start(text));
            if let Some((n, links)) = parts {
                assert_eq!(*text, written(n, &links));
            }
            *count.entry(number).or_default() += 1;
        }
    }
    let kinds: Vec<i64> = count.keys().copied().collect();
    assert_eq!(kinds, [0, 16, 17]);
    assert!(count.values().all(|count| *count > 700), "{count:?}");
}

#[test]
fn one_seed_gives_the_same_texts() {
    assert_eq!(texts(5, 900), texts(5, 900));
    assert_ne!(texts(5, 900), texts(6, 900));
    assert_eq!(texts(5, 900)[..500], texts(5, 500));
    let thrown = texts(5, 2_000).split_off(corners().len());
    let different: BTreeSet<&Vec<u8>> = thrown.iter().collect();
    assert!(different.len() > thrown.len() / 2, "{}", different.len());
    let all: BTreeSet<u32> = thrown.iter().map(|text| stations(text)).collect();
    assert_eq!(all, (0..=16).collect(), "every number of stations");
}

/// Every change of one byte of a small text. Of the form are 10 digits at each end of the link, and the
/// text itself once for each of its other 33 bytes; with a byte more, 9 digits before each end's and
/// 10 behind; with a byte less, none.
#[test]
fn every_change_of_one_byte() {
    let form = Form::new();
    let (mut replaced, mut longer, mut shorter) = (0, 0, 0);
    let is_form = |text: &[u8], count: &mut usize| {
        assert_eq!(parse(text), form.parts(text), "{}", start(text));
        *count += usize::from(parse(text).is_some());
    };
    for place in 0..=SMALL.len() {
        for byte in 0..=255 {
            let (front, back) = SMALL.split_at(place);
            is_form(&[front, &[byte], back].concat(), &mut longer);
            if let [_, back @ ..] = back {
                is_form(&[front, &[byte], back].concat(), &mut replaced);
            }
        }
        if let (front, [_, back @ ..]) = SMALL.split_at(place) {
            is_form(&[front, back].concat(), &mut shorter);
        }
    }
    assert_eq!(SMALL.len(), 35);
    assert_eq!((replaced, longer, shorter), (33 + 20, 38, 0));
}

#[test]
fn heads() {
    assert_eq!(stations(HEAD.as_bytes()), 0, "no end");
    assert_eq!(stations(&[HEAD.as_bytes(), b"}\n"].concat()), 16);
    assert_eq!(stations(&[HEAD.as_bytes(), b"  17;\n}\n"].concat()), 0);
}

/// No front of a text and nothing with more behind it is of the form.
#[test]
fn no_less_and_no_more() {
    let text = written(11, &[(1, 2), (10, 11), (0, 99)]);
    (0..text.len()).for_each(|end| assert_eq!(stations(&text[..end]), 0, "{end}"));
    (1..=text.len()).for_each(|place| assert_eq!(stations(&text[place..]), 0, "{place}"));
    assert_eq!(stations(&text), 11);
    for byte in 0..=255 {
        assert_eq!(stations(&[&text[..], &[byte]].concat()), 0, "{byte}");
        assert_eq!(stations(&[&[byte], &text[..]].concat()), 0, "{byte}");
    }
    assert_eq!(stations(&[&text[..], &text].concat()), 0);
}
