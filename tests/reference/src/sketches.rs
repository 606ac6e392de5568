//! Texts to try the reader of sketches with (02, [2]): the corners, good texts with good links and with
//! bad ones, and good texts damaged.

use crate::dice::Dice;
use crate::plot::MOST_STATIONS;
pub use crate::sketch_corners::corners;

/// Bytes that sketches and the like are made of, digits and blanks more often.
const LIKELY: &[u8] =
    b"012345678901234567890123456789 \n \n \n\t\r;;--{}>graphplotdi/*#,:\"[]\0\xff";

/// The text with these stations and links, whether it is a sketch or not.
pub fn written(n: u32, links: &[(u32, u32)]) -> Vec<u8> {
    let mut lines = vec![String::from("graph plot {\n")];
    lines.extend((1..=n).map(|k| format!("  {k};\n")));
    lines.extend(links.iter().map(|(a, b)| format!("  {a} -- {b};\n")));
    lines.push(String::from("}\n"));
    lines.concat().into_bytes()
}

/// As many texts as asked for: the corners first, then thrown ones. One seed gives the same texts again.
pub fn texts(seed: u64, count: usize) -> Vec<Vec<u8>> {
    let mut dice = Dice(seed);
    let corners = corners().into_iter().map(|(_, text)| text);
    let thrown = std::iter::repeat_with(|| thrown(&mut dice));
    corners.chain(thrown).take(count).collect()
}

/// A good text, a third of them with a bad link, and more than half of all damaged.
fn thrown(dice: &mut Dice) -> Vec<u8> {
    let n = 1 + number(dice, MOST_STATIONS as u32);
    let mut links = good_links(dice, n);
    if number(dice, 3) == 0 {
        let bad = bad_link(dice, n, &links);
        links.insert(dice.place(links.len() + 1), bad);
    }
    let text = written(n, &links);
    match number(dice, 8) {
        0..=2 => text,
        3..=5 => other_byte(dice, text),
        6 => other_lines(dice, &text),
        _ => {
            let once = other_byte(dice, text);
            other_byte(dice, once)
        }
    }
}

/// A number from 0 to below `end`.
fn number(dice: &mut Dice, end: u32) -> u32 {
    dice.below(i64::from(end)) as u32
}

/// The two ends, or the two ends turned round.
fn either_way(dice: &mut Dice, (a, b): (u32, u32)) -> (u32, u32) {
    if number(dice, 2) == 0 { (a, b) } else { (b, a) }
}

/// None, some or all links of n stations, in any order and direction.
fn good_links(dice: &mut Dice, n: u32) -> Vec<(u32, u32)> {
    let often = number(dice, 5);
    let mut links = Vec::new();
    for a in 1..=n {
        for b in a + 1..=n {
            if number(dice, 4) < often {
                let link = either_way(dice, (a, b));
                links.insert(dice.place(links.len() + 1), link);
            }
        }
    }
    links
}

/// A link to 0, above n or to itself, or one of those that are named already.
fn bad_link(dice: &mut Dice, n: u32, links: &[(u32, u32)]) -> (u32, u32) {
    let k = 1 + number(dice, n);
    let above = n + 1 + number(dice, 99 - n);
    let named = links.get(dice.place(links.len().max(1)));
    let link = match number(dice, 5) {
        0 => (0, k),
        1 => (k, above),
        2 => (k, k),
        _ => named.copied().unwrap_or((0, 0)),
    };
    either_way(dice, link)
}

/// One byte replaced, put in or taken out.
fn other_byte(dice: &mut Dice, mut text: Vec<u8>) -> Vec<u8> {
    let any = number(dice, 256) as u8;
    let likely = LIKELY[dice.place(LIKELY.len())];
    let byte = if number(dice, 4) == 0 { any } else { likely };
    let here = dice.place(text.len());
    match number(dice, 3) {
        0 => text[here] = byte,
        1 => text.insert(dice.place(text.len() + 1), byte),
        _ => {
            text.remove(here);
        }
    }
    text
}

/// One line taken out, said again elsewhere, or changed for another.
fn other_lines(dice: &mut Dice, text: &[u8]) -> Vec<u8> {
    let mut lines: Vec<&[u8]> = text.split_inclusive(|byte| *byte == b'\n').collect();
    let (here, there) = (dice.place(lines.len()), dice.place(lines.len()));
    match number(dice, 3) {
        0 => {
            lines.remove(here);
        }
        1 => lines.insert(there, lines[here]),
        _ => lines.swap(here, there),
    }
    lines.concat()
}
