//! Request [6] of document 02: the lists of short histories, worked by hand and found again in other
//! ways. The call's refusals and its room stand in `worked_short_rooms`.

use crate::bench::listing;
use crate::history::History;
use crate::plot::{Plot, ordered_pairs};
use crate::short::{Listed, bench_input, histories, list};
use crate::step::{Event, step};
use crate::worked_plots::{down, heard, up};
use std::collections::BTreeSet;

/// How many histories n = 1, 2 and 3 have with 0 to 5 events. Lengths 1 and 2 are the request's. The
/// others are by hand, history by history: each channel takes an up or a down next, and a receipt if
/// messages wait on it. 19,254 alone was found here, and then again in the other ways below.
const COUNTS: [[usize; 6]; 3] = [
    [1, 0, 0, 0, 0, 0],
    [1, 2, 6, 16, 46, 128],
    [1, 6, 42, 312, 2418, 19_254],
];

/// The lines of n = 3 in the order of events, written out; those of n = 2 are among them.
const LINES: [&str; 18] = [
    "U 1 2", "U 1 3", "U 2 1", "U 2 3", "U 3 1", "U 3 2", "D 1 2", "D 1 3", "D 2 1", "D 2 3",
    "D 3 1", "D 3 2", "M 1 2", "M 1 3", "M 2 1", "M 2 3", "M 3 1", "M 3 2",
];

/// Each n and length that is listed, with how many histories there are.
pub(crate) fn all_lists() -> impl Iterator<Item = (u64, u64, usize)> {
    let of_n = |(n, counts): (u64, [usize; 6])| {
        (0..).zip(counts).map(move |(length, due)| (n, length, due))
    };
    (1..).zip(COUNTS).flat_map(of_n)
}

/// The bytes of so many inputs of this length, whose lines all have numbers of one digit.
pub(crate) fn bytes(length: u64, histories: usize) -> usize {
    histories * ("N 1\n".len() + length as usize * "U 1 2\n".len())
}

/// What the call tells and writes, with room for every list.
pub(crate) fn listed(n: u64, length: u64) -> (Listed, String) {
    let mut room = vec![0; 2_000_000];
    let listed = list(n, length, &mut room).unwrap();
    room.truncate(listed.bytes);
    (listed, String::from_utf8(room).unwrap())
}

/// The inputs that a list's text is made of: each starts at a line with N.
fn inputs(text: &str) -> Vec<String> {
    let mut inputs: Vec<String> = Vec::new();
    for line in text.split_inclusive('\n') {
        match inputs.last_mut() {
            Some(input) if !line.starts_with('N') => input.push_str(line),
            _ => inputs.push(line.to_string()),
        }
    }
    inputs
}

/// The numbers that the bench answers to the events of an input.
fn codes(input: &str) -> Vec<String> {
    let text = String::from_utf8(listing(input.as_bytes())).unwrap();
    let answers = text.lines().skip(1);
    let answers = answers.take_while(|line| *line != "station leader clock");
    let code = |line: &str| line.split(' ').nth(1).unwrap().to_string();
    answers.map(code).collect()
}

/// The text by hand, one input after the other, from histories written "U 1 2, D 1 2".
fn by_hand(n: u64, histories: &[&str]) -> String {
    let input = |history: &&str| format!("N {n}\n{}\n", history.replace(", ", "\n"));
    histories.iter().map(input).collect()
}

#[test]
fn whole_lists_by_hand() {
    for (n, length, due) in [
        (1, 0, "N 1\n"),
        (1, 1, ""),
        (1, 5, ""),
        (2, 0, "N 2\n"),
        (3, 0, "N 3\n"),
        (2, 1, "N 2\nU 1 2\nN 2\nU 2 1\n"),
        (
            2,
            2,
            "N 2\nU 1 2\nU 2 1\nN 2\nU 1 2\nD 1 2\nN 2\nU 1 2\nM 1 2\n\
             N 2\nU 2 1\nU 1 2\nN 2\nU 2 1\nD 2 1\nN 2\nU 2 1\nM 2 1\n",
        ),
        (
            3,
            1,
            "N 3\nU 1 2\nN 3\nU 1 3\nN 3\nU 2 1\nN 3\nU 2 3\nN 3\nU 3 1\nN 3\nU 3 2\n",
        ),
    ] {
        let (told, text) = listed(n, length);
        assert_eq!(text, due, "n = {n}, length {length}");
        let (bytes, histories) = (due.len(), due.matches('N').count());
        assert_eq!(told, Listed { bytes, histories });
    }
}

/// Behind U 1 2 the message of 1 is ignored at 2, and behind both ups it is used.
#[test]
fn length_3_of_n_2_and_the_start_of_length_2_of_n_3_by_hand() {
    let of_2 = by_hand(
        2,
        &[
            "U 1 2, U 2 1, D 1 2",
            "U 1 2, U 2 1, D 2 1",
            "U 1 2, U 2 1, M 1 2",
            "U 1 2, U 2 1, M 2 1",
            "U 1 2, D 1 2, U 1 2",
            "U 1 2, D 1 2, U 2 1",
            "U 1 2, M 1 2, U 2 1",
            "U 1 2, M 1 2, D 1 2",
            "U 2 1, U 1 2, D 1 2",
            "U 2 1, U 1 2, D 2 1",
            "U 2 1, U 1 2, M 1 2",
            "U 2 1, U 1 2, M 2 1",
            "U 2 1, D 2 1, U 1 2",
            "U 2 1, D 2 1, U 2 1",
            "U 2 1, M 2 1, U 1 2",
            "U 2 1, M 2 1, D 2 1",
        ],
    );
    assert_eq!(listed(2, 3).1, of_2);
    let of_3 = by_hand(
        3,
        &[
            "U 1 2, U 1 3",
            "U 1 2, U 2 1",
            "U 1 2, U 2 3",
            "U 1 2, U 3 1",
            "U 1 2, U 3 2",
            "U 1 2, D 1 2",
            "U 1 2, M 1 2",
            "U 1 3, U 1 2",
        ],
    );
    assert!(listed(3, 2).1.starts_with(&of_3));
}

/// The numbers of the request, and the table.
#[test]
fn counts_and_bytes() {
    for (n, length, due) in [(2, 1, 2), (2, 2, 6), (3, 1, 6), (3, 2, 42)] {
        assert_eq!(listed(n, length).0.histories, due, "02, [6]");
    }
    for (n, length, due) in all_lists() {
        let (told, text) = listed(n, length);
        println!("n = {n}, length {length}: {told:?}");
        assert_eq!(told.histories, due, "n = {n}, length {length}");
        assert_eq!(inputs(&text).len(), due);
        assert_eq!(told.bytes, bytes(length, due));
    }
}

/// Each history read as a number whose digits are the places in [`LINES`]: they only grow, so none is
/// there twice either. By the bytes of the text another one would be first.
#[test]
fn in_dictionary_order_and_none_twice() {
    for (n, length, _) in all_lists() {
        let inputs = inputs(&listed(n, length).1);
        let digit = |line: &str| LINES.iter().position(|known| *known == line).unwrap();
        let number = |input: &String| {
            let events = input.lines().skip(1).map(digit);
            events.fold(0, |number, digit| number * LINES.len() + digit)
        };
        let numbers: Vec<usize> = inputs.iter().map(number).collect();
        let why = format!("n = {n}, length {length}");
        assert!(numbers.windows(2).all(|two| two[0] < two[1]), "{why}");
        assert_eq!(inputs.is_sorted(), n == 1 || length < 2, "{why}");
    }
}

/// Each input is one that the bench accepts whole: its first line, and `length` events with 0.
#[test]
fn every_history_is_accepted_on_the_bench() {
    for (n, length, _) in all_lists() {
        for input in inputs(&listed(n, length).1) {
            assert_eq!(input.lines().next(), Some(&format!("N {n}")[..]));
            assert_eq!(codes(&input), vec!["0"; length as usize], "{input}");
            assert_eq!(input.lines().count() as u64, length + 1);
        }
    }
}

/// Every line behind every history: the bench accepts it exactly if the next list has it so.
#[test]
fn none_left_out_on_the_bench() {
    for (n, length, _) in all_lists().filter(|(_, length, _)| *length < 5) {
        let longer = inputs(&listed(n, length + 1).1);
        let longer: BTreeSet<&String> = longer.iter().collect();
        let numbers = || 0..=n + 1;
        for input in inputs(&listed(n, length).1) {
            for (u, v) in numbers().flat_map(|u| numbers().map(move |v| (u, v))) {
                for letter in ["U", "D", "M"] {
                    let tried = format!("{input}{letter} {u} {v}\n");
                    let accepted = codes(&tried).last().unwrap() == "0";
                    assert_eq!(accepted, longer.contains(&tried), "{tried}");
                }
            }
        }
    }
}

/// The words of this length over these events that are accepted from a fresh plot, event by event.
fn accepted_words(n: i64, length: u32, events: &[Event]) -> BTreeSet<String> {
    let base = events.len();
    let mut accepted = BTreeSet::new();
    for number in 0..base.pow(length) {
        let digits = (0..length).map(|place| number / base.pow(place) % base);
        let word: Vec<Event> = digits.map(|digit| events[digit]).collect();
        let mut plot = Plot::fresh(n);
        if word.iter().all(|event| step(&mut plot, *event).number == 0) {
            accepted.insert(bench_input(n, &word));
        }
    }
    accepted
}

/// The events of which words are made: up to length 3 also with the numbers 0 and n + 1 and with both
/// numbers the same, from there on without.
fn tried(n: i64, length: u64) -> Vec<Event> {
    let any = (0..=n + 1).flat_map(|u| (0..=n + 1).map(move |v| (u, v)));
    let pairs: Vec<(i64, i64)> = if length <= 3 {
        any.collect()
    } else {
        ordered_pairs(n)
    };
    let of_pair = |(u, v)| [down(u, v), heard(u, v), up(u, v)];
    pairs.into_iter().flat_map(of_pair).collect()
}

#[test]
fn the_accepted_words_and_no_others() {
    for (n, length, due) in all_lists() {
        let words = accepted_words(n as i64, length as u32, &tried(n as i64, length));
        assert_eq!(words.len(), due, "n = {n}, length {length}");
        let listed: BTreeSet<String> = inputs(&listed(n, length).1).into_iter().collect();
        assert_eq!(words, listed, "n = {n}, length {length}");
    }
}

/// How many events may follow, by the history alone (01, 7.9): for each channel an up or a down, and a
/// receipt if messages wait.
fn continuations(n: i64, events: &[Event]) -> usize {
    let (mut plot, mut history) = (Plot::fresh(n), History::default());
    for event in events {
        history.note(*event, &step(&mut plot, *event));
    }
    let receipts = |(u, v): &(i64, i64)| history.waiting(*u, *v) > 0;
    let pairs = ordered_pairs(n);
    pairs.len() + pairs.iter().filter(|pair| receipts(pair)).count()
}

#[test]
fn counts_by_what_the_channels_allow() {
    for (n, length, _) in all_lists().filter(|(_, length, _)| *length < 5) {
        let shorter = histories(n as i64, length);
        let follow = shorter.iter().map(|events| continuations(n as i64, events));
        let due: usize = follow.sum();
        assert_eq!(COUNTS[n as usize - 1][length as usize + 1], due, "n = {n}");
    }
}
