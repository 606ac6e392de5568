//! The printed tables, in Markdown.

use crate::abi;
use crate::rows::{Fill, Kind, Row};

/// The main table, with what falls short of the goals in its last column.
pub fn table(rows: &[Row]) {
    println!("\n| row | library ns | plain Rust ns | library / plain | floor ns | library / floor | short of |");
    println!("|---|--:|--:|--:|--:|--:|---|");
    for row in rows {
        let times = row.times;
        println!(
            "| {} | {:.1} | {:.1} | {:.2} | {:.1} | {:.2} | {} |",
            name(row),
            times.library,
            times.plain,
            times.to_plain,
            times.floor,
            times.to_floor,
            short_of(row)
        );
    }
}

/// The name of a row.
fn name(row: &Row) -> String {
    let kind = match row.case.kind {
        Kind::Refusal => "step refused (3)",
        Kind::UpDown => "up, down",
        Kind::Receipt => "receipt",
        Kind::Check => "check",
        Kind::Save => "save",
        Kind::Restore => "restore",
        Kind::ReadNode => "read_node",
        Kind::Quiet => "quiet",
        Kind::Groups => "groups",
        Kind::GroupOf => "group_of",
    };
    let fill = match row.case.fill {
        Fill::Fresh => "fresh",
        Fill::Linked(0) => "empty",
        Fill::Linked(1) => "1 waiting",
        Fill::Linked(8) => "full",
        Fill::Linked(_) => "half full",
        Fill::Mixed => "mixed",
    };
    format!("{kind}, n = {}, {fill}", row.case.n)
}

/// The goals a row misses: no slower than plain, and a step at n = 16 within 4 floors.
fn short_of(row: &Row) -> &'static str {
    let slower = row.times.to_plain >= 1.005;
    let step = matches!(row.case.kind, Kind::UpDown | Kind::Receipt);
    let far = step && row.case.n == 16 && row.times.to_floor >= 4.005;
    match (slower, far) {
        (false, false) => "",
        (true, false) => "plain",
        (false, true) => "4 floors",
        (true, true) => "plain, 4 floors",
    }
}

/// Nanoseconds for each word of both tables.
pub fn growth(rows: &[Row]) {
    println!("\n| up, down | words | library ns/word | plain ns/word | floor ns/word |");
    println!("|---|--:|--:|--:|--:|");
    for row in rows {
        if matches!(row.case.kind, Kind::UpDown | Kind::Refusal) {
            let (words, times) = (row.words as f64, row.times);
            println!(
                "| {} | {} | {:.3} | {:.3} | {:.3} |",
                name(row),
                row.words,
                times.library / words,
                times.plain / words,
                times.floor / words
            );
        }
    }
}

/// Stack of each call, and the bytes lent, at n stations.
pub fn memory(n: u32, stack: &[(&str, usize)]) {
    println!("\n| call at n = {n} | stack bytes |");
    println!("|---|--:|");
    for (call, bytes) in stack {
        println!("| {call} | {bytes} |");
    }
    let (nodes, channels) = (4 * abi::nodes_len(n), 4 * abi::channels_len(n));
    println!(
        "\nLent at n = {n}: nodes {nodes} bytes, channels {channels} bytes, together {} bytes; longest image {} bytes.",
        nodes + channels,
        abi::image_len(n)
    );
}
