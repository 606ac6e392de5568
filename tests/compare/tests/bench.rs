//! The bench: the reference's listings beside the stored outputs, which the gate compares with what the proved program writes.

use std::fs;
use std::path::PathBuf;

fn root() -> PathBuf {
    PathBuf::from(env!("CARGO_MANIFEST_DIR")).join("../..")
}

fn bytes(path: &str) -> Vec<u8> {
    fs::read(root().join(path)).unwrap_or_else(|why| panic!("{path}: {why}"))
}

/// The names of the inputs, in the order in which the program `bench_cases` runs them.
fn names() -> Vec<String> {
    let heads = (0..10).map(|k| format!("head_{k}"));
    let first = [
        "rules",
        "refusals",
        "malformed",
        "blocked",
        "dead",
        "no_newline",
        "head_alone",
        "empty",
    ];
    let last = ["longest", "too_long"];
    (first.iter().map(|name| name.to_string()))
        .chain(heads)
        .chain(last.iter().map(|name| name.to_string()))
        .collect()
}

#[test]
fn the_folder_of_inputs() {
    let listed: Vec<u8> = (names().iter())
        .map(|name| bytes(&format!("crates/bench_cases/data/{name}")))
        .flat_map(|input| reference::bench::listing(&input))
        .collect();
    assert_eq!(listed, bytes("crates/bench_cases/stdout"));
}

#[test]
fn the_example_of_document_01() {
    assert_eq!(
        reference::bench::listing(&bytes("crates/bench/stdin")),
        bytes("crates/bench/stdout")
    );
}

#[test]
fn the_plots_of_examples() {
    for name in ["plot", "clocks"] {
        let input = bytes(&format!("examples/{name}.txt"));
        let stored = bytes(&format!("examples/{name}.out"));
        assert_eq!(reference::bench::listing(&input), stored, "{name}");
    }
}
