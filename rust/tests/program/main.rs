//! The program, run as a person runs it: bytes in, lines out. Every expected output here is typed from document 01 or
//! found by hand, but where a test says that it compares with the brute force. Random inputs are in
//! `tests/differential/program.rs`.
//!
//! The script `colourway`, which proves the program and runs it, is tried as it stands (`script.rs`), and beside an
//! `rt` that proves nothing (`tree.rs`) for when it proves (`proving.rs`) and how it ends (`statuses.rs`).

mod drafts;
mod files;
mod pipes;
mod proving;
mod refusals;
mod run;
mod script;
mod sizes;
mod statuses;
mod tree;

/// An input: R, C, r, c, the text (sheet), the pattern (motif).
fn input(sides: [u8; 4], text: &[u8], pattern: &[u8]) -> Vec<u8> {
    [&sides, text, pattern].concat()
}

/// An input of a text and a pattern of one row each.
fn one_row(text: &[u8], pattern: &[u8]) -> Vec<u8> {
    let width = |cells: &[u8]| u8::try_from(cells.len()).expect("a side is a byte");
    input([1, width(text), 1, width(pattern)], text, pattern)
}

/// What the program prints for an input.
fn printed(input: &[u8]) -> String {
    String::from_utf8(run::output_of(input)).expect("words and decimals")
}

/// These lines, each with its line feed.
fn lines(lines: &[&str]) -> String {
    lines.iter().map(|line| format!("{line}\n")).collect()
}
