//! The files of `drafts/`, as `drafts/README.md` makes them, through the program.

use crate::run::{at_top, output_of};
use std::fs;
use std::process::Command;

/// The drafts, in the order of their names. Each has a file `NAME.in` and a file `NAME.out`.
const NAMES: [&str; 11] = [
    "clash-motif",
    "clash-motif-later",
    "clash-window",
    "clash-window-later",
    "exchanged",
    "first",
    "one",
    "side-0",
    "side-255",
    "table",
    "whole",
];

fn bytes_of(name: &str) -> Vec<u8> {
    let path = at_top("drafts").join(name);
    fs::read(&path).unwrap_or_else(|why| panic!("{}: {why}", path.display()))
}

/// No file stands there without being tried.
#[test]
fn every_file_is_a_draft() {
    let mut found: Vec<String> = fs::read_dir(at_top("drafts"))
        .expect("the drafts")
        .map(|entry| entry.expect("a draft").file_name())
        .map(|name| name.into_string().expect("a name"))
        .collect();
    found.sort();
    let files_of = |name| [format!("{name}.in"), format!("{name}.out")];
    let mut named: Vec<String> = NAMES.into_iter().flat_map(files_of).collect();
    named.push("README.md".to_string());
    named.sort();
    assert_eq!(found, named);
}

#[test]
fn draft_files_print_what_stands_beside_them() {
    for name in NAMES {
        let printed = output_of(&bytes_of(&format!("{name}.in")));
        let expected = bytes_of(&format!("{name}.out"));
        assert_eq!(
            String::from_utf8_lossy(&printed),
            String::from_utf8_lossy(&expected),
            "{name}"
        );
    }
}

/// Each line of the README that makes a file makes the file that is there.
#[test]
fn the_readme_makes_the_files() {
    let readme = String::from_utf8(bytes_of("README.md")).expect("words");
    let mut made = Vec::new();
    for line in readme.lines() {
        let Some((command, file)) = line.trim().split_once(" > drafts/") else {
            continue;
        };
        let shell = Command::new("sh").args(["-c", command]).output();
        let output = shell.expect("a run of the shell");
        assert!(output.status.success(), "{line}");
        assert_eq!(output.stdout, bytes_of(file), "{line}");
        made.push(file);
    }
    made.sort();
    let mut named = NAMES.map(|name| format!("{name}.in"));
    named.sort();
    assert_eq!(made, named);
}
