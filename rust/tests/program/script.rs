//! The script as it stands, over the program as it was proved.

use crate::run::{at_top, output_of, piped, run, Run};
use crate::sizes::long_output;
use std::fs;
use std::process::Command;
use std::thread;

fn script() -> Command {
    // Where the program is not there, this says what to run first.
    output_of(b"");
    piped(Command::new(at_top("colourway")))
}

fn on_draft(name: &str) -> Run {
    run(
        &mut script(),
        &fs::read(at_top("drafts").join(name)).expect("a draft"),
    )
}

/// One run for the stamp, and then six that find the program up to date.
#[test]
fn six_at_once_answer() {
    on_draft("first.in");
    thread::scope(|scope| {
        let runs: Vec<_> = (0..6)
            .map(|_| scope.spawn(|| on_draft("first.in")))
            .collect();
        for run in runs {
            let run = run.join().expect("a run");
            assert_eq!(run.said, "");
            assert_eq!(run.status.code(), Some(0));
            assert_eq!(
                run.output,
                b"1 0 0\n2 1 7\n2 2 3\n3 0 1 0 0 0 1\n5 0 1 0 1\n"
            );
        }
    });
}

#[test]
fn a_refusal_of_the_program_is_1() {
    let refused = on_draft("side-0.in");
    assert_eq!(refused.output, b"refused 2\n");
    assert_eq!(refused.status.code(), Some(1));
}

#[test]
fn the_longest_output_goes_through() {
    let listed = run(&mut script(), &long_output());
    assert_eq!(listed.status.code(), Some(0));
    assert!(listed.output == brute::program(&long_output()));
}

/// Runs each command of a text that stands after `$` and is this script's, and compares with the lines below it.
fn assert_examples(text: &str, number: usize) {
    let mut lines = text.lines().map(str::trim);
    let mut found = 0;
    while let Some(line) = lines.next() {
        let Some(command) = line
            .strip_prefix("$ ")
            .filter(|words| words.contains("./colourway"))
        else {
            continue;
        };
        let below: String = lines
            .by_ref()
            .take_while(|line| !line.is_empty())
            .map(|line| format!("{line}\n"))
            .collect();
        let mut shell = Command::new("sh");
        shell.args(["-c", command]).current_dir(at_top(""));
        let output = shell.output().expect("a run of the shell").stdout;
        assert_eq!(String::from_utf8_lossy(&output), below, "{command}");
        found += 1;
    }
    assert_eq!(found, number);
}

/// The help has one example, README.md two.
#[test]
fn the_examples_are_what_is_printed() {
    let help = run(script().arg("--help"), b"").output;
    assert_examples(&String::from_utf8(help).expect("words"), 1);
    assert_examples(&fs::read_to_string(at_top("README.md")).expect("words"), 2);
}
