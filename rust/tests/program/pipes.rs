//! How the program reads and writes: inputs without an end, slow writers and readers, and readers that go away.
//! Outputs too long to type are compared with the brute force.

use crate::input;
use crate::run::{ended, feed, output_of, program};
use crate::sizes::long_output;
use std::fs::OpenOptions;
use std::io::Read;
use std::process::{Child, ChildStdout};
use std::thread::sleep;
use std::time::Duration;

/// The longest right input: 4 sizes, and twice 16,384 cells.
const LONGEST: usize = 32_772;

/// How long a pipe is left full or empty before it moves again.
const WHILE: Duration = Duration::from_millis(100);

fn started() -> (Child, ChildStdout) {
    let mut child = program().spawn().expect("a run of the program");
    let stdout = child.stdout.take().expect("its standard output");
    (child, stdout)
}

/// An input with megabytes too many gets the first number in the order that it earns.
#[test]
fn megabytes_too_many_are_refused() {
    for (sizes, number) in [
        ([1, 1, 1, 1], 3),
        ([2, 3, 2, 2], 3),
        ([1, 1, 2, 2], 3),
        ([128, 128, 128, 128], 3),
        ([0, 1, 1, 1], 2),
        ([255, 255, 1, 1], 8),
    ] {
        let overlong = input(sizes, &[7; 4 << 20], &[]);
        let output = output_of(&overlong);
        let expected = format!("refused {number}\n");
        assert_eq!(String::from_utf8_lossy(&output), expected, "{sizes:?}");
    }
}

/// The longest right input with one byte more, and no end: the answer comes while standard input is still open.
#[test]
fn an_input_without_an_end_is_refused() {
    for more in [1, 2, 1_000, 1 << 20] {
        let (mut child, mut stdout) = started();
        let mut stdin = child.stdin.take().expect("its standard input");
        let mut endless = vec![7; LONGEST + more];
        endless[..4].fill(128);
        feed(&mut stdin, &endless);
        assert!(ended(&mut child).success());
        let mut output = String::new();
        stdout.read_to_string(&mut output).expect("its output");
        assert_eq!(output, "refused 3\n");
        drop(stdin);
    }
}

/// Bytes that come one by one, or in two parts wherever they are cut, are one input.
#[test]
fn an_input_that_comes_slowly_is_read_to_its_end() {
    let first = input([2, 3, 2, 2], &[7, 7, 3, 3, 7, 7], &[1, 1, 2, 1]);
    let long = long_output();
    for (input, part, pause) in [
        (&first, 1, WHILE / 10),
        (&first, 3, WHILE),
        (&long, 255, WHILE / 10),
    ] {
        let (mut child, mut stdout) = started();
        let mut stdin = child.stdin.take().expect("its standard input");
        for bytes in input.chunks(part) {
            feed(&mut stdin, bytes);
            sleep(pause);
        }
        drop(stdin);
        let mut output = Vec::new();
        stdout.read_to_end(&mut output).expect("its output");
        assert!(ended(&mut child).success());
        assert!(output == brute::program(input));
    }
}

#[test]
fn a_slow_reader_gets_everything() {
    let (mut child, mut stdout) = started();
    let mut stdin = child.stdin.take().expect("its standard input");
    feed(&mut stdin, &long_output());
    drop(stdin);
    // Nothing is taken until the pipe is full, and then little at a time.
    sleep(WHILE);
    let mut output: Vec<u8> = Vec::new();
    let mut part = [0; 3_001];
    loop {
        let length = stdout.read(&mut part).expect("its output");
        if length == 0 {
            break;
        }
        output.extend(&part[..length]);
        sleep(WHILE / 50);
    }
    assert!(ended(&mut child).success());
    assert!(output.len() > 200_000, "{} bytes", output.len());
    assert!(output == brute::program(&long_output()));
}

/// A reader that goes away, before the first byte or after it, ends the program: how is for the system to say.
#[test]
fn a_reader_that_goes_away_leaves_no_program_behind() {
    for taken in [0, 1, 5_000] {
        let (mut child, mut stdout) = started();
        let mut stdin = child.stdin.take().expect("its standard input");
        if taken == 0 {
            drop(stdout);
            feed(&mut stdin, &long_output());
            drop(stdin);
        } else {
            feed(&mut stdin, &long_output());
            drop(stdin);
            let mut part = vec![0; taken];
            stdout.read_exact(&mut part).expect("its first bytes");
            assert!(part == brute::program(&long_output())[..taken]);
            drop(stdout);
        }
        ended(&mut child);
    }
}

/// An output that takes nothing: each write fails.
#[test]
fn an_output_without_room_ends_the_program() {
    let full = OpenOptions::new().write(true).open("/dev/full");
    let mut command = program();
    command.stdout(full.expect("an output without room"));
    let mut child = command.spawn().expect("a run of the program");
    let mut stdin = child.stdin.take().expect("its standard input");
    feed(&mut stdin, &long_output());
    drop(stdin);
    ended(&mut child);
}
