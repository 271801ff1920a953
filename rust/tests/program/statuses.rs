//! How the script ends, and that the program's input and output go through it unchanged.

use crate::run::{finished, run, Run};
use crate::tree::Tree;
use std::fs::{self, File};
use std::os::unix::fs::symlink;

/// A run of the script on an output of the program, which is its input here.
fn on(tree: &Tree, output: &[u8]) -> Run {
    run(&mut tree.script(), output)
}

/// A tree whose program is up to date, so that no word is said of proving.
fn proved() -> Tree {
    let tree = Tree::new();
    on(&tree, b"refused 1\n");
    tree
}

/// A listing of so many found windows, in lines. It ends with a closing.
fn listing(windows: usize) -> Vec<u8> {
    "1 12 34\n2 5 255\n"
        .repeat(windows)
        .into_bytes()
        .into_iter()
        .chain(*b"5 1 0 0 0\n")
        .collect()
}

#[test]
fn a_listing_is_0_and_a_refusal_1() {
    let tree = proved();
    for (output, status) in [
        (listing(0), 0),
        (listing(1), 0),
        // More than a pipe holds, and as much as the program's output can be.
        (listing(16_000), 0),
        (b"4 0 0 0 0 0 1\n5 0 0 0 1\n".to_vec(), 0),
        (b"refused 1\n".to_vec(), 1),
        (b"refused 11\n".to_vec(), 1),
    ] {
        let run = on(&tree, &output);
        assert_eq!(run.status.code(), Some(status), "{}", run.said);
        assert!(run.output == output);
        assert_eq!(run.said, "");
    }
}

/// An output without its last line is not printed as if it were one, whether the program says that a write failed or not.
#[test]
fn an_output_that_is_cut_short_is_4() {
    let tree = proved();
    let whole = listing(2);
    for cut in [
        &whole[..0],
        &whole[..whole.len() - 1],
        &whole[..whole.len() - 3],
        &whole[..whole.len() - 10],
        b"refused 1",
        b"refused",
    ] {
        let run = on(&tree, cut);
        assert_eq!(run.status.code(), Some(4), "{cut:?}");
        assert_eq!(run.output, b"", "{cut:?}");
        assert!(
            run.said.starts_with("colourway: the output is cut short"),
            "{}",
            run.said
        );
    }
    let tree = Tree::new();
    let failing = "#!/bin/sh\nprintf '5 0'\necho 'Error: no room' >&2\nexit 1\n";
    tree.write("kit/program", failing);
    let run = on(&tree, b"");
    assert_eq!(run.status.code(), Some(4), "{}", run.said);
    assert_eq!(run.output, b"");
    assert!(run
        .said
        .contains("Error: no room\ncolourway: the output is cut short"));
}

#[test]
fn an_output_that_cannot_be_written_is_4() {
    let tree = proved();
    for output in [listing(1), listing(16_000), b"refused 8\n".to_vec()] {
        let mut command = tree.script();
        command.stdout(
            File::options()
                .write(true)
                .open("/dev/full")
                .expect("a full device"),
        );
        let full = run(&mut command, &output);
        assert_eq!(full.status.code(), Some(4));
        assert!(
            full.said
                .ends_with("colourway: the output could not be written\n"),
            "{}",
            full.said
        );

        let mut command = tree.beside_rt("sh");
        command
            .args(["-c", "exec \"$0\" >&-"])
            .arg(tree.at("top/colourway"));
        let closed = run(&mut command, &output);
        assert_eq!(closed.status.code(), Some(4));
        assert_eq!(closed.said, "colourway: standard output is closed\n");
    }
}

/// As with `head`: no words, and the status of a command that the signal ended.
#[test]
fn a_reader_that_went_away_is_141() {
    let tree = proved();
    let mut child = tree.script().spawn().expect("a run");
    drop(child.stdout.take());
    let run = finished(child, &listing(16_000));
    assert_eq!(run.status.code(), Some(141));
    assert_eq!(run.said, "");
}

#[test]
fn a_program_that_fails_is_3() {
    let tree = Tree::new();
    tree.write("kit/program", "#!/bin/sh\necho 5 0 0 0 0\nexit 7\n");
    let run = on(&tree, b"");
    assert_eq!(run.status.code(), Some(3));
    assert_eq!(run.output, b"");
    assert!(
        run.said
            .ends_with("colourway: the program ended with status 7\n"),
        "{}",
        run.said
    );
}

/// The help proves nothing and reads nothing; an unknown argument is answered with the same words on standard error.
#[test]
fn help_and_unknown_arguments() {
    let tree = Tree::new();
    let with = |arguments: &[&str]| run(tree.script().args(arguments), b"");
    let help = with(&["--help"]);
    assert_eq!(help.status.code(), Some(0));
    assert_eq!(help.said, "");
    assert_eq!(with(&["-h"]).output, help.output);
    let text = String::from_utf8(help.output).expect("words");
    let says = |start: String, words: &str| {
        let mut lines = text.lines();
        let line = lines
            .find(|line| line.starts_with(&start))
            .expect("a line that begins so");
        assert!(line.contains(words), "{line}");
    };
    for (number, words) in [
        (1, "fewer than 4 size bytes"),
        (2, "a side is 0"),
        (8, "more than 16,384 cells"),
        (3, "a byte too many or too few"),
        (4, "taller or wider than the sheet"),
        (11, "more than 65,536 bytes"),
    ] {
        says(format!("  refused {number} "), words);
    }
    for (status, words) in [
        (0, "a listing was printed"),
        (1, "'refused' and a number was printed"),
        (2, "an argument other than -h and --help"),
        (3, "could not be proved, compiled or run"),
        (4, "could not be written"),
    ] {
        says(format!("  {status}    "), words);
    }
    for unknown in [
        &["--halp"][..],
        &["-x"],
        &[""],
        &["--help", "more"],
        &["drafts/first.in"],
    ] {
        let run = with(unknown);
        assert_eq!(run.status.code(), Some(2), "{unknown:?}");
        assert_eq!(run.output, b"");
        let said = format!("colourway: unknown: {}\n{text}", unknown.join(" "));
        assert_eq!(run.said, said);
    }
    let mut command = tree.script();
    command.stdout(
        File::options()
            .write(true)
            .open("/dev/full")
            .expect("a full device"),
    );
    assert_eq!(run(command.arg("--help"), b"").status.code(), Some(4));
    assert_eq!(tree.checks(), 0);
}

/// From another folder, and through a link.
#[test]
fn the_script_finds_its_folder() {
    let tree = proved();
    symlink(tree.at("top/colourway"), tree.at("linked")).expect("a link");
    for path in ["linked", "top/colourway"] {
        let mut command = tree.beside_rt(tree.at(path));
        let run = run(command.current_dir(tree.at("room")), b"5 0 0 0 1\n");
        assert_eq!(run.output, b"5 0 0 0 1\n", "{}", run.said);
    }
    assert_eq!(tree.checks(), 1);
}

#[test]
fn no_temporary_file_is_left() {
    let tree = Tree::new();
    let left = || fs::read_dir(tree.at("room")).expect("a folder").count();
    for output in [&b"5 0 0 0 1\n"[..], b"refused 4\n", b"5 0"] {
        on(&tree, output);
        assert_eq!(left(), 0);
    }
    tree.write("kit/fail", "exit 1\n");
    tree.write("top/crates.txt", "");
    assert_eq!(on(&tree, b"").status.code(), Some(3));
    assert_eq!(left(), 0);
}
