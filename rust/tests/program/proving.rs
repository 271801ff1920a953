//! When the script has the program proved, and what it says of it.

use crate::run::{finished, run, Run};
use crate::tree::Tree;
use std::fs::{self, File};
use std::io::{BufRead, BufReader, Write};
use std::process::{Child, ChildStderr};
use std::thread;
use std::time::{Duration, SystemTime};

/// A listing, which the program of these trees prints when it reads it.
const LISTING: &str = "1 0 0\n2 5 5\n5 0 1 0 0\n";

/// What the script says before it proves, when it waits, and when it tries again.
const PROVING: &str = "colourway: proving and compiling the program";
const WAITING: &str = "colourway: another run is proving the program here: waiting for it\n";
const AGAIN: &str = "colourway: the check ended without a verdict";

/// The script has printed the listing.
#[track_caller]
fn assert_listed(run: &Run) {
    assert_eq!(
        String::from_utf8_lossy(&run.output),
        LISTING,
        "{}",
        run.said
    );
    assert_eq!(run.status.code(), Some(0), "{}", run.said);
}

/// Runs the script on a listing, and answers what it says.
#[track_caller]
fn listed(tree: &Tree) -> String {
    let run = run(&mut tree.script(), LISTING.as_bytes());
    assert_listed(&run);
    run.said
}

/// A run that has begun and has its whole input, and what it says as it goes.
fn begun(tree: &Tree) -> (Child, BufReader<ChildStderr>) {
    let mut child = tree.script().spawn().expect("a run");
    let mut stdin = child.stdin.take().expect("its standard input");
    stdin.write_all(LISTING.as_bytes()).expect("its input");
    let said = BufReader::new(child.stderr.take().expect("its standard error"));
    (child, said)
}

/// The next line that it says, or nothing where it has ended.
fn next_line(said: &mut BufReader<ChildStderr>) -> String {
    let mut line = String::new();
    said.read_line(&mut line).expect("a line");
    line
}

/// Its end, with what it says after these lines.
fn with_rest(mut child: Child, said: BufReader<ChildStderr>) -> Run {
    assert_eq!(said.buffer(), b"");
    child.stderr = Some(said.into_inner());
    finished(child, b"")
}

#[test]
fn the_first_run_says_what_it_does_and_how_far_it_is() {
    let tree = Tree::new();
    let said = listed(&tree);
    let lines: Vec<&str> = said.lines().collect();
    assert_eq!(lines.len(), 3, "{said}");
    assert!(lines[0].starts_with(PROVING) && lines[0].contains("minutes"));
    assert_eq!(
        lines[1..],
        ["colourway: proved: lower", "colourway: proved: colourway"]
    );
}

/// It says so at once, while the check goes on.
#[test]
fn progress_is_said_before_the_check_ends() {
    let tree = Tree::new();
    tree.write("kit/hold", "");
    let (child, mut said) = begun(&tree);
    assert!(next_line(&mut said).starts_with(PROVING));
    assert_eq!(next_line(&mut said), "colourway: proved: lower\n");
    assert!(!tree.at("top/crates/colourway/out/colourway").exists());
    tree.remove("kit/hold");
    assert_eq!(next_line(&mut said), "colourway: proved: colourway\n");
    assert_listed(&with_rest(child, said));
}

#[test]
fn an_up_to_date_program_starts_without_a_check() {
    let tree = Tree::new();
    listed(&tree);
    assert_eq!(tree.checks(), 1);
    for _ in 0..3 {
        assert_eq!(listed(&tree), "");
    }
    assert_eq!(tree.checks(), 1);
}

/// After a change there is one more check, and none at the run after it.
#[track_caller]
fn assert_checked_after(change: impl FnOnce(&Tree)) {
    let tree = Tree::new();
    listed(&tree);
    change(&tree);
    assert!(listed(&tree).starts_with(PROVING));
    assert_eq!(tree.checks(), 2);
    assert_eq!(listed(&tree), "");
    assert_eq!(tree.checks(), 2);
}

#[test]
fn a_change_is_checked() {
    const SOURCE: &str = "top/crates/lower/src/lib.rt";
    // A source file that is written anew, touched, or put back with the time that it had long ago.
    assert_checked_after(|tree| tree.write(SOURCE, "mod more;\n"));
    let set_time = |tree: &Tree, time| {
        let file = File::options().append(true).open(tree.at(SOURCE));
        file.and_then(|file| file.set_modified(time))
            .expect("a time");
    };
    assert_checked_after(|tree| set_time(tree, SystemTime::now()));
    assert_checked_after(|tree| {
        tree.write(SOURCE, "mod more;\n");
        set_time(
            tree,
            SystemTime::UNIX_EPOCH + Duration::from_secs(1_000_000_000),
        );
    });
    // A file that comes, goes or has another name; a folder.
    assert_checked_after(|tree| tree.write("top/crates/lower/src/more.rt", "\n"));
    assert_checked_after(|tree| tree.remove(SOURCE));
    assert_checked_after(|tree| {
        fs::rename(tree.at(SOURCE), tree.at("top/crates/lower/src/main.rt")).expect("a name");
    });
    assert_checked_after(|tree| fs::create_dir(tree.at("top/crates/upper")).expect("a folder"));
    // The list of crates, and the kit.
    assert_checked_after(|tree| tree.write("top/crates.txt", "lower: io\n"));
    assert_checked_after(|tree| tree.write("kit/id", "kit 2\n"));
    // What an earlier run left is gone, whole or in part.
    assert_checked_after(|tree| tree.remove("top/crates/colourway/out/colourway"));
    assert_checked_after(|tree| {
        fs::remove_dir_all(tree.at("top/crates/colourway/out")).expect("a folder")
    });
}

#[test]
fn a_file_that_is_no_crate_s_is_not_checked() {
    let tree = Tree::new();
    listed(&tree);
    tree.write("top/README.md", "words\n");
    assert_eq!(listed(&tree), "");
    // What rt makes in a crate's folder is none of the crate's text.
    tree.write("top/crates/lower/out/made", "words\n");
    assert_eq!(listed(&tree), "");
    assert_eq!(tree.checks(), 1);
}

/// The check may have read the file before.
#[test]
fn a_change_during_a_check_is_checked_again() {
    let tree = Tree::new();
    tree.write("kit/hold", "");
    thread::scope(|scope| {
        let first = scope.spawn(|| listed(&tree));
        tree.until(|tree| tree.checks() == 1);
        // Later than the check's beginning, by any clock of a file system.
        thread::sleep(Duration::from_millis(50));
        tree.write("top/crates/lower/src/lib.rt", "mod more;\n");
        tree.remove("kit/hold");
        first.join().expect("a listing");
    });
    assert!(listed(&tree).starts_with(PROVING));
    assert_eq!(tree.checks(), 2);
}

#[test]
fn six_at_once_on_a_fresh_tree_prove_once() {
    let tree = Tree::new();
    thread::scope(|scope| {
        let runs: Vec<_> = (0..6).map(|_| scope.spawn(|| listed(&tree))).collect();
        let said = runs.into_iter().map(|run| run.join().expect("a listing"));
        assert_eq!(said.filter(|said| said.contains(PROVING)).count(), 1);
    });
    assert_eq!(tree.checks(), 1);
}

/// A run while another proves: it says that it waits, and then finds the program up to date. In between this is done.
fn assert_waits(tree: &Tree, between: impl FnOnce(&Tree)) {
    tree.write("kit/hold", "");
    let checks = tree.checks();
    thread::scope(|scope| {
        let first = scope.spawn(|| listed(tree));
        tree.until(|tree| tree.checks() == checks + 1);
        between(tree);
        let (second, mut said) = begun(tree);
        assert_eq!(next_line(&mut said), WAITING);
        tree.remove("kit/hold");
        first.join().expect("a listing");
        let second = with_rest(second, said);
        assert_listed(&second);
        assert_eq!(second.said, "");
    });
}

#[test]
fn a_second_run_waits_for_the_first() {
    let tree = Tree::new();
    assert_waits(&tree, |_| ());
    assert_eq!(tree.checks(), 1);
}

/// `rt ci` sets aside out/ at any time; the lock is not in it. What the first proved is gone, and it proves once more.
#[test]
fn a_second_run_waits_where_out_was_removed() {
    let tree = Tree::new();
    assert_waits(&tree, |tree| {
        fs::remove_dir_all(tree.at("top/crates/colourway/out")).expect("a folder");
    });
    assert_eq!(tree.checks(), 2);
}

/// A program that waits for its input holds up no other run's proving.
#[test]
fn no_lock_is_held_while_the_program_runs() {
    let tree = Tree::new();
    let mut first = tree.script().spawn().expect("a run");
    tree.until(|tree| tree.at("top/crates/colourway/out/proved-by").exists());
    tree.write("top/crates.txt", "lower: io\n");
    listed(&tree);
    assert_eq!(tree.checks(), 2);
    assert!(first.try_wait().expect("its status").is_none());
    let stdin = first.stdin.as_mut().expect("its standard input");
    stdin.write_all(b"refused 3\n").expect("its input");
    let first = finished(first, b"");
    assert_eq!(first.output, b"refused 3\n");
}

/// A failed check: its whole output is shown, nothing is printed, and nothing is taken for proved.
fn assert_not_proved(tree: &Tree) -> String {
    let run = run(&mut tree.script(), LISTING.as_bytes());
    assert_eq!(run.status.code(), Some(3));
    assert_eq!(String::from_utf8_lossy(&run.output), "");
    assert!(
        run.said.contains("fn lower::first: proved\n"),
        "{}",
        run.said
    );
    let last = run.said.lines().last();
    assert_eq!(
        last,
        Some("colourway: the program is not proved, and is not run")
    );
    run.said
}

#[test]
fn a_verdict_of_the_prover_is_shown_and_not_asked_for_again() {
    let tree = Tree::new();
    let not_proved = "echo 'fn lower::second: not proved'\necho 'logic=not-proved'\nexit 1\n";
    tree.write("kit/fail", not_proved);
    let said = assert_not_proved(&tree);
    assert!(said.contains("fn lower::second: not proved\n"), "{said}");
    assert!(!said.contains(AGAIN), "{said}");
    assert_eq!(tree.checks(), 1);
    // A program that was proved once is not run in the place of one that is not.
    tree.remove("kit/fail");
    listed(&tree);
    tree.write("top/crates/lower/src/lib.rt", "mod wrong;\n");
    tree.write("kit/fail", not_proved);
    assert_not_proved(&tree);
    assert_not_proved(&tree);
    assert_eq!(tree.checks(), 4);
}

/// As where memory runs out, or an `rt` that is run by hand takes a library away: rt then ends with 2, or with 1 and no
/// verdict.
#[test]
fn a_check_without_a_verdict_is_tried_again() {
    for fail in [
        "echo 'rattle: cannot read a file'\necho 'rt: the library lower did not build, so nothing above it was checked'\nexit 2",
        "echo 'rt: FAILED: lower'\nexit 1",
    ] {
        let tree = Tree::new();
        tree.write("kit/fail", &format!("rm \"$kit/fail\"\n{fail}\n"));
        assert!(listed(&tree).contains(AGAIN));
        assert_eq!(tree.checks(), 2);
        // Not without an end.
        let tree = Tree::new();
        tree.write("kit/fail", &format!("{fail}\n"));
        assert!(assert_not_proved(&tree).contains("remove the folders crates/*/out"));
        assert_eq!(tree.checks(), 3);
    }
}
