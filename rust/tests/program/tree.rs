//! A repository of two crates in a temporary folder, with the script `colourway` as it stands and an `rt` that proves
//! nothing. That `rt` counts its checks, fails where two overlap, and leaves a program that prints its input, so that a
//! test chooses the output.

use crate::run::{at_top, piped};
use std::fs;
use std::path::{Path, PathBuf};
use std::process::{self, Command};
use std::sync::atomic::{AtomicUsize, Ordering};
use std::thread::sleep;
use std::time::{Duration, Instant};

/// What stands in the folder of the kit: `id`, its name; `program`, what a check leaves; `hold`, which a check waits
/// for to go away, though not without an end; `fail`, how it fails; `calls`, a line for each check; `overlaps`, a line
/// for each that found another at work.
const RT: &str = r#"#!/bin/sh
kit=$(dirname "$0")
case $* in
version) cat "$kit/id" ;;
run)
    echo check >>"$kit/calls"
    mkdir "$kit/busy" || { echo overlap >>"$kit/overlaps"; exit 2; }
    trap 'rmdir "$kit/busy"' EXIT
    [ "${PWD##*/crates/}" = colourway ] || exit 2
    echo 'fn lower::first: proved'
    echo 'crate lower: modules loaded=0 checked=3'
    echo 'logic=proved functions=1 statements=trusted'
    sleep 0.1
    turns=0
    while [ -e "$kit/hold" ] && [ $turns -lt 2000 ]; do sleep 0.01; turns=$((turns + 1)); done
    [ ! -e "$kit/fail" ] || . "$kit/fail"
    mkdir -p out && cp "$kit/program" out/colourway && chmod +x out/colourway
    echo 'library same: modules loaded=7 checked=0'
    echo 'crate colourway: modules loaded=0 checked=2'
    echo 'logic=proved functions=2 statements=trusted'
    echo 'rt: running out/colourway; to give it other input, run that file yourself'
    echo 'refused 1'
    ;;
*) exit 2 ;;
esac
"#;

/// How long a test waits for what another process is to do.
const PATIENCE: Duration = Duration::from_secs(60);

/// Copies a file and makes it a command. Another process does it: a file that is open for writing here would be open in
/// what another test starts just then, too, and the system runs no such file.
fn install(from: PathBuf, to: PathBuf) {
    let done = Command::new("install")
        .args(["-m", "755"])
        .args([from, to])
        .status();
    assert!(done.expect("a copy").success());
}

pub struct Tree {
    folder: PathBuf,
}

impl Tree {
    pub fn new() -> Tree {
        static NEXT: AtomicUsize = AtomicUsize::new(0);
        let name = format!(
            "colourway-{}-{}",
            process::id(),
            NEXT.fetch_add(1, Ordering::Relaxed)
        );
        let tree = Tree {
            folder: std::env::temp_dir().join(name),
        };
        for folder in [
            "top/crates/lower/src",
            "top/crates/colourway",
            "kit",
            "room",
        ] {
            fs::create_dir_all(tree.at(folder)).expect("a folder");
        }
        install(at_top("colourway"), tree.at("top/colourway"));
        tree.write("top/crates.txt", "lower:\ncolourway: lower\n");
        tree.write("top/crates/lower/src/lib.rt", "\n");
        tree.write("kit/id", "kit 1\n");
        tree.write("kit/rt.text", RT);
        install(tree.at("kit/rt.text"), tree.at("kit/rt"));
        tree.write("kit/program", "#!/bin/sh\nexec cat\n");
        tree
    }

    pub fn at(&self, name: &str) -> PathBuf {
        self.folder.join(name)
    }

    pub fn write(&self, name: &str, text: &str) {
        fs::write(self.at(name), text).expect("a file");
    }

    pub fn remove(&self, name: &str) {
        fs::remove_file(self.at(name)).expect("a file that is there");
    }

    /// The script, beside that `rt`. Its temporary files go to `room`.
    pub fn script(&self) -> Command {
        self.beside_rt(self.at("top/colourway"))
    }

    /// Any command, with that `rt` first on its path.
    pub fn beside_rt(&self, command: impl AsRef<Path>) -> Command {
        let paths = std::env::var("PATH").expect("a path");
        let mut command = piped(Command::new(command.as_ref()));
        command.env("PATH", format!("{}:{paths}", self.at("kit").display()));
        command.env("TMPDIR", self.at("room"));
        command
    }

    /// How many checks there were. No two were at work at once.
    pub fn checks(&self) -> usize {
        assert!(!self.at("kit/overlaps").exists(), "two checks at once");
        let calls = fs::read_to_string(self.at("kit/calls")).unwrap_or_default();
        calls.lines().count()
    }

    /// Waits until this holds.
    pub fn until(&self, holds: impl Fn(&Tree) -> bool) {
        let start = Instant::now();
        while !holds(self) {
            assert!(start.elapsed() < PATIENCE, "waited for {PATIENCE:?}");
            sleep(Duration::from_millis(2));
        }
    }
}

impl Drop for Tree {
    /// A check that is still held ends too, since `hold` goes away.
    fn drop(&mut self) {
        let gone = fs::remove_dir_all(&self.folder);
        if !std::thread::panicking() {
            gone.expect("the folder, to remove it");
        }
    }
}
