//! The compiled program, run on bytes.

use std::io::{ErrorKind, Read, Write};
use std::os::unix::process::CommandExt;
use std::path::PathBuf;
use std::process::{Child, ChildStdin, Command, ExitStatus, Stdio};
use std::thread;
use std::time::{Duration, Instant};

/// A run that takes longer counts as one that never ends. The longest takes some milliseconds.
const PATIENCE: Duration = Duration::from_secs(60);

/// A path below the repository's top.
pub fn at_top(name: &str) -> PathBuf {
    [env!("CARGO_MANIFEST_DIR"), "..", name].iter().collect()
}

/// The program, its input and output in pipes.
pub fn program() -> Command {
    let path = at_top("crates/colourway/out/colourway");
    assert!(
        path.is_file(),
        "There is no {}. Run `./colourway < drafts/first.in` at the repository's top first: it proves and compiles the program.",
        path.display()
    );
    piped(Command::new(path))
}

/// A command with its input and output in pipes, and in a group of processes of its own.
pub fn piped(mut command: Command) -> Command {
    command.process_group(0);
    command.stdin(Stdio::piped());
    command.stdout(Stdio::piped());
    command.stderr(Stdio::piped());
    command
}

/// Waits until a run has ended by itself. One that does not is ended, so that no test hangs.
pub fn ended(child: &mut Child) -> ExitStatus {
    let start = Instant::now();
    loop {
        if let Some(status) = child.try_wait().expect("the status of a run") {
            return status;
        }
        if start.elapsed() > PATIENCE {
            // With all that it started, which has its pipes too.
            let group = child.id().to_string();
            let killed = Command::new("sh")
                .args(["-c", "kill -s KILL -- -$0", &group])
                .status();
            assert!(killed.expect("a run of the shell").success());
            panic!("the program did not end within {PATIENCE:?}");
        }
        thread::sleep(Duration::from_micros(200));
    }
}

/// Writes an input, as much of it as is read: a program that knows its answer need not read the rest.
pub fn feed(stdin: &mut ChildStdin, input: &[u8]) {
    if let Err(why) = stdin.write_all(input) {
        assert_eq!(why.kind(), ErrorKind::BrokenPipe, "writing an input");
    }
}

fn all_of(mut pipe: impl Read) -> Vec<u8> {
    let mut bytes = Vec::new();
    pipe.read_to_end(&mut bytes).expect("a pipe's bytes");
    bytes
}

/// A run that has ended: its status, and what it wrote to standard output and standard error.
pub struct Run {
    pub status: ExitStatus,
    pub output: Vec<u8>,
    pub said: String,
}

/// Runs a command on an input. An output that is not in a pipe counts as empty.
pub fn run(command: &mut Command, input: &[u8]) -> Run {
    finished(command.spawn().expect("a run"), input)
}

/// Feeds a run that has begun, unless its input is closed, and waits for its end.
pub fn finished(mut child: Child, input: &[u8]) -> Run {
    let stdin = child.stdin.take();
    let stdout = child.stdout.take();
    let stderr = child.stderr.take().expect("its standard error");
    thread::scope(|scope| {
        scope.spawn(move || stdin.map(|mut stdin| feed(&mut stdin, input)));
        let output = scope.spawn(|| stdout.map(all_of).unwrap_or_default());
        let said = scope.spawn(|| all_of(stderr));
        let status = ended(&mut child);
        let said = said.join().expect("its standard error");
        Run {
            status,
            output: output.join().expect("its standard output"),
            said: String::from_utf8(said).expect("words"),
        }
    })
}

/// What the program prints for an input. It ends without a fault, and leaves standard error empty.
pub fn output_of(input: &[u8]) -> Vec<u8> {
    let run = run(&mut program(), input);
    assert_eq!(run.said, "", "standard error");
    assert!(
        run.status.success(),
        "the program ended with {}",
        run.status
    );
    run.output
}
