//! Running the program, with a limit of time, and what it then printed and said.

use crate::harness::{skip, Skipped};
use crate::room::root;
use std::fmt;
use std::io::{Read, Write};
use std::path::{Path, PathBuf};
use std::process::{Child, Command, ExitStatus, Stdio};
use std::sync::mpsc;
use std::thread;
use std::time::{Duration, Instant};

/// The program under test.
pub const PROGRAM: &str = env!("CARGO_BIN_EXE_teaselshears");

/// Longer than anything takes that does not hang, on a machine that has other things to do.
const LIMIT: Duration = Duration::from_secs(60);

/// A command that ended.
pub struct Ended {
    pub status: ExitStatus,
    pub stdout: Vec<u8>,
    pub stderr: Vec<u8>,
}

/// One of the program's commands, or an option in its place.
pub fn program(command: &str) -> Command {
    let mut program = Command::new(PROGRAM);
    program.arg(command);
    program
}

/// Where a proved program lies, by itself: it reads the files of its working folder.
pub fn proved_program(name: &str) -> Result<PathBuf, Skipped> {
    let path = root().join("target/bin").join(name);
    if !path.exists() {
        return skip(&format!("target/bin/{name} is not there"));
    }
    Ok(path)
}

/// A proved program by itself, in the folder whose files it reads.
pub fn proved(name: &str, folder: &Path) -> Result<Command, Skipped> {
    let mut proved = Command::new(proved_program(name)?);
    proved.current_dir(folder);
    Ok(proved)
}

pub fn audit(folder: impl AsRef<Path>) -> Ended {
    program("audit").arg(folder.as_ref()).end()
}

pub fn order(folder: impl AsRef<Path>) -> Ended {
    program("order").arg(folder.as_ref()).end()
}

pub fn record(folder: impl AsRef<Path>, out: impl AsRef<Path>) -> Ended {
    program("record")
        .args([folder.as_ref(), out.as_ref()])
        .end()
}

pub fn audit_all(spool: impl AsRef<Path>, results: impl AsRef<Path>) -> Ended {
    program("audit-all")
        .args([spool.as_ref(), results.as_ref()])
        .end()
}

/// The same, with an object printed for each batch.
pub fn audit_all_json(spool: impl AsRef<Path>, results: impl AsRef<Path>) -> Ended {
    program("audit-all")
        .arg("--json")
        .args([spool.as_ref(), results.as_ref()])
        .end()
}

/// A script of the shell, run by `sh -c` with these arguments as $1 and so on.
pub fn shell(script: &str) -> Command {
    let mut shell = Command::new("sh");
    shell.args(["-c", script, "sh"]);
    shell
}

/// Whether a command is installed: it can be started.
pub fn is_there(command: &str) -> bool {
    let quiet = |c: &mut Command| {
        c.stdin(Stdio::null())
            .stdout(Stdio::null())
            .stderr(Stdio::null())
            .status()
    };
    quiet(Command::new(command).arg("--version")).is_ok()
}

/// Skips a test that needs a command which is not installed.
pub fn needs(command: &str) -> Result<(), Skipped> {
    if is_there(command) {
        return Ok(());
    }
    skip(&format!("{command} is not installed"))
}

pub trait Run {
    /// Runs the command to its end; nothing is on its standard input.
    fn end(&mut self) -> Ended;
    /// Runs the command to its end with these bytes on its standard input.
    fn end_with(&mut self, input: &[u8]) -> Ended;
    /// Runs the command to its end, or panics after this time.
    fn end_within(&mut self, limit: Duration) -> Ended;
}

impl Run for Command {
    fn end(&mut self) -> Ended {
        self.end_within(LIMIT)
    }

    fn end_with(&mut self, input: &[u8]) -> Ended {
        self.stdin(Stdio::piped())
            .stdout(Stdio::piped())
            .stderr(Stdio::piped());
        let mut child = self.spawn().expect("the command starts");
        let mut pipe = child.stdin.take().unwrap();
        thread::scope(|scope| {
            // A command may end without having read it all.
            scope.spawn(move || pipe.write_all(input));
            collect(child, LIMIT)
        })
    }

    fn end_within(&mut self, limit: Duration) -> Ended {
        self.stdin(Stdio::null())
            .stdout(Stdio::piped())
            .stderr(Stdio::piped());
        collect(self.spawn().expect("the command starts"), limit)
    }
}

/// Reads both streams of a child to their ends, and waits for it.
pub fn collect(mut child: Child, limit: Duration) -> Ended {
    let until = Instant::now() + limit;
    let stdout = reader(child.stdout.take());
    let stderr = reader(child.stderr.take());
    let read = |stream: mpsc::Receiver<Vec<u8>>| {
        stream.recv_timeout(until.saturating_duration_since(Instant::now()))
    };
    let (Ok(stdout), Ok(stderr)) = (read(stdout), read(stderr)) else {
        let _ = child.kill();
        let _ = child.wait();
        panic!("the command did not end within {limit:?}");
    };
    let status = wait_until(&mut child, until);
    Ended {
        status,
        stdout,
        stderr,
    }
}

/// A thread that reads a stream, where there is one, to its end.
fn reader(stream: Option<impl Read + Send + 'static>) -> mpsc::Receiver<Vec<u8>> {
    let (sender, receiver) = mpsc::channel();
    thread::spawn(move || {
        let mut bytes = Vec::new();
        if let Some(mut stream) = stream {
            let _ = stream.read_to_end(&mut bytes);
        }
        let _ = sender.send(bytes);
    });
    receiver
}

/// Waits for a child, and ends it at this time.
pub fn wait_until(child: &mut Child, until: Instant) -> ExitStatus {
    loop {
        if let Some(status) = child.try_wait().unwrap() {
            return status;
        }
        if Instant::now() > until {
            let _ = child.kill();
            let _ = child.wait();
            panic!("the command did not end in time");
        }
        thread::sleep(Duration::from_micros(200));
    }
}

impl Ended {
    /// It ended with this status.
    #[track_caller]
    pub fn is(&self, status: i32) -> &Ended {
        assert_eq!(self.status.code(), Some(status), "the status; {self}");
        self
    }

    /// It printed just this.
    #[track_caller]
    pub fn printed(&self, bytes: impl AsRef<[u8]>) -> &Ended {
        let bytes = String::from_utf8_lossy(bytes.as_ref());
        assert_eq!(self.text(), bytes, "standard output; {self}");
        self
    }

    /// What it printed, as text.
    pub fn text(&self) -> String {
        String::from_utf8_lossy(&self.stdout).into_owned()
    }

    /// The lines that it said, behind the program's name, which each begins with.
    #[track_caller]
    pub fn said(&self) -> Vec<String> {
        let text = String::from_utf8_lossy(&self.stderr);
        assert!(
            text.is_empty() || text.ends_with('\n'),
            "whole lines; {self}"
        );
        let behind = |line: &str| line.strip_prefix("teaselshears: ").map(str::to_string);
        let lines: Option<Vec<String>> = text.split_terminator('\n').map(behind).collect();
        lines.unwrap_or_else(|| panic!("a line of standard error is not the program's; {self}"))
    }

    /// The one line that it said.
    #[track_caller]
    pub fn sentence(&self) -> String {
        let mut lines = self.said();
        assert_eq!(lines.len(), 1, "one sentence; {self}");
        lines.remove(0)
    }

    /// A line that it said has these words.
    #[track_caller]
    pub fn said_part(&self, words: &str) -> &Ended {
        assert!(
            self.said().iter().any(|line| line.contains(words)),
            "not said: {words}; {self}"
        );
        self
    }

    /// It could not be run, and said why in these words.
    #[track_caller]
    pub fn could_not(&self, words: &str) -> &Ended {
        self.is(2).printed("");
        let said = self.said();
        let why = said
            .iter()
            .filter_map(|line| line.split_once("could not be run: "));
        assert!(
            why.into_iter().any(|(_, why)| why.contains(words)),
            "not said: {words}; {self}"
        );
        self
    }

    /// It did not take its arguments, and named this one.
    #[track_caller]
    pub fn does_not_take(&self, words: &str) -> &Ended {
        self.is(2).printed("");
        assert!(!self.said().is_empty(), "nothing said; {self}");
        self.said_part(words)
    }
}

impl fmt::Display for Ended {
    fn fmt(&self, out: &mut fmt::Formatter) -> fmt::Result {
        let start =
            |bytes: &[u8]| String::from_utf8_lossy(&bytes[..bytes.len().min(2000)]).into_owned();
        write!(
            out,
            "{}, printed {:?}, said {:?}",
            self.status,
            start(&self.stdout),
            start(&self.stderr)
        )
    }
}
