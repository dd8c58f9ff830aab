//! One run of the binary, from its start to its end.

use super::Folder;
use std::ffi::OsString;
use std::io::{ErrorKind, Read, Write};
use std::os::unix::process::{CommandExt, ExitStatusExt};
use std::process::{Child, Command, ExitStatus, Stdio};
use std::sync::mpsc::{channel, RecvTimeoutError};
use std::thread;
use std::time::Duration;

pub const BINARY: &str = env!("CARGO_BIN_EXE_velichundam");

/// A run that takes longer than this hangs: it is killed, and the test fails.
pub const TOO_LONG: Duration = Duration::from_secs(120);

/// What a run leaves behind: its status (a signal's number negated), its output and its error output.
pub struct Ran {
    pub words: String,
    pub status: i32,
    pub output: String,
    pub errors: String,
}

/// Runs `velichundam` with these words in the folder, with this input.
pub fn run(folder: &Folder, words: &[&str], input: impl AsRef<[u8]>) -> Ran {
    Run::new(folder, words).input(input).end()
}

/// A run to be started.
pub struct Run {
    command: Command,
    words: String,
    input: Option<Vec<u8>>,
}

impl Run {
    pub fn new(folder: &Folder, words: &[&str]) -> Run {
        Run::program(folder, BINARY, words)
    }

    /// The same by a shell that does something before it becomes the command.
    pub fn after(folder: &Folder, first: &str, words: &[&str]) -> Run {
        let script = format!("{first}; exec \"$0\" \"$@\"");
        let all: Vec<&str> = ["-c", &script, BINARY].iter().chain(words).copied().collect();
        Run::program(folder, "/bin/sh", &all)
    }

    pub fn program(folder: &Folder, program: &str, words: &[&str]) -> Run {
        Run::with(folder, program, words.iter().map(OsString::from).collect())
    }

    /// By words that need not be text.
    pub fn with(folder: &Folder, program: &str, words: Vec<OsString>) -> Run {
        let mut command = Command::new(program);
        command.current_dir(folder.path()).args(&words).stdin(Stdio::piped()).stdout(Stdio::piped()).stderr(Stdio::piped());
        Run { command, words: format!("{program} {words:?}"), input: Some(Vec::new()) }
    }

    pub fn input(mut self, input: impl AsRef<[u8]>) -> Run {
        self.input = Some(input.as_ref().to_vec());
        self
    }

    pub fn input_from(mut self, input: impl Into<Stdio>) -> Run {
        self.command.stdin(input);
        self.input = None;
        self
    }

    pub fn output_to(mut self, output: impl Into<Stdio>) -> Run {
        self.command.stdout(output);
        self
    }

    pub fn errors_to(mut self, errors: impl Into<Stdio>) -> Run {
        self.command.stderr(errors);
        self
    }

    /// As a user who owns nothing here.
    pub fn by_nobody(mut self) -> Run {
        self.command.uid(65_534).gid(65_534);
        self
    }

    pub fn end(mut self) -> Ran {
        let mut child = self.command.spawn().unwrap_or_else(|error| panic!("{}: {error}", self.words));
        // The command holds the other ends of pipes that were handed to it.
        drop(self.command);
        let writer = child.stdin.take().map(|stdin| feed(stdin, self.input.take().unwrap_or_default()));
        let output = child.stdout.take().map(drain);
        let errors = child.stderr.take().map(drain);
        let status = ended(&mut child, &self.words);
        if let Some(writer) = writer {
            writer.join().unwrap();
        }
        let text = |drained: Option<thread::JoinHandle<Vec<u8>>>| match drained {
            Some(thread) => String::from_utf8(thread.join().unwrap()).unwrap(),
            None => String::new(),
        };
        Ran { words: self.words, status, output: text(output), errors: text(errors) }
    }
}

/// Writes the input and closes it. A reader that has ended takes no more.
fn feed(mut to: impl Write + Send + 'static, input: Vec<u8>) -> thread::JoinHandle<()> {
    thread::spawn(move || match to.write_all(&input) {
        Err(error) if error.kind() != ErrorKind::BrokenPipe => panic!("{error}"),
        _ => {}
    })
}

fn drain(mut from: impl Read + Send + 'static) -> thread::JoinHandle<Vec<u8>> {
    thread::spawn(move || {
        let mut bytes = Vec::new();
        from.read_to_end(&mut bytes).unwrap();
        bytes
    })
}

/// The status by which the process ended. One that hangs is killed.
pub fn ended(child: &mut Child, words: &str) -> i32 {
    let id = child.id().to_string();
    let (done, ended) = channel::<()>();
    let watch = thread::spawn(move || {
        let hangs = ended.recv_timeout(TOO_LONG) == Err(RecvTimeoutError::Timeout);
        hangs && Command::new("kill").args(["-9", &id]).status().is_ok()
    });
    let status = child.wait().unwrap();
    drop(done);
    assert!(!watch.join().unwrap(), "{words} did not end");
    number(status)
}

pub fn number(status: ExitStatus) -> i32 {
    status.code().unwrap_or_else(|| -status.signal().unwrap())
}

impl Ran {
    /// Done: 0, just this output, and nothing on the error output.
    #[track_caller]
    pub fn prints(&self, output: &str) {
        assert_eq!((self.status, self.errors.as_str()), (0, ""), "{}", self.words);
        assert_eq!(self.output, output, "{}", self.words);
    }

    /// Done: the output, with nothing on the error output.
    #[track_caller]
    pub fn done(&self) -> &str {
        assert_eq!((self.status, self.errors.as_str()), (0, ""), "{}", self.words);
        &self.output
    }

    /// Failed by that status: nothing on the output, and one line on the error output that begins `velichundam: `; the rest of that line.
    #[track_caller]
    pub fn fails(&self, status: i32) -> &str {
        assert_eq!((self.status, self.output.as_str()), (status, ""), "{}\n{}", self.words, self.errors);
        self.error()
    }

    /// The one line of the error output, after `velichundam: `.
    #[track_caller]
    pub fn error(&self) -> &str {
        let line = self.errors.strip_suffix('\n').unwrap_or_else(|| panic!("{}: {:?}", self.words, self.errors));
        assert!(!line.contains('\n'), "{}: more than a line: {line}", self.words);
        line.strip_prefix("velichundam: ").unwrap_or_else(|| panic!("{}: {line}", self.words))
    }
}

/// Says something on the error output of the tests, which a passing test shows too.
pub fn say(words: &str) {
    let _ = writeln!(std::io::stderr(), "{words}");
}
