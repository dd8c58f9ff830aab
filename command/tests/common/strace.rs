//! The system calls of a run, as strace tells them.

use super::run::{Run, BINARY};
use super::{Folder, Ran};
use std::process::{Command, Stdio};

/// A system call: its name, and what strace writes between the brackets, descriptors with their paths.
#[derive(Clone, Debug)]
pub struct Call {
    pub name: String,
    pub told: String,
}

impl Call {
    /// Whether its first argument is a descriptor of that file.
    pub fn is_on(&self, path: &str) -> bool {
        self.told.split(',').next().is_some_and(|first| first.contains(&format!("<{path}>")))
    }

    pub fn is_sync(&self) -> bool {
        ["fsync", "fdatasync", "sync", "syncfs", "sync_file_range", "msync"].contains(&self.name.as_str())
    }

    pub fn is_write(&self) -> bool {
        ["write", "writev", "pwrite64", "pwritev", "pwritev2"].contains(&self.name.as_str())
    }

    /// Whether it writes to descriptor 1.
    pub fn is_output(&self) -> bool {
        self.is_write() && (self.told.starts_with("1<") || self.told.starts_with("1,"))
    }
}

/// Whether strace is there and may trace. Where it is not, says so.
pub fn can_trace() -> bool {
    let tried = Command::new("strace").args(["-o", "/dev/null", "true"]).stdout(Stdio::null()).stderr(Stdio::null()).status();
    let can = tried.is_ok_and(|status| status.success());
    if !can {
        super::run::say("strace is not installed or may not trace: system calls are not tested");
    }
    can
}

/// Runs the command under strace with these options of strace: the run, and the calls that it made.
pub fn traced(folder: &Folder, options: &[&str], words: &[&str], input: &str) -> (Ran, Vec<Call>) {
    let own = ["-f", "-y", "-s", "200", "-o", "calls.trace"];
    let all: Vec<&str> = own.iter().chain(options).chain(&["--", BINARY]).chain(words).copied().collect();
    let ran = Run::program(folder, "strace", &all).input(input).end();
    let told = String::from_utf8_lossy(&folder.bytes("calls.trace")).into_owned();
    (ran, told.lines().filter_map(call).collect())
}

/// The call of a line such as `123   write(3</a/day.journal>, "D\t1\n", 4) = 4`. Lines of signals and ends have none.
fn call(line: &str) -> Option<Call> {
    let line = line.trim_start_matches(|c: char| c.is_ascii_digit() || c == ' ');
    let (name, told) = line.split_once('(')?;
    let is_name = name.chars().all(|c| c.is_ascii_alphanumeric() || c == '_');
    is_name.then(|| Call { name: name.to_string(), told: told.to_string() })
}

/// The path by which strace names the folder's journal.
pub fn journal_path(folder: &Folder) -> String {
    folder.path().canonicalize().unwrap().join("day.journal").to_str().unwrap().to_string()
}
