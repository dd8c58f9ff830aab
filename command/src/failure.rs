//! Why the command ends with another status than 0: one line on the error output.

use std::ffi::OsStr;
use std::io::{self, Write};
use std::process::ExitCode;

/// A line was bad or refused, or two books differ.
pub const REFUSED: u8 = 1;
const USAGE: u8 = 2;
const INPUT_OUTPUT: u8 = 3;

#[derive(Debug)]
pub struct Failure {
    status: u8,
    message: String,
}

impl Failure {
    /// A line of a journal is bad or refused, or what was asked for is not in its book.
    pub fn line(message: String) -> Failure {
        Failure { status: REFUSED, message }
    }

    pub fn usage(message: String) -> Failure {
        Failure { status: USAGE, message }
    }

    /// Input or output failed, of what is named.
    pub fn io(name: &str, error: &io::Error) -> Failure {
        Failure::file(name, &cause(error))
    }

    /// A file that can't be used, and why.
    pub fn file(name: &str, why: &str) -> Failure {
        Failure { status: INPUT_OUTPUT, message: format!("{name}: {why}") }
    }

    /// Says why, and gives the status. An error output that is closed changes nothing.
    pub fn tell(self) -> ExitCode {
        warn(&self.message);
        ExitCode::from(self.status)
    }
}

/// A line on the error output, by one write.
pub fn warn(message: &str) {
    let _ = io::stderr().write_all(format!("velichundam: {message}\n").as_bytes());
}

/// The cause in the system's words, without its number.
fn cause(error: &io::Error) -> String {
    let text = error.to_string();
    match text.find(" (os error ") {
        Some(end) => text[..end].to_string(),
        None => text,
    }
}

/// A file as it was typed, on one line.
pub fn named(file: &OsStr) -> String {
    file.to_string_lossy().chars().flat_map(|c| if c.is_control() { c.escape_default().collect::<Vec<_>>() } else { vec![c] }).collect()
}
