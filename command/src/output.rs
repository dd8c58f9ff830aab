//! What is printed on the output.

use crate::failure::Failure;
use crate::standard;
use std::io::Write;

/// Prints a text and sees it out of the process.
pub fn say(text: &str) -> Result<(), Failure> {
    let said = standard::output().and_then(|mut output| output.write_all(text.as_bytes()).and_then(|()| output.flush()));
    said.map_err(|error| Failure::io("output", &error))
}

/// Bytes with those that aren't printable ASCII escaped, cut after so many bytes.
pub fn escaped(bytes: &[u8], most: usize) -> String {
    let cut = if bytes.len() > most { ".." } else { "" };
    let shown: String = bytes.iter().take(most).map(|byte| byte.escape_ascii().to_string()).collect();
    shown.replace("\\'", "'") + cut
}

/// A field of a bad line, as it is quoted in the reason.
pub fn quoted(field: &[u8]) -> String {
    format!("\"{}\"", escaped(field, 60))
}
