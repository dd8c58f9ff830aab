//! Runs by a user who owns nothing in the folder.

use super::run::BINARY;
use super::{Folder, Ran, Run};
use std::process::Command;

extern "C" {
    fn geteuid() -> u32;
}

/// Runs the command with these words as a user whom the permission bits bind. A root's test uses a copy of the binary, which nobody else might reach.
pub fn run_as_nobody(folder: &Folder, words: &[&str], input: &str) -> Ran {
    if unsafe { geteuid() } != 0 {
        return Run::new(folder, words).input(input).end();
    }
    let copy = Folder::new();
    copy.permit("", 0o755);
    // By another process, so that no child of this one has the copy open for writing when it is run.
    assert!(Command::new("cp").arg(BINARY).arg(copy.file("velichundam")).status().unwrap().success());
    copy.permit("velichundam", 0o755);
    Run::program(folder, copy.file("velichundam").to_str().unwrap(), words).by_nobody().input(input).end()
}
