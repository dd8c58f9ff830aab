//! What the tests of the command share. Each test file uses a part of it.
#![allow(dead_code, unused_imports)]

pub mod days;
pub mod dialogue;
pub mod example;
pub mod folder;
pub mod generator;
pub mod json;
pub mod nobody;
pub mod rng;
pub mod run;
pub mod strace;
pub mod tables;
pub mod talk;

pub use days::{line, lines, three_days, P11, P11_WORDS};
pub use dialogue::Desk;
pub use folder::Folder;
pub use run::{run, Ran, Run};
