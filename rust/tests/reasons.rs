//! A refusal has the same words in the Rust crate, in C and in docs/RULES.md.

use std::collections::BTreeSet;
use std::path::{Path, PathBuf};
use std::process::Command;
use velichundam::Refusal;

const UNKNOWN: &str = "unknown refusal";

/// From below the first number to above the last, and numbers that only 64 bits tell from one of a refusal.
fn numbers() -> Vec<i64> {
    (-2..=40).chain([1 << 32 | 5, -(1 << 32) + 5, i64::MIN, i64::MAX]).collect()
}

fn known() -> Vec<i64> {
    numbers().into_iter().filter(|number| Refusal(*number).why() != UNKNOWN).collect()
}

fn root() -> PathBuf {
    Path::new(env!("CARGO_MANIFEST_DIR")).join("..")
}

/// What that program prints, which has to end with 0.
fn printed(program: &mut Command) -> String {
    let output = program.output().expect("the program runs");
    assert!(output.status.success(), "{program:?}: {}", String::from_utf8_lossy(&output.stderr));
    String::from_utf8(output.stdout).expect("words")
}

/// The rows of docs/RULES.md's table with that heading, cell by cell.
fn rows(heading: &str) -> Vec<Vec<String>> {
    let rules = std::fs::read_to_string(root().join("docs/RULES.md")).expect("docs/RULES.md");
    let after = rules.lines().skip_while(|line| *line != heading).skip(2);
    let row = |line: &str| line.trim_matches('|').split(" | ").map(|cell| cell.trim().to_string()).collect();
    after.take_while(|line| line.starts_with('|')).map(row).collect()
}

#[test]
fn the_header_has_the_same_words() {
    let program = Path::new(env!("CARGO_TARGET_TMPDIR")).join(format!("reasons-{}", std::process::id()));
    let mut compiler = Command::new(std::env::var_os("CC").unwrap_or("gcc".into()));
    compiler.args(["-std=c11", "-Wall", "-Wextra", "-Werror", "-pedantic", "-Iinclude", "tests/reasons.c", "-o"]).arg(&program).current_dir(root());
    printed(&mut compiler);
    let words = printed(Command::new(&program).args(numbers().iter().map(i64::to_string)));
    std::fs::remove_file(&program).expect("it was written");
    let expected: Vec<String> = numbers().into_iter().map(|number| format!("{number}\t{}", Refusal(number))).collect();
    assert_eq!(words.lines().collect::<Vec<_>>(), expected);
}

#[test]
fn the_rules_have_the_same_words() {
    let mut expected: Vec<[String; 2]> = known().into_iter().map(|number| [number.to_string(), Refusal(number).to_string()]).collect();
    expected.push(["any other".to_string(), UNKNOWN.to_string()]);
    assert_eq!(rows("| no. | in words |"), expected);
}

#[test]
fn each_number_of_the_rules_has_words() {
    let refusals = rows("| no. | requests | given exactly when none above applies and |");
    // A row without a number goes on with the number above it.
    let numbers = refusals.iter().flat_map(|row| row[0].split(" or ")).filter(|cell| !cell.is_empty());
    let numbers: BTreeSet<i64> = numbers.map(|number| number.parse().expect("a number")).collect();
    assert_eq!(Vec::from_iter(numbers), known());
}
