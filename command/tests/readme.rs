//! The first page is true: what it shows is what the command prints and what its programs do.

use std::io::Write;
use std::path::{Path, PathBuf};
use std::process::{Command, Stdio};

fn root() -> PathBuf {
    Path::new(env!("CARGO_MANIFEST_DIR")).join("..")
}

fn page() -> String {
    std::fs::read_to_string(root().join("README.md")).expect("README.md")
}

/// The lines of the first fenced block after these words.
fn block(after: &str) -> Vec<String> {
    let page = page();
    let start = page.find(after).unwrap_or_else(|| panic!("no '{after}' in README.md"));
    let lines = page[start..].lines().skip_while(|line| !line.starts_with("```")).skip(1);
    lines.take_while(|line| !line.starts_with("```")).map(String::from).collect()
}

/// A folder of our own, empty.
fn folder(name: &str) -> PathBuf {
    let folder = Path::new(env!("CARGO_TARGET_TMPDIR")).join(format!("readme-{name}-{}", std::process::id()));
    std::fs::create_dir_all(&folder).expect("a folder");
    folder
}

/// What a program prints, which has to end well.
fn printed(program: &mut Command) -> String {
    let output = program.output().unwrap_or_else(|error| panic!("{program:?}: {error}"));
    assert!(output.status.success(), "{program:?}: {}", String::from_utf8_lossy(&output.stderr));
    String::from_utf8(output.stdout).expect("text")
}

/// The archive that the command was linked with.
fn archive() -> PathBuf {
    let named = std::env::var_os("VELICHUNDAM_LIB_DIR").map(|folder| root().join("rust").join(folder));
    let folders = named.map_or_else(|| vec![root().join("build"), root().join("crates/velichundam/out")], |folder| vec![folder]);
    folders.iter().map(|folder| folder.join("libvelichundam.a")).find(|archive| archive.is_file()).expect("an archive")
}

#[test]
fn it_is_short_and_shows_the_command_first() {
    let page = page();
    assert!(page.lines().count() <= 120);
    assert!(page.lines().take(15).any(|line| line == "    make && build/velichundam show examples/day.journal"));
}

#[test]
fn the_rows_are_those_of_the_day() {
    let output = printed(Command::new(env!("CARGO_BIN_EXE_velichundam")).args(["show", "examples/day.journal"]).current_dir(root()));
    let mut rest = output.lines();
    let shown = block("build/velichundam show examples/day.journal");
    assert!(shown.len() > 10);
    for line in shown.iter().filter(|line| *line != "..") {
        assert!(rest.any(|printed| printed == line), "not printed, or not in this order: {line}");
    }
}

#[test]
fn the_desk_answers_as_it_says() {
    let session = block("## A desk");
    let (asked, answers): (Vec<&str>, Vec<&str>) = session.iter().skip(1).map(String::as_str).partition(|line| line.starts_with("velichundam> "));
    let mut desk = Command::new(env!("CARGO_BIN_EXE_velichundam")).arg("desk").stdin(Stdio::piped()).stdout(Stdio::piped()).spawn().expect("a desk");
    let mut input = desk.stdin.take().expect("its input");
    for line in asked {
        writeln!(input, "{}", line.trim_start_matches("velichundam> ")).expect("it reads");
    }
    drop(input);
    let output = desk.wait_with_output().expect("it ends");
    assert_eq!(String::from_utf8_lossy(&output.stdout).lines().collect::<Vec<_>>(), answers);
}

#[test]
fn the_c_program_runs() {
    let folder = folder("c");
    std::fs::write(folder.join("first.c"), block("## From C").join("\n") + "\n").expect("a file");
    let mut compiler = Command::new(std::env::var_os("CC").unwrap_or("cc".into()));
    compiler.args(["-std=c11", "-Wall", "-Wextra", "-Werror", "-pedantic", "-Iinclude"]).current_dir(root());
    printed(compiler.arg(folder.join("first.c")).arg(archive()).arg("-o").arg(folder.join("first")));
    assert_eq!(printed(&mut Command::new(folder.join("first"))), "account 1 holds 100 long\n");
    std::fs::remove_dir_all(folder).expect("it was made");
}

#[test]
fn the_rust_program_runs() {
    let folder = folder("rust");
    let crate_path = root().join("rust").canonicalize().expect("rust/");
    let manifest = format!(
        "[package]\nname = \"first\"\nversion = \"0.1.0\"\nedition = \"2021\"\n\n[workspace]\n\n[dependencies]\nvelichundam = {{ path = {crate_path:?} }}\n"
    );
    std::fs::create_dir_all(folder.join("src")).expect("a folder");
    std::fs::write(folder.join("Cargo.toml"), manifest).expect("a file");
    std::fs::write(folder.join("src/main.rs"), block("## From Rust").join("\n") + "\n").expect("a file");
    let mut cargo = Command::new(env!("CARGO"));
    cargo.args(["run", "--quiet", "--offline"]).current_dir(&folder).env("CARGO_TARGET_DIR", folder.join("target"));
    assert_eq!(printed(cargo.env("VELICHUNDAM_LIB_DIR", archive().parent().expect("a folder"))), "account 1 holds 100 long\n");
    std::fs::remove_dir_all(folder).expect("it was made");
}
