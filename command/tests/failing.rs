//! Input and output that fail: 3, one line on the error output, and nothing on the output but the answers that a desk has already given.

mod common;

use common::nobody::run_as_nobody;
use common::{run, Folder, Run, P11, P11_WORDS};
use std::fs::{File, OpenOptions};
use std::process::Stdio;

fn words(line: &str) -> Vec<&str> {
    line.split(' ').collect()
}

fn p11() -> Folder {
    let folder = Folder::new();
    folder.write("day.journal", P11);
    folder
}

/// Every subcommand with F in the place of a file that it reads.
const READING: [&str; 11] = [
    "replay F",
    "replay F --room 9,9,9",
    "show F",
    "show F records --json",
    "report F",
    "report F --tsv",
    "tree F 456789",
    "diff F day.journal",
    "diff day.journal F",
    "desk F",
    "desk -j new.journal F",
];

#[test]
fn a_missing_file() {
    let folder = p11();
    for line in READING {
        let ran = run(&folder, &words(&line.replace('F', "missing.file")), "day 18\n");
        assert!(ran.fails(3).contains("missing.file"), "{}", ran.errors);
    }
    run(&folder, &["desk", "-j", "missing.folder/day.journal"], "day 18\n").fails(3);
    run(&folder, &["desk", "-j", "day.journal/day.journal"], "day 18\n").fails(3);
    assert_eq!((folder.names(), folder.read("day.journal")), (vec!["day.journal".to_string()], P11.to_string()));
}

#[test]
fn a_folder_in_the_place_of_a_file() {
    let folder = p11();
    folder.make_folder("a.folder");
    for line in READING.iter().chain(&["desk -j F", "desk -j F --sync never --cut-torn-line"]) {
        let ran = run(&folder, &words(&line.replace('F', "a.folder")), "day 18\n");
        assert!(ran.fails(3).contains("a.folder"), "{}", ran.errors);
    }
    assert_eq!(folder.read("day.journal"), P11);
}

#[test]
fn a_folder_as_the_input() {
    let folder = p11();
    let lines = [
        "desk",
        "desk --tsv",
        "desk -j day.journal",
        "replay -",
        "show -",
        "show - records --csv",
        "report -",
        "tree - 456789",
        "diff - day.journal",
        "diff day.journal -",
    ];
    for line in lines {
        Run::new(&folder, &words(line)).input_from(File::open(folder.path()).unwrap()).end().fails(3);
    }
    assert_eq!(folder.read("day.journal"), P11);
}

#[test]
fn a_read_only_journal() {
    let folder = p11();
    folder.permit("", 0o755);
    folder.permit("day.journal", 0o444);
    let ran = run_as_nobody(&folder, &["desk", "-j", "day.journal"], "day 18\n");
    assert!(ran.fails(3).contains("day.journal"), "{}", ran.errors);
    run_as_nobody(&folder, &["replay", "day.journal"], "").prints("3 lines booked\n");
    run_as_nobody(&folder, &["show", "day.journal", "positions", "--account", "1", "--csv"], "")
        .prints("account,series,long,short,cash,quantity,value\n1,1,0,0,0,0,0\n");
    assert_eq!(folder.read("day.journal"), P11);
}

#[test]
fn files_that_may_not_be_read_or_made() {
    let folder = p11();
    folder.write("secret", P11);
    folder.permit("secret", 0o000);
    folder.permit("", 0o555);
    for line in READING.iter().filter(|line| !line.contains("new.journal")).chain(&["desk -j F"]) {
        let ran = run_as_nobody(&folder, &words(&line.replace('F', "secret")), "day 18\n");
        assert!(ran.fails(3).contains("secret"), "{}", ran.errors);
    }
    let ran = run_as_nobody(&folder, &["desk", "-j", "new.journal"], "day 18\n");
    assert!(ran.fails(3).contains("new.journal"), "{}", ran.errors);
    assert_eq!(folder.names(), ["day.journal", "secret"]);
    folder.permit("", 0o755);
}

/// Words that print something, each with the folder's journals.
const PRINTING: [&str; 17] = [
    "replay day.journal",
    "show day.journal",
    "show day.journal records",
    "show day.journal records --tsv",
    "show day.journal positions --csv",
    "show day.journal processes --json",
    "report day.journal",
    "report day.journal --json",
    "tree day.journal 456789",
    "diff day.journal other.journal",
    "desk",
    "desk --tsv",
    "desk requests",
    "--help",
    "--version",
    "desk --help",
    "show --help",
];

fn printing() -> Folder {
    let folder = p11();
    folder.write("other.journal", "D\t1\n");
    folder.write("requests", "help\n");
    folder
}

fn full() -> File {
    OpenOptions::new().write(true).open("/dev/full").unwrap()
}

/// A pipe whose reader is gone.
fn closed() -> Stdio {
    let (reader, writer) = std::io::pipe().unwrap();
    drop(reader);
    writer.into()
}

#[test]
fn a_full_device_as_the_output() {
    let folder = printing();
    for line in PRINTING {
        Run::new(&folder, &words(line)).input("day 18\n").output_to(full()).end().fails(3);
    }
}

#[test]
fn a_closed_pipe_as_the_output() {
    let folder = printing();
    for line in PRINTING {
        Run::new(&folder, &words(line)).input("day 18\n").output_to(closed()).end().fails(3);
    }
}

/// Descriptors that are closed from the start.
#[test]
fn a_closed_output_or_input() {
    let folder = printing();
    for line in PRINTING {
        Run::after(&folder, "exec >&-", &words(line)).input("day 18\n").end().fails(3);
    }
    for line in ["desk", "desk -j day.journal", "replay -", "show -", "report - --json", "tree - 456789", "diff - day.journal"] {
        Run::after(&folder, "exec <&-", &words(line)).end().fails(3);
    }
    let ran = Run::after(&folder, "exec 2>&-", &["nosuch"]).end();
    assert_eq!((ran.status, ran.output.as_str()), (2, ""));
    assert_eq!(folder.read("day.journal"), P11);
}

/// What is bad is answered too, and what is passed over needs no output.
#[test]
fn a_desk_writes_only_answers() {
    let folder = Folder::new();
    Run::new(&folder, &["desk"]).input("nosuch\n").output_to(closed()).end().fails(3);
    Run::new(&folder, &["desk"]).input("lineage 5\n").output_to(full()).end().fails(3);
    Run::new(&folder, &["desk"]).input("# a day\n\n").output_to(full()).end().prints("");
    Run::new(&folder, &["diff", "-", "empty"]).output_to(full()).end().fails(3);
    folder.write("empty", "");
    Run::new(&folder, &["diff", "-", "empty"]).output_to(full()).end().prints("");
}

/// The request whose answer could not be given is in the journal, and the desk reads no further.
#[test]
fn a_desk_with_a_journal_whose_output_fails() {
    let input: String = P11_WORDS.iter().map(|(line, _)| format!("{line}\n")).collect();
    for sync in ["every", "never"] {
        for broken in [|| Stdio::from(full()), closed] {
            let folder = Folder::new();
            Run::new(&folder, &["desk", "-j", "day.journal", "--sync", sync]).input(&input).output_to(broken()).end().fails(3);
            assert_eq!(folder.read("day.journal"), P11.split_inclusive('\n').next().unwrap());
            let rest = P11_WORDS[1..].iter().map(|(line, _)| format!("{line}\n")).collect::<String>();
            run(&folder, &["desk", "-j", "day.journal"], rest).prints("booked 2 rows\nbooked 4 rows\n");
            assert_eq!(folder.read("day.journal"), P11);
        }
    }
}

/// It never ends and takes nothing; the limits are for a desk that would read it to its end.
#[test]
fn a_full_device_as_the_journal() {
    let folder = Folder::new();
    for line in ["desk -j /dev/full", "desk -j /dev/full --sync never", "desk -j /dev/full --cut-torn-line"] {
        let ran = Run::after(&folder, "ulimit -t 20; ulimit -v 4000000", &words(line)).input("day 18\n").end();
        assert!(ran.fails(3).contains("/dev/full"), "{}", ran.errors);
    }
}

/// A limit of the journal's size: what was answered is in it, it is not torn, and it is opened again.
#[test]
fn a_limit_of_the_journals_size() {
    for sync in ["every", "never"] {
        let folder = Folder::new();
        let input: String = (1..=100).map(|id| format!("trade {id} account 1 series 1 buy open 1000 @ 99999\n")).collect();
        let ran = Run::after(&folder, "ulimit -f 1", &["desk", "-j", "day.journal", "--sync", sync]).input(&input).end();
        assert_eq!(ran.status, 3, "{}", ran.errors);
        assert!(ran.error().contains("day.journal"), "{}", ran.errors);
        let answered = ran.output.lines().count() as i64;
        assert!(answered > 0 && answered < 100 && ran.output == "booked 1 row\n".repeat(answered as usize), "{}", ran.output);
        let wanted: String = (1..=answered).map(|id| format!("T\t{id}\t1\t1\t1\t1000\t999990000000\n")).collect();
        assert_eq!(folder.read("day.journal"), wanted);
        let next = format!("trade {} account 2 series 1 buy open 1000 @ 99999\n", answered + 1);
        run(&folder, &["desk", "-j", "day.journal"], next).prints("booked 1 row\n");
    }
}
