//! Usage: what is bad is 2, told in one line, before any file is opened; what is good is taken in any of its forms.

mod common;

use common::run::BINARY;
use common::{run, Folder, Run, P11};
use std::ffi::OsString;
use std::os::unix::ffi::OsStringExt;

const SUBCOMMANDS: [&str; 6] = ["desk", "replay", "show", "report", "tree", "diff"];

/// Tries the words twice, with J in the place of a journal that is there and of one that is missing: 2 each time, and the folder stays as it was.
#[track_caller]
fn is_bad(words: &[&str]) {
    for journal in ["day.journal", "missing.journal"] {
        let folder = Folder::new();
        folder.write("day.journal", P11);
        let named: Vec<String> = words.iter().map(|word| word.replace('J', journal)).collect();
        let named: Vec<&str> = named.iter().map(String::as_str).collect();
        run(&folder, &named, "day 18\n").fails(2);
        assert_eq!((folder.names(), folder.read("day.journal")), (vec!["day.journal".to_string()], P11.to_string()), "{words:?}");
    }
}

#[track_caller]
fn are_bad(usages: &[&str]) {
    for usage in usages {
        is_bad(&usage.split(' ').filter(|word| !word.is_empty()).collect::<Vec<_>>());
    }
}

#[test]
fn without_a_subcommand() {
    are_bad(&["", "nosuch", "desks", "Desk", "--nosuch", "-x", "--", "J", "-j J", "--tsv"]);
    is_bad(&[""]);
    is_bad(&["no\nsuch"]);
    is_bad(&["desk", "--no\nsuch"]);
}

#[test]
fn of_desk() {
    are_bad(&[
        "desk -j",
        "desk -j J a b",
        "desk a b",
        "desk -j -",
        "desk -j-",
        "desk -j - a",
        "desk --nosuch",
        "desk -j J --nosuch",
        "desk -x",
        "desk -j J -x",
    ]);
    are_bad(&["desk -j J --csv", "desk -j J --json", "desk --id 5", "desk -j J --account 1", "desk -j J --cut", "desk -j J --tsv=yes"]);
    are_bad(&["desk -j J --sync", "desk -j J --sync sometimes", "desk -j J --sync=sometimes", "desk --sync Every -j J", "desk -j J --room"]);
}

#[test]
fn of_replay() {
    are_bad(&[
        "replay",
        "replay J J",
        "replay J --tsv",
        "replay J --sync never",
        "replay J --cut-torn-line",
        "replay -j J",
        "replay J --id 5",
        "replay --nosuch J",
    ]);
    are_bad(&["replay J --room", "replay J -x"]);
}

#[test]
fn of_rooms() {
    let out_of_range = ["4097,1024,1024", "4096,1025,1024", "4096,1024,1025", "-1,2,3", "1,-2,3", "1,2,-3", "99999999999999999999,2,3"];
    let others = ["1", "1,2", "1,2,3,4", "a,2,3", "1,b,3", "1,2,c", "1.5,2,3", "1,,3", ",,", "1,2,3,", ",1,2,3", "1;2;3", ""];
    for room in out_of_range.iter().chain(&others) {
        is_bad(&["desk", "-j", "J", "--room", room]);
        is_bad(&["desk", "-j", "J", &format!("--room={room}")]);
        is_bad(&["replay", "J", "--room", room]);
        is_bad(&["replay", &format!("--room={room}"), "J"]);
    }
}

#[test]
fn of_show() {
    are_bad(&["show", "show J trades", "show J records positions", "show J Records", "show J record", "show J records J", "show J --nosuch", "show J -x"]);
    are_bad(&["show J --tsv", "show J --csv", "show J --json", "show --id 5 J --tsv", "show J records --xml", "show J records --room 1,2,3"]);
    are_bad(&["show J records --tsv --csv", "show J records --csv --json", "show --json J positions --tsv", "show J processes --csv --tsv"]);
    are_bad(&["show J positions --id 5", "show J --id 5 positions", "show --id 5 --tsv J positions", "show -j J"]);
    are_bad(&["show J records --id", "show J records --account", "show J --series"]);
}

#[test]
fn of_filters() {
    let every = ["", "-1", "x", "1.5", "1,000", "99999999999999999999"];
    for (option, out_of_range) in [("--id", ["0", "1000000000", "5/0"]), ("--account", ["0", "10000", "1/1"]), ("--series", ["0", "1000000", "1/1"])] {
        for number in out_of_range.iter().chain(&every) {
            is_bad(&["show", "J", "records", option, number]);
            is_bad(&["show", "J", option, number]);
            is_bad(&["show", "J", "processes", "--tsv", option, number]);
        }
    }
}

#[test]
fn of_report_tree_and_diff() {
    are_bad(&[
        "report",
        "report J J",
        "report J records",
        "report J --id 5",
        "report J --tsv --json",
        "report J --csv --tsv",
        "report J --nosuch",
        "report J --room 1,2,3",
    ]);
    are_bad(&[
        "tree",
        "tree J",
        "tree J 5 6",
        "tree J 0",
        "tree J 1000000000",
        "tree J x",
        "tree J -5",
        "tree J 5/0",
        "tree J 5.0",
        "tree J 99999999999999999999",
    ]);
    are_bad(&["tree J 5 --tsv", "tree J 5 --nosuch", "tree J --id 5"]);
    are_bad(&["diff", "diff J", "diff J J J", "diff - -", "diff J J --tsv", "diff J J --nosuch"]);
    is_bad(&["tree", "J", ""]);
}

/// Which of two values would count is nothing to guess.
#[test]
fn of_a_value_that_is_given_twice() {
    are_bad(&[
        "desk -j J -j other.journal",
        "desk -jJ -jJ",
        "desk --room 9,9,9 --room 9,9,9",
        "desk --sync every --sync never",
        "replay J --room=1,1,1 --room 2,2,2",
    ]);
    are_bad(&["show J --id 1 --id 2", "show J records --account 1 --account=1", "show J --series 1 --series 1"]);
}

#[test]
fn of_words_that_are_no_text() {
    let folder = Folder::new();
    let odd = OsString::from_vec(vec![b'a', 0xff, b'b']);
    Run::with(&folder, BINARY, vec![odd.clone()]).end().fails(2);
    Run::with(&folder, BINARY, vec!["tree".into(), "missing".into(), odd.clone()]).end().fails(2);
    Run::with(&folder, BINARY, vec!["desk".into(), "-j".into(), "day.journal".into(), "--room".into(), odd]).end().fails(2);
    assert!(folder.names().is_empty());
}

/// The statuses hold where nobody can be told why.
#[test]
fn told_to_a_full_device() {
    let folder = Folder::new();
    let full = || std::fs::OpenOptions::new().write(true).open("/dev/full").unwrap();
    let ran = Run::new(&folder, &["nosuch"]).errors_to(full()).end();
    assert_eq!((ran.status, ran.output.as_str()), (2, ""));
    let ran = Run::new(&folder, &["replay", "missing.journal"]).errors_to(full()).end();
    assert_eq!((ran.status, ran.output.as_str()), (3, ""));
    folder.write("bad.journal", "X\n");
    let ran = Run::new(&folder, &["replay", "bad.journal"]).errors_to(full()).end();
    assert_eq!((ran.status, ran.output.as_str()), (1, ""));
}

#[test]
fn help_and_version() {
    let folder = Folder::new();
    for word in ["--version", "-V"] {
        let ran = run(&folder, &[word], "");
        assert!(ran.done().contains(|c: char| c.is_ascii_digit()), "{}", ran.output);
    }
    for word in ["--help", "-h"] {
        let ran = run(&folder, &[word], "");
        for subcommand in SUBCOMMANDS {
            assert!(ran.done().contains(subcommand), "{subcommand}: {}", ran.output);
        }
    }
    assert!(folder.names().is_empty());
}

#[test]
fn help_of_each_subcommand() {
    let folder = Folder::new();
    let formats = ["--tsv", "--csv", "--json"];
    let desk = ["-j", "--room", "--tsv", "--sync", "--cut-torn-line", "FILE"];
    let show = ["JOURNAL", "records", "positions", "processes", "--id", "--account", "--series"];
    let of = |subcommand| match subcommand {
        "desk" => desk.to_vec(),
        "replay" => vec!["JOURNAL", "--room"],
        "show" => [&show[..], &formats].concat(),
        "report" => [&["JOURNAL"][..], &formats].concat(),
        "tree" => vec!["JOURNAL", "ID"],
        _ => vec!["JOURNAL"],
    };
    for subcommand in SUBCOMMANDS {
        for word in ["--help", "-h"] {
            let ran = run(&folder, &[subcommand, word], "day 18\n");
            for named in of(subcommand) {
                assert!(ran.done().contains(named), "{subcommand} {word}: no {named}: {}", ran.output);
            }
        }
    }
    assert!(folder.names().is_empty());
}

#[test]
fn options_before_and_after_other_words() {
    let folder = Folder::new();
    folder.write("day.journal", P11);
    let wanted = run(&folder, &["show", "day.journal", "positions", "--account", "2", "--tsv"], "").done().to_string();
    assert_eq!(wanted.lines().count(), 2);
    for words in
        ["show --tsv day.journal --account 2 positions", "show --account 2 --tsv day.journal positions", "show --tsv --account 2 -- day.journal positions"]
    {
        run(&folder, &words.split(' ').collect::<Vec<_>>(), "").prints(&wanted);
    }
    run(&folder, &["show", "day.journal", "positions", "--account=2", "--tsv", "--tsv"], "").prints(&wanted);
}

#[test]
fn forms_of_options() {
    let folder = Folder::new();
    folder.write("day.journal", P11);
    folder.write("--tsv", P11);
    run(&folder, &["replay", "--", "--tsv"], "").prints("3 lines booked\n");
    run(&folder, &["replay", "--room", "7,2,0", "day.journal"], "").prints("3 lines booked\n");
    run(&folder, &["replay", "day.journal", "--room=7,2,0"], "").prints("3 lines booked\n");
    run(&folder, &["replay", "--room=4096,1024,1024", "day.journal"], "").prints("3 lines booked\n");
    run(&folder, &["replay", "-", "--room", "0,0,0"], "").prints("0 lines booked\n");
    run(&folder, &["desk", "-jnew.journal", "--sync=never"], "day 18\n").prints("booked 0 rows\n");
    run(&folder, &["desk", "--sync", "every", "-j", "new.journal"], "day 19\n").prints("booked 0 rows\n");
    assert_eq!(folder.read("new.journal"), "D\t18\nD\t19\n");
}
