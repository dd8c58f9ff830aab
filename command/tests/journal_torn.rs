//! A journal whose last line has no newline was torn by a crash: a desk does not open it, and drops that line only when it is told to.

mod common;

use common::{run, Folder, P11};

/// Torn journals: the whole lines, the torn one, and how that is shown.
const TORN: [(&str, &[u8], &str); 7] = [
    (P11, b"D\t1", "D\\t1"),
    (P11, b"T\t500\t1\t1\t", "T\\t500\\t1\\t1\\t"),
    ("", b"D", "D"),
    ("", b"T\t7\t1\t1\t1\t1\t1", "T\\t7\\t1\\t1\\t1\\t1\\t1"),
    ("D\t1\n", b"D\t\x00\x00\x00", "D\\t\\x00\\x00\\x00"),
    ("D\t1\n", b"\x80\x99\\", "\\x80\\x99\\\\"),
    ("D\t1\n", b"D\t2\r", "D\\t2\\r"),
];

fn torn(folder: &Folder, whole: &str, last: &[u8]) -> Vec<u8> {
    let bytes = [whole.as_bytes(), last].concat();
    folder.write("day.journal", &bytes);
    bytes
}

#[test]
fn a_desk_does_not_open_it() {
    let folder = Folder::new();
    for (whole, last, _) in TORN {
        let bytes = torn(&folder, whole, last);
        for words in [&["desk", "-j", "day.journal"][..], &["desk", "-j", "day.journal", "--sync", "never", "--tsv"]] {
            let ran = run(&folder, words, "day 18\n");
            let place = format!("day.journal:{}: ", whole.lines().count() + 1);
            assert!(ran.fails(3).starts_with(&place), "{}", ran.errors);
            assert_eq!(folder.bytes("day.journal"), bytes);
        }
    }
}

#[test]
fn its_last_line_is_dropped() {
    let folder = Folder::new();
    for (whole, last, shown) in TORN {
        torn(&folder, whole, last);
        let ran = run(&folder, &["desk", "-j", "day.journal", "--cut-torn-line"], "day 18\n");
        assert_eq!((ran.status, ran.output.as_str()), (0, "booked 0 rows\n"));
        let said = ran.error();
        assert!(said.starts_with(&format!("day.journal:{}: ", whole.lines().count() + 1)), "{said}");
        assert!(said.contains(shown), "{said} has no {shown}");
        assert_eq!(folder.read("day.journal"), format!("{whole}D\t18\n"));
        run(&folder, &["desk", "--cut-torn-line", "-j", "day.journal"], "day 19\n").prints("booked 0 rows\n");
    }
}

/// What the torn line would have booked was not booked.
#[test]
fn the_dropped_line_may_be_handed_in_again() {
    let folder = Folder::new();
    torn(&folder, P11, b"D\t18");
    let ran = run(&folder, &["desk", "--cut-torn-line", "-j", "day.journal"], "");
    assert_eq!((ran.status, ran.output.as_str(), folder.read("day.journal").as_str()), (0, "", P11));
    run(&folder, &["desk", "-j", "day.journal"], "day 18\n").prints("booked 0 rows\n");
    run(&folder, &["replay", "day.journal"], "").prints("4 lines booked\n");
}

#[test]
fn nothing_is_done_to_a_whole_an_empty_or_a_missing_journal() {
    let folder = Folder::new();
    for journal in [Some(P11), Some(""), None] {
        match journal {
            Some(journal) => folder.write("day.journal", journal),
            None => std::fs::remove_file(folder.file("day.journal")).unwrap(),
        }
        run(&folder, &["desk", "-j", "day.journal", "--cut-torn-line"], "").prints("");
        assert_eq!(folder.read("day.journal"), journal.unwrap_or(""));
    }
    run(&folder, &["desk", "-j", "day.journal", "--cut-torn-line"], "day 18\n").prints("booked 0 rows\n");
    assert_eq!(folder.read("day.journal"), "D\t18\n");
}

/// A bad or refused line before it: 1, and the torn line stays too.
#[test]
fn a_bad_or_refused_line_before_it() {
    let folder = Folder::new();
    for (whole, said) in [("D\t5\nX\n", "day.journal:2: bad: "), ("D\t5\nD\t5\n", "day.journal:2: refused 3 ("), ("\n", "day.journal:1: bad: an empty line")] {
        let bytes = torn(&folder, whole, b"D\t7");
        let ran = run(&folder, &["desk", "-j", "day.journal", "--cut-torn-line"], "day 18\n");
        assert!(ran.fails(1).starts_with(said), "{}", ran.errors);
        assert_eq!(folder.bytes("day.journal"), bytes);
    }
}

/// A long torn line, as of a thousand parts.
#[test]
fn a_long_torn_line() {
    let folder = Folder::new();
    let last = format!("S\t7\t0\t1\t1{}", "\t1".repeat(999));
    let whole = "T\t7\t1\t1\t1\t1000\t1\n";
    torn(&folder, whole, last.as_bytes());
    let ran = run(&folder, &["desk", "-j", "day.journal", "--cut-torn-line"], format!("{last}\t1\n"));
    assert_eq!((ran.status, ran.output.as_str()), (0, "booked 1001 rows\n"));
    assert!(ran.error().starts_with("day.journal:2: "));
    assert_eq!(folder.read("day.journal"), format!("{whole}{last}\t1\n"));
}
