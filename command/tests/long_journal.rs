//! Journals that are longer than any that is booked whole, or that never end, and a journal that is handed in to its own desk.

mod common;

use common::{run, Folder, P11};

/// More than is read of a journal, 4 MiB.
const BYTES: usize = 5 * 1_048_576;

#[test]
fn a_device_that_never_ends() {
    let folder = Folder::new();
    for words in [&["replay", "/dev/zero"][..], &["show", "/dev/zero"], &["tree", "/dev/zero", "1"], &["diff", "-", "/dev/zero"]] {
        assert_eq!(run(&folder, words, "").fails(1), "/dev/zero:1: bad: longer than any line");
    }
}

/// The line that is named is that of the whole file, though it is not read to its end.
#[test]
fn a_file_longer_than_what_is_read() {
    let folder = Folder::new();
    let trades: String = (1..=BYTES / 20).map(|id| format!("T\t{id}\t1\t1\t1\t1\t1250000000\n")).collect();
    assert!(trades.len() > BYTES);
    folder.write("day.journal", &trades);
    for words in [&["replay", "day.journal"][..], &["desk", "-j", "day.journal"], &["desk", "-j", "day.journal", "--cut-torn-line"]] {
        let why = "day.journal:4097: refused 14 (no room for the records or the text): T 4097 1 1 1 1 1250000000";
        assert_eq!(run(&folder, words, "day 18\n").fails(1), why);
    }
    assert_eq!(folder.read("day.journal"), trades);
}

/// Every day that there is makes the longest journal of an empty book; it is read whole.
#[test]
fn every_day_that_there_is() {
    let folder = Folder::new();
    let days: String = (1..=99_999).map(|day| format!("D\t{day}\n")).collect();
    folder.write("day.journal", &days);
    run(&folder, &["replay", "day.journal"], "").prints("99999 lines booked\n");
}

#[test]
fn a_journal_is_not_the_input_of_its_own_desk() {
    let folder = Folder::new();
    folder.write("day.journal", P11);
    std::os::unix::fs::symlink("day.journal", folder.file("other.name")).unwrap();
    for file in ["day.journal", "./day.journal", "other.name"] {
        let ran = run(&folder, &["desk", "-j", "day.journal", file], "");
        assert_eq!(ran.fails(3), format!("{file}: is the journal itself"));
    }
    assert_eq!(folder.read("day.journal"), P11);
}
