//! One desk at a time has a journal open.

mod common;

use common::{run, Desk, Folder, P11};
use std::fs::File;

/// A second desk on the journal: 3, and it names the process that has it. It neither answers nor writes.
#[track_caller]
fn is_locked(folder: &Folder, words: &[&str], holder: u32) {
    let before = folder.read("day.journal");
    let ran = run(folder, words, "day 17\n");
    let said = ran.fails(3);
    assert!(said.contains("day.journal"), "{said}");
    assert!(said.split(|c: char| !c.is_ascii_digit()).any(|number| number == holder.to_string()), "{said} does not name {holder}");
    assert_eq!(folder.read("day.journal"), before);
}

#[test]
fn a_second_desk_on_the_same_journal() {
    for (journal, words) in [(Some(P11), &["-j", "day.journal"][..]), (None, &["-j", "day.journal", "--sync", "never"])] {
        let folder = Folder::new();
        if let Some(journal) = journal {
            folder.write("day.journal", journal);
        }
        let mut first = Desk::open(&folder, words);
        assert_eq!(first.ask("day 18"), "booked 0 rows");
        is_locked(&folder, &["desk", "-j", "day.journal"], first.id());
        is_locked(&folder, &["desk", "--sync", "never", "-j", "./day.journal", "--cut-torn-line"], first.id());
        assert_eq!(first.ask("day 19"), "booked 0 rows");
        assert_eq!(first.end(), (0, vec![], String::new()));

        let mut second = Desk::open(&folder, &["-j", "day.journal"]);
        assert_eq!(second.ask("day 19"), "refused 3: a figure or a count is out of range");
        assert_eq!(second.ask("day 20"), "booked 0 rows");
        is_locked(&folder, &["desk", "-j", "day.journal"], second.id());
        assert_eq!(second.end(), (1, vec![], String::new()));
        assert_eq!(folder.read("day.journal"), journal.unwrap_or("").to_string() + "D\t18\nD\t19\nD\t20\n");
    }
}

/// Another program may hold the lock.
#[test]
fn a_journal_that_another_program_has_locked() {
    let folder = Folder::new();
    folder.write("day.journal", P11);
    let held = File::options().read(true).write(true).open(folder.file("day.journal")).unwrap();
    held.lock().unwrap();
    is_locked(&folder, &["desk", "-j", "day.journal"], std::process::id());
    held.unlock().unwrap();
    run(&folder, &["desk", "-j", "day.journal"], "day 17\n").prints("booked 0 rows\n");
}

/// A desk with a torn journal in the hands of another cuts nothing.
#[test]
fn a_locked_journal_is_not_cut() {
    let folder = Folder::new();
    folder.write("day.journal", "D\t1\nD\t");
    let held = File::options().read(true).write(true).open(folder.file("day.journal")).unwrap();
    held.lock().unwrap();
    is_locked(&folder, &["desk", "-j", "day.journal", "--cut-torn-line"], std::process::id());
}

#[test]
fn two_journals_have_two_desks() {
    let folder = Folder::new();
    let (mut first, mut second) = (Desk::open(&folder, &["-j", "one"]), Desk::open(&folder, &["-j", "two"]));
    assert_eq!((first.ask("day 1"), second.ask("day 2")), ("booked 0 rows".to_string(), "booked 0 rows".to_string()));
    assert_eq!((first.end().0, second.end().0), (0, 0));
    assert_eq!((folder.read("one").as_str(), folder.read("two").as_str()), ("D\t1\n", "D\t2\n"));
}

/// Many desks at once book the same trade: one of them does, and the others are refused it or do not get the journal.
#[test]
fn many_desks_at_once() {
    for _ in 0..15 {
        let folder = Folder::new();
        let mut desks: Vec<Desk> = (0..6).map(|_| Desk::open(&folder, &["-j", "day.journal", "--sync", "never"])).collect();
        desks.iter_mut().for_each(|desk| desk.try_say("trade 7 account 1 series 1 buy open 1 @ 1\n"));
        let ended: Vec<(i32, Vec<String>, String)> = desks.into_iter().map(Desk::end).collect();
        for (status, answers, errors) in &ended {
            match status {
                0 => assert_eq!((&answers[..], errors.as_str()), (&["booked 1 row".to_string()][..], "")),
                1 => assert_eq!((&answers[..], errors.as_str()), (&["refused 4: the new id has a record".to_string()][..], "")),
                _ => assert!(*status == 3 && answers.is_empty() && errors.starts_with("velichundam: ") && errors.lines().count() == 1, "{status}: {errors}"),
            }
        }
        assert_eq!(ended.iter().filter(|(status, ..)| *status == 0).count(), 1, "{ended:?}");
        assert_eq!(folder.read("day.journal"), "T\t7\t1\t1\t1\t1\t10000000\n");
    }
}
