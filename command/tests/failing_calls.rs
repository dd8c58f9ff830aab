//! A desk one of whose system calls fails, or that is killed at one. strace brings these about; where it is not installed the tests say so.

mod common;

use common::strace::{can_trace, journal_path, traced};
use common::{run, Folder, Ran};

/// A desk whose calls of these names fail so on its journal, fed with days 2 to 5.
fn desk_with(folder: &Folder, faults: &[&str]) -> Ran {
    folder.write("day.journal", "D\t1\n");
    let journal = journal_path(folder);
    let faults: Vec<String> = faults.iter().map(|fault| format!("inject={fault}")).collect();
    let mut options = vec!["-P", &journal];
    for fault in &faults {
        options.extend(["-e", fault]);
    }
    traced(folder, &options, &["desk", "-j", "day.journal"], "day 2\nday 3\nday 4\nday 5\n").0
}

fn days(last: i64) -> String {
    (1..=last).map(|day| format!("D\t{day}\n")).collect()
}

/// An append or a sync that fails: the requests before it are answered and in the journal, and it and those after it are not.
#[test]
fn a_failing_append_or_sync() {
    if !can_trace() {
        return;
    }
    let folder = Folder::new();
    for place in 1..=4 {
        for fault in ["write,writev,pwrite64:error=ENOSPC", "write,writev,pwrite64:error=EIO", "fdatasync:error=EIO", "fdatasync:error=ENOSPC"] {
            let ran = desk_with(&folder, &[&format!("{fault}:when={place}")]);
            assert_eq!((ran.status, ran.output), (3, "booked 0 rows\n".repeat(place as usize - 1)), "{fault} {place}: {}", ran.errors);
            assert!(ran.errors.starts_with("velichundam: ") && ran.errors.contains("day.journal") && ran.errors.lines().count() == 1, "{}", ran.errors);
            assert_eq!(folder.read("day.journal"), days(place), "{fault} {place}");
            run(&folder, &["desk", "-j", "day.journal"], format!("day {}\n", place + 1)).prints("booked 0 rows\n");
        }
    }
}

/// Where it can't be cut back either, the journal has that request more, which was not answered.
#[test]
fn a_failing_sync_and_a_failing_cut() {
    if !can_trace() {
        return;
    }
    let folder = Folder::new();
    let ran = desk_with(&folder, &["fdatasync:error=EIO:when=2+", "ftruncate:error=EIO"]);
    assert_eq!((ran.status, ran.output.as_str()), (3, "booked 0 rows\n"));
    assert!(ran.errors.starts_with("velichundam: ") && ran.errors.lines().count() == 1, "{}", ran.errors);
    assert_eq!(folder.read("day.journal"), days(3));
    run(&folder, &["desk", "-j", "day.journal"], "day 4\n").prints("booked 0 rows\n");
}

/// A journal that can't be synced when it is opened: 3, nothing is answered, and it is as it was.
#[test]
fn a_failing_sync_at_the_start() {
    if !can_trace() {
        return;
    }
    let folder = Folder::new();
    let ran = desk_with(&folder, &["fsync:error=EIO:when=1"]);
    assert!(ran.fails(3).contains("day.journal"), "{}", ran.errors);
    assert_eq!(folder.read("day.journal"), days(1));
}

/// A created journal that can't be synced: 3, and nothing is answered.
#[test]
fn a_failing_sync_of_a_created_journal() {
    if !can_trace() {
        return;
    }
    let folder = Folder::new();
    let (ran, _) = traced(&folder, &["-e", "inject=fsync,fdatasync:error=EIO:when=1"], &["desk", "-j", "day.journal"], "day 18\n");
    assert!(ran.fails(3).contains("day.journal"), "{}", ran.errors);
    assert!(!folder.has("day.journal") || folder.read("day.journal").is_empty());
}

#[test]
fn a_failing_read() {
    if !can_trace() {
        return;
    }
    let folder = Folder::new();
    let ran = desk_with(&folder, &["read,pread64:error=EIO"]);
    assert_eq!((ran.status, ran.output.as_str(), ran.errors.lines().count()), (3, "", 1), "{}", ran.errors);
    let journal = journal_path(&folder);
    for words in [&["replay", "day.journal"][..], &["show", "day.journal"], &["diff", "-", "day.journal"]] {
        let (ran, _) = traced(&folder, &["-P", &journal, "-e", "inject=read,pread64:error=EIO"], words, "");
        assert!(ran.fails(3).contains("day.journal"), "{}", ran.errors);
    }
    assert_eq!(folder.read("day.journal"), days(1));
}

/// A call that a signal has interrupted is made again.
#[test]
fn an_interrupted_call() {
    if !can_trace() {
        return;
    }
    let folder = Folder::new();
    for call in ["write", "read"] {
        let ran = desk_with(&folder, &[&format!("{call}:error=EINTR:when=1")]);
        assert_eq!((ran.status, ran.output), (0, "booked 0 rows\n".repeat(4)), "{}", ran.errors);
        assert_eq!(folder.read("day.journal"), days(5));
    }
}

/// Kills a desk at its call of that name and place: whether it was killed. The journal then has the days that were answered, and at most one more.
fn is_killed_at(call: &str, place: usize) -> bool {
    let folder = Folder::new();
    let fault = format!("inject={call}:signal=SIGKILL:when={place}");
    let (ran, _) = traced(&folder, &["-e", &fault], &["desk", "-j", "day.journal"], "day 1\nday 2\nday 3\n");
    let answered = ran.output.lines().count();
    assert_eq!(ran.output, "booked 0 rows\n".repeat(answered));
    assert!(ran.status == -9 || (ran.status == 0 && answered == 3), "{call} {place}: {}", ran.errors);
    let journal = if folder.has("day.journal") { folder.read("day.journal") } else { String::new() };
    assert!(journal == days(answered as i64) || journal == days(answered as i64 + 1), "{call} {place}: {answered} answered, {journal:?}");
    run(&folder, &["desk", "-j", "day.journal"], "day 9\n").prints("booked 0 rows\n");
    ran.status != 0
}

#[test]
fn killed_at_each_call() {
    if !can_trace() {
        return;
    }
    let names = ["flock", "read", "write", "writev", "pwrite64", "fdatasync", "fsync", "close"];
    let kills: Vec<usize> = names.iter().map(|name| (1..).take_while(|place| is_killed_at(name, *place)).count()).collect();
    // Three appends and three answers, and a sync of each append.
    assert!(kills[2..5].iter().sum::<usize>() >= 6 && kills[5] + kills[6] >= 3, "{names:?} {kills:?}");
}
