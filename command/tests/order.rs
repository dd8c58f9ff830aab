//! The order of a desk's system calls, as strace tells it; where that is not installed the tests say so.

mod common;

use common::strace::{can_trace, journal_path, traced, Call};
use common::Folder;

/// Requests and their answers; those with a line are booked.
const TALK: [(&str, &str, &str); 8] = [
    ("trade 7 account 1 series 1 buy open 10 @ 1", "booked 1 row", "T\t7\t1\t1\t1\t10\t10000000\n"),
    ("lineage 7", "original price 1.0000000, 0 links", ""),
    ("transfer 8 account 1 to 2 series 1", "refused 5: no such record", ""),
    ("S\t7\t0\t1\t1\t4\t6", "booked 3 rows", "S\t7\t0\t1\t1\t4\t6\n"),
    ("trade 7 account 1 series 1 buy open 10 @ 1", "refused 4: the new id has a record", ""),
    ("merge 9 account 1 series 1 from 7/2 7/3", "booked 3 rows", "M\t9\t1\t1\t7\t2\t7\t3\n"),
    ("give-up 77 open 9 account 1 to 2 series 1", "booked 0 rows", "G\tO\t77\t9\t0\t1\t2\t1\n"),
    ("day 18", "booked 0 rows", "D\t18\n"),
];

fn input() -> String {
    TALK.iter().map(|(line, ..)| format!("{line}\n")).collect()
}

/// What matters of a desk's calls: what it appends to the journal, syncs of it, and what it puts out.
#[derive(Debug, PartialEq, Eq)]
enum Event {
    Appended(String),
    Synced,
    Answered(String),
}

/// The text of a write, as strace shows it, with its quotes.
fn shown(text: &str) -> String {
    format!("\"{}\"", text.replace('\\', "\\\\").replace('"', "\\\"").replace('\t', "\\t").replace('\n', "\\n"))
}

fn events(folder: &Folder, calls: &[Call]) -> Vec<Event> {
    let journal = journal_path(folder);
    let text = |call: &Call| {
        let begin = call.told.find('"').unwrap();
        call.told[begin..=call.told.rfind('"').unwrap()].to_string()
    };
    let event = |call: &Call| match call {
        call if call.is_output() => Some(Event::Answered(text(call))),
        call if call.is_write() && call.is_on(&journal) => Some(Event::Appended(text(call))),
        call if call.is_sync() && call.is_on(&journal) => Some(Event::Synced),
        _ => None,
    };
    calls.iter().filter_map(event).collect()
}

/// The events of the talk, with syncs or without.
fn wanted(syncs: bool) -> Vec<Event> {
    let mut events = Vec::new();
    for (_, answer, line) in TALK {
        if !line.is_empty() {
            events.push(Event::Appended(shown(line)));
            events.extend(syncs.then_some(Event::Synced));
        }
        events.push(Event::Answered(shown(&format!("{answer}\n"))));
    }
    events
}

#[test]
fn append_sync_answer() {
    if !can_trace() {
        return;
    }
    for words in [&["desk", "-j", "day.journal"][..], &["desk", "-j", "day.journal", "--sync", "every"]] {
        let folder = Folder::new();
        folder.write("day.journal", "");
        let (ran, calls) = traced(&folder, &[], words, &input());
        assert_eq!((ran.status, ran.errors.as_str()), (1, ""));
        let mut events = events(&folder, &calls);
        let begin = events.iter().position(|event| *event != Event::Synced).unwrap();
        assert_eq!(events.split_off(begin), wanted(true));
    }
}

#[test]
fn no_sync_where_it_is_never() {
    if !can_trace() {
        return;
    }
    for is_there in [false, true] {
        let folder = Folder::new();
        if is_there {
            folder.write("day.journal", "");
        }
        let (ran, calls) = traced(&folder, &[], &["desk", "--sync", "never", "-j", "day.journal"], &input());
        assert_eq!((ran.status, ran.errors.as_str()), (1, ""));
        assert_eq!(events(&folder, &calls), wanted(false));
        assert!(!calls.iter().any(Call::is_sync), "{calls:#?}");
        let journal: Vec<&Call> = calls.iter().filter(|call| call.name == "openat" && call.told.contains("day.journal")).collect();
        assert!(!journal.is_empty() && !journal.iter().any(|call| call.told.contains("SYNC|") || call.told.contains("_SYNC,")), "{journal:#?}");
    }
}

/// A journal that is created is synced with its folder before the first answer.
#[test]
fn a_created_journal_is_synced_with_its_folder() {
    if !can_trace() {
        return;
    }
    let folder = Folder::new();
    let (ran, calls) = traced(&folder, &[], &["desk", "-j", "day.journal"], "day 18\n");
    ran.prints("booked 0 rows\n");
    let place = folder.path().canonicalize().unwrap();
    let of_folder = calls.iter().position(|call| call.is_sync() && call.is_on(place.to_str().unwrap()));
    let of_journal = calls.iter().position(|call| call.is_sync() && call.is_on(&journal_path(&folder)));
    let answer = calls.iter().position(Call::is_output).unwrap();
    assert!(of_folder.is_some_and(|place| place < answer) && of_journal.is_some_and(|place| place < answer), "{calls:#?}");
}

/// A line of any length is appended by one write.
#[test]
fn a_long_line_is_one_write() {
    if !can_trace() {
        return;
    }
    let folder = Folder::new();
    folder.write("day.journal", "T\t7\t1\t1\t1\t1000\t1\n");
    let line = format!("S\t7\t0\t1\t1{}\n", "\t1".repeat(1_000));
    let (ran, calls) = traced(&folder, &[], &["desk", "-j", "day.journal"], &line);
    ran.prints("booked 1001 rows\n");
    assert_eq!(folder.read("day.journal").lines().nth(1), Some(line.trim_end()));
    let events = events(&folder, &calls);
    assert!(matches!(&events[..], [Event::Synced, Event::Appended(_), Event::Synced, Event::Answered(_)]), "{events:?}");
}

/// A torn line is told before it is cut.
#[test]
fn a_torn_line_is_told_before_it_is_cut() {
    if !can_trace() {
        return;
    }
    let folder = Folder::new();
    folder.write("day.journal", "D\t1\nD\t");
    let (ran, calls) = traced(&folder, &[], &["desk", "-j", "day.journal", "--cut-torn-line"], "day 18\n");
    assert_eq!((ran.status, ran.output.as_str()), (0, "booked 0 rows\n"));
    let told = calls.iter().position(|call| call.is_write() && call.told.starts_with("2<")).unwrap();
    let cut = calls.iter().position(|call| call.name == "ftruncate").unwrap();
    let appended = calls.iter().position(|call| call.is_write() && call.is_on(&journal_path(&folder))).unwrap();
    assert!(told < cut && cut < appended, "{calls:#?}");
}

/// Nothing is written to a journal that is only read, or by requests that are refused.
#[test]
fn what_is_not_booked_writes_no_journal() {
    if !can_trace() {
        return;
    }
    let folder = Folder::new();
    folder.write("day.journal", "D\t1\n");
    for words in [&["show", "day.journal"][..], &["replay", "day.journal"], &["desk", "-j", "day.journal"]] {
        let (ran, calls) = traced(&folder, &[], words, "lineage 5\nnosuch\nday 1\nreport\n");
        assert!(ran.status <= 1 && !ran.output.is_empty(), "{}", ran.errors);
        assert!(!events(&folder, &calls).iter().any(|event| matches!(event, Event::Appended(_))));
    }
}

/// What another desk has left may not be synced yet, and a refusal rests on it too: it is synced before the first answer.
#[test]
fn what_is_in_the_journal_is_synced_before_an_answer() {
    if !can_trace() {
        return;
    }
    let folder = Folder::new();
    folder.write("day.journal", "D\t1\n");
    let (ran, calls) = traced(&folder, &[], &["desk", "-j", "day.journal"], "day 1\n");
    assert_eq!((ran.status, ran.output.as_str()), (1, "refused 3: a figure or a count is out of range\n"));
    let events = events(&folder, &calls);
    assert!(matches!(&events[..], [Event::Synced, Event::Answered(_)]), "{events:?}");
}
