//! `tree`: the records of one id from parent to children, a line a record, merges followed into the merged id.

mod common;

use common::generator::requests;
use common::tables::{names, parted, Rows};
use common::{lines, run, three_days, Folder, P11};
use std::collections::{BTreeMap, BTreeSet};

type Key = (i64, i64);

/// A record's parent and the id that it was merged into, 0 if none.
type Records = BTreeMap<Key, (i64, i64)>;

fn book(journal: &str) -> (Folder, Records) {
    let folder = Folder::new();
    folder.write("day.journal", journal);
    let rows: Rows = parted(run(&folder, &["show", "day.journal", "records", "--tsv"], "").done(), '\t', names("records"));
    (folder, rows.iter().map(|row| ((row[0], row[1]), (row[2], row[12]))).collect())
}

/// The first ID/SUFFIX of a line, and the column at which it begins.
fn named(line: &str) -> (usize, Key) {
    let word = line.split_whitespace().find(|word| word.split('/').count() == 2 && word.bytes().all(|byte| byte.is_ascii_digit() || byte == b'/'));
    let word = word.unwrap_or_else(|| panic!("no record in {line:?}"));
    let (id, suffix) = word.split_once('/').unwrap();
    (word.as_ptr() as usize - line.as_ptr() as usize, (id.parse().unwrap(), suffix.parse().unwrap()))
}

/// The lines of a tree: each record, and that of the line above it that it hangs on.
fn tree(folder: &Folder, id: i64) -> Vec<(Key, Option<Key>)> {
    let ran = run(folder, &["tree", "day.journal", &id.to_string()], "");
    let lines: Vec<(usize, Key)> = ran.done().lines().map(named).collect();
    let above = |place: usize| lines[..place].iter().rev().find(|(column, _)| *column < lines[place].0).map(|(_, key)| *key);
    (0..lines.len()).map(|place| (lines[place].1, above(place))).collect()
}

/// The ids of a tree: the one that is asked for, and those that its records were merged into, and theirs.
fn ids(records: &Records, id: i64) -> BTreeSet<i64> {
    let (mut found, mut open) = (BTreeSet::new(), vec![id]);
    while let Some(id) = open.pop() {
        if id != 0 && found.insert(id) {
            open.extend(records.range((id, 0)..=(id, 65_535)).map(|(_, (_, into))| *into));
        }
    }
    found
}

/// Every record of these ids stands once, below its parent; a merged one below an inverse that leads into it.
#[track_caller]
fn is_whole(folder: &Folder, records: &Records, id: i64) {
    let tree = tree(folder, id);
    let ids = ids(records, id);
    let wanted: Vec<Key> = records.keys().filter(|(id, _)| ids.contains(id)).copied().collect();
    let mut keys: Vec<Key> = tree.iter().map(|(key, _)| *key).collect();
    assert_eq!(keys[0], wanted.iter().find(|key| key.0 == id).copied().unwrap());
    keys.sort();
    assert_eq!(keys, wanted, "the tree of {id}");
    for (key, above) in &tree[1..] {
        let above = above.unwrap_or_else(|| panic!("{key:?} hangs on nothing"));
        if key.1 > 0 {
            assert_eq!(above, (key.0, records[key].0), "above {key:?}");
        } else {
            assert_eq!(records[&above].1, key.0, "above {key:?} is {above:?}");
        }
    }
}

#[test]
fn a_transfer_and_a_separation() {
    let (folder, records) = book(P11);
    is_whole(&folder, &records, 456_789);
    let id = 456_789;
    let on = |suffix, parent| ((id, suffix), Some((id, parent)));
    assert_eq!(tree(&folder, id), [((id, 0), None), on(1, 0), on(2, 0), on(3, 2), on(4, 2), on(5, 2), on(6, 2)]);
}

#[test]
fn three_days_of_002() {
    let (folder, records) = book(&three_days(3));
    is_whole(&folder, &records, 123_456);
    assert_eq!(tree(&folder, 123_456).len(), 27);
}

#[test]
fn a_merge_is_followed() {
    let (folder, records) = book(&(P11.to_string() + &lines(&["M 500 2 1 456789 4 456789 6"])));
    for id in [456_789, 500] {
        is_whole(&folder, &records, id);
    }
    let merged = tree(&folder, 456_789).into_iter().find(|(key, _)| *key == (500, 0)).unwrap();
    assert_eq!(merged.1, Some((456_789, 7)));
    assert_eq!(tree(&folder, 500), [((500, 0), None)]);
}

/// Two ids are merged, the merged one is separated, its parts are merged with others and once more.
#[test]
fn merges_of_merges() {
    let trades = ["T 1 1 1 1 10 100", "T 2 1 1 1 20 200", "T 3 1 1 1 30 300", "S 1 0 1 1 4 6"];
    let merges = ["M 50 1 1 1 2 2 0 1 3", "S 50 0 1 1 10 20", "M 60 1 1 50 2 3 0", "M 70 1 1 50 3 60 0", "A 70 0 1 2 1"];
    let (folder, records) = book(&lines(&[&trades[..], &merges].concat()));
    for id in [1, 2, 3, 50, 60, 70] {
        is_whole(&folder, &records, id);
    }
    assert_eq!(ids(&records, 1), BTreeSet::from([1, 50, 60, 70]));
    assert_eq!(ids(&records, 3), BTreeSet::from([3, 60, 70]));
    assert_eq!(tree(&folder, 70).len(), 3);
}

/// The trees of a long day.
#[test]
fn trees_of_a_long_day() {
    let day = requests(4, 3_000);
    let (folder, records) = book(&day.iter().filter(|one| one.booked).map(|one| one.line.as_str()).collect::<String>());
    let every: BTreeSet<i64> = records.keys().map(|key| key.0).collect();
    assert!(every.len() > 200);
    for id in every.iter().step_by(every.len() / 60) {
        is_whole(&folder, &records, *id);
    }
}

/// As long as the room allows: a record is transferred to and fro, and every merge takes in the one before.
#[test]
fn long_chains() {
    let hops: String = (0..2_047).map(|hop| common::line(&format!("A 7 {} {} {} 1", 2 * hop, 1 + hop % 2, 2 - hop % 2))).collect();
    let (folder, records) = book(&(common::line("T 7 1 1 1 5 9") + &hops));
    is_whole(&folder, &records, 7);
    assert_eq!(tree(&folder, 7).len(), 4_095);
    run(&folder, &["desk", "-j", "day.journal"], "lineage 7/4094\n").prints("original price 0.0000009, 2047 links\n");
    let step = |id: i64| lines(&[&format!("T {id} 1 1 1 1 9"), &format!("M {} 1 1 {} 0 {id} 0", 10_000 + id, if id == 2 { 1 } else { 9_999 + id })]);
    let (folder, records) = book(&(common::line("T 1 1 1 1 1 9") + &(2..=1_000).map(step).collect::<String>()));
    is_whole(&folder, &records, 1);
    is_whole(&folder, &records, 500);
}

#[test]
fn no_record_of_the_id() {
    let (folder, _) = book(P11);
    assert_eq!(run(&folder, &["tree", "day.journal", "5"], "").fails(1), "day.journal: no record of id 5");
    assert_eq!(run(&folder, &["tree", "-", "999999999"], P11).fails(1), "-: no record of id 999999999");
    assert_eq!(run(&folder, &["tree", "-", "1"], "").fails(1), "-: no record of id 1");
}

/// A line tells what the record is.
#[test]
fn lines_tell_the_record() {
    let (folder, _) = book(P11);
    let ran = run(&folder, &["tree", "day.journal", "456789"], "");
    let words = [["original", "adjusted"], ["transfer", "inverse"], ["transfer", "adjusted"], ["separation", "inverse"], ["separation", "adjustable"]];
    for (line, words) in ran.done().lines().zip(words) {
        for word in words {
            assert!(line.contains(word), "{line} has no {word}");
        }
    }
}
