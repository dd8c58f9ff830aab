//! Lines and journals that were changed at random: a desk answers every line once, and of a journal each subcommand says what the book's own replay
//! answers. VELICHUNDAM_SEED is the seed (another one each time).

mod common;

use common::generator::requests;
use common::rng::Rng;
use common::run::say;
use common::{run, Folder};
use std::time::{SystemTime, UNIX_EPOCH};
use velichundam::Reply;

fn rng() -> Rng {
    let seed = match std::env::var("VELICHUNDAM_SEED") {
        Ok(seed) => seed.parse().unwrap(),
        Err(_) => SystemTime::now().duration_since(UNIX_EPOCH).unwrap().as_nanos() as u64,
    };
    say(&format!("mutated: VELICHUNDAM_SEED={seed}"));
    Rng::new(seed)
}

/// Changes a text somewhere: a byte more, a byte less, or another byte.
fn change(rng: &mut Rng, text: &mut Vec<u8>) {
    let odd = [b'\t', b' ', b'\r', b'-', b'.', b'/', b'0', b'9', b'@', 0, 0x7f, 0xff, rng.next() as u8];
    let byte = odd[rng.place(odd.len())];
    let place = rng.place(text.len());
    match rng.within(0, 4) {
        0 => text.insert(place, byte),
        1 => drop(text.remove(place)),
        2 => text[place] = byte,
        3 => text[place] = b'0' + rng.within(0, 9) as u8,
        _ => text[place] ^= 1 << rng.within(0, 7),
    }
}

/// Lines of requests, most of them with a change or two, none of them blank, a comment, or in two pieces.
fn changed_lines(rng: &mut Rng) -> Vec<Vec<u8>> {
    let mut lines = Vec::new();
    for request in requests(rng.next(), 1_500) {
        let mut line = if rng.once_in(2) { request.words } else { request.line.trim_end().to_string() }.into_bytes();
        for _ in 0..rng.within(0, 2) {
            change(rng, &mut line);
        }
        let is_request = !line.contains(&b'\n') && !line.starts_with(b"#") && !line.iter().all(u8::is_ascii_whitespace);
        lines.extend(is_request.then_some(line));
    }
    lines
}

#[test]
fn every_line_is_answered_once() {
    let mut rng = rng();
    let folder = Folder::new();
    let lines = changed_lines(&mut rng);
    let input: Vec<u8> = lines.iter().flat_map(|line| [line, &b"\n"[..]].concat()).collect();
    let ran = run(&folder, &["desk", "-j", "day.journal", "--sync", "never"], input);
    assert_eq!((ran.status, ran.errors.as_str()), (1, ""));
    let answers: Vec<&str> = ran.output.lines().collect();
    for (line, answer) in lines.iter().zip(&answers) {
        let is_answer = ["booked ", "refused ", "bad: "].iter().any(|kind| answer.starts_with(kind));
        assert!(is_answer && answer.bytes().all(|byte| (32..127).contains(&byte)), "{:?} is answered {answer:?}", String::from_utf8_lossy(line));
    }
    assert_eq!(answers.len(), lines.len());
    let booked = answers.iter().filter(|answer| answer.starts_with("booked ")).count();
    assert!(booked > 100 && booked < lines.len() - 100, "{booked} of {}", lines.len());
    run(&folder, &["replay", "day.journal"], "").prints(&format!("{booked} lines booked\n"));
    let again = run(&folder, &["desk", "-j", "again.journal"], folder.read("day.journal"));
    assert!(again.done().lines().eq(answers.iter().copied().filter(|answer| answer.starts_with("booked "))));
    assert_eq!(folder.read("again.journal"), folder.read("day.journal"));
}

/// A day's journal with a few changes, lines that stand elsewhere or twice among them.
fn changed_journal(rng: &mut Rng, lines: &[String]) -> Vec<u8> {
    let mut lines = lines.to_vec();
    for _ in 0..rng.within(0, 2) {
        let (one, other) = (rng.place(lines.len()), rng.place(lines.len()));
        match rng.within(0, 2) {
            0 => lines.swap(one, other),
            1 => lines.insert(one, lines[other].clone()),
            _ => drop(lines.remove(one)),
        }
    }
    let mut journal = lines.concat().into_bytes();
    for _ in 0..rng.within(0, 2) {
        change(rng, &mut journal);
    }
    if rng.once_in(8) {
        journal.truncate(rng.place(journal.len()));
    }
    journal
}

/// What the book's own replay answers, in empty tables of the usual room.
fn replayed(journal: &[u8]) -> Reply {
    let records = &mut vec![0; velichundam::records_len(4_096)];
    let positions = &mut vec![0; velichundam::positions_len(1_024)];
    let processes = &mut vec![0; velichundam::processes_len(1_024)];
    velichundam::replay(records, positions, processes, journal)
}

/// What is said of a line that is not booked, up to the reason.
fn said(reply: Reply, journal: &[u8]) -> String {
    match reply {
        Reply::BadLine { line } => format!("day.journal:{line}: bad: "),
        Reply::LineRefused { line, number, place } => {
            let text = journal.split(|byte| *byte == b'\n').nth(line as usize - 1).unwrap();
            let has_place = text.starts_with(b"M") && ((5..=10).contains(&number) || number == 17);
            let at = if has_place { format!(" at source {place}") } else { String::new() };
            format!("day.journal:{line}: refused {number}{at} (")
        }
        _ => panic!("{reply:?}"),
    }
}

#[test]
fn journals_are_replayed_as_the_book_does() {
    let mut rng = rng();
    let (mut booked, mut bad, mut refused) = (0, 0, 0);
    let folder = Folder::new();
    for _ in 0..10 {
        let lines: Vec<String> = requests(rng.next(), 60).into_iter().filter(|one| one.booked).map(|one| one.line).collect();
        for _ in 0..25 {
            let journal = changed_journal(&mut rng, &lines);
            folder.write("day.journal", &journal);
            let ran = run(&folder, &["replay", "day.journal"], "");
            match replayed(&journal) {
                Reply::Replayed { lines: 1 } => ran.prints("1 line booked\n"),
                Reply::Replayed { lines } => ran.prints(&format!("{lines} lines booked\n")),
                reply => assert!(ran.fails(1).starts_with(&said(reply, &journal)), "{reply:?}: {}", ran.errors),
            }
            booked += i32::from(ran.status == 0);
            bad += i32::from(ran.errors.contains(": bad: "));
            refused += i32::from(ran.errors.contains(": refused "));
        }
    }
    assert!(booked > 0 && bad > 0 && refused > 0, "{booked} {bad} {refused}");
}
