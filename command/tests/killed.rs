//! The desk is killed at random moments while requests stream in, and started again. What it had answered is in the journal, in order, with at most
//! the one request more that it was at; the journal has at most one torn line, its last; and in the end it is that of a desk which nobody disturbed.
//!
//! VELICHUNDAM_KILLS says how often (100), VELICHUNDAM_SEED by which seed (another one each time).

mod common;

use common::generator::{requests, Request};
use common::rng::Rng;
use common::run::{number, say, BINARY};
use common::{run, Folder};
use std::io::{BufRead, BufReader, ErrorKind, Read, Write};
use std::process::{Child, ChildStdin, ChildStdout, Command, Stdio};
use std::sync::mpsc::{channel, Receiver};
use std::thread::{self, JoinHandle};
use std::time::{Duration, Instant, SystemTime, UNIX_EPOCH};

#[derive(Default)]
struct Counts {
    kills: u64,
    before_an_answer: u64,
    answered: u64,
    booked_unanswered: u64,
    torn: u64,
    torn_here: u64,
    journals: u64,
}

#[test]
fn killed_at_random_moments() {
    let asked = |name: &str| std::env::var(name).ok().map(|number| number.parse().unwrap_or_else(|_| panic!("{name}: {number:?} is no number")));
    let kills = asked("VELICHUNDAM_KILLS").unwrap_or(100);
    let seed = asked("VELICHUNDAM_SEED").unwrap_or_else(|| SystemTime::now().duration_since(UNIX_EPOCH).unwrap().as_nanos() as u64);
    say(&format!("killed: {kills} kills, VELICHUNDAM_SEED={seed}"));
    let mut rng = Rng::new(seed);
    let mut counts = Counts::default();
    let mut client = Client::new(&mut rng);
    for _ in 0..kills {
        if client.has_ended() {
            client.finish(&mut counts);
            client = Client::new(&mut rng);
        }
        client.round(&mut rng, &mut counts);
    }
    client.finish(&mut counts);
    let Counts { kills, before_an_answer, answered, booked_unanswered, torn, torn_here, journals } = counts;
    say(&format!(
        "killed: {kills} kills, {before_an_answer} of them before an answer; {answered} requests answered, {booked_unanswered} booked without an answer"
    ));
    say(&format!("killed: {torn} lines torn by a kill, {torn_here} by the test; {journals} journals"));
}

/// A client that hands in the requests of one book, each until it has an answer.
struct Client {
    folder: Folder,
    day: Vec<Request>,
    /// The first request without an answer.
    next: usize,
    /// Whether that request is in the journal, so that it is refused when it is handed in again.
    is_booked: bool,
    /// Whether the journal ends in a torn line.
    is_torn: bool,
}

impl Client {
    fn new(rng: &mut Rng) -> Client {
        Client { folder: Folder::new(), day: requests(rng.next(), 5_000), next: 0, is_booked: false, is_torn: false }
    }

    fn has_ended(&self) -> bool {
        self.next == self.day.len()
    }

    /// Starts a desk, streams requests to it, kills it, and looks at what it left.
    fn round(&mut self, rng: &mut Rng, counts: &mut Counts) {
        let mut desk = self.desk();
        let feeder = feed(desk.stdin.take().unwrap(), self.stream(rng));
        let answers = answers_of(desk.stdout.take().unwrap());
        let mut given = Vec::new();
        wait_for_the_moment(rng, self.day.len() - self.next, &answers, &mut given);
        desk.kill().unwrap();
        let status = number(desk.wait().unwrap());
        given.extend(answers.iter());
        drop(feeder.join().unwrap());
        let mut errors = String::new();
        desk.stderr.take().unwrap().read_to_string(&mut errors).unwrap();
        assert_eq!(status, -9, "the desk ended by itself: {errors}");
        counts.kills += 1;
        counts.before_an_answer += u64::from(given.is_empty());
        counts.answered += given.len() as u64;
        self.check_errors(&errors);
        self.check_answers(&given);
        self.check_journal(counts);
        self.tear(rng, counts);
    }

    /// Tears the line of a request that is booked without an answer, now and then, as a machine does that loses its power.
    fn tear(&mut self, rng: &mut Rng, counts: &mut Counts) {
        if !self.is_booked || !rng.once_in(3) {
            return;
        }
        self.is_booked = false;
        let left = rng.place(self.day[self.next].line.len());
        let length = self.booked().concat().len() + left;
        let journal = std::fs::File::options().write(true).open(self.folder.file("day.journal")).unwrap();
        journal.set_len(length as u64).unwrap();
        self.is_torn = left > 0;
        counts.torn_here += u64::from(self.is_torn);
    }

    fn desk(&self) -> Child {
        let words = ["desk", "-j", "day.journal", "--sync", "every", "--cut-torn-line"];
        let mut command = Command::new(BINARY);
        command.current_dir(self.folder.path()).args(words).stdin(Stdio::piped()).stdout(Stdio::piped()).stderr(Stdio::piped());
        command.spawn().unwrap()
    }

    /// All requests from the first without an answer on, some in words and some in the journal's form.
    fn stream(&self, rng: &mut Rng) -> Vec<u8> {
        let mut stream = String::new();
        for request in &self.day[self.next..] {
            if rng.once_in(3) {
                stream += &request.line;
            } else {
                stream += &request.words;
                stream.push('\n');
            }
        }
        stream.into_bytes()
    }

    /// Nothing is said but of a torn line that is cut.
    fn check_errors(&self, errors: &str) {
        let lines = self.booked().len();
        let is_cut = self.is_torn && errors.starts_with(&format!("velichundam: day.journal:{}: ", lines + 1)) && errors.lines().count() == 1;
        assert!(errors.is_empty() || is_cut, "{errors}");
    }

    /// Each answer is that of its request; one that was booked before is refused.
    fn check_answers(&mut self, given: &[String]) {
        for answer in given {
            let request = &self.day[self.next];
            let wanted = if self.is_booked { request.again } else { &request.answer };
            assert_eq!(answer, wanted, "to {}", request.words);
            self.is_booked = false;
            self.next += 1;
        }
    }

    /// The lines that the journal has to have: those of the requests that were answered, and of the next one where it was seen to be booked.
    fn booked(&self) -> Vec<&str> {
        let known = &self.day[..self.next + usize::from(self.is_booked)];
        known.iter().filter(|request| request.booked).map(|request| request.line.as_str()).collect()
    }

    /// The journal has the lines of what was answered, and perhaps that of the next request, whole or torn.
    fn check_journal(&mut self, counts: &mut Counts) {
        let journal = if self.folder.has("day.journal") { self.folder.read("day.journal") } else { String::new() };
        let rest = match journal.strip_prefix(&self.booked().concat()) {
            Some(rest) => rest,
            None => panic!("an answered request is not in the journal: {:?} and not {:?}", journal.lines().last(), self.booked().last()),
        };
        let was_torn = std::mem::replace(&mut self.is_torn, false);
        if rest.is_empty() {
            return;
        }
        let request = self.day.get(self.next).filter(|request| request.booked && !self.is_booked);
        let line = request.map(|request| request.line.as_str()).unwrap_or_default();
        assert!(line.starts_with(rest), "{rest:?} is in the journal after what was answered, not {line:?}");
        self.is_booked = line == rest;
        self.is_torn = line != rest;
        counts.booked_unanswered += u64::from(self.is_booked);
        counts.torn += u64::from(self.is_torn && !was_torn);
    }

    /// The journal replays whole, and gives the book of a desk that nobody disturbed.
    fn finish(&mut self, counts: &mut Counts) {
        counts.journals += 1;
        let ran = run(&self.folder, &["desk", "-j", "day.journal", "--cut-torn-line"], "");
        assert_eq!((ran.status, ran.output.as_str(), ran.errors.is_empty()), (0, "", !self.is_torn));
        let booked = self.booked();
        assert_eq!(self.folder.read("day.journal"), booked.concat());
        let lines = if booked.len() == 1 { "line" } else { "lines" };
        run(&self.folder, &["replay", "day.journal"], "").prints(&format!("{} {lines} booked\n", booked.len()));
        let known = &self.day[..self.next + usize::from(self.is_booked)];
        let accepted: String = known.iter().filter(|request| request.booked).map(|request| format!("{}\n", request.words)).collect();
        let ran = run(&self.folder, &["desk", "-j", "undisturbed.journal", "--sync", "never"], accepted);
        assert_eq!(ran.done().lines().count(), booked.len());
        run(&self.folder, &["diff", "day.journal", "undisturbed.journal"], "").prints("");
        for table in ["records", "positions", "processes"] {
            let of = |journal| run(&self.folder, &["show", journal, table, "--tsv"], "").done().to_string();
            assert_eq!(of("day.journal"), of("undisturbed.journal"));
        }
    }
}

/// Writes the stream until the desk is gone; the input is handed back, so that it stays open till then.
fn feed(mut input: ChildStdin, stream: Vec<u8>) -> JoinHandle<ChildStdin> {
    thread::spawn(move || match input.write_all(&stream) {
        Err(error) if error.kind() != ErrorKind::BrokenPipe => panic!("{error}"),
        _ => input,
    })
}

/// The answers as they come, whole lines alone.
fn answers_of(output: ChildStdout) -> Receiver<String> {
    let (sender, answers) = channel();
    thread::spawn(move || {
        let mut output = BufReader::new(output);
        let mut line = String::new();
        while output.read_line(&mut line).is_ok_and(|length| length > 0) {
            if let Some(answer) = line.strip_suffix('\n') {
                sender.send(answer.to_string()).unwrap();
            }
            line.clear();
        }
    });
    answers
}

/// Waits for a random moment: soon after the start, or some time after a random number of answers.
fn wait_for_the_moment(rng: &mut Rng, left: usize, answers: &Receiver<String>, given: &mut Vec<String>) {
    let at_the_start = rng.once_in(4);
    let (wanted, micros) = if at_the_start { (0, rng.within(0, 6_000)) } else { (rng.within(0, 120) as usize, rng.within(0, 600)) };
    given.extend(answers.iter().take(wanted.min(left)));
    let begun = Instant::now();
    while begun.elapsed() < Duration::from_micros(micros as u64) {
        std::hint::spin_loop();
    }
}
