//! A day's bookings kept on the disk: by the desk in its journal, as a process, and by SQLite in a file of the same folder.
//!
//! The desk is given the requests as lines of a journal, in a file or one by one, each after the answer to the one before. Its time is from its start to its
//! end, less that of a desk that is asked nothing; SQLite's is that of its transactions, without the opening of its file.

use crate::day::Day;
use crate::disk::Folder;
use crate::request::{line_by_hand, Coded, Entry, Request, WRITTEN};
use crate::sqlite::{SqlBook, Synchronous};
use crate::stats::{spread, Spread};
use std::fs::{read, read_to_string, write, File};
use std::io::{BufRead, BufReader, Read, Write};
use std::path::PathBuf;
use std::process::{Child, ChildStdin, ChildStdout, Command, Stdio};
use std::time::Instant;
use velichundam::{positions_len, records_len, POSITIONS_HEADER, RECORDS_HEADER};

const JOURNAL: &str = "day.journal";

#[derive(Clone, Copy, Debug, PartialEq, Eq)]
pub enum Sync {
    Every,
    Never,
}

impl Sync {
    pub fn word(self) -> &'static str {
        match self {
            Sync::Every => "every",
            Sync::Never => "never",
        }
    }

    fn synchronous(self) -> Synchronous {
        match self {
            Sync::Every => Synchronous::Full,
            Sync::Never => Synchronous::Off,
        }
    }
}

/// Requests a second.
pub struct Line {
    pub desk: Spread,
    pub sqlite: Option<Spread>,
    /// The same lines by this program, which keeps no book and gives no answers.
    pub no_book: Spread,
}

pub struct Lines {
    pub sync: Sync,
    pub from_file: Line,
    pub dialogue: Line,
    /// Seconds, of a desk that is asked nothing.
    pub start: f64,
}

/// A way to keep the day on the disk: the seconds that a run takes.
type Way = fn(&Bench, Sync) -> Option<f64>;
const WAYS: [Way; 6] = [Bench::by_file, Bench::appended, Bench::dialogue, Bench::echoed, Bench::sqlite, Bench::start];

pub struct Bench {
    command: PathBuf,
    folder: Folder,
    /// Without its questions of lineage, which change nothing and have no line.
    day: Day,
    lines: Vec<Vec<u8>>,
    answers: String,
}

impl Bench {
    pub fn new(command: PathBuf) -> Bench {
        let day = Day::new(1).bookings();
        let lines = day.requests.iter().map(line_of).collect();
        let answers = day.answers.iter().map(|Coded { kind, first, second, third }| format!("{kind}\t{first}\t{second}\t{third}\n")).collect();
        Bench { command, folder: Folder::new(), day, lines, answers }
    }

    pub fn requests(&self) -> usize {
        self.lines.len()
    }

    pub fn file_system(&self) -> String {
        self.folder.file_system()
    }

    /// The ways take turns, and each goes first in turn.
    pub fn measure(&self, days: usize) -> [Lines; 2] {
        let mut runs = [const { [const { Vec::new() }; WAYS.len()] }; 2];
        for k in 0..days {
            for (sync, runs) in [Sync::Every, Sync::Never].into_iter().zip(&mut runs) {
                for way in (0..WAYS.len()).map(|way| (way + k) % WAYS.len()) {
                    self.folder.clear();
                    runs[way].extend(WAYS[way](self, sync));
                }
            }
        }
        let [every, never] = runs;
        [self.of_runs(Sync::Every, every), self.of_runs(Sync::Never, never)]
    }

    fn of_runs(&self, sync: Sync, [from_file, appended, dialogue, echoed, sqlite, start]: [Vec<f64>; WAYS.len()]) -> Lines {
        let start = spread(start).median;
        let rates = |seconds: Vec<f64>, less: f64| spread(seconds.into_iter().map(|time| self.requests() as f64 / (time - less)).collect());
        let sqlite = (!sqlite.is_empty()).then(|| rates(sqlite, 0.0));
        Lines {
            sync,
            from_file: Line { desk: rates(from_file, start), sqlite, no_book: rates(appended, 0.0) },
            dialogue: Line { desk: rates(dialogue, start), sqlite, no_book: rates(echoed, 0.0) },
            start,
        }
    }

    /// The requests lie in a file, and the answers go to a file.
    fn by_file(&self, sync: Sync) -> Option<f64> {
        let (requests, answers) = (self.folder.path("requests"), self.folder.path("answers"));
        write(&requests, self.lines.concat()).expect("the requests are written");
        let output = File::create_new(&answers).expect("the file for the answers is made");
        let began = Instant::now();
        self.finish(self.started(self.desk(sync).arg(requests).stdout(output)));
        let time = began.elapsed().as_secs_f64();
        self.check_desk(&read_to_string(answers).expect("the answers are read"));
        Some(time)
    }

    fn dialogue(&self, sync: Sync) -> Option<f64> {
        let mut answers = String::with_capacity(self.answers.len());
        let began = Instant::now();
        let mut desk = self.started(self.desk(sync).stdin(Stdio::piped()).stdout(Stdio::piped()));
        let (mut input, mut output) = pipes(&mut desk);
        for line in &self.lines {
            input.write_all(line).expect("a request is written");
            output.read_line(&mut answers).expect("an answer is read");
        }
        drop(input);
        output.read_to_string(&mut answers).expect("the end is read");
        self.finish(desk);
        let time = began.elapsed().as_secs_f64();
        self.check_desk(&answers);
        Some(time)
    }

    /// A desk that is asked nothing.
    fn start(&self, sync: Sync) -> Option<f64> {
        let began = Instant::now();
        self.finish(self.started(&mut self.desk(sync)));
        let time = began.elapsed().as_secs_f64();
        assert_eq!(read(self.folder.path(JOURNAL)).expect("there is a journal"), [], "the journal of a desk that is asked nothing");
        Some(time)
    }

    /// The lines are appended to a file, and synced.
    fn appended(&self, sync: Sync) -> Option<f64> {
        let mut file = self.journal();
        let began = Instant::now();
        for line in &self.lines {
            append(&mut file, line, sync);
        }
        Some(began.elapsed().as_secs_f64())
    }

    /// Each line goes through two pipes, to cat and back, and is then appended to a file, and synced.
    fn echoed(&self, sync: Sync) -> Option<f64> {
        let mut file = self.journal();
        let mut cat = Command::new("cat").stdin(Stdio::piped()).stdout(Stdio::piped()).spawn().expect("cat starts");
        let (mut input, mut output) = pipes(&mut cat);
        let mut line_back = Vec::new();
        let mut echo = |line: &[u8]| {
            line_back.clear();
            input.write_all(line).expect("a line is written");
            output.read_until(b'\n', &mut line_back).expect("a line is read");
            assert_eq!(line_back, line, "cat's answer");
        };
        echo(b"\n");
        let began = Instant::now();
        for line in &self.lines {
            echo(line);
            append(&mut file, line, sync);
        }
        let time = began.elapsed().as_secs_f64();
        drop(input);
        self.finish(cat);
        Some(time)
    }

    /// A transaction for each request.
    fn sqlite(&self, sync: Sync) -> Option<f64> {
        let file = self.folder.path("book.sqlite");
        let mut book = SqlBook::open_file(&file, sync.synchronous())?;
        let mut answers = Vec::with_capacity(self.requests());
        let began = Instant::now();
        for request in &self.day.requests {
            answers.push(book.handle(request));
        }
        let time = began.elapsed().as_secs_f64();
        assert!(answers == self.day.answers, "SQLite gave other answers");
        drop(book);
        let (records, positions) = SqlBook::reopen(&file)?.cells();
        assert!(self.day.records[..records_len(self.day.records[0] as usize)] == records, "SQLite's file ended with other records");
        assert!(self.day.positions[..positions_len(self.day.positions[0] as usize)] == positions, "SQLite's file ended with other positions");
        Some(time)
    }

    fn journal(&self) -> File {
        File::create_new(self.folder.path(JOURNAL)).expect("the journal is made")
    }

    /// The command of a desk on the journal; without further words its input is empty.
    fn desk(&self, sync: Sync) -> Command {
        let mut command = Command::new(&self.command);
        command.args(["desk", "--tsv", "--sync", sync.word(), "-j"]).arg(self.folder.path(JOURNAL)).stdin(Stdio::null());
        command
    }

    fn started(&self, command: &mut Command) -> Child {
        command.spawn().unwrap_or_else(|error| panic!("{}: {error}", self.command.display()))
    }

    fn finish(&self, mut process: Child) {
        let status = process.wait().expect("the process ends");
        assert!(status.success(), "it ended with {status}");
    }

    /// The desk gave the day's answers, and its journal has the day's lines and ends with the day's rows.
    fn check_desk(&self, answers: &str) {
        for ((given, due), request) in answers.lines().zip(self.answers.lines()).zip(&self.day.requests) {
            assert_eq!(given, due, "the desk's answer to {request:?}");
        }
        assert!(answers == self.answers, "the desk gave {} answers to {} requests", answers.lines().count(), self.requests());
        let journal = read(self.folder.path(JOURNAL)).expect("the journal is read");
        assert!(journal == self.lines.concat(), "the journal has other lines");
        let (records, positions) = (&self.day.records, &self.day.positions);
        assert!(self.shown("records") == records[RECORDS_HEADER..records_len(records[0] as usize)], "the desk ended with other records");
        assert!(self.shown("positions") == positions[POSITIONS_HEADER..positions_len(positions[0] as usize)], "the desk ended with other positions");
        assert!(self.shown("processes").is_empty(), "the desk ended with processes");
    }

    /// The cells of a table that the journal ends with.
    fn shown(&self, table: &str) -> Vec<i64> {
        let output = Command::new(&self.command).arg("show").arg(self.folder.path(JOURNAL)).args([table, "--tsv"]).output().expect("the command starts");
        assert!(output.status.success(), "show {table}: {output:?}");
        let text = String::from_utf8(output.stdout).expect("it is text");
        let cells = text.lines().skip(1).flat_map(|row| row.split('\t'));
        cells.map(|cell| cell.parse().unwrap_or_else(|_| panic!("show {table}: {cell:?} is no number"))).collect()
    }
}

fn pipes(process: &mut Child) -> (ChildStdin, BufReader<ChildStdout>) {
    let input = process.stdin.take().expect("its input is piped");
    let output = process.stdout.take().expect("its output is piped");
    (input, BufReader::new(output))
}

fn append(file: &mut File, line: &[u8], sync: Sync) {
    file.write_all(line).expect("a line is written");
    if sync == Sync::Every {
        file.sync_data().expect("a line is synced");
    }
}

fn line_of(request: &Request) -> Vec<u8> {
    let mut text = vec![0; 200];
    let answer = line_by_hand(&mut text, &Entry::Request(request.clone()));
    assert!(answer.kind == WRITTEN, "{request:?}");
    text.truncate(answer.first as usize);
    text
}
