//! One call on the book and on the model, compared in everything: the answer, every cell of the tables and of the lent output, the lists, the texts and the
//! memory around them.

use crate::coverage::Coverage;
use crate::day_situations;
use crate::days;
use crate::give_up_situations;
use crate::journal_situations;
use crate::lent::{note_call, Fence};
use crate::situations;
use crate::subject::{coded, lent_output, Coded, Outcome, Subject, Wrote};
use crate::tables::{first_differences, Tables};
use crate::totals::untruth;
use crate::totals_situations;
use model::{Answer, Reply, Request, Writing};

pub struct Checker {
    subject: Subject,
    pub coverage: Coverage,
    pub calls: u64,
    seed: u64,
    show: Option<u64>,
}

impl Checker {
    pub fn new(seed: u64, show: Option<u64>) -> Checker {
        Checker { subject: Subject::new(), coverage: Coverage::new(), calls: 0, seed, show }
    }

    /// Calls the book and the model. The tables become what the book left, which is what the model left. The first difference ends the run.
    pub fn call(&mut self, tables: &mut Tables, request: &Request) -> Answer {
        let fence = self.next_call();
        if self.show == Some(self.calls) {
            println!("call {}\n{}\n{}\n", self.calls, tables.print(), print_request(request));
        }
        let outcome = self.subject.call(tables, request, fence);
        let mut expected = tables.clone();
        let answer = model::handle(&mut expected.records, &mut expected.positions, &mut expected.processes, request);
        let output = expected_output(request, &answer);
        let same_cells = outcome.tables == expected && outcome.output == output;
        if !same_cells || outcome.answer != coded(answer.reply) || !outcome.guards_kept || !outcome.list_kept {
            self.fail(tables, request, &outcome, &answer, &expected);
        }
        self.coverage.answer(request, answer.reply);
        situations::note(&mut self.coverage, tables, &expected, request, &answer);
        give_up_situations::note(&mut self.coverage, tables, &expected, request, answer.reply);
        journal_situations::note(&mut self.coverage, tables, &expected, request, answer.reply);
        totals_situations::note(&mut self.coverage, tables, &expected, request, &answer);
        day_situations::note(&mut self.coverage, tables, &expected, request, &answer);
        self.compare_totals(tables, &outcome.tables, request);
        self.compare_days(tables, &outcome, request);
        *tables = expected;
        answer
    }

    /// What a call adds to the totals of the positions is what it changes in the sums over the records: "true ones stay true" (document 02, K7), and a foreign
    /// table's are as untrue afterwards as they were. The model has no part in this.
    fn compare_totals(&mut self, before: &Tables, after: &Tables, request: &Request) {
        if before.records == after.records && before.positions == after.positions {
            return;
        }
        let untrue = untruth(before);
        if untrue != untruth(after) {
            let (before, after) = (before.print(), after.print());
            self.fail_later(&format!("the totals and the sums over the records\n{before}\n{}\n\n{after}", print_request(request)));
        }
        self.coverage.situation(if untrue.is_empty() { "totals: true afterwards as before" } else { "totals: as untrue afterwards as before" });
    }

    /// The days of the records that the book left, and its list, against the cells before the call. The model has no part in this.
    fn compare_days(&mut self, before: &Tables, outcome: &Outcome, request: &Request) {
        let moves = matches!(request, Request::NewDay { .. } | Request::Replay { .. });
        if let Err(what) = days::kept(before, &outcome.tables, moves) {
            let after = outcome.tables.print();
            self.fail_later(&format!("{what}\n{}\n{}\n\n{after}", before.print(), print_request(request)));
        }
        if let (Request::Reportable { cells }, Coded { kind, first, .. }) = (request, outcome.answer) {
            let answered = match (kind, first) {
                (3, 1) => return,
                (9, records) => Ok(&outcome.output[..2 * records as usize]),
                (_, number) => Err(number),
            };
            if answered != days::list(before, *cells).as_deref().map_err(|number| *number) {
                self.fail_later(&format!("the list and the rows\n{}\n{}", before.print(), print_request(request)));
            }
            self.coverage.situation("list: as the rows say, by a plain scan");
        }
    }

    /// Counts a call, and says at which fence its slices lie.
    fn next_call(&mut self) -> Fence {
        self.calls += 1;
        note_call(self.calls);
        if self.calls & 1 == 0 {
            Fence::Before
        } else {
            Fence::After
        }
    }

    /// Calls the book and the model to write into a buffer of so many bytes: the answer, and what was written.
    pub fn write(&mut self, writing: &Writing, bytes: usize) -> (Reply, Vec<u8>) {
        let fence = self.next_call();
        if self.show == Some(self.calls) {
            println!("call {}\n{writing:?} into {bytes} bytes\n", self.calls);
        }
        // The buffer holds bytes that no line has.
        let buffer: Vec<u8> = (0..bytes).map(|k| 128 + (k % 127) as u8).collect();
        let outcome = self.subject.write(writing, &buffer, fence);
        let mut expected = buffer.clone();
        let reply = model::journal::write(writing, &mut expected);
        if outcome.text != expected || outcome.answer != coded(reply) || !outcome.guards_kept || !outcome.list_kept {
            self.fail_to_write(writing, &outcome, reply, &expected);
        }
        journal_situations::note_written(&mut self.coverage, writing, bytes, reply);
        if let Reply::Written { bytes } = reply {
            expected.truncate(bytes as usize);
        } else {
            expected.clear();
        }
        (reply, expected)
    }

    /// The answer of a call, without a look at the tables that it leaves.
    pub fn ask(&mut self, tables: &Tables, request: &Request) -> Answer {
        self.call(&mut tables.clone(), request)
    }

    fn fail(&self, before: &Tables, request: &Request, outcome: &Outcome, answer: &Answer, expected: &Tables) -> ! {
        println!("FAILED: the book and the model differ in call {} of seed {}", self.calls, self.seed);
        println!("\nTables before\n{}", before.print());
        println!("Request\n  {}\n", print_request(request));
        let reply = answer.reply;
        println!("Answers (kind, first, second, third)\n  book  {:?}\n  model {:?} = {reply:?}\n", numbers(outcome.answer), numbers(coded(reply)));
        println!("First differing cells");
        print!("{}", first_differences("records", &outcome.tables.records, &expected.records));
        print!("{}", first_differences("positions", &outcome.tables.positions, &expected.positions));
        print!("{}", first_differences("processes", &outcome.tables.processes, &expected.processes));
        print!("{}", first_differences("output", &outcome.output, &expected_output(request, answer)));
        print_kept(outcome.guards_kept, outcome.list_kept);
        std::process::exit(1)
    }

    fn fail_to_write(&self, writing: &Writing, outcome: &Wrote, reply: Reply, expected: &[u8]) -> ! {
        println!("FAILED: the book and the model differ in call {} of seed {}", self.calls, self.seed);
        println!("\nTo write, into {} bytes\n  {writing:?}\n", expected.len());
        println!("Answers (kind, first, second, third)\n  book  {:?}\n  model {:?} = {reply:?}\n", numbers(outcome.answer), numbers(coded(reply)));
        println!("Bytes afterwards\n  book  {}\n  model {}", outcome.text.escape_ascii(), expected.escape_ascii());
        print_kept(outcome.guards_kept, outcome.list_kept);
        std::process::exit(1)
    }

    /// Ends the run where a second run of the same requests differs from the first.
    pub fn fail_later(&self, text: &str) -> ! {
        println!("FAILED at call {} of seed {}: {text}", self.calls, self.seed);
        std::process::exit(1)
    }
}

/// "Cells of a lent output past what is written stay as they were."
fn expected_output(request: &Request, answer: &Answer) -> Vec<i64> {
    let mut cells = lent_output(request);
    cells[..answer.output.len()].copy_from_slice(&answer.output);
    cells
}

fn print_kept(guards_kept: bool, list_kept: bool) {
    if !guards_kept {
        println!("  a cell or a byte beside a lent slice was written");
    }
    if !list_kept {
        println!("  the lent list or text was written");
    }
}

/// A text is printed as text.
fn print_request(request: &Request) -> String {
    match request {
        Request::Replay { text } => format!("Replay of \"{}\"", text.escape_ascii()),
        _ => format!("{request:?}"),
    }
}

fn numbers(answer: Coded) -> (i64, i64, i64, i64) {
    (answer.kind, answer.first, answer.second, answer.third)
}
