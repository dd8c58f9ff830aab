//! The desk: reads requests, one a line, and answers each before it reads the next.

use crate::answers::{in_numbers, in_words, is_booked};
use crate::book::{Book, Rooms};
use crate::failure::{named, Failure, REFUSED};
use crate::help;
use crate::output::say;
use crate::request::Request;
use crate::standard;
use crate::store::Store;
use crate::tables::{shown, Format, Table, View};
use crate::words::{self, Line};
use std::ffi::{OsStr, OsString};
use std::fs::File;
use std::io::{self, BufRead, BufReader, IsTerminal, Read, StdinLock};

/// What a desk is asked to do.
pub struct Desk {
    pub journal: Option<OsString>,
    pub file: Option<OsString>,
    pub rooms: Rooms,
    /// answers in numbers
    pub numbers: bool,
    pub cut: bool,
    pub sync: bool,
}

/// The longest line that is read.
const MOST_BYTES: usize = 65_536;
const EISDIR: i32 = 21;

/// Runs a desk to the end of its input, and gives its status. The input is opened first: where that fails, no journal is made.
pub fn run(desk: &Desk) -> Result<u8, Failure> {
    let file = desk.file.as_deref().filter(|file| *file != "-");
    let name = file.map_or("input".to_string(), named);
    let source = source(file).map_err(|error| Failure::io(&name, &error))?;
    let (store, book) = opened(desk)?;
    if let (Some(store), Source::File(file)) = (&store, &source) {
        if store.is(file) {
            return Err(Failure::file(&name, "is the journal itself"));
        }
    }
    let mut session = Session { book, store, numbers: desk.numbers, status: 0 };
    match source {
        Source::File(file) => session.read(&name, BufReader::new(file), false)?,
        Source::Input(input) => session.read(&name, input, io::stdin().is_terminal())?,
    }
    Ok(session.status)
}

/// Where the lines come from.
enum Source {
    File(File),
    Input(StdinLock<'static>),
}

fn source(file: Option<&OsStr>) -> io::Result<Source> {
    let Some(file) = file else { return standard::input().map(Source::Input) };
    let file = File::open(file)?;
    if file.metadata()?.is_dir() {
        return Err(io::Error::from_raw_os_error(EISDIR));
    }
    Ok(Source::File(file))
}

/// The journal, where there is one, and the book that it ends with. A torn last line is dropped where that is asked for and the lines before it are booked.
fn opened(desk: &Desk) -> Result<(Option<Store>, Book), Failure> {
    let Some(journal) = &desk.journal else { return Ok((None, Book::empty(desk.rooms))) };
    let (mut store, mut text) = Store::open(journal, desk.sync)?;
    let torn = text.take_torn();
    if let (Some((line, _)), false) = (&torn, desk.cut) {
        let why = "bad: no newline at the end; a crash has torn the line, and --cut-torn-line drops it";
        return Err(Failure::file(&format!("{}:{line}", text.name), why));
    }
    let (_, book) = text.booked(desk.rooms)?;
    if let Some((line, torn)) = torn {
        store.drop_line(line, &torn)?;
    }
    Ok((Some(store), book))
}

struct Session {
    book: Book,
    store: Option<Store>,
    numbers: bool,
    status: u8,
}

impl Session {
    /// Answers line after line.
    fn read(&mut self, name: &str, mut input: impl BufRead, terminal: bool) -> Result<(), Failure> {
        if terminal {
            say(&help::banner())?;
        }
        let mut line = Vec::new();
        loop {
            if terminal {
                say("velichundam> ")?;
            }
            let asked = match next_line(&mut input, &mut line).map_err(|error| Failure::io(name, &error))? {
                Next::End => return if terminal { say("\n") } else { Ok(()) },
                Next::TooLong => Err(format!("longer than {} bytes", crate::decimals::grouped(MOST_BYTES as i64))),
                Next::Line => words::taken(&line),
            };
            match asked {
                Ok(Line::Nothing) => {}
                Ok(Line::Quit) => return Ok(()),
                Ok(asked) => say(&self.answer(asked)?)?,
                Err(why) => say(&self.bad(&why))?,
            }
        }
    }

    fn answer(&mut self, asked: Line) -> Result<String, Failure> {
        Ok(match asked {
            Line::Request(request) => self.hand_in(&request)?,
            Line::Report => self.report(),
            Line::Show(view) => self.show(view),
            _ => help::DESK.to_string(),
        })
    }

    /// Hands a request in. What was booked is in the journal before it is answered.
    fn hand_in(&mut self, request: &Request) -> Result<String, Failure> {
        let reply = request.call(&mut self.book);
        if let (true, Some(store)) = (is_booked(reply), &mut self.store) {
            store.append(&request.line().expect("what is booked passes test 3"))?;
        }
        if reply.refusal().is_some() {
            self.status = REFUSED;
        }
        Ok(if self.numbers { in_numbers(reply) } else { in_words(request, reply) } + "\n")
    }

    fn report(&mut self) -> String {
        let (rows, numbers) = (self.book.reportable(), self.numbers);
        match rows {
            Ok(rows) if numbers => format!("9\t{}\t0\t0\n{}", rows.len(), Table::Records.printed(&rows, Format::Tsv)),
            Ok(rows) => Table::Records.printed(&rows, Format::Words),
            Err(refusal) => {
                self.status = REFUSED;
                if numbers {
                    format!("3\t{}\t0\t0\n", refusal.0)
                } else {
                    format!("refused {}: {refusal}\n", refusal.0)
                }
            }
        }
    }

    fn show(&mut self, mut view: View) -> String {
        if self.numbers && view.format == Format::Words {
            view.format = Format::Tsv;
        }
        if view.table.is_none() && view.format != Format::Words {
            return self.bad("show with --tsv wants a table's name");
        }
        shown(&self.book, &view)
    }

    fn bad(&mut self, why: &str) -> String {
        self.status = REFUSED;
        if self.numbers {
            format!("bad\t{why}\n")
        } else {
            format!("bad: {why}\n")
        }
    }
}

enum Next {
    Line,
    TooLong,
    End,
}

/// Reads a line, without its newline. The last one may lack it.
fn next_line(input: &mut impl BufRead, line: &mut Vec<u8>) -> io::Result<Next> {
    line.clear();
    let read = input.by_ref().take(MOST_BYTES as u64 + 1).read_until(b'\n', line)?;
    if read == 0 {
        return Ok(Next::End);
    }
    if line.last() == Some(&b'\n') {
        line.pop();
    } else if line.len() > MOST_BYTES {
        input.skip_until(b'\n')?;
        return Ok(Next::TooLong);
    }
    Ok(Next::Line)
}
