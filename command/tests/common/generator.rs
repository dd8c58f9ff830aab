//! Requests that a seed determines, good and refused ones, each with the answer that the rules give it after those before it. They begin on an
//! empty book and end when it is nearly full.

#[path = "generator/book.rs"]
mod book;
#[path = "generator/good.rs"]
mod good;
#[path = "generator/refused.rs"]
mod refused;

use book::Book;

/// A request with its answer.
pub struct Request {
    /// As a person types it.
    pub words: String,
    /// As a journal has it, with its newline. A desk takes this form too.
    pub line: String,
    pub answer: String,
    /// Whether it is accepted; every accepted one of these changes a table.
    pub booked: bool,
    /// What is answered if it is handed in once more after it was booked.
    pub again: &'static str,
}

/// The requests of a whole book, at most so many.
pub fn requests(seed: u64, most: usize) -> Vec<Request> {
    let mut book = Book::new(seed);
    let mut made = Vec::new();
    while made.len() < most && !book.nearly_full() {
        let request = if book.rng.once_in(6) { refused::any(&mut book) } else { good::any(&mut book) };
        made.extend(request);
    }
    made
}

/// A request from its words and the fields of its line, with its answer.
fn request(words: String, fields: String, answer: String, again: &'static str) -> Request {
    let booked = answer.starts_with("booked");
    Request { words, line: super::line(&fields), answer, booked, again }
}

/// The answer of a booked request.
fn booked(rows: usize, residual: i64) -> String {
    let rows = if rows == 1 { "booked 1 row".to_string() } else { format!("booked {rows} rows") };
    match residual {
        0 => rows,
        _ => format!("{rows}, residual {}", super::tables::decimal(residual)),
    }
}
