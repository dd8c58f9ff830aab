//! Document 02, K5: "Journal and replay", with the days of K8. A line is read by the plainest means and counts only where the request that it names is written as just this line.

use crate::books::Books;
use crate::requests::{book, Refusal, Reply, Request, Step};
use crate::{batch, handle};

/// "step O open, C claim, X cancel, R refuse, G giver's, T taker's approval"
const LETTERS: [(char, Step); 6] =
    [('O', Step::Open), ('C', Step::Claim), ('X', Step::Cancel), ('R', Step::Refuse), ('G', Step::ApproveGiver), ('T', Step::ApproveTaker)];

/// The number of a step's letter.
pub fn letter_of(step: Step) -> i64 {
    i64::from(u32::from(LETTERS.into_iter().find(|(_, named)| *named == step).expect("each step has a letter").0))
}

/// The step whose letter has this number.
fn step_of(letter: i64) -> Option<Step> {
    LETTERS.into_iter().find(|(_, step)| letter_of(*step) == letter).map(|(_, step)| step)
}

/// What a writing call is asked for, with any figures: a request, or a step of a give-up by the number of its letter and what it names, which are process,
/// id, suffix, giving, taking and series.
#[derive(Clone, Debug, PartialEq, Eq)]
pub enum Writing {
    Of(Request),
    Step(i64, [i64; 6]),
}

/// "The writing call answers the length written; a request failing test 3 is refused 3, then a short buffer 14." The buffer is left as it was by a refusal,
/// and past what is written.
pub fn write(writing: &Writing, text: &mut [u8]) -> Reply {
    let Some(journal) = lines_of(writing) else { return Reply::Refused { number: 3, place: 0 } };
    match text.get_mut(..journal.len()) {
        Some(written) => {
            written.copy_from_slice(journal.as_bytes());
            Reply::Written { bytes: journal.len() as i64 }
        }
        None => Reply::Refused { number: 14, place: 0 },
    }
}

/// The lines of what passes test 3; "a batch as its booked trades".
pub fn lines_of(writing: &Writing) -> Option<String> {
    match writing {
        Writing::Of(Request::Trades { figures, .. }) => {
            let trades = batch::trades_of(figures)?;
            trades.iter().map(|trade| line_of(trade).filter(|_| passes_test_3(trade))).collect()
        }
        Writing::Of(request) => line_of(request).filter(|_| passes_test_3(request)),
        Writing::Step(letter, names) => {
            let [process, id, suffix, giving, taking, series] = *names;
            let step = step_of(*letter)?;
            lines_of(&Writing::Of(Request::GiveUp { step, process, id, suffix, giving, taking, series }))
        }
    }
}

/// On books without a row or room: 3 is the first of the tests there. Their day is 0, so of a day "its range alone is test 3" (K8).
fn passes_test_3(request: &Request) -> bool {
    !matches!(book(&mut Books::default(), request), Err(Refusal { number: 3, .. }))
}

/// "fields parted by tabs, ended by a newline". What changes no table has no line; a batch and a text have those of their requests.
pub fn line_of(request: &Request) -> Option<String> {
    let (letters, figures, list): (String, Vec<i64>, &[i64]) = match request {
        Request::Trade { id, account, series, side, quantity, price } => ("T".into(), vec![*id, *account, *series, *side, *quantity, *price], &[]),
        Request::Separate { id, suffix, account, series, parts } => ("S".into(), vec![*id, *suffix, *account, *series], parts),
        Request::Transfer { id, suffix, from, to, series } => ("A".into(), vec![*id, *suffix, *from, *to, *series], &[]),
        Request::Merge { id, account, series, pairs } => ("M".into(), vec![*id, *account, *series], pairs),
        Request::GiveUp { step, process, id, suffix, giving, taking, series } => {
            let letter = letter_of(*step) as u8 as char;
            (format!("G\t{letter}"), vec![*process, *id, *suffix, *giving, *taking, *series], &[])
        }
        // K8: "Journals gain a line D day"
        Request::NewDay { day } => ("D".into(), vec![*day], &[]),
        Request::Lineage { .. } | Request::Trades { .. } | Request::Reportable { .. } | Request::Replay { .. } => return None,
    };
    let fields: Vec<String> = std::iter::once(letters).chain(figures.iter().chain(list).map(i64::to_string)).collect();
    Some(fields.join("\t") + "\n")
}

/// "The reader accepts exactly the lines so written of requests that pass test 3". The line comes with its newline.
pub fn request_of(line: &[u8]) -> Option<Request> {
    let text = std::str::from_utf8(line).ok()?;
    let request = named_by(&text.split_whitespace().collect::<Vec<&str>>())?;
    (lines_of(&Writing::Of(request.clone())).as_deref() == Some(text)).then_some(request)
}

/// The request that the fields name, however they are spelled and parted.
fn named_by(fields: &[&str]) -> Option<Request> {
    let (letter, fields) = fields.split_first()?;
    let (step, fields) = match (*letter, fields) {
        ("G", [step, fields @ ..]) => (LETTERS.into_iter().find(|(letter, _)| letter.to_string() == *step), fields),
        (_, fields) => (None, fields),
    };
    let figures: Vec<i64> = fields.iter().map(|field| field.parse().ok()).collect::<Option<_>>()?;
    match (*letter, figures.as_slice()) {
        ("T", &[id, account, series, side, quantity, price]) => Some(Request::Trade { id, account, series, side, quantity, price }),
        ("S", &[id, suffix, account, series, ref parts @ ..]) => Some(Request::Separate { id, suffix, account, series, parts: parts.to_vec() }),
        ("A", &[id, suffix, from, to, series]) => Some(Request::Transfer { id, suffix, from, to, series }),
        ("M", &[id, account, series, ref pairs @ ..]) => Some(Request::Merge { id, account, series, pairs: pairs.to_vec() }),
        ("D", &[day]) => Some(Request::NewDay { day }),
        ("G", &[process, id, suffix, giving, taking, series]) => Some(Request::GiveUp { step: step?.1, process, id, suffix, giving, taking, series }),
        _ => None,
    }
}

/// The lines of a text, each with its newline; the last may lack it.
pub fn lines(text: &[u8]) -> impl Iterator<Item = &[u8]> {
    text.split_inclusive(|byte| *byte == b'\n')
}

/// Each line is read and handed in like any other request, up to the first that is bad or refused: the reader "names the first line, from 1, that is bad, or
/// refused with its number; those before stay booked".
pub fn replay(records: &mut [i64], positions: &mut [i64], processes: &mut [i64], text: &[u8]) -> Reply {
    let mut booked = 0;
    for line in lines(text) {
        let Some(request) = request_of(line) else { return Reply::BadLine { line: booked + 1 } };
        if let Reply::Refused { number, place } = handle(records, positions, processes, &request).reply {
            return Reply::LineRefused { line: booked + 1, number, place };
        }
        booked += 1;
    }
    Reply::Replayed { lines: booked }
}
