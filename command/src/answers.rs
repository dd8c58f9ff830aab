//! Answers, in words for a person and in numbers for a script.

use crate::decimals::decimal;
use crate::request::Request;
use velichundam::c::Coded;
use velichundam::{Refusal, Reply};

/// Whether a request with this answer was accepted and changed a table.
pub fn is_booked(reply: Reply) -> bool {
    matches!(reply, Reply::Booked { .. } | Reply::ClosingError { .. })
}

/// The answer to a request, in words.
pub fn in_words(request: &Request, reply: Reply) -> String {
    match reply {
        Reply::Booked { rows, residual: 0 } => format!("booked {}", counted(rows, "row")),
        Reply::Booked { rows, residual } => format!("booked {}, residual {}", counted(rows, "row"), decimal(residual)),
        Reply::ClosingError { excess } => format!("booked with closing error, excess {excess}"),
        Reply::Lineage { price, links } => format!("original price {}, {}", decimal(price), counted(links, "link")),
        Reply::Refused { number, place } => {
            format!("refused {number}{}: {}", at_source(matches!(request, Request::Merge(..)), number, place), Refusal(number))
        }
        other => unreachable!("no request is answered {other:?}"),
    }
}

/// The answer's kind and its three numbers.
pub fn in_numbers(reply: Reply) -> String {
    let Coded { kind, first, second, third } = reply.into();
    format!("{kind}\t{first}\t{second}\t{third}")
}

/// Which source of a merge is refused: 5 to 10 and 17 are tested source by source.
pub fn at_source(merge: bool, number: i64, place: i64) -> String {
    match number {
        5..=10 | 17 if merge => format!(" at source {place}"),
        _ => String::new(),
    }
}

/// So many of them: `1 row`, `3 rows`.
pub fn counted(number: i64, what: &str) -> String {
    format!("{number} {what}{}", if number == 1 { "" } else { "s" })
}
