//! Journals: drawn, damaged, and those of a history.

use crate::checker::Checker;
use crate::coverage::{DAY, STEPS};
use crate::draw::{self, ENDS};
use crate::journal_situations::booked_lines;
use crate::rng::Rng;
use crate::tables::Tables;
use model::journal::{letter_of, line_of, lines, lines_of};
use model::{Answer, Reply, Request, Writing};

/// A text of none to a few lines that fit the tables one after the other, now and then with one that is refused or bad, or damaged.
pub fn draw(rng: &mut Rng, tables: &Tables) -> Request {
    let (mut text, mut after) = (Vec::new(), tables.clone());
    for _ in 0..rng.pick(&[0, 1, 1, 2, 3, 4, 5, 8]) {
        let kind = rng.pick(&[0, 0, 0, 1, 2, 3, STEPS, STEPS, STEPS + 1, STEPS + 2, STEPS + 3, STEPS + 4, STEPS + 5, DAY, DAY]);
        let request = draw::request(rng, &after, kind);
        let reply = model::handle(&mut after.records, &mut after.positions, &mut after.processes, &request).reply;
        if !matches!(reply, Reply::Refused { .. }) || rng.percent(12) {
            text.extend(line_of(&request).expect("it has a line").bytes());
        }
    }
    if rng.percent(25) {
        let (which, _) = rng.pick(&DAMAGES);
        damage(rng, &mut text, which);
    }
    Request::Replay { text }
}

/// What may happen to a journal.
#[derive(Clone, Copy, PartialEq, Eq)]
pub enum Damage {
    ByteChanged,
    ByteDropped,
    ByteDoubled,
    ByteAbove127,
    CarriageReturn,
    LineDropped,
    LineDoubled,
    LinesSwapped,
    EmptyLine,
    NoFinalNewline,
    CutOff,
    OutOfRange,
    LeadingZero,
    Plus,
    MinusZero,
    DigitsBeyond,
    FigureTooMany,
    FigureTooFew,
    ManyFigures,
}

/// Each damage, and the situation that it is.
pub const DAMAGES: [(Damage, &str); 19] = [
    (Damage::ByteChanged, "damage: a byte changed"),
    (Damage::ByteDropped, "damage: a byte dropped"),
    (Damage::ByteDoubled, "damage: a byte doubled"),
    (Damage::ByteAbove127, "damage: a byte above 127"),
    (Damage::CarriageReturn, "damage: a carriage return"),
    (Damage::LineDropped, "damage: a line dropped"),
    (Damage::LineDoubled, "damage: a line doubled"),
    (Damage::LinesSwapped, "damage: two lines swapped"),
    (Damage::EmptyLine, "damage: an empty line"),
    (Damage::NoFinalNewline, "damage: no final newline"),
    (Damage::CutOff, "damage: cut off"),
    (Damage::OutOfRange, "damage: a figure out of range"),
    (Damage::LeadingZero, "damage: a leading zero"),
    (Damage::Plus, "damage: a plus"),
    (Damage::MinusZero, "damage: a minus zero"),
    (Damage::DigitsBeyond, "damage: digits beyond any range"),
    (Damage::FigureTooMany, "damage: a figure too many"),
    (Damage::FigureTooFew, "damage: a figure too few"),
    (Damage::ManyFigures, "damage: more figures than any line has"),
];

/// Damages a text that has a line.
pub fn damage(rng: &mut Rng, text: &mut Vec<u8>, damage: Damage) {
    if text.is_empty() {
        return;
    }
    let at = rng.below(text.len());
    match damage {
        Damage::ByteChanged => text[at] = any_byte(rng),
        Damage::ByteDropped => _ = text.remove(at),
        Damage::ByteDoubled => text.insert(at, text[at]),
        Damage::ByteAbove127 => text.insert(at, rng.between(128, 255) as u8),
        Damage::NoFinalNewline => text.truncate(text.len() - 1),
        Damage::CutOff => text.truncate(at),
        _ => damage_a_line(rng, text, damage),
    }
}

/// Any byte, mostly one that lines have or one like it.
fn any_byte(rng: &mut Rng) -> u8 {
    if rng.percent(30) {
        return rng.next() as u8;
    }
    rng.pick(b"0123456789-+.,eETSAMGOCXRDtg \t\t\t\n\n\r\x0b\x0c\x00\x80\xff")
}

fn damage_a_line(rng: &mut Rng, text: &mut Vec<u8>, damage: Damage) {
    let mut all: Vec<Vec<u8>> = lines(text).map(<[u8]>::to_vec).collect();
    let (k, other) = (rng.below(all.len()), rng.below(all.len()));
    let end = all[k].len() - usize::from(all[k].ends_with(b"\n"));
    match damage {
        Damage::CarriageReturn => all[k].insert(end, b'\r'),
        Damage::LineDropped => _ = all.remove(k),
        Damage::LineDoubled => all.insert(other, all[k].clone()),
        Damage::LinesSwapped => all.swap(k, other),
        Damage::EmptyLine => all.insert(k, b"\n".to_vec()),
        Damage::FigureTooMany => _ = all[k].splice(end..end, format!("\t{}", rng.pick(&ENDS)).into_bytes()),
        Damage::ManyFigures => _ = all[k].splice(end..end, "\t1".repeat(1_990 + rng.below(40)).into_bytes()),
        _ => damage_a_figure(rng, &mut all[k], damage),
    }
    *text = all.concat();
}

fn damage_a_figure(rng: &mut Rng, line: &mut Vec<u8>, damage: Damage) {
    let mut fields: Vec<Vec<u8>> = line.strip_suffix(b"\n").unwrap_or(line).split(|byte| *byte == b'\t').map(<[u8]>::to_vec).collect();
    let k = rng.below(fields.len());
    let figure = fields.remove(k);
    let before = |sign: &[u8]| [sign, &figure].concat();
    let spelled = match damage {
        Damage::OutOfRange => Some(rng.pick(&ENDS).to_string().into_bytes()),
        Damage::LeadingZero => Some(before(if rng.percent(80) { b"0" } else { b"00000000000000000000" })),
        Damage::Plus => Some(before(b"+")),
        Damage::MinusZero => Some(if rng.percent(70) { b"-0".to_vec() } else { before(b"-") }),
        Damage::DigitsBeyond => Some(beyond(rng, &figure)),
        _ => None,
    };
    fields.splice(k..k, spelled);
    *line = [fields.join(&b'\t'), b"\n".to_vec()].concat();
}

/// Digits that no figure has: so many more, or the figure and a power of two, which a machine's number would lose.
fn beyond(rng: &mut Rng, figure: &[u8]) -> Vec<u8> {
    let value: i128 = std::str::from_utf8(figure).ok().and_then(|figure| figure.parse().ok()).unwrap_or(5);
    match rng.below(4) {
        0 => [figure, b"0".repeat(1 + rng.below(30)).as_slice()].concat(),
        1 => [b"9".repeat(1 + rng.below(30)).as_slice(), figure].concat(),
        2 => (value + (1 << rng.pick(&[32, 53, 63, 64, 65, 100]))).to_string().into_bytes(),
        _ => (value - (1 << rng.pick(&[32, 53, 63, 64, 65, 100]))).to_string().into_bytes(),
    }
}

/// What a host adds to its journal after a call: the lines of what was booked, written by the book.
pub fn journalled(checker: &mut Checker, rng: &mut Rng, request: &Request, answer: &Answer) -> Vec<u8> {
    let writing = match (request, answer.reply) {
        (_, Reply::Refused { .. } | Reply::Lineage { .. } | Reply::Listed { .. } | Reply::Stopped { booked: 0, .. }) => return Vec::new(),
        (Request::Trades { figures, .. }, _) => {
            Writing::Of(Request::Trades { figures: figures[..6 * answer.output.len()].to_vec(), cells: answer.output.len() })
        }
        (Request::Replay { text }, reply) => return lines(text).take(booked_lines(reply) as usize).collect::<Vec<_>>().concat(),
        (&Request::GiveUp { step, process, id, suffix, giving, taking, series }, _) => {
            Writing::Step(letter_of(step), [process, id, suffix, giving, taking, series])
        }
        _ => Writing::Of(request.clone()),
    };
    let needed = lines_of(&writing).expect("it was booked").len();
    if rng.percent(10) {
        checker.write(&writing, rng.below(needed));
    }
    let (reply, written) = checker.write(&writing, needed + rng.pick(&[0, 0, 1, 2, 50]));
    assert_eq!(reply, Reply::Written { bytes: needed as i64 }, "what was booked passes test 3: {writing:?}");
    written
}
