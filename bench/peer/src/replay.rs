//! A journal's lines read from a text and booked one by one. The tables are tested once, and each byte of the text is read once.

use crate::days::{is_day, move_day};
use crate::give_up::{book_step, is_step, open_processes, Names};
use crate::table::{Positions, Processes, Records};
use crate::{book_merge, book_separation, book_trade, book_transfer, is_merge, is_separation, is_trade, is_transfer, open_positions, open_records};
use crate::{Refusal, Reply, Step, Trade};

/// The most digits that a figure in range has.
const MOST_DIGITS: usize = 13;

/// What a line asks for; it passes test 3.
enum Line<'a> {
    Trade(Trade),
    Separation([i64; 4], &'a [i64]),
    Transfer([i64; 5]),
    Merge([i64; 3], &'a [i64]),
    Step(Step, Names),
    Day(i64),
}

/// What is left of a text, and the list of the line that was read last.
struct Reader<'a> {
    rest: &'a [u8],
    list: Vec<i64>,
}

impl Reader<'_> {
    fn byte(&mut self) -> Option<u8> {
        let (&first, rest) = self.rest.split_first()?;
        self.rest = rest;
        Some(first)
    }

    fn expect(&mut self, byte: u8) -> Option<()> {
        (self.byte()? == byte).then_some(())
    }

    /// A number that begins with this byte: no leading zero, no minus zero. A digit too many is left in the rest.
    #[inline(always)]
    fn number(&mut self, first: u8) -> Option<i64> {
        let negative = first == b'-';
        let first = if negative { self.byte()? } else { first };
        if !first.is_ascii_digit() || (negative && first == b'0') {
            return None;
        }
        let mut value = i64::from(first - b'0');
        if value > 0 {
            for _ in 1..MOST_DIGITS {
                let [digit @ b'0'..=b'9', rest @ ..] = self.rest else { break };
                value = 10 * value + i64::from(digit - b'0');
                self.rest = rest;
            }
        }
        Some(if negative { -value } else { value })
    }

    /// A tab and a number.
    #[inline(always)]
    fn figure(&mut self) -> Option<i64> {
        self.expect(b'\t')?;
        let first = self.byte()?;
        self.number(first)
    }

    fn figures<const N: usize>(&mut self) -> Option<[i64; N]> {
        let mut figures = [0; N];
        for figure in &mut figures {
            *figure = self.figure()?;
        }
        Some(figures)
    }

    /// Figures as long as the line lasts, at most so many, and its newline.
    fn list(&mut self, most: usize) -> Option<()> {
        self.list.clear();
        loop {
            match self.byte()? {
                b'\n' => return Some(()),
                b'\t' if self.list.len() < most => {
                    let first = self.byte()?;
                    let figure = self.number(first)?;
                    self.list.push(figure);
                }
                _ => return None,
            }
        }
    }

    /// The next line, unless it is bad.
    fn line(&mut self) -> Option<Line<'_>> {
        match self.byte()? {
            b'T' => {
                let trade = self.figures()?;
                self.expect(b'\n')?;
                is_trade(&trade).then_some(Line::Trade(trade))
            }
            b'A' => {
                let names = self.figures()?;
                self.expect(b'\n')?;
                is_transfer(&names).then_some(Line::Transfer(names))
            }
            b'G' => {
                self.expect(b'\t')?;
                let step = Step::of_letter(self.byte()?)?;
                let names = self.figures()?;
                self.expect(b'\n')?;
                is_step(&names).then_some(Line::Step(step, names))
            }
            b'D' => {
                let [day] = self.figures()?;
                self.expect(b'\n')?;
                is_day(day).then_some(Line::Day(day))
            }
            b'S' => {
                let names = self.figures()?;
                self.list(1_000)?;
                is_separation(&names, &self.list).then_some(Line::Separation(names, &self.list))
            }
            b'M' => {
                let names = self.figures()?;
                self.list(2_000)?;
                is_merge(&names, &self.list).then_some(Line::Merge(names, &self.list))
            }
            _ => None,
        }
    }
}

/// Books the lines of a text, up to the first that is bad or refused.
pub fn replay(records: &mut [i64], positions: &mut [i64], processes: &mut [i64], text: &[u8]) -> Reply {
    let mut reader = Reader { rest: text, list: Vec::new() };
    let mut tables = (open_records(records), open_positions(positions), open_processes(processes));
    let mut lines = 0;
    while !reader.rest.is_empty() {
        lines += 1;
        let Some(line) = reader.line() else { return Reply::BadLine { line: lines } };
        if let Err(Refusal { number, place }) = book(&mut tables, &line) {
            return Reply::LineRefused { line: lines, number, place: place as i64 };
        }
    }
    Reply::Replayed { lines }
}

type Opened<T> = Result<T, Refusal>;

/// Tests 1 and 2, of a step 19 too, of a day 1 alone, were made when the tables were opened.
fn book(tables: &mut (Opened<Records>, Opened<Positions>, Opened<Processes>), line: &Line) -> Result<(), Refusal> {
    let (records, positions, processes) = tables;
    let records = records.as_mut().map_err(|refusal| *refusal)?;
    if let Line::Day(day) = line {
        return move_day(records.header, *day).map(|_| ());
    }
    let positions = positions.as_mut().map_err(|refusal| *refusal)?;
    match line {
        Line::Trade(trade) => book_trade(records, positions, trade).map(|_| ()),
        Line::Separation(names, parts) => book_separation(records, names, parts).map(|_| ()),
        Line::Transfer(names) => book_transfer(records, positions, names).map(|_| ()),
        Line::Merge(names, pairs) => book_merge(records, positions, names, pairs).map(|_| ()),
        Line::Step(step, names) => {
            let processes = processes.as_mut().map_err(|refusal| *refusal)?;
            book_step(*step, records, positions, processes, names).map(|_| ())
        }
        Line::Day(_) => unreachable!("it is booked above"),
    }
}
