//! A line of the desk in words: what it asks for, or why it is bad. Figures are handed on as they are, whatever their range: that is for the book to test.

use crate::decimals::{units, whole};
use crate::fields;
use crate::output::quoted;
use crate::request::{Request, STEPS};
use crate::tables::View;
use crate::usage;
use std::ffi::OsString;
use std::os::unix::ffi::OsStringExt;

/// What a line of the desk asks for.
#[derive(Debug)]
pub enum Line {
    Nothing,
    Request(Request),
    Report,
    Show(View),
    Help,
    Quit,
}

/// What a line asks for, its newline taken off. One with a tab in it is in the journal's form.
pub fn taken(line: &[u8]) -> Result<Line, String> {
    if line.first() == Some(&b'#') || line.iter().all(|byte| matches!(byte, b' ' | b'\t')) {
        return Ok(Line::Nothing);
    }
    if line.contains(&b'\t') {
        return fields::request_of(line).map(Line::Request);
    }
    if line.contains(&b'\r') {
        return Err("a carriage return".into());
    }
    let mut words = Words(line.split(|byte| *byte == b' ').filter(|word| !word.is_empty()).collect::<Vec<_>>().into_iter());
    let asked = words.asked()?;
    words.end()?;
    Ok(asked)
}

/// The words of a line that are not yet taken.
struct Words<'a>(std::vec::IntoIter<&'a [u8]>);

impl<'a> Words<'a> {
    fn asked(&mut self) -> Result<Line, String> {
        let request = match self.next("a request")? {
            b"trade" => self.trade()?,
            b"separate" => self.separation()?,
            b"transfer" => self.transfer()?,
            b"merge" => self.merge()?,
            b"give-up" => self.give_up()?,
            b"day" => Request::Day(self.number("day")?),
            b"lineage" => Request::Lineage(self.record()?),
            b"report" => return Ok(Line::Report),
            b"show" => return self.show(),
            b"help" => return Ok(Line::Help),
            b"quit" => return Ok(Line::Quit),
            other => return Err(format!("{} is no request; help lists them", quoted(other))),
        };
        Ok(Line::Request(request))
    }

    /// trade ID account A series S buy|sell open|close QUANTITY @ PRICE
    fn trade(&mut self) -> Result<Request, String> {
        let id = self.number("id")?;
        let (account, series) = self.account_and_series()?;
        let buy = self.one_of(["buy", "sell"])? == "buy";
        let open = self.one_of(["open", "close"])? == "open";
        let side = if open { 1 } else { 3 } + if buy { 0 } else { 1 };
        let quantity = self.number("quantity")?;
        self.word("@")?;
        let price = units(self.next("price")?).map_err(|why| format!("price: {why}"))?;
        Ok(Request::Trade([id, account, series, side, quantity, price]))
    }

    /// separate ID/SUFFIX account A series S into PART PART ..
    fn separation(&mut self) -> Result<Request, String> {
        let [id, suffix] = self.record()?;
        let (account, series) = self.account_and_series()?;
        self.word("into")?;
        let mut parts = Vec::new();
        while !self.0.as_slice().is_empty() {
            parts.push(self.number("part")?);
        }
        Ok(Request::Separation([id, suffix, account, series], parts))
    }

    /// transfer ID/SUFFIX account A to B series S
    fn transfer(&mut self) -> Result<Request, String> {
        let [id, suffix] = self.record()?;
        let (from, to, series) = self.accounts_and_series()?;
        Ok(Request::Transfer([id, suffix, from, to, series]))
    }

    /// merge ID account A series S from ID/SUFFIX ID/SUFFIX ..
    fn merge(&mut self) -> Result<Request, String> {
        let id = self.number("id")?;
        let (account, series) = self.account_and_series()?;
        self.word("from")?;
        let mut pairs = Vec::new();
        while !self.0.as_slice().is_empty() {
            pairs.extend(self.record()?);
        }
        Ok(Request::Merge([id, account, series], pairs))
    }

    /// give-up PROCESS STEP ID/SUFFIX account A to B series S
    fn give_up(&mut self) -> Result<Request, String> {
        let process = self.number("process")?;
        let name = self.one_of(STEPS.map(|(name, _)| name))?;
        let (_, step) = STEPS.into_iter().find(|(other, _)| *other == name).expect("it is one of them");
        let [id, suffix] = self.record()?;
        let (giving, taking, series) = self.accounts_and_series()?;
        Ok(Request::GiveUp(step, [process, id, suffix, giving, taking, series]))
    }

    /// show, with what the subcommand takes after its journal
    fn show(&mut self) -> Result<Line, String> {
        let words = self.0.by_ref().map(|word| OsString::from_vec(word.to_vec()));
        usage::view_of_words(words).map(Line::Show)
    }

    fn account_and_series(&mut self) -> Result<(i64, i64), String> {
        self.word("account")?;
        let account = self.number("account")?;
        self.word("series")?;
        Ok((account, self.number("series")?))
    }

    fn accounts_and_series(&mut self) -> Result<(i64, i64, i64), String> {
        self.word("account")?;
        let from = self.number("account")?;
        self.word("to")?;
        let to = self.number("account")?;
        self.word("series")?;
        Ok((from, to, self.number("series")?))
    }

    fn next(&mut self, wanted: &str) -> Result<&'a [u8], String> {
        self.0.next().ok_or_else(|| format!("{wanted} is missing at the end of the line"))
    }

    fn word(&mut self, wanted: &str) -> Result<(), String> {
        self.one_of([wanted]).map(|_| ())
    }

    fn one_of<'w, const N: usize>(&mut self, wanted: [&'w str; N]) -> Result<&'w str, String> {
        let all = wanted.join(" or ");
        let word = self.next(&all)?;
        wanted.into_iter().find(|one| one.as_bytes() == word).ok_or_else(|| format!("{} in the place of {all}", quoted(word)))
    }

    fn number(&mut self, name: &str) -> Result<i64, String> {
        whole(self.next(name)?).map_err(|why| format!("{name}: {why}"))
    }

    /// ID/SUFFIX, or ID for its suffix 0
    fn record(&mut self) -> Result<[i64; 2], String> {
        let word = self.next("id/suffix")?;
        let (id, suffix) = match word.iter().position(|byte| *byte == b'/') {
            Some(slash) => (&word[..slash], &word[slash + 1..]),
            None => (word, &b"0"[..]),
        };
        Ok([whole(id).map_err(|why| format!("id: {why}"))?, whole(suffix).map_err(|why| format!("suffix: {why}"))?])
    }

    fn end(&mut self) -> Result<(), String> {
        match self.0.next() {
            Some(word) => Err(format!("{} stands after the end of the request", quoted(word))),
            None => Ok(()),
        }
    }
}
