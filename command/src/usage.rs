//! What the command is asked to do: its words, tested before any file is opened.

use crate::book::Rooms;
use crate::decimals::whole;
use crate::desk::Desk;
use crate::failure::{named, Failure};
use crate::fields::{account, outside, Figure, ID, SERIES};
use crate::help;
use crate::tables::{Format, Table, View};
use std::ffi::{OsStr, OsString};
use std::os::unix::ffi::OsStrExt;

/// What is asked for.
pub enum Order {
    Desk(Desk),
    Replay(OsString, Rooms),
    Show(OsString, View),
    Report(OsString, Format),
    Tree(OsString, i64),
    Diff(OsString, OsString),
    Say(String),
}

/// An option's name, and whether a value follows it.
type Known = (&'static str, bool);

const FORMATS: [(&str, Format); 3] = [("--tsv", Format::Tsv), ("--csv", Format::Csv), ("--json", Format::Json)];
const FORMAT: [Known; 3] = [("--tsv", false), ("--csv", false), ("--json", false)];
const ROOM: Known = ("--room", true);
const DESK: [Known; 5] = [("-j", true), ROOM, ("--tsv", false), ("--cut-torn-line", false), ("--sync", true)];
const SHOW: [Known; 6] = [("--id", true), ("--account", true), ("--series", true), FORMAT[0], FORMAT[1], FORMAT[2]];

/// The words of a subcommand, its options taken out.
struct Given {
    plain: Vec<OsString>,
    options: Vec<(&'static str, OsString)>,
    help: bool,
}

/// A subcommand: its name, the options that it knows, and what it makes of its words.
type Subcommand = (&'static str, &'static [Known], fn(&Given) -> Result<Order, String>);

const SUBCOMMANDS: [Subcommand; 6] =
    [("desk", &DESK, desk), ("replay", &[ROOM], replay), ("show", &SHOW, show), ("report", &FORMAT, report), ("tree", &[], tree), ("diff", &[], diff)];

pub fn order(mut words: impl Iterator<Item = OsString>) -> Result<Order, Failure> {
    const LISTED: &str = "'velichundam --help' lists them";
    let first = words.next().ok_or_else(|| Failure::usage(format!("no subcommand; {LISTED}")))?;
    match first.to_str() {
        Some("--help" | "-h") => return Ok(Order::Say(help::COMMAND.into())),
        Some("--version" | "-V") => return Ok(Order::Say(help::version())),
        _ => {}
    }
    let subcommand = SUBCOMMANDS.iter().find(|(name, ..)| first == *name);
    let (name, known, order) = subcommand.ok_or_else(|| Failure::usage(format!("{}: no such subcommand; {LISTED}", named(&first))))?;
    let given = Given::of(words, known).map_err(|why| misused(name, &why))?;
    if given.help {
        return Ok(Order::Say(help::of(name)));
    }
    order(&given).map_err(|why| misused(name, &why))
}

fn misused(subcommand: &str, why: &str) -> Failure {
    Failure::usage(format!("{subcommand}: {why}; 'velichundam {subcommand} --help' says how"))
}

/// What the desk's `show` is followed by: the subcommand's words after the journal.
pub fn view_of_words(words: impl Iterator<Item = OsString>) -> Result<View, String> {
    let given = Given::of(words, &SHOW)?;
    if given.help {
        return Err("show --help: help lists the requests".into());
    }
    given.view(&given.plain)
}

fn desk(given: &Given) -> Result<Order, String> {
    let file = given.at_most_one("file")?;
    let journal = given.value("-j").map(OsStr::to_os_string);
    if journal.as_deref() == Some(OsStr::new("-")) {
        return Err("-j: the input is no journal to append to".into());
    }
    let sync = match given.value("--sync").map(|value| value.to_string_lossy()).as_deref() {
        None | Some("every") => true,
        Some("never") => false,
        Some(other) => return Err(format!("--sync: {} is neither every nor never", named(OsStr::new(other)))),
    };
    Ok(Order::Desk(Desk { journal, file, rooms: given.rooms()?, numbers: given.has("--tsv"), cut: given.has("--cut-torn-line"), sync }))
}

fn replay(given: &Given) -> Result<Order, String> {
    Ok(Order::Replay(given.exactly(["a journal"])?[0].clone(), given.rooms()?))
}

fn show(given: &Given) -> Result<Order, String> {
    let (journal, rest) = given.plain.split_first().ok_or("a journal is missing")?;
    Ok(Order::Show(journal.clone(), given.view(rest)?))
}

fn report(given: &Given) -> Result<Order, String> {
    Ok(Order::Report(given.exactly(["a journal"])?[0].clone(), given.format()?))
}

fn tree(given: &Given) -> Result<Order, String> {
    let [journal, id] = given.exactly(["a journal", "an id"])?;
    Ok(Order::Tree(journal.clone(), figure("id", id, ID)?))
}

fn diff(given: &Given) -> Result<Order, String> {
    let [first, second] = given.exactly(["a journal", "another journal"])?;
    if first == "-" && second == "-" {
        return Err("the input is one journal, not two".into());
    }
    Ok(Order::Diff(first.clone(), second.clone()))
}

impl Given {
    /// Takes the options out of the words. After `--` there are none.
    fn of(mut words: impl Iterator<Item = OsString>, known: &[Known]) -> Result<Given, String> {
        let mut given = Given { plain: Vec::new(), options: Vec::new(), help: false };
        while let Some(word) = words.next() {
            let text = word.to_string_lossy();
            match &*text {
                "--" => given.plain.extend(words.by_ref()),
                "--help" | "-h" => given.help = true,
                "-" => given.plain.push(word),
                option if option.starts_with('-') => given.option(&word, known, &mut words)?,
                _ => given.plain.push(word),
            }
        }
        Ok(given)
    }

    fn option(&mut self, word: &OsStr, known: &[Known], words: &mut impl Iterator<Item = OsString>) -> Result<(), String> {
        let bytes = word.as_bytes();
        for (name, takes) in known {
            let Some(rest) = bytes.strip_prefix(name.as_bytes()) else { continue };
            let long = name.starts_with("--");
            let value = match (takes, rest) {
                (false, []) => OsString::new(),
                (true, []) => words.next().ok_or_else(|| format!("{name} wants a value"))?,
                (true, [b'=', value @ ..]) if long => OsStr::from_bytes(value).to_os_string(),
                (true, value) if !long => OsStr::from_bytes(value).to_os_string(),
                _ => continue,
            };
            if *takes && self.has(name) {
                return Err(format!("{name} is given twice"));
            }
            self.options.push((name, value));
            return Ok(());
        }
        Err(format!("{}: no such option", named(word)))
    }

    /// The value of an option.
    fn value(&self, name: &str) -> Option<&OsStr> {
        self.options.iter().find(|(other, _)| *other == name).map(|(_, value)| value.as_os_str())
    }

    fn has(&self, name: &str) -> bool {
        self.value(name).is_some()
    }

    fn at_most_one(&self, what: &str) -> Result<Option<OsString>, String> {
        match self.plain.as_slice() {
            [] => Ok(None),
            [one] => Ok(Some(one.clone())),
            [_, more, ..] => Err(format!("{}: more than one {what}", named(more))),
        }
    }

    fn exactly<const N: usize>(&self, wanted: [&str; N]) -> Result<&[OsString; N], String> {
        let count = self.plain.len();
        self.plain.as_slice().try_into().map_err(|_| match wanted.get(count) {
            Some(missing) => format!("{missing} is missing"),
            None => format!("{}: one word too many", named(&self.plain[N])),
        })
    }

    fn rooms(&self) -> Result<Rooms, String> {
        let Some(value) = self.value("--room") else { return Ok(Rooms::MOST) };
        let wrong = || format!("--room: {} is not R,P,G: 0 to 4,096 records, 0 to 1,024 positions, 0 to 1,024 processes", named(value));
        let text = value.to_str().ok_or_else(wrong)?;
        let rooms: Vec<usize> = text.split(',').map(room).collect::<Option<_>>().ok_or_else(wrong)?;
        let rooms: [usize; 3] = rooms.try_into().map_err(|_| wrong())?;
        let fits = rooms.iter().zip(Rooms::MOST.0).all(|(room, most)| *room <= most);
        if fits {
            Ok(Rooms(rooms))
        } else {
            Err(wrong())
        }
    }

    fn format(&self) -> Result<Format, String> {
        let mut formats = FORMATS.into_iter().filter(|(name, _)| self.has(name));
        let format = formats.next();
        match (format, formats.next()) {
            (None, _) => Ok(Format::Words),
            (Some((_, format)), None) => Ok(format),
            (Some((one, _)), Some((other, _))) => Err(format!("{one} and {other} don't go together")),
        }
    }

    /// The view that the words after a journal ask for.
    fn view(&self, plain: &[OsString]) -> Result<View, String> {
        let table = match plain {
            [] => None,
            [name] => Some(Table::ALL.into_iter().find(|table| name == table.name()).ok_or_else(|| format!("{}: no such table", named(name)))?),
            [_, more, ..] => return Err(format!("{}: one word too many", named(more))),
        };
        let view = View {
            table,
            id: self.filter("--id", ID)?,
            account: self.filter("--account", account("account"))?,
            series: self.filter("--series", SERIES)?,
            format: self.format()?,
        };
        match table {
            None if view.format != Format::Words => Err("--tsv, --csv and --json want a table's name".into()),
            Some(Table::Positions) if view.id.is_some() => Err("--id: positions have no id".into()),
            _ => Ok(view),
        }
    }

    fn filter(&self, name: &str, range: Figure) -> Result<Option<i64>, String> {
        self.value(name).map(|value| figure(name, value, range)).transpose()
    }
}

fn room(text: &str) -> Option<usize> {
    text.bytes().all(|byte| byte.is_ascii_digit()).then(|| text.parse().ok()).flatten()
}

/// A figure in its range, as it is typed.
fn figure(name: &str, value: &OsStr, (_, least, most): Figure) -> Result<i64, String> {
    match whole(value.as_bytes()) {
        Ok(number) if (least..=most).contains(&number) => Ok(number),
        Ok(_) => Err(format!("{name}: {}", outside(value.as_bytes(), least, most))),
        Err(why) => Err(format!("{name}: {why}")),
    }
}
