//! Which answers were seen, for each kind of request, and which special situations; a run that misses a possible one fails.

use crate::day_situations::{DAY_LINE_SITUATIONS, DAY_SITUATIONS};
use crate::give_up_situations::GIVE_UP_SITUATIONS;
use crate::journal_situations::JOURNAL_SITUATIONS;
use crate::totals_situations::TOTALS_SITUATIONS;
use model::{Reply, Request};
use std::collections::{BTreeMap, BTreeSet};

/// The kinds of request, and last the calls that write a request's line.
pub const KINDS: [&str; 16] = [
    "trade",
    "separation",
    "transfer",
    "merge",
    "lineage",
    "batch",
    "open",
    "claim",
    "cancel",
    "refuse",
    "giver's",
    "taker's",
    "day",
    "list",
    "replay",
    "writing",
];

/// The first of the six steps of a give-up among the kinds.
pub const STEPS: usize = 6;
pub const LINEAGE_KIND: usize = 4;
pub const DAY: usize = 12;
pub const LIST: usize = 13;
pub const REPLAY: usize = 14;
const WRITING: usize = 15;

/// 0 to 14, in the order of `KINDS`.
pub fn kind_of(request: &Request) -> usize {
    match request {
        Request::Trade { .. } => 0,
        Request::Separate { .. } => 1,
        Request::Transfer { .. } => 2,
        Request::Merge { .. } => 3,
        Request::Lineage { .. } => 4,
        Request::Trades { .. } => 5,
        Request::GiveUp { step, .. } => STEPS + *step as usize,
        Request::NewDay { .. } => DAY,
        Request::Reportable { .. } => LIST,
        Request::Replay { .. } => REPLAY,
    }
}

/// Columns 1 to 23 are the refusals; then booked, booked without a row, closing error, lineage, listed; then the stops, by the number of the refusal; then written,
/// replayed and bad line; then the refused lines, by the number of the refusal.
const REFUSALS: usize = 23;
pub const BOOKED: usize = 24;
pub const NO_ROW: usize = 25;
pub const CLOSING_ERROR: usize = 26;
pub const LINEAGE: usize = 27;
const LISTED: usize = 28;
const STOPPED: usize = 29;
const WRITTEN: usize = STOPPED + REFUSALS + 1;
const REPLAYED: usize = WRITTEN + 1;
const BAD_LINE: usize = WRITTEN + 2;
const LINE_REFUSED: usize = WRITTEN + 3;
const COLUMNS: usize = LINE_REFUSED + REFUSALS + 1;

fn refusal_column(number: i64) -> usize {
    number.clamp(1, REFUSALS as i64) as usize
}

pub fn column_of(reply: Reply) -> usize {
    match reply {
        Reply::Refused { number, .. } => refusal_column(number),
        Reply::Booked { rows: 0, .. } => NO_ROW,
        Reply::Booked { .. } => BOOKED,
        Reply::ClosingError { .. } => CLOSING_ERROR,
        Reply::Lineage { .. } => LINEAGE,
        Reply::Listed { .. } => LISTED,
        Reply::Stopped { number, .. } => STOPPED + refusal_column(number),
        Reply::Written { .. } => WRITTEN,
        Reply::Replayed { .. } => REPLAYED,
        Reply::BadLine { .. } => BAD_LINE,
        Reply::LineRefused { number, .. } => LINE_REFUSED + refusal_column(number),
    }
}

fn column_name(column: usize) -> String {
    match column {
        BOOKED => "booked".to_string(),
        NO_ROW => "booked, no row".to_string(),
        CLOSING_ERROR => "closing error".to_string(),
        LINEAGE => "lineage".to_string(),
        LISTED => "listed".to_string(),
        WRITTEN => "written".to_string(),
        REPLAYED => "replayed".to_string(),
        BAD_LINE => "bad line".to_string(),
        line if line > LINE_REFUSED => format!("line refused {}", line - LINE_REFUSED),
        stop if stop > STOPPED => format!("stopped {}", stop - STOPPED),
        number => format!("refused {number}"),
    }
}

/// The answers that documents 01 and 02 allow each kind of request.
///
/// A trade names no record and its only suffix is 0, so 5 to 13 can't apply. A separation needs no position and moves no total, so 12, 15 and 16 can't. A transfer adds
/// no id; its list of one record has no 9 to 11. A merge takes nothing out of a position, so 12 can't apply. Lineage has 1, 3 and 5 alone. A
/// batch is refused before its first trade alone; its tables being sound, it stops by the other numbers of a trade. A record under give-up is refused 17
/// wherever it would be adjusted or opened on. An opening books no row, and 23 is its own; a cancellation and a refusal end the process without a row; a claim
/// or an approval may be the step that completes, the claim on foreign tables only, and is then tested and booked as a transfer. A new day has 1 and 3, the list
/// 1, 5 and 14. A replay itself is never refused; a line that fails test 3 is bad, but for a day's that comes no later. A writing call reads no table, and has
/// 3 and 14 alone.
pub const POSSIBLE: [&[usize]; 16] = [
    &[1, 2, 3, 4, 14, 15, 16, BOOKED, CLOSING_ERROR],
    &[1, 2, 3, 5, 6, 7, 11, 13, 14, 17, BOOKED],
    &[1, 2, 3, 5, 6, 7, 8, 12, 13, 14, 15, 16, 17, BOOKED],
    &[1, 2, 3, 4, 5, 6, 7, 8, 9, 10, 11, 13, 14, 15, 16, 17, BOOKED],
    &[1, 3, 5, LINEAGE],
    &[1, 2, 3, BOOKED, STOPPED + 3, STOPPED + 4, STOPPED + 14, STOPPED + 15, STOPPED + 16],
    &[1, 2, 3, 5, 6, 7, 8, 17, 18, 19, 23, NO_ROW],
    &[1, 2, 3, 5, 6, 7, 8, 12, 13, 14, 15, 16, 18, 19, NO_ROW, BOOKED],
    &[1, 2, 3, 5, 6, 7, 8, 18, 19, NO_ROW],
    &[1, 2, 3, 5, 6, 7, 8, 18, 19, NO_ROW],
    &[1, 2, 3, 5, 6, 7, 8, 12, 13, 14, 15, 16, 18, 19, NO_ROW, BOOKED],
    &[1, 2, 3, 5, 6, 7, 8, 12, 13, 14, 15, 16, 18, 19, NO_ROW, BOOKED],
    &[1, 3, NO_ROW],
    &[1, 5, 14, LISTED],
    &[
        REPLAYED,
        BAD_LINE,
        LINE_REFUSED + 1,
        LINE_REFUSED + 2,
        LINE_REFUSED + 3,
        LINE_REFUSED + 4,
        LINE_REFUSED + 5,
        LINE_REFUSED + 6,
        LINE_REFUSED + 7,
        LINE_REFUSED + 8,
        LINE_REFUSED + 9,
        LINE_REFUSED + 10,
        LINE_REFUSED + 11,
        LINE_REFUSED + 12,
        LINE_REFUSED + 13,
        LINE_REFUSED + 14,
        LINE_REFUSED + 15,
        LINE_REFUSED + 16,
        LINE_REFUSED + 17,
        LINE_REFUSED + 18,
        LINE_REFUSED + 19,
        LINE_REFUSED + 23,
    ],
    &[3, 14, WRITTEN],
];

/// Situations that a good run has met besides, those of give-ups, journals, totals and days not among them.
pub const SITUATIONS: [&str; 54] = [
    "trade: buy open",
    "trade: sell open",
    "trade: buy close, within the open short",
    "trade: buy close, above the open short",
    "trade: sell close, within the open long",
    "trade: sell close, above the open long",
    "trade: a position row is made below others",
    "trade: the row goes below others",
    "separation: of a record to close",
    "separation: of a suffix above 0",
    "separation: into 1,000 parts",
    "separation: up to suffix 65,535",
    "transfer: of a buy",
    "transfer: of a sell",
    "transfer: a position row is made",
    "transfer: up to suffix 65,535",
    "merge: buys, residual below 0",
    "merge: buys, residual 0",
    "merge: buys, residual above 0",
    "merge: sells, residual below 0",
    "merge: sells, residual above 0",
    "merge: two sources of one id",
    "merge: of 1,000 sources",
    "merge: refused at a place above 0, each of 5 to 10 and 17",
    "merge: refused 7 and 17, each before a source of the other",
    "lineage: no link",
    "lineage: three links or more",
    "batch: of one trade",
    "batch: of 1,000 trades",
    "batch: ids that do not rise",
    "batch: two positions or more are made",
    "batch: an excess, and a 0 beside it",
    "batch: a trade closes what one before it opened",
    "batch: as many cells as trades",
    "batch: more cells than trades",
    "batch: stopped at the first trade",
    "batch: stopped in between",
    "batch: stopped at the last trade",
    "batch: stopped at the last of 1,000",
    "batch: stopped by 3, 4, 14, 15 and 16 after booked trades",
    "batch: stopped by an id of its own",
    "batch: its trades one by one",
    "batch: refused, no trade",
    "batch: refused, 1,001 trades",
    "batch: refused, no multiple of six figures",
    "batch: refused, fewer cells than trades",
    "records: booked up to the greatest room, 4,096",
    "positions: booked up to the greatest room, 1,024",
    "a slice longer than the greatest room is booked in",
    "an empty slice is lent",
    "demand 3: accepted entries in another order",
    "demand 3: ten entries or more, a merge among them",
    "demand 3: a batch, in another order",
    "demand 3: trades of a stopped batch, in another order",
];

fn all_situations() -> impl Iterator<Item = &'static str> {
    SITUATIONS.into_iter().chain(GIVE_UP_SITUATIONS).chain(JOURNAL_SITUATIONS).chain(TOTALS_SITUATIONS).chain(DAY_SITUATIONS).chain(DAY_LINE_SITUATIONS)
}

pub struct Coverage {
    answers: [[u64; COLUMNS]; KINDS.len()],
    situations: BTreeMap<&'static str, u64>,
    merge_places: [bool; REFUSALS + 1],
    late_stops: [bool; REFUSALS + 1],
    /// A merge was refused 7 before a source under give-up; 17 before one that is adjusted or an inverse.
    before_other: [bool; 2],
    /// Each step with the approvals and the stage that it found.
    progress: BTreeSet<(usize, [i64; 3])>,
    /// The numbers by which a line was refused after booked ones.
    late_lines: BTreeSet<i64>,
    /// The letters of the lines that replays booked, of a give-up the step's.
    booked_lines: BTreeSet<[u8; 2]>,
    /// What came of each writing call, and how long its buffer was.
    writings: BTreeSet<(usize, &'static str)>,
}

impl Coverage {
    pub fn new() -> Coverage {
        Coverage {
            answers: [[0; COLUMNS]; KINDS.len()],
            situations: BTreeMap::new(),
            merge_places: [false; REFUSALS + 1],
            late_stops: [false; REFUSALS + 1],
            before_other: [false; 2],
            progress: BTreeSet::new(),
            late_lines: BTreeSet::new(),
            booked_lines: BTreeSet::new(),
            writings: BTreeSet::new(),
        }
    }

    pub fn answer(&mut self, request: &Request, reply: Reply) {
        self.answers[kind_of(request)][column_of(reply)] += 1;
        match (request, reply) {
            (Request::Merge { .. }, Reply::Refused { number: number @ (5..=10 | 17), place }) => {
                self.merge_places[number as usize] |= place > 0;
                if (5..=10).chain([17]).all(|n| self.merge_places[n]) {
                    self.situation("merge: refused at a place above 0, each of 5 to 10 and 17");
                }
            }
            (_, Reply::Stopped { booked: 1.., number: number @ 1..=16, .. }) => {
                self.late_stops[number as usize] = true;
                if [3, 4, 14, 15, 16].into_iter().all(|n| self.late_stops[n]) {
                    self.situation("batch: stopped by 3, 4, 14, 15 and 16 after booked trades");
                }
            }
            _ => {}
        }
    }

    pub fn situation(&mut self, name: &'static str) {
        debug_assert!(all_situations().any(|known| known == name), "{name}");
        *self.situations.entry(name).or_default() += 1;
    }

    /// A merge refused 7 or 17 by a source before one that the other number is for.
    pub fn status_before_other(&mut self, number: i64) {
        self.before_other[usize::from(number == 17)] = true;
        if self.before_other == [true; 2] {
            self.situation("merge: refused 7 and 17, each before a source of the other");
        }
    }

    /// A step on a process with these approvals and this stage: of six steps, two approvals and five stages there are 120.
    pub fn progress(&mut self, step: usize, progress: [i64; 3]) {
        self.progress.insert((step, progress));
        if self.progress.len() == 120 {
            self.situation("give-up: every step at every stage, with any approvals");
        }
    }

    /// A line was refused by this number after booked ones: any but 1, which applies to the first line; 2 after lines of days alone, and 3 of such a line.
    pub fn late_line(&mut self, number: i64) {
        self.late_lines.insert(number);
        if (2..=19).chain([23]).all(|n| self.late_lines.contains(&n)) {
            self.situation("replay: refused after booked lines, by each of 2 to 19 and 23");
        }
    }

    /// A replay booked a line of these letters: there are five kinds and six steps.
    pub fn booked_line(&mut self, letters: [u8; 2]) {
        self.booked_lines.insert(letters);
        if self.booked_lines.len() == 11 {
            self.situation("replay: lines of each kind and each step booked");
        }
    }

    /// One of the seven writing calls, and one of the six things that may come of it.
    pub fn writing(&mut self, call: usize, what: &'static str, reply: Reply) {
        self.answers[WRITING][column_of(reply)] += 1;
        self.writings.insert((call, what));
        if self.writings.len() == 42 {
            self.situation("writing: each call, into buffers of every kind, and refused");
        }
    }

    /// The two lists, and what is missing in them.
    pub fn report(&self) -> (String, Vec<String>) {
        let mut missing = Vec::new();
        let mut text = String::from("Answers seen, by kind of request ('.': not possible)\n");
        text += &format!("{:<16}{}\n", "answer", KINDS.map(|kind| format!("{kind:>12}")).concat());
        for column in 1..COLUMNS {
            let possible = POSSIBLE.iter().any(|answers| answers.contains(&column));
            if possible || self.answers.iter().any(|seen| seen[column] > 0) {
                text += &self.answers_line(column, &mut missing);
            }
        }
        text += "\nSituations met\n";
        for name in all_situations() {
            let count = self.situations.get(name).copied().unwrap_or(0);
            if count == 0 {
                missing.push(name.to_string());
            }
            text += &format!("{name:<72}{:>10}\n", if count == 0 { "MISSING".to_string() } else { count.to_string() });
        }
        (text, missing)
    }

    /// How often each kind of request got this answer.
    fn answers_line(&self, column: usize, missing: &mut Vec<String>) -> String {
        let name = column_name(column);
        let mut text = format!("{name:<16}");
        for (kind, possible) in POSSIBLE.iter().enumerate() {
            let count = self.answers[kind][column];
            let cell = match (possible.contains(&column), count) {
                (false, 0) => ".".to_string(),
                (true, 0) => {
                    missing.push(format!("{}: {name}", KINDS[kind]));
                    "MISSING".to_string()
                }
                (true, count) => count.to_string(),
                (false, count) => {
                    missing.push(format!("{}: {name} was answered and is not possible", KINDS[kind]));
                    format!("{count} (!)")
                }
            };
            text += &format!("{cell:>12}");
        }
        text + "\n"
    }
}
