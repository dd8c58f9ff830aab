//! The rows of a book: their fields by name, in words for a person, and as whole cells for a script.

use crate::answers::counted;
use crate::book::Book;
use crate::decimals::decimal;

#[derive(Clone, Copy, Debug, PartialEq, Eq)]
pub enum Table {
    Records,
    Positions,
    Processes,
}

#[derive(Clone, Copy, Debug, PartialEq, Eq)]
pub enum Format {
    Words,
    Tsv,
    Csv,
    Json,
}

/// Which rows are shown, and how.
#[derive(Clone, Copy, Debug)]
pub struct View {
    /// all three where none is named
    pub table: Option<Table>,
    pub id: Option<i64>,
    pub account: Option<i64>,
    pub series: Option<i64>,
    pub format: Format,
}

/// How a cell reads to a person.
#[derive(Clone, Copy)]
enum As {
    Number,
    Amount,
    Word(&'static [(i64, &'static str)]),
}

type Field = (&'static str, As);

const TYPES: As = As::Word(&[(0, "original"), (4, "transfer"), (6, "separation"), (10, "closing error"), (20, "give-up"), (30, "take-up"), (901, "merge")]);
const STATUSES: As = As::Word(&[(0, "adjustable"), (1, "adjusted"), (2, "inverse"), (3, "under give-up")]);
const SIDES: As = As::Word(&[(1, "buy open"), (2, "sell open"), (3, "buy close"), (4, "sell close")]);
const STAGES: As = As::Word(&[(0, "done"), (6, "pending"), (9, "claimed"), (10, "refused"), (12, "cancelled")]);
const APPROVALS: As = As::Word(&[(0, "no"), (1, "yes")]);

const RECORD: &[Field] = &[
    ("id", As::Number),
    ("suffix", As::Number),
    ("parent", As::Number),
    ("type", TYPES),
    ("status", STATUSES),
    ("account", As::Number),
    ("series", As::Number),
    ("side", SIDES),
    ("quantity", As::Number),
    ("price", As::Amount),
    ("long", As::Number),
    ("short", As::Number),
    ("into", As::Number),
    ("day", As::Number),
];
const POSITION: &[Field] = &[
    ("account", As::Number),
    ("series", As::Number),
    ("long", As::Number),
    ("short", As::Number),
    ("cash", As::Amount),
    ("quantity", As::Number),
    ("value", As::Amount),
];
const PROCESS: &[Field] = &[
    ("process", As::Number),
    ("id", As::Number),
    ("suffix", As::Number),
    ("giving", As::Number),
    ("taking", As::Number),
    ("series", As::Number),
    ("giver", APPROVALS),
    ("taker", APPROVALS),
    ("stage", STAGES),
];

impl As {
    fn shown(self, cell: i64) -> String {
        match self {
            As::Number => cell.to_string(),
            As::Amount => decimal(cell),
            As::Word(words) => words.iter().find(|(number, _)| *number == cell).map_or_else(|| cell.to_string(), |(_, word)| word.to_string()),
        }
    }
}

impl Table {
    pub const ALL: [Table; 3] = [Table::Records, Table::Positions, Table::Processes];

    pub fn name(self) -> &'static str {
        match self {
            Table::Records => "records",
            Table::Positions => "positions",
            Table::Processes => "processes",
        }
    }

    fn fields(self) -> &'static [Field] {
        match self {
            Table::Records => RECORD,
            Table::Positions => POSITION,
            Table::Processes => PROCESS,
        }
    }

    pub fn rows(self, book: &Book) -> Vec<&[i64]> {
        match self {
            Table::Records => book.records().iter().map(<[i64; _]>::as_slice).collect(),
            Table::Positions => book.positions().iter().map(<[i64; _]>::as_slice).collect(),
            Table::Processes => book.processes().iter().map(<[i64; _]>::as_slice).collect(),
        }
    }

    /// The name of a row's cell, and the cell in words.
    pub fn field(self, place: usize, cell: i64) -> (&'static str, String) {
        let (name, shown) = self.fields()[place];
        (name, shown.shown(cell))
    }

    /// Whether a field of one of these names has this number; every row passes where none is asked for.
    fn passes(self, row: &[i64], names: &[&str], number: Option<i64>) -> bool {
        number.is_none_or(|number| self.fields().iter().zip(row).any(|((name, _), cell)| names.contains(name) && *cell == number))
    }

    pub fn printed(self, rows: &[&[i64]], format: Format) -> String {
        match format {
            Format::Words => self.in_columns(rows),
            Format::Tsv => self.parted(rows, "\t"),
            Format::Csv => self.parted(rows, ","),
            Format::Json => self.objects(rows),
        }
    }

    /// A heading and whole cells.
    fn parted(self, rows: &[&[i64]], by: &str) -> String {
        let heading = self.fields().iter().map(|(name, _)| name.to_string()).collect::<Vec<_>>().join(by);
        let lines = rows.iter().map(|row| row.iter().map(i64::to_string).collect::<Vec<_>>().join(by));
        std::iter::once(heading).chain(lines).map(|line| line + "\n").collect()
    }

    fn objects(self, rows: &[&[i64]]) -> String {
        let object = |row: &&[i64]| {
            let members: Vec<_> = self.fields().iter().zip(*row).map(|((name, _), cell)| format!("\"{name}\": {cell}")).collect();
            format!("{{{}}}", members.join(", "))
        };
        match rows {
            [] => "[]\n".to_string(),
            _ => format!("[\n{}\n]\n", rows.iter().map(object).collect::<Vec<_>>().join(",\n")),
        }
    }

    /// A heading and cells in words, in columns: numbers stand right, words left.
    fn in_columns(self, rows: &[&[i64]]) -> String {
        let heading: Vec<String> = self.fields().iter().map(|(name, _)| name.to_string()).collect();
        let cells = |row: &&[i64]| row.iter().enumerate().map(|(place, cell)| self.field(place, *cell).1).collect::<Vec<_>>();
        let lines: Vec<Vec<String>> = std::iter::once(heading).chain(rows.iter().map(cells)).collect();
        let widths: Vec<usize> = (0..self.fields().len()).map(|place| lines.iter().map(|line| line[place].len()).max().unwrap_or(0)).collect();
        let mut text = String::new();
        for line in &lines {
            let columns = self.fields().iter().zip(line).zip(&widths).map(|(((_, shown), cell), width)| match shown {
                As::Word(_) => format!("{cell:<width$}"),
                _ => format!("{cell:>width$}"),
            });
            text += columns.collect::<Vec<_>>().join("  ").trim_end();
            text.push('\n');
        }
        text
    }
}

impl View {
    /// The rows of a table that are asked for.
    fn rows<'b>(&self, table: Table, book: &'b Book) -> Vec<&'b [i64]> {
        let asked = |row: &&[i64]| {
            table.passes(row, &["id"], self.id)
                && table.passes(row, &["account", "giving", "taking"], self.account)
                && table.passes(row, &["series"], self.series)
        };
        table.rows(book).into_iter().filter(asked).collect()
    }
}

/// What `show` prints: the table that is named, or all three under their titles.
pub fn shown(book: &Book, view: &View) -> String {
    if let Some(table) = view.table {
        return table.printed(&view.rows(table, book), view.format);
    }
    let titled = |table: Table| {
        let rows = view.rows(table, book);
        let day = if table == Table::Records { format!(", current day {}", book.day()) } else { String::new() };
        format!("{}: {}{day}\n{}", table.name(), counted(rows.len() as i64, "row"), table.printed(&rows, view.format))
    };
    Table::ALL.map(titled).join("\n")
}
