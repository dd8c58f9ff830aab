//! The same book kept in SQLite, in memory or in a file: the two tables as SQL tables, a transaction for each request or for a list of them, prepared statements.
//! SQLite keeps the rows sound by CHECK constraints and finds them by their keys; its tables have no room, so 14 and 15 are not tested. Give-ups are not in it.
//! The current day is a table of one row; the records of a day have an index where the reporting list is timed, and only there.

mod library;

use crate::request::{Coded, Request, LISTED, REFUSED};
use library::{Connection, Library, Statement, DONE, NULL, ROW};
use std::ffi::{c_int, CString};
use std::os::unix::ffi::OsStrExt;
use std::path::Path;
use velichundam::{CURRENT_DAY, LAST_DAY, POSITIONS_HEADER, POSITION_CELLS, RECORDS_HEADER, RECORD_CELLS};

const RECORDS: &str = "CREATE TABLE records (
    id INTEGER NOT NULL CHECK (id BETWEEN 1 AND 999999999),
    suffix INTEGER NOT NULL CHECK (suffix BETWEEN 0 AND 65535),
    parent INTEGER NOT NULL CHECK (parent BETWEEN 0 AND 65535),
    type INTEGER NOT NULL CHECK (type IN (0, 4, 6, 10, 901)),
    status INTEGER NOT NULL CHECK (status BETWEEN 0 AND 2),
    account INTEGER NOT NULL CHECK (account BETWEEN 1 AND 9999),
    series INTEGER NOT NULL CHECK (series BETWEEN 1 AND 999999),
    side INTEGER NOT NULL CHECK (side BETWEEN 1 AND 4),
    quantity INTEGER NOT NULL CHECK (quantity <> 0 AND quantity BETWEEN -1000000 AND 1000000),
    price INTEGER NOT NULL CHECK (price BETWEEN -1000000000000 AND 1000000000000),
    long INTEGER NOT NULL CHECK (long BETWEEN -1000000 AND 1000000),
    short INTEGER NOT NULL CHECK (short BETWEEN -1000000 AND 1000000),
    into_id INTEGER NOT NULL CHECK (into_id BETWEEN 0 AND 999999999),
    day INTEGER NOT NULL CHECK (day BETWEEN 0 AND 99999),
    PRIMARY KEY (id, suffix),
    CHECK ((quantity < 0) = (status = 2)),
    CHECK (parent < suffix OR (parent = 0 AND suffix = 0))
) WITHOUT ROWID";

const POSITIONS: &str = "CREATE TABLE positions (
    account INTEGER NOT NULL,
    series INTEGER NOT NULL,
    long INTEGER NOT NULL CHECK (long BETWEEN 0 AND 1000000000000),
    short INTEGER NOT NULL CHECK (short BETWEEN 0 AND 1000000000000),
    cash INTEGER NOT NULL CHECK (cash BETWEEN -1000000000000000 AND 1000000000000000),
    quantity INTEGER NOT NULL CHECK (quantity BETWEEN -4000000000000000000 AND 4000000000000000000),
    value INTEGER NOT NULL CHECK (value BETWEEN -4000000000000000000 AND 4000000000000000000),
    PRIMARY KEY (account, series)
) WITHOUT ROWID";

const TODAY: &str = "CREATE TABLE today (day INTEGER NOT NULL CHECK (day BETWEEN 0 AND 99999))";
const FIRST_DAY: &str = "INSERT INTO today VALUES (0)";

/// The list in table order; a third column says that an inverse lacks its parent. The parent is looked up for inverses alone.
const REPORTABLE: &str = "SELECT r.id, r.suffix, r.status = 2 AND p.day IS NULL
    FROM records r LEFT JOIN records p ON r.status = 2 AND p.id = r.id AND p.suffix = r.parent
    WHERE r.day = (SELECT day FROM today) AND (r.status IN (0, 3) OR (r.status = 2 AND (p.day IS NULL OR p.day < r.day)))
    ORDER BY r.id, r.suffix";

pub struct SqlBook {
    library: Library,
    connection: Connection,
    begin: Statement,
    commit: Statement,
    rollback: Statement,
    has_id: Statement,
    greatest: Statement,
    record: Statement,
    add: Statement,
    adjust: Statement,
    position: Statement,
    make_position: Statement,
    move_position: Statement,
    all_records: Statement,
    all_positions: Statement,
    clear_records: Statement,
    clear_positions: Statement,
    load_record: Statement,
    set_day: Statement,
    move_day: Statement,
    day: Statement,
    reportable: Statement,
}

/// parent to into, as in a records row from cell 2 on
type Record = [i64; 11];

enum Stop {
    Refused(i64, usize),
}

/// When SQLite waits for the disk; the numbers are its own.
#[derive(Clone, Copy, Debug, PartialEq, Eq)]
pub enum Synchronous {
    Off = 0,
    Full = 2,
}

impl Drop for SqlBook {
    fn drop(&mut self) {
        self.library.close(self.connection);
    }
}

fn file_name(path: &Path) -> CString {
    CString::new(path.as_os_str().as_bytes()).expect("no zero byte")
}

impl SqlBook {
    /// A book in memory, where SQLite is installed.
    pub fn open() -> Option<SqlBook> {
        let library = Library::load()?;
        let connection = library.connect(c":memory:");
        Some(SqlBook::create(library, connection))
    }

    /// A book in a new file, where SQLite is installed: with a write-ahead log, which is synced at each commit (FULL) or left to the system (OFF).
    /// Checkpoints are SQLite's own, by default at the first commit that leaves 1,000 pages in the log.
    pub fn open_file(path: &Path, synchronous: Synchronous) -> Option<SqlBook> {
        let library = Library::load()?;
        let connection = library.connect(&file_name(path));
        let mode = library.execute(connection, "PRAGMA journal_mode = WAL");
        assert_eq!(mode.as_deref(), Some("wal"), "SQLite has another journal mode");
        let number = synchronous as i64;
        library.execute(connection, &format!("PRAGMA synchronous = {number}"));
        assert_eq!(library.execute(connection, "PRAGMA synchronous"), Some(number.to_string()), "SQLite syncs otherwise");
        Some(SqlBook::create(library, connection))
    }

    /// The book that a file has, by a connection of its own.
    pub fn reopen(path: &Path) -> Option<SqlBook> {
        let library = Library::load()?;
        let connection = library.connect(&file_name(path));
        Some(SqlBook::prepared(library, connection))
    }

    fn create(library: Library, connection: Connection) -> SqlBook {
        for create in [RECORDS, POSITIONS, TODAY, FIRST_DAY] {
            library.execute(connection, create);
        }
        SqlBook::prepared(library, connection)
    }

    fn prepared(library: Library, connection: Connection) -> SqlBook {
        let prepare = |sql: &str| library.prepare(connection, sql);
        SqlBook {
            begin: prepare("BEGIN IMMEDIATE"),
            commit: prepare("COMMIT"),
            rollback: prepare("ROLLBACK"),
            has_id: prepare("SELECT 1 FROM records WHERE id = ?1 LIMIT 1"),
            greatest: prepare("SELECT max(suffix) FROM records WHERE id = ?1"),
            record: prepare(
                "SELECT parent, type, status, account, series, side, quantity, price, long, short, into_id FROM records WHERE id = ?1 AND suffix = ?2",
            ),
            add: prepare("INSERT INTO records VALUES (?1, ?2, ?3, ?4, ?5, ?6, ?7, ?8, ?9, ?10, ?11, ?12, ?13, (SELECT day FROM today))"),
            adjust: prepare("UPDATE records SET status = 1 WHERE id = ?1 AND suffix = ?2"),
            position: prepare("SELECT long, short, cash FROM positions WHERE account = ?1 AND series = ?2"),
            make_position: prepare("INSERT OR IGNORE INTO positions VALUES (?1, ?2, 0, 0, 0, 0, 0)"),
            move_position: prepare(
                "UPDATE positions SET long = long + ?3, short = short + ?4, cash = cash + ?5, quantity = quantity + ?6, value = value + ?7
                WHERE account = ?1 AND series = ?2",
            ),
            all_records: prepare("SELECT * FROM records ORDER BY id, suffix"),
            all_positions: prepare("SELECT * FROM positions ORDER BY account, series"),
            clear_records: prepare("DELETE FROM records"),
            clear_positions: prepare("DELETE FROM positions"),
            load_record: prepare("INSERT INTO records VALUES (?1, ?2, ?3, ?4, ?5, ?6, ?7, ?8, ?9, ?10, ?11, ?12, ?13, ?14)"),
            set_day: prepare("UPDATE today SET day = ?1"),
            move_day: prepare("UPDATE today SET day = ?1 WHERE day < ?1"),
            day: prepare("SELECT day FROM today"),
            reportable: prepare(REPORTABLE),
            library,
            connection,
        }
    }

    /// Finds the records of a day by an index from now on, which has in table order what the list asks of a record; only parents are looked up elsewhere.
    pub fn index_days(&mut self) {
        self.library.execute(self.connection, "CREATE INDEX records_day ON records (day, id, suffix, status, parent)");
    }

    pub fn version(&self) -> String {
        self.library.version()
    }

    fn message(&self) -> String {
        self.library.message(self.connection)
    }

    fn bind(&self, statement: Statement, figures: &[i64]) {
        for (k, figure) in figures.iter().enumerate() {
            unsafe { (self.library.bind)(statement, k as c_int + 1, *figure) };
        }
    }

    /// Runs a statement that answers no row; false where a constraint stops it.
    fn run(&self, statement: Statement, figures: &[i64]) -> bool {
        self.bind(statement, figures);
        let result = unsafe { (self.library.step)(statement) };
        unsafe { (self.library.reset)(statement) };
        result == DONE
    }

    /// The first row of a query.
    fn row<const N: usize>(&self, statement: Statement, figures: &[i64]) -> Option<[i64; N]> {
        self.bind(statement, figures);
        let result = unsafe { (self.library.step)(statement) };
        let row = (result == ROW && unsafe { (self.library.column_type)(statement, 0) } != NULL)
            .then(|| std::array::from_fn(|k| unsafe { (self.library.column)(statement, k as c_int) }));
        unsafe { (self.library.reset)(statement) };
        row
    }

    /// The count, the rest of the header, and the rows.
    fn rows(&self, statement: Statement, header: &[i64], width: usize) -> Vec<i64> {
        let mut cells = [&[0], header].concat();
        while unsafe { (self.library.step)(statement) } == ROW {
            cells.extend((0..width).map(|k| unsafe { (self.library.column)(statement, k as c_int) }));
            cells[0] += 1;
        }
        unsafe { (self.library.reset)(statement) };
        cells
    }

    /// The count and the rows of both tables, as the lent tables have them.
    pub fn cells(&self) -> (Vec<i64>, Vec<i64>) {
        let today = self.row::<1>(self.day, &[]).expect("there is a current day");
        (self.rows(self.all_records, &today, RECORD_CELLS), self.rows(self.all_positions, &[], POSITION_CELLS))
    }

    pub fn clear(&mut self) {
        let cleared = self.run(self.clear_records, &[]) && self.run(self.clear_positions, &[]) && self.run(self.set_day, &[0]);
        assert!(cleared, "{}", self.message());
    }

    /// One request in a transaction of its own.
    pub fn handle(&mut self, request: &Request) -> Coded {
        assert!(self.run(self.begin, &[]), "{}", self.message());
        match self.perform(request) {
            Ok(answer) => {
                assert!(self.run(self.commit, &[]), "{}", self.message());
                answer
            }
            Err(Stop::Refused(number, place)) => {
                self.run(self.rollback, &[]);
                Coded { kind: REFUSED, first: number, second: place as i64, third: 0 }
            }
        }
    }

    fn perform(&self, request: &Request) -> Result<Coded, Stop> {
        match request {
            Request::Trade { id, account, series, side, quantity, price } => self.trade(*id, *account, *series, *side, *quantity, *price),
            Request::Separate { id, suffix, account, series, parts } => self.separate(*id, *suffix, *account, *series, parts),
            Request::Transfer { id, suffix, from, to, series } => self.transfer(*id, *suffix, *from, *to, *series),
            Request::Merge { id, account, series, pairs } => self.merge(*id, *account, *series, pairs),
            Request::Lineage { id, suffix } => self.lineage(*id, *suffix),
        }
    }

    /// A list of requests in one transaction: how many are done. It is taken back whole where one is refused: what is measured is booked whole.
    pub fn handle_all<'a>(&mut self, requests: impl IntoIterator<Item = &'a Request>) -> usize {
        self.run(self.begin, &[]);
        let mut done = 0;
        for request in requests {
            if self.perform(request).is_err() {
                self.run(self.rollback, &[]);
                return 0;
            }
            done += 1;
        }
        self.run(self.commit, &[]);
        done
    }

    /// A list of trades in one transaction; each one's excess is written. It is taken back whole where a trade is refused: what is measured is booked whole.
    pub fn trades(&mut self, trades: &[i64], excess: &mut [i64]) -> Coded {
        self.run(self.begin, &[]);
        let (trades, _) = trades.as_chunks::<6>();
        for (&[id, account, series, side, quantity, price], cell) in trades.iter().zip(excess) {
            match self.trade(id, account, series, side, quantity, price) {
                Ok(answer) => *cell = if answer.kind == 1 { answer.first } else { 0 },
                Err(Stop::Refused(number, _)) => {
                    self.run(self.rollback, &[]);
                    return Coded { kind: REFUSED, first: number, second: 0, third: 0 };
                }
            }
        }
        self.run(self.commit, &[]);
        booked(trades.len(), 0)
    }

    /// Takes over the rows of two lent tables.
    pub fn load(&mut self, records: &[i64], positions: &[i64]) {
        self.clear();
        self.run(self.begin, &[]);
        assert!(self.run(self.set_day, &[records[CURRENT_DAY]]), "{}", self.message());
        for row in records[RECORDS_HEADER..].chunks_exact(RECORD_CELLS).take(records[0] as usize) {
            assert!(self.run(self.load_record, row), "{}", self.message());
        }
        for row in positions[POSITIONS_HEADER..].chunks_exact(POSITION_CELLS).take(positions[0] as usize) {
            assert!(self.run(self.make_position, &row[..2]) && self.run(self.move_position, row), "{}", self.message());
        }
        self.run(self.commit, &[]);
    }

    /// A new day, in a transaction of its own.
    pub fn new_day(&mut self, day: i64) -> Coded {
        let moved = is_in(day, 1, LAST_DAY) && self.run(self.move_day, &[day]) && unsafe { (self.library.changes)(self.connection) } == 1;
        if moved {
            booked(0, 0)
        } else {
            Coded { kind: REFUSED, first: 3, second: 0, third: 0 }
        }
    }

    /// The reporting list; a refusal may leave pairs behind, which is not measured.
    pub fn reportable(&mut self, pairs: &mut [i64]) -> Coded {
        let mut listed = 0;
        let (pairs, _) = pairs.as_chunks_mut::<2>();
        let mut refusal = 0;
        while refusal == 0 && unsafe { (self.library.step)(self.reportable) } == ROW {
            let [id, suffix, lacks_parent] = [0, 1, 2].map(|k| unsafe { (self.library.column)(self.reportable, k) });
            match pairs.get_mut(listed) {
                _ if lacks_parent == 1 => refusal = 5,
                Some(pair) => *pair = [id, suffix],
                None => refusal = 14,
            }
            listed += 1;
        }
        unsafe { (self.library.reset)(self.reportable) };
        if refusal > 0 {
            return Coded { kind: REFUSED, first: refusal, second: 0, third: 0 };
        }
        Coded { kind: LISTED, first: listed as i64, second: 0, third: 0 }
    }

    fn find(&self, id: i64, suffix: i64, place: usize) -> Result<Record, Stop> {
        self.row(self.record, &[id, suffix]).ok_or(Stop::Refused(5, place))
    }

    fn next_suffix(&self, id: i64) -> i64 {
        self.row::<1>(self.greatest, &[id]).map_or(0, |row| row[0] + 1)
    }

    fn add_record(&self, id: i64, suffix: i64, row: Record) -> Result<(), Stop> {
        let mut cells = [0; 13];
        cells[0] = id;
        cells[1] = suffix;
        cells[2..].copy_from_slice(&row);
        refuse_if(!self.run(self.add, &cells), 13, 0)
    }

    /// Adds to long, short, cash, quantity and value of a position.
    fn move_by(&self, account: i64, series: i64, [long, short, cash, quantity, value]: [i64; 5]) -> Result<(), Stop> {
        let moved = [account, series, long, short, cash, quantity, value];
        refuse_if(!self.run(self.move_position, &moved), 16, 0)?;
        if unsafe { (self.library.changes)(self.connection) } == 0 {
            self.run(self.make_position, &moved[..2]);
            refuse_if(!self.run(self.move_position, &moved), 16, 0)?;
        }
        Ok(())
    }

    fn held(&self, account: i64, series: i64) -> [i64; 3] {
        self.row(self.position, &[account, series]).unwrap_or([0; 3])
    }

    fn trade(&self, id: i64, account: i64, series: i64, side: i64, quantity: i64, price: i64) -> Result<Coded, Stop> {
        let valid = is_in(id, 1, 999_999_999)
            && is_in(account, 1, 9_999)
            && is_in(series, 1, 999_999)
            && is_in(side, 1, 4)
            && is_in(quantity, 1, 1_000_000)
            && is_in(price, -1_000_000_000_000, 1_000_000_000_000);
        refuse_if(!valid, 3, 0)?;
        refuse_if(self.row::<1>(self.has_id, &[id]).is_some(), 4, 0)?;
        let [open_long, open_short, _] = self.held(account, series);
        let (long, short, excess) = match side {
            1 => (quantity, 0, 0),
            2 => (0, quantity, 0),
            3 => (quantity - quantity.min(open_short), -quantity.min(open_short), quantity - quantity.min(open_short)),
            _ => (-quantity.min(open_long), quantity - quantity.min(open_long), quantity - quantity.min(open_long)),
        };
        let kind = if excess > 0 { 10 } else { 0 };
        let signed = if side % 2 == 1 { quantity } else { -quantity };
        self.move_by(account, series, [long, short, 0, signed, signed * price])?;
        self.add_record(id, 0, [0, kind, 0, account, series, side, quantity, price, long, short, 0])?;
        Ok(if excess > 0 { Coded { kind: 1, first: excess, second: 0, third: 0 } } else { booked(1, 0) })
    }

    fn separate(&self, id: i64, suffix: i64, account: i64, series: i64, parts: &[i64]) -> Result<Coded, Stop> {
        let valid = is_in(id, 1, 999_999_999)
            && is_in(suffix, 0, 65_535)
            && is_in(account, 1, 9_999)
            && is_in(series, 1, 999_999)
            && (2..=1_000).contains(&parts.len())
            && parts.iter().all(|&part| is_in(part, 1, 1_000_000));
        refuse_if(!valid, 3, 0)?;
        let row = self.find(id, suffix, 0)?;
        let [_, _, status, of_account, of_series, side, quantity, price, ..] = row;
        refuse_if(of_account != account || of_series != series, 6, 0)?;
        refuse_if(status != 0, 7, 0)?;
        refuse_if(parts.iter().sum::<i64>() != quantity, 11, 0)?;
        let next = self.next_suffix(id);
        self.run(self.adjust, &[id, suffix]);
        self.add_record(id, next, [suffix, 6, 2, account, series, side, -quantity, price, 0, 0, 0])?;
        for (k, &part) in parts.iter().enumerate() {
            self.add_record(id, next + 1 + k as i64, [suffix, 6, 0, account, series, side, part, price, 0, 0, 0])?;
        }
        Ok(booked(1 + parts.len(), 0))
    }

    fn transfer(&self, id: i64, suffix: i64, from: i64, to: i64, series: i64) -> Result<Coded, Stop> {
        let valid = is_in(id, 1, 999_999_999) && is_in(suffix, 0, 65_535) && is_in(from, 1, 9_999) && is_in(to, 1, 9_999) && is_in(series, 1, 999_999);
        refuse_if(!valid || from == to, 3, 0)?;
        let row = self.find(id, suffix, 0)?;
        let [_, _, status, account, of_series, side, quantity, price, ..] = row;
        refuse_if(account != from || of_series != series, 6, 0)?;
        refuse_if(status != 0, 7, 0)?;
        refuse_if(side > 2, 8, 0)?;
        let (long, short) = if side == 1 { (quantity, 0) } else { (0, quantity) };
        let held = self.held(from, series);
        refuse_if(held[side as usize - 1] < quantity, 12, 0)?;
        let next = self.next_suffix(id);
        self.run(self.adjust, &[id, suffix]);
        self.add_record(id, next, [suffix, 4, 2, from, series, side, -quantity, price, -long, -short, 0])?;
        self.add_record(id, next + 1, [suffix, 4, 0, to, series, side, quantity, price, long, short, 0])?;
        let signed = long - short;
        let moved = [long, short, 0, signed, signed * price];
        self.move_by(from, series, moved.map(|figure| -figure))?;
        self.move_by(to, series, moved)?;
        Ok(booked(2, 0))
    }

    fn merge(&self, id: i64, account: i64, series: i64, pairs: &[i64]) -> Result<Coded, Stop> {
        let (sources, odd) = pairs.as_chunks::<2>();
        let valid = is_in(id, 1, 999_999_999)
            && is_in(account, 1, 9_999)
            && is_in(series, 1, 999_999)
            && odd.is_empty()
            && (2..=1_000).contains(&sources.len())
            && sources.iter().all(|&[id, suffix]| is_in(id, 1, 999_999_999) && is_in(suffix, 0, 65_535));
        refuse_if(!valid, 3, 0)?;
        refuse_if(self.row::<1>(self.has_id, &[id]).is_some(), 4, 0)?;
        let mut rows = Vec::with_capacity(sources.len());
        for (place, &[id, suffix]) in sources.iter().enumerate() {
            rows.push(self.find(id, suffix, place)?);
        }
        refuse_each(&rows, 6, |row| row[3] != account || row[4] != series)?;
        refuse_each(&rows, 7, |row| row[2] != 0)?;
        refuse_each(&rows, 8, |row| row[5] > 2)?;
        if let Some(place) = (0..sources.len()).find(|&k| sources[..k].contains(&sources[k])) {
            return Err(Stop::Refused(9, place));
        }
        let side = rows[0][5];
        refuse_each(&rows, 10, |row| row[5] != side)?;
        let quantity: i64 = rows.iter().map(|row| row[6]).sum();
        refuse_if(quantity > 1_000_000, 11, 0)?;
        let value: i64 = rows.iter().map(|row| row[6] * row[7]).sum();
        let average = (2 * value + value.signum() * quantity) / (2 * quantity);
        let residual = (quantity * average - value) * if side == 1 { 1 } else { -1 };
        for (&[of, suffix], row) in sources.iter().zip(&rows) {
            self.run(self.adjust, &[of, suffix]);
            self.add_record(of, self.next_suffix(of), [suffix, 901, 2, account, series, side, -row[6], row[7], 0, 0, id])?;
        }
        self.add_record(id, 0, [0, 901, 0, account, series, side, quantity, average, 0, 0, 0])?;
        self.move_by(account, series, [0, 0, residual, 0, residual])?;
        Ok(booked(sources.len() + 1, residual))
    }

    fn lineage(&self, id: i64, suffix: i64) -> Result<Coded, Stop> {
        refuse_if(!is_in(id, 1, 999_999_999) || !is_in(suffix, 0, 65_535), 3, 0)?;
        let mut at = suffix;
        let mut links = 0;
        loop {
            let row = self.find(id, at, 0)?;
            if at == 0 {
                return Ok(Coded { kind: 2, first: row[7], second: links, third: 0 });
            }
            at = row[0];
            links += 1;
        }
    }
}

fn booked(rows: usize, residual: i64) -> Coded {
    Coded { kind: 0, first: rows as i64, second: residual, third: 0 }
}

fn is_in(figure: i64, least: i64, most: i64) -> bool {
    (least..=most).contains(&figure)
}

fn refuse_if(applies: bool, number: i64, place: usize) -> Result<(), Stop> {
    if applies {
        Err(Stop::Refused(number, place))
    } else {
        Ok(())
    }
}

fn refuse_each(rows: &[Record], number: i64, applies: impl Fn(&Record) -> bool) -> Result<(), Stop> {
    match rows.iter().position(applies) {
        Some(place) => Err(Stop::Refused(number, place)),
        None => Ok(()),
    }
}
