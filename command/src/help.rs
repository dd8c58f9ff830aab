//! The texts of --help, --version and the desk's help.

pub const COMMAND: &str = "\
usage: velichundam SUBCOMMAND ..

  desk [-j JOURNAL] [--room R,P,G] [--tsv] [FILE]    answer requests, one a line; with -j keep a journal
  replay JOURNAL [--room R,P,G]                      book a journal whole
  show JOURNAL [records|positions|processes] ..      the rows that a journal ends with
  report JOURNAL [--tsv|--csv|--json]                the end-of-day list of the day that it ends in
  tree JOURNAL ID                                    the records of one id, from parent to children
  diff JOURNAL JOURNAL                               the cells in which two books differ

A JOURNAL may be - for the input. 'velichundam SUBCOMMAND --help' says more.
Status: 0 done; 1 a line was bad or refused, or a difference; 2 bad usage; 3 input or output failed.
";

pub const DESK: &str = "\
trade ID account A series S buy|sell open|close QUANTITY @ PRICE
separate ID/SUFFIX account A series S into PART PART ..
transfer ID/SUFFIX account A to B series S
merge ID account A series S from ID/SUFFIX ID/SUFFIX ..
give-up PROCESS open|claim|cancel|refuse|approve-giver|approve-taker ID/SUFFIX account A to B series S
day DAY
lineage ID/SUFFIX
report
show [records|positions|processes] [--id N] [--account N] [--series N] [--tsv|--csv|--json]
help
quit
ID/0 may be written ID. A line of the journal, with tabs, is taken as it is. # begins a comment.
";

const DESK_USAGE: &str = "\
usage: velichundam desk [-j JOURNAL] [--room R,P,G] [--tsv] [--sync every|never] [--cut-torn-line] [FILE]

Reads requests, one a line, from FILE or the input, and answers each on a line.

  -j JOURNAL         replay this journal first, make it if it is missing, and append to it what is booked
  --room R,P,G       room for so many records, positions and processes (4096,1024,1024)
  --tsv              answer with the answer's kind and three numbers, parted by tabs
  --sync every       sync each line of the journal to the disk before the answer (this is so if nothing is said)
  --sync never       leave that to the system: for tests and bulk loads
  --cut-torn-line    drop a last line of the journal that a crash has torn

The requests:

";

const REPLAY: &str = "\
usage: velichundam replay JOURNAL [--room R,P,G]

Books a journal whole from empty tables on, and prints how many lines were booked; or names the line that is bad or refused.

  --room R,P,G       room for so many records, positions and processes (4096,1024,1024)
";

const SHOW: &str = "\
usage: velichundam show JOURNAL [records|positions|processes] [--id N] [--account N] [--series N] [--tsv|--csv|--json]

Prints the rows that a journal ends with: those of one table, or of all three, each under its title.

  --id N             records and processes of this id
  --account N        records and positions of this account, processes that give or take there
  --series N         rows of this series
  --tsv --csv --json one table, with its cells as whole numbers: prices in units of 0.0000001, codes as numbers
";

const REPORT: &str = "\
usage: velichundam report JOURNAL [--tsv|--csv|--json]

Prints the records that are reported at the end of the day that the journal ends in.
";

const TREE: &str = "\
usage: velichundam tree JOURNAL ID

Prints the records of one id as a tree, a line a record: each under its parent, and a merged record under the first source's inverse.
";

const DIFF: &str = "\
usage: velichundam diff JOURNAL JOURNAL

Prints the cells in which the books of two journals differ, by key and field, and ends with 1; or nothing, and 0.
";

/// What `SUBCOMMAND --help` prints.
pub fn of(subcommand: &str) -> String {
    match subcommand {
        "desk" => format!("{DESK_USAGE}{DESK}"),
        "replay" => REPLAY.into(),
        "show" => SHOW.into(),
        "report" => REPORT.into(),
        "tree" => TREE.into(),
        _ => DIFF.into(),
    }
}

pub fn version() -> String {
    format!("velichundam {}\n", env!("CARGO_PKG_VERSION"))
}

/// What a desk says to a terminal first.
pub fn banner() -> String {
    format!("velichundam {}: help lists the requests, quit ends\n", env!("CARGO_PKG_VERSION"))
}
