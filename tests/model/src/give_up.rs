//! Document 02, K3: "Give-up and take-up." A trade passes to another account after its taker has claimed it and both clearing members have approved.

use crate::books::{Books, Process, Record, Stage};
use crate::requests::{change_account, ensure, found_record, named_record, set_status, Refusal, Reply, Step};
use crate::tables::{ACCOUNTS, IDS, SERIES, SUFFIXES};

/// "Every step names process, transaction, both accounts and series".
#[allow(clippy::too_many_arguments)]
pub fn give_up(books: &mut Books, step: Step, process: i64, id: i64, suffix: i64, giving: i64, taking: i64, series: i64) -> Result<Reply, Refusal> {
    let transaction = IDS.contains(&id) && SUFFIXES.contains(&suffix) && SERIES.contains(&series);
    let accounts = ACCOUNTS.contains(&giving) && ACCOUNTS.contains(&taking);
    // "Equal accounts: 3."
    ensure(IDS.contains(&process) && transaction && accounts && giving != taking, 3)?;
    let named = Process { id, suffix, giving, taking, series, giver: false, taker: false, stage: Stage::Pending };
    match step {
        Step::Open => open(books, process, named),
        _ => proceed(books, step, process, named),
    }
}

/// "Opening tests the record by 5 to 8, and its own room last (23); the status becomes 3".
fn open(books: &mut Books, process: i64, opened: Process) -> Result<Reply, Refusal> {
    // "a used process id"
    ensure(!books.processes.contains_key(&process), 18)?;
    let record = named_record(books, opened.id, opened.suffix, opened.giving, opened.series)?;
    ensure(!record.is_to_close(), 8)?;
    ensure(books.processes.len() < books.processes_room, 23)?;
    set_status(books, (opened.id, opened.suffix), 3);
    books.processes.insert(process, opened);
    Ok(NO_ROW)
}

/// A step that adds no row.
const NO_ROW: Reply = Reply::Booked { rows: 0, residual: 0 };

/// A step after the opening.
fn proceed(books: &mut Books, step: Step, process: i64, named: Process) -> Result<Reply, Refusal> {
    // "A step out of turn, a repeated approval, an unknown process, .. or figures unlike the row's are refused 18, after 3."
    let row = books.processes.get(&process).filter(|row| is_of_the_same(row, &named)).and_then(|row| stepped(step, row)).ok_or(Refusal::number(18))?;
    let record = record_in_process(books, &named)?;
    let stage = row.stage;
    books.processes.insert(process, row);
    let key = (named.id, named.suffix);
    match stage {
        // "books an inverse row of type 020 in the old account and a row of type 030 in the new, all else as in a transfer"
        Stage::Done => change_account(books, key, record, named.taking, [20, 30]),
        // "Cancelled or refused sets the record back to 0."
        Stage::Cancelled | Stage::Refused => {
            set_status(books, key, 0);
            Ok(NO_ROW)
        }
        Stage::Pending | Stage::Claimed => Ok(NO_ROW),
    }
}

/// Whether two processes have the same figures, however far they have come.
fn is_of_the_same(row: &Process, named: &Process) -> bool {
    let start = Process { giver: false, taker: false, stage: Stage::Pending, ..row.clone() };
    start == *named
}

/// What the step makes of the process, if it has its turn. "While pending, the initiator may cancel and the taker claim or refuse. The giver's clearing
/// member approves any time before the end, the taker's only after the claim."
fn stepped(step: Step, row: &Process) -> Option<Process> {
    let row = row.clone();
    let after = match (step, row.stage) {
        (Step::Cancel, Stage::Pending) => Process { stage: Stage::Cancelled, ..row },
        (Step::Claim, Stage::Pending) => Process { stage: Stage::Claimed, ..row },
        (Step::Refuse, Stage::Pending) => Process { stage: Stage::Refused, ..row },
        (Step::ApproveGiver, Stage::Pending | Stage::Claimed) if !row.giver => Process { giver: true, ..row },
        (Step::ApproveTaker, Stage::Claimed) if !row.taker => Process { taker: true, ..row },
        _ => return None,
    };
    // "The call that completes claim and both approvals"
    let completes = after.stage == Stage::Claimed && after.giver && after.taker;
    Some(if completes { Process { stage: Stage::Done, ..after } } else { after })
}

/// "Later steps test the record by 5 to 8 too, 7 meaning status not 3."
fn record_in_process(books: &Books, named: &Process) -> Result<Record, Refusal> {
    let record = found_record(books, named.id, named.suffix, named.giving, named.series)?;
    ensure(record.status == 3, 7)?;
    ensure(!record.is_to_close(), 8)?;
    Ok(record)
}
