//! Demand 3: the accepted requests of a history, and other orders of them.

use crate::batches::trades_of;
use crate::checker::Checker;
use crate::journal_situations::booked_lines;
use crate::rng::Rng;
use crate::tables::Tables;
use model::journal::{lines, request_of};
use model::{Answer, Reply, Request, Step};
use std::collections::BTreeSet;

/// An accepted request with its whole answer.
pub struct Entry {
    request: Request,
    answer: Answer,
    origin: Origin,
}

/// By what a request was booked.
#[derive(Clone, Copy, PartialEq, Eq)]
enum Origin {
    Itself,
    StoppedBatch,
    Replay,
    StoppedReplay,
}

/// What a call on these tables adds to the list of accepted requests: "a batch is accepted only when all its trades are"; "a stopped one stands in the list as
/// the trades it booked"; "a replay is the requests it books". Each of these has the answer that it has by itself.
pub fn entries_of(before: &Tables, request: Request, answer: Answer) -> Vec<Entry> {
    match (&request, answer.reply) {
        (_, Reply::Refused { .. }) => Vec::new(),
        (Request::Trades { figures, .. }, Reply::Stopped { .. }) => {
            let alone = |excess: i64| if excess > 0 { Reply::ClosingError { excess } } else { Reply::Booked { rows: 1, residual: 0 } };
            let booked = trades_of(figures).zip(answer.output);
            booked.map(|(request, excess)| Entry { request, answer: alone(excess).into(), origin: Origin::StoppedBatch }).collect()
        }
        (Request::Replay { text }, reply) => {
            let origin = if matches!(reply, Reply::Replayed { .. }) { Origin::Replay } else { Origin::StoppedReplay };
            let mut tables = before.clone();
            let requests = lines(text).take(booked_lines(reply) as usize).map(|line| request_of(line).expect("it was booked"));
            let answered = requests.map(|request| {
                let answer = model::handle(&mut tables.records, &mut tables.positions, &mut tables.processes, &request);
                Entry { request, answer, origin }
            });
            answered.collect()
        }
        _ => vec![Entry { request, answer, origin: Origin::Itself }],
    }
}

/// The accepted entries in another order that keeps touching pairs in theirs. Each gets the answer that it got, and at the end every cell
/// is the same.
pub fn reordered(checker: &mut Checker, rng: &mut Rng, start: &Tables, entries: &[Entry], end: &Tables) {
    let order = other_order(rng, entries);
    note_order(checker, entries, &order);
    let mut tables = start.clone();
    for &place in &order {
        let Entry { request, answer: first, .. } = &entries[place];
        let second = checker.call(&mut tables, request);
        if second != *first {
            checker.fail_later(&print_orders(start, entries, &order, &format!("entry {place} answered {first:?} and then {second:?}")));
        }
    }
    if tables != *end {
        checker.fail_later(&print_orders(
            start,
            entries,
            &order,
            &format!("the cells differ at the end\nfirst run\n{}second run\n{}", end.print(), tables.print()),
        ));
    }
}

fn note_order(checker: &mut Checker, entries: &[Entry], order: &[usize]) {
    if order.is_sorted() {
        return;
    }
    checker.coverage.situation("demand 3: accepted entries in another order");
    if entries.len() >= 10 && entries.iter().any(|entry| matches!(entry.request, Request::Merge { .. })) {
        checker.coverage.situation("demand 3: ten entries or more, a merge among them");
    }
    // Those that have changed places with another entry.
    let moved = |k: usize| order[..k].iter().any(|other| *other > order[k]) || order[k + 1..].iter().any(|other| *other < order[k]);
    if (0..order.len()).any(|k| matches!(entries[order[k]].request, Request::Trades { .. }) && moved(k)) {
        checker.coverage.situation("demand 3: a batch, in another order");
    }
    for (origin, name) in [
        (Origin::StoppedBatch, "demand 3: trades of a stopped batch, in another order"),
        (Origin::Replay, "demand 3: requests of a replay, in another order"),
        (Origin::StoppedReplay, "demand 3: requests of a replay that stopped, in another order"),
    ] {
        if (0..order.len()).any(|k| entries[order[k]].origin == origin && moved(k)) {
            checker.coverage.situation(name);
        }
    }
    note_steps(checker, entries, order);
    note_days(checker, entries, order);
}

/// Steps of give-ups that have changed places with another entry, and with a step of another process.
fn note_steps(checker: &mut Checker, entries: &[Entry], order: &[usize]) {
    let step = |k: usize| matches!(entries[k].request, Request::GiveUp { .. });
    let opens = |k: usize| matches!(entries[k].request, Request::GiveUp { step: Step::Open, .. });
    let completes = |k: usize| step(k) && matches!(entries[k].answer.reply, Reply::Booked { rows: 2, .. });
    let pairs = (0..order.len()).flat_map(|k| order[k + 1..].iter().map(move |later| (order[k], *later)));
    let changed: Vec<(usize, usize)> = pairs.filter(|(first, second)| first > second).collect();
    if changed.iter().any(|(a, b)| step(*a) || step(*b)) {
        checker.coverage.situation("demand 3: a step of a give-up, in another order");
    }
    if changed.iter().any(|(a, b)| completes(*a) || completes(*b)) {
        checker.coverage.situation("demand 3: a step that completes, in another order");
    }
    if changed.iter().any(|(a, b)| step(*a) && step(*b)) {
        checker.coverage.situation("demand 3: steps of two processes change places");
    }
    if changed.iter().any(|(a, b)| opens(*a) && opens(*b)) {
        checker.coverage.situation("demand 3: two openings change places");
    }
}

/// New days and lists keep their places; entries before one and after it have changed places among themselves.
fn note_days(checker: &mut Checker, entries: &[Entry], order: &[usize]) {
    let changes = |places: std::ops::Range<usize>| order[places].windows(2).any(|pair| pair[0] > pair[1]);
    for k in (0..order.len()).filter(|k| touches_all(&entries[*k].request)) {
        assert_eq!(order[k], k, "what touches everything keeps its place");
        let (before, after) = (changes(0..k), changes(k + 1..order.len()));
        match (&entries[k].request, &entries[k].answer.output) {
            (Request::NewDay { .. }, _) if before && after => checker.coverage.situation("demand 3: other orders before and after a new day"),
            (Request::Reportable { .. }, pairs) if before && pairs.len() >= 4 => {
                checker.coverage.situation("demand 3: another order before a list of two records or more")
            }
            _ => {}
        }
    }
    if entries.iter().filter(|entry| matches!(entry.request, Request::NewDay { .. })).count() >= 2 {
        checker.coverage.situation("demand 3: another order over three days or more");
    }
}

/// K8: a new day and the list "touch everything in demand 3"
fn touches_all(request: &Request) -> bool {
    matches!(request, Request::NewDay { .. } | Request::Reportable { .. })
}

/// A random order in which any two touching entries keep theirs: each time one of those is taken that no entry before them holds back.
fn other_order(rng: &mut Rng, entries: &[Entry]) -> Vec<usize> {
    let named: Vec<Names> = entries.iter().map(|entry| names(&entry.request)).collect();
    let all: Vec<bool> = entries.iter().map(|entry| touches_all(&entry.request)).collect();
    let touch = |a: usize, b: usize| all[a] || all[b] || !named[a].0.is_disjoint(&named[b].0) || !named[a].1.is_disjoint(&named[b].1);
    let mut left: Vec<usize> = (0..entries.len()).collect();
    let mut order = Vec::new();
    // Half of the orders prefer the latest entry that may go first: the farthest from the first order.
    let latest = rng.percent(50);
    while !left.is_empty() {
        let free: Vec<usize> = (0..left.len()).filter(|k| left[..*k].iter().all(|earlier| !touch(*earlier, left[*k]))).collect();
        let chosen = if latest { free[free.len() - 1] } else { rng.pick(&free) };
        order.push(left.remove(chosen));
    }
    order
}

/// Ids, and positions.
type Names = (BTreeSet<i64>, BTreeSet<(i64, i64)>);

/// "A request's ids are all it names, new ones included; its positions are each account it names with its series." K3: "the process id among the ids"
fn names(request: &Request) -> Names {
    match request {
        Request::Trade { id, account, series, .. } => (BTreeSet::from([*id]), BTreeSet::from([(*account, *series)])),
        Request::Separate { id, account, series, .. } => (BTreeSet::from([*id]), BTreeSet::from([(*account, *series)])),
        Request::Transfer { id, from, to, series, .. } => (BTreeSet::from([*id]), BTreeSet::from([(*from, *series), (*to, *series)])),
        Request::Merge { id, account, series, pairs } => {
            let ids = pairs.iter().step_by(2).chain([id]).copied().collect();
            (ids, BTreeSet::from([(*account, *series)]))
        }
        Request::Lineage { id, .. } => (BTreeSet::from([*id]), BTreeSet::new()),
        Request::GiveUp { process, id, giving, taking, series, .. } => {
            (BTreeSet::from([*process, *id]), BTreeSet::from([(*giving, *series), (*taking, *series)]))
        }
        // "names all their ids and positions", those of its trades
        Request::Trades { figures, .. } => {
            let trades: Vec<Names> = trades_of(figures).map(|trade| names(&trade)).collect();
            (trades.iter().flat_map(|trade| trade.0.clone()).collect(), trades.iter().flat_map(|trade| trade.1.clone()).collect())
        }
        Request::NewDay { .. } | Request::Reportable { .. } => (BTreeSet::new(), BTreeSet::new()),
        Request::Replay { .. } => unreachable!("it stands in the list as the requests it booked"),
    }
}

fn print_orders(start: &Tables, entries: &[Entry], order: &[usize], what: &str) -> String {
    let list: Vec<String> = entries.iter().enumerate().map(|(k, entry)| format!("  {k}: {:?} -> {:?}", entry.request, entry.answer)).collect();
    format!("demand 3: {what}\n\nTables at the start\n{}\nAccepted entries\n{}\n\nSecond order\n  {order:?}", start.print(), list.join("\n"))
}
