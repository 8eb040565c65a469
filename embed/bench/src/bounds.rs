//! The bounds that the pool is held to, and what a run says of each.

use crate::counts::{Events, UNSPLIT};
use crate::instructions::Counts;
use crate::peer::Op;
use crate::peers::{PROVED, UNCHECKED};
use crate::race::Race;
use crate::report::table;
use crate::run::Run;

const FETCH_INSTRUCTIONS: f64 = 1.05;
const CHANGE_TIME: f64 = 1.15;
const CHANGE_TIME_MFENCE: f64 = 1.05;
/// What the pool is to be ahead of: the names of their settings start with these.
const STORES: [&str; 7] = [
    "LMDB,",
    "LMDB in batches",
    "Berkeley DB",
    "SQLite,",
    "SQLite in batches",
    "PMDK, its own btree_map",
    "PMDK, transactions on 01's tree",
];

struct Verdict {
    bound: String,
    measured: String,
    reached: bool,
}

fn verdict(bound: String, measured: String, reached: bool) -> Verdict {
    Verdict {
        bound,
        measured,
        reached,
    }
}

fn fetch_instructions(counts: &Counts) -> Verdict {
    let fetches = counts.by_op.iter().filter(|(op, _)| !op.writes());
    let ratios: Vec<(Op, f64)> = fetches.map(|(op, counts)| (*op, counts[0] / counts[1])).collect();
    let told = format!(
        "fetch at {} records: at most {FETCH_INSTRUCTIONS} of unchecked Rust's instructions",
        counts.records
    );
    verdict(
        told,
        said(&ratios, 3),
        ratios.iter().all(|(_, ratio)| *ratio <= FETCH_INSTRUCTIONS),
    )
}

/// The pool's time for each change against the direct peer's.
fn change_time(race: &Race, fence: &str, bound: f64) -> Verdict {
    let (proved, direct) = (
        race.named(PROVED).expect("in every race"),
        race.named(UNCHECKED).expect("in every race"),
    );
    let changes = Op::ALL.into_iter().filter(|op| op.writes());
    let ratios: Vec<(Op, f64)> = changes.filter_map(|op| Some((op, proved.ratio(direct, op)?))).collect();
    let told = format!(
        "changes at {} records, {fence}: at most {bound} of the direct peer's time",
        race.plan.records
    );
    verdict(told, said(&ratios, 3), ratios.iter().all(|(_, ratio)| *ratio <= bound))
}

/// Exact counts: each kind of request with its flushes and fences.
fn flushes_and_fences(events: &[Events]) -> Verdict {
    let wanted = [
        (UNSPLIT, 2),
        (Op::PutBack.name(), 2),
        (Op::Replace.name(), 1),
        (Op::Delete.name(), 1),
    ];
    let met = |&(kind, count): &(&str, u64)| {
        let exact = |events: &Events| [events.flushes, events.fences].iter().all(|range| range.is(count));
        events.iter().find(|events| events.kind == kind).is_some_and(exact)
    };
    let told = "2 flushes and 2 fences a put without a split, 1 and 1 a delete and a replace";
    let requests: u64 = events.iter().map(|events| events.requests).sum();
    verdict(told.into(), format!("{requests} requests counted"), wanted.iter().all(met))
}

/// Of each store the least ratio of its settings to the pool, by operation.
fn ahead(race: &Race) -> Vec<Verdict> {
    let proved = race.named(PROVED).expect("in every race");
    let judged = |store: &&str| {
        let settings = || race.timed.iter().filter(|timed| timed.name.starts_with(store));
        let least = |op: Op| settings().filter_map(|timed| timed.ratio(proved, op)).reduce(f64::min);
        let ratios: Vec<(Op, f64)> = Op::ALL.into_iter().filter_map(|op| Some((op, least(op)?))).collect();
        let told = format!("ahead at {} records: {}", race.plan.records, store.trim_end_matches(','));
        (!ratios.is_empty()).then(|| verdict(told, said(&ratios, 2), ratios.iter().all(|(_, ratio)| *ratio > 1.0)))
    };
    STORES.iter().filter_map(judged).collect()
}

/// Ratios by operation in words.
fn said(ratios: &[(Op, f64)], digits: usize) -> String {
    let told: Vec<String> = ratios
        .iter()
        .map(|(op, ratio)| format!("{} {ratio:.digits$}", op.short()))
        .collect();
    told.join("; ")
}

/// Every bound with what was measured and whether it is reached.
pub fn judged(run: &Run) -> String {
    let mut verdicts: Vec<Verdict> = run.instructions.iter().map(fetch_instructions).collect();
    verdicts.extend(run.near.iter().map(|race| change_time(race, "sfence", CHANGE_TIME)));
    verdicts.extend(run.mfence.iter().map(|race| change_time(race, "mfence", CHANGE_TIME_MFENCE)));
    verdicts.push(flushes_and_fences(&run.events));
    verdicts.extend(run.in_tables().flat_map(ahead));
    let calls = format!("{} calls of the allocator", run.allocations);
    verdicts.push(verdict("no heap".into(), calls, run.allocations == 0));
    let row = |verdict: Verdict| {
        vec![
            verdict.bound,
            verdict.measured,
            if verdict.reached { "reached" } else { "missed" }.into(),
        ]
    };
    let heading = ["bound", "measured", "verdict"].map(String::from);
    table(&heading, &verdicts.into_iter().map(row).collect::<Vec<_>>())
}
