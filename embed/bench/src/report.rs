//! The tables of a run, as Markdown.

use crate::counts::{Events, Range};
use crate::instructions::{Counts, COUNTED};
use crate::peer::Op;
use crate::peers;
use crate::race::{Race, Timed};
use std::fmt::Write;
use std::fs;

/// A table with a heading and rows of cells.
pub fn table(heading: &[String], rows: &[Vec<String>]) -> String {
    let mut text = format!("| {} |\n|{}\n", heading.join(" | "), "---|".repeat(heading.len()));
    for row in rows {
        let _ = writeln!(text, "| {} |", row.join(" | "));
    }
    text
}

fn heading(first: &str, rest: impl Iterator<Item = String>) -> Vec<String> {
    std::iter::once(first.to_string()).chain(rest).collect()
}

/// The processor, by the name that it gives itself.
pub fn processor() -> String {
    let about = fs::read_to_string("/proc/cpuinfo").unwrap_or_default();
    let field = |name: &str| {
        let line = about.lines().find(|line| line.starts_with(name));
        line.and_then(|line| line.split_once(": "))
            .map_or("unknown".into(), |(_, value)| value.to_string())
    };
    let (name, family, model) = (field("model name"), field("cpu family"), field("model\t"));
    format!("{name}, family {family}, model {model}, stepping {}", field("stepping"))
}

/// Nanoseconds of each peer and operation, and in brackets the ratio to the proved pool's in the same round.
pub fn times(race: &Race) -> String {
    let proved = race.named(peers::PROVED).expect("the pool is in every race");
    let cell = |timed: &Timed, op: Op| match (timed.of(op), timed.ratio(proved, op)) {
        (Some(time), Some(ratio)) => format!("{time:.0} ({ratio:.2})"),
        _ => "none".into(),
    };
    let row = |timed: &Timed| {
        let mut cells = vec![timed.name.to_string()];
        cells.extend(Op::ALL.map(|op| cell(timed, op)));
        cells.push(format!("{:.0} ({:.2})", timed.load, timed.load / proved.load));
        cells
    };
    let names = Op::ALL.iter().map(|op| op.name().to_string());
    let heading = heading("peer", names.chain(["load".to_string()]));
    table(&heading, &race.timed.iter().map(row).collect::<Vec<_>>())
}

/// Nanoseconds of an operation by records.
pub fn growth(races: &[Race], names: &[&str], op: Op) -> String {
    let sizes = races.iter().map(|race| race.plan.records.to_string());
    let cell = |race: &Race, name: &str| {
        race.named(name)
            .and_then(|timed| timed.of(op))
            .map_or("none".into(), |ns| format!("{ns:.0}"))
    };
    let row = |name: &&str| heading(name, races.iter().map(|race| cell(race, name)));
    table(&heading(op.name(), sizes), &names.iter().map(row).collect::<Vec<_>>())
}

/// Instructions a request, and in brackets the proved pool's divided by the peer's.
pub fn instructions(counts: &Counts) -> String {
    let row = |(op, counts): &(Op, [f64; COUNTED.len()])| {
        let cells = counts.iter().map(|count| format!("{count:.0} ({:.2})", counts[0] / count));
        heading(op.name(), cells)
    };
    let heading = heading("operation", COUNTED.iter().map(|name| name.to_string()));
    table(&heading, &counts.by_op.iter().map(row).collect::<Vec<_>>())
}

/// Stores, flushes and fences a request.
pub fn events(events: &[Events]) -> String {
    let range = |range: Range| match range.is(range.least) {
        true => range.least.to_string(),
        false => format!("{} to {}", range.least, range.most),
    };
    let row = |events: &Events| {
        let counts = [events.stores, events.flushes, events.fences].map(range);
        heading(events.kind, std::iter::once(events.requests.to_string()).chain(counts))
    };
    let names = ["requests", "stores", "flushes", "fences"].map(String::from);
    table(
        &heading("request", names.into_iter()),
        &events.iter().map(row).collect::<Vec<_>>(),
    )
}
