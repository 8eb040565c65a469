//! The pages of a run: every table in docs/performance/results.md, some of them in docs/PERFORMANCE.md too, and the plot.

use crate::peer::Op;
use crate::run::Run;
use crate::{bounds, peers, plot, report};
use std::path::Path;
use std::{fs, io};

/// The folder of the documents, from this package's.
const DOCUMENTS: &str = "../../docs";
const PAGE: &str = "PERFORMANCE.md";
const RESULTS: &str = "performance/results.md";
const PLOT: &str = "performance/cost-by-records.svg";

/// In the page a table stands between these, the first with the title of its section.
const TABLE: &str = "<!-- table: ";
const TABLE_TITLED: &str = " -->\n";
const TABLE_END: &str = "<!-- end of table -->";
const NOT_MEASURED: &str = "Not measured in the last run.\n";

const OPENING: &str = "# Results of the last run

Written by the benchmark; ../PERFORMANCE.md says what is compared, and how. Times are nanoseconds a request, and the number in
brackets is the ratio to the proved pool in the same rounds: above 1 the pool is ahead. Beside instructions it is the pool's count
divided by the peer's.
";

/// A titled part of the results.
struct Section {
    title: String,
    body: String,
}

fn section(title: impl Into<String>, body: String) -> Section {
    Section {
        title: title.into(),
        body,
    }
}

fn machine() -> String {
    let named = |names: Vec<String>| if names.is_empty() { "none".into() } else { names.join("; ") };
    let flush = format!("{:?}", ombykape::medium::FlushKind::of_this_processor()).to_lowercase();
    format!(
        "- Processor: {}; it flushes by `{flush}`.\n- Libraries:\n  {}.\n- Left out for want of a library: {}.\n",
        report::processor(),
        named(peers::versions()),
        named(peers::left_out())
    )
}

/// Those that the plot and the tables of growth show: of each store the fastest setting with a transaction a request.
fn shown(run: &Run) -> Vec<&'static str> {
    let passed_over = [peers::SAFE, "LMDB, default sync", "Berkeley DB, log not synced"];
    let names = run
        .races
        .iter()
        .take(1)
        .flat_map(|race| race.timed.iter().map(|timed| timed.name));
    names
        .filter(|name| !passed_over.contains(name) && !name.contains("in batches"))
        .collect()
}

fn sections(run: &Run) -> Vec<Section> {
    let mut sections = vec![section("Machine", machine()), section("Bounds", bounds::judged(run))];
    sections.extend(
        run.in_tables()
            .map(|race| section(format!("All peers, {} records", race.plan.records), report::times(race))),
    );
    for (races, fence) in [(&run.near, "sfence"), (&run.mfence, "mfence")] {
        let title = |records| format!("Yardsticks, {records} records, {fence}");
        sections.extend(
            races
                .iter()
                .map(|race| section(title(race.plan.records), report::times(race))),
        );
    }
    let title = |records| format!("Instructions, {records} records");
    sections.extend(
        run.instructions
            .iter()
            .map(|counts| section(title(counts.records), report::instructions(counts))),
    );
    sections.push(section("Stores, flushes and fences", report::events(&run.events)));
    sections.push(section(
        "Keys held",
        format!("Rows of random keys, each to the first refusal for room: {:?}.\n", run.held),
    ));
    for op in [Op::Hit, Op::PutBack] {
        sections.push(section(
            format!("By records: {}", op.name()),
            report::growth(&run.races, &shown(run), op),
        ));
    }
    sections
}

/// The results as one text.
pub fn text(run: &Run) -> String {
    let titled = |section: &Section| format!("\n## {}\n\n{}", section.title, section.body);
    OPENING.to_string() + &sections(run).iter().map(titled).collect::<String>()
}

/// A page with each table that it names put in the place of the one that stands there.
fn with_tables(page: &str, sections: &[Section]) -> String {
    let mut parts = page.split(TABLE);
    let mut text = parts.next().unwrap_or_default().to_string();
    for part in parts {
        text += TABLE;
        let named = part
            .split_once(TABLE_TITLED)
            .and_then(|(title, rest)| Some((title, rest.split_once(TABLE_END)?.1)));
        let Some((title, after)) = named else {
            text += part;
            continue;
        };
        let body = sections
            .iter()
            .find(|section| section.title == title)
            .map_or(NOT_MEASURED, |section| &section.body);
        text += &format!("{title}{TABLE_TITLED}{body}{TABLE_END}{after}");
    }
    text
}

/// Writes the results, the plot, and the tables of the page.
pub fn write(run: &Run) -> io::Result<()> {
    let documents = Path::new(env!("CARGO_MANIFEST_DIR")).join(DOCUMENTS);
    fs::create_dir_all(documents.join(RESULTS).parent().expect("it has a folder"))?;
    fs::write(documents.join(RESULTS), text(run))?;
    fs::write(
        documents.join(PLOT),
        plot::svg(&run.races, &shown(run), &[Op::Hit, Op::PutBack]),
    )?;
    let page = documents.join(PAGE);
    if let Ok(old) = fs::read_to_string(&page) {
        fs::write(page, with_tables(&old, &sections(run)))?;
    }
    Ok(())
}
