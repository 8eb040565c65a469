//! A plot of cost by records, as SVG: both axes logarithmic, a panel for each operation, a line for each peer.

use crate::peer::Op;
use crate::race::Race;
use std::fmt::Write;

const PANEL_WIDTH: f64 = 400.0;
const PANEL_HEIGHT: f64 = 330.0;
const LEFT: f64 = 60.0;
const TOP: f64 = 40.0;
const BETWEEN: f64 = 60.0;
const KEY_ROW: f64 = 18.0;
const COLOURS: [&str; 11] = [
    "#000000", "#d62728", "#ff7f0e", "#2ca02c", "#1f77b4", "#17becf", "#9467bd", "#8c564b", "#e377c2", "#7f7f7f", "#bcbd22",
];
/// The numbers of a decade that the axis of cost names.
const NAMED: [f64; 3] = [1.0, 2.0, 5.0];

/// A logarithmic axis from one number to another over a length.
struct Axis {
    from: f64,
    to: f64,
    length: f64,
}

impl Axis {
    fn place(&self, number: f64) -> f64 {
        self.length * (number / self.from).ln() / (self.to / self.from).ln()
    }
}

/// The plot of the races, which rise by records, for the peers and operations named.
pub fn svg(races: &[Race], names: &[&str], ops: &[Op]) -> String {
    let width = LEFT + ops.len() as f64 * (PANEL_WIDTH + BETWEEN);
    let height = TOP + PANEL_HEIGHT + 50.0 + KEY_ROW * names.len().div_ceil(2) as f64;
    let mut text = format!(
        "<svg xmlns=\"http://www.w3.org/2000/svg\" width=\"{width}\" height=\"{height}\" font-family=\"sans-serif\" \
         font-size=\"12\">\n<rect width=\"100%\" height=\"100%\" fill=\"white\"/>\n"
    );
    let cost = cost_axis(races, names, ops);
    for (at, &op) in ops.iter().enumerate() {
        let _ = writeln!(
            text,
            "<g transform=\"translate({},{TOP})\">",
            LEFT + at as f64 * (PANEL_WIDTH + BETWEEN)
        );
        panel(&mut text, races, names, op, &cost);
        text.push_str("</g>\n");
    }
    key(&mut text, names, TOP + PANEL_HEIGHT + 50.0);
    text.push_str("</svg>\n");
    text
}

/// The axis that holds every cost that is drawn, from a number that it names to one.
fn cost_axis(races: &[Race], names: &[&str], ops: &[Op]) -> Axis {
    let (mut least, mut most) = (f64::MAX, f64::MIN_POSITIVE);
    for timed in races
        .iter()
        .flat_map(|race| &race.timed)
        .filter(|timed| names.contains(&timed.name))
    {
        for cost in ops.iter().filter_map(|&op| timed.of(op)) {
            (least, most) = (least.min(cost), most.max(cost));
        }
    }
    let named = named_from(least);
    Axis {
        from: named.iter().copied().filter(|&number| number <= least).fold(1.0, f64::max),
        to: named.into_iter().find(|&number| number >= most).unwrap_or(most),
        length: PANEL_HEIGHT,
    }
}

/// The numbers that an axis names, from the decade of this one on.
fn named_from(least: f64) -> Vec<f64> {
    let decades = (0..6).map(|power| 10f64.powf(least.log10().floor() + f64::from(power)));
    decades.flat_map(|decade| NAMED.map(|number| number * decade)).collect()
}

fn panel(text: &mut String, races: &[Race], names: &[&str], op: Op, cost: &Axis) {
    let records = |race: &Race| race.plan.records as f64;
    let ends = (races.first().map_or(1.0, records), races.last().map_or(2.0, records));
    let across = Axis {
        from: ends.0,
        to: ends.1,
        length: PANEL_WIDTH,
    };
    let _ = writeln!(
        text,
        "<text x=\"0\" y=\"-14\" font-weight=\"bold\">{}: ns a request by records</text>",
        op.name()
    );
    let _ = writeln!(
        text,
        "<rect width=\"{PANEL_WIDTH}\" height=\"{PANEL_HEIGHT}\" fill=\"none\" stroke=\"#888\"/>"
    );
    grid(text, races, &across, cost);
    for (at, name) in names.iter().enumerate() {
        let point = |race: &Race| {
            let time = race.named(name)?.of(op)?;
            Some(format!(
                "{:.1},{:.1}",
                across.place(records(race)),
                PANEL_HEIGHT - cost.place(time)
            ))
        };
        let points: Vec<String> = races.iter().filter_map(point).collect();
        let (colour, thick) = (COLOURS[at % COLOURS.len()], if at == 0 { 3.0 } else { 1.5 });
        let points = points.join(" ");
        let _ = writeln!(
            text,
            "<polyline fill=\"none\" stroke=\"{colour}\" stroke-width=\"{thick}\" points=\"{points}\"/>"
        );
    }
}

fn grid(text: &mut String, races: &[Race], across: &Axis, cost: &Axis) {
    for number in named_from(cost.from)
        .into_iter()
        .filter(|number| (cost.from..=cost.to).contains(number))
    {
        let y = PANEL_HEIGHT - cost.place(number);
        let _ = writeln!(
            text,
            "<line x2=\"{PANEL_WIDTH}\" y1=\"{y:.1}\" y2=\"{y:.1}\" stroke=\"#ddd\"/>"
        );
        let _ = writeln!(
            text,
            "<text x=\"-6\" y=\"{:.1}\" text-anchor=\"end\">{number}</text>",
            y + 4.0
        );
    }
    for race in races {
        let x = across.place(race.plan.records as f64);
        let _ = writeln!(
            text,
            "<line x1=\"{x:.1}\" x2=\"{x:.1}\" y2=\"{PANEL_HEIGHT}\" stroke=\"#ddd\"/>"
        );
        let y = PANEL_HEIGHT + 16.0;
        let label = race.plan.records / 1000;
        let _ = writeln!(text, "<text x=\"{x:.1}\" y=\"{y}\" text-anchor=\"middle\">{label}k</text>");
    }
}

/// Which colour is which peer, in two columns.
fn key(text: &mut String, names: &[&str], top: f64) {
    for (at, name) in names.iter().enumerate() {
        let x = LEFT + (at % 2) as f64 * (PANEL_WIDTH + BETWEEN);
        let y = top + KEY_ROW * (at / 2) as f64;
        let colour = COLOURS[at % COLOURS.len()];
        let _ = writeln!(
            text,
            "<line x1=\"{x}\" x2=\"{}\" y1=\"{y}\" y2=\"{y}\" stroke=\"{colour}\" stroke-width=\"3\"/>",
            x + 24.0
        );
        let _ = writeln!(text, "<text x=\"{}\" y=\"{}\">{name}</text>", x + 32.0, y + 4.0);
    }
}
