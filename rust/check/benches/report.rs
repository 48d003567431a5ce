//! The table, `docs/BENCHMARKS.md` and `docs/benchmarks.svg`.

use std::fmt::Write;
use std::path::Path;
use std::time::Duration;
use std::{fs, io};

use crate::workload::Workload;

/// The median times of one call on one tray, by variant, in nanoseconds a unit.
pub struct Row {
    h: usize,
    records: usize,
    d: Option<usize>,
    call: &'static str,
    unit: &'static str,
    times: Vec<(&'static str, f64)>,
}

impl Row {
    pub fn new(
        work: &Workload,
        d: Option<usize>,
        call: &'static str,
        unit: &'static str,
        times: Vec<(&'static str, f64)>,
    ) -> Self {
        Row { h: work.h, records: work.records / work.h, d, call, unit, times }
    }

    fn time(&self, variant: &str) -> Option<f64> {
        self.times.iter().find(|(name, _)| *name == variant).map(|(_, time)| *time)
    }

    /// A time and how many times the library's it is.
    fn cell(&self, variant: &str) -> String {
        let Some(time) = self.time(variant) else {
            return String::new();
        };
        let library = self.time("library").expect("the library is measured");
        if variant == "library" { format!("{time:.2}") } else { format!("{time:.2} ({:.2})", time / library) }
    }
}

/// Of each row the pass in which the library and the hand-written rules together were the fastest, so that both are as little disturbed as
/// they can be, and at the same time.
pub fn calmest(passes: Vec<Vec<Row>>) -> Vec<Row> {
    let both = |row: &Row| row.time("library").unwrap_or(0.0) + row.time("hand").unwrap_or(0.0);
    let mut passes = passes.into_iter();
    let mut calm = passes.next().expect("a pass");
    for pass in passes {
        for (row, other) in calm.iter_mut().zip(pass) {
            if both(&other) < both(row) {
                *row = other;
            }
        }
    }
    calm
}

const VARIANTS: [&str; 5] = ["library", "hand", "heap", "map", "memcpy"];

/// The rows as a Markdown table.
pub fn table(rows: &[Row]) -> String {
    let mut text = String::from(
        "| Tray | D | Call | ns a | library | hand | heap | map | memcpy |\n|---|---|---|---|---|---|---|---|---|\n",
    );
    for row in rows {
        let d = row.d.map_or(String::from("any"), |d| d.to_string());
        let cells = VARIANTS.map(|variant| row.cell(variant)).join(" | ");
        writeln!(text, "| {} x {} | {d} | {} | {} | {cells} |", row.h, row.records, row.call, row.unit)
            .expect("a string");
    }
    text
}

/// Each call in a line: the library's times at 1, 8 and 63 runs, and between which bounds the hand-written rules lie.
fn summary(rows: &[Row]) -> String {
    let mut text = String::from("| Call | ns a | H 1 | H 8 | H 63 | hand / library |\n|---|---|---|---|---|---|\n");
    let mut calls: Vec<&Row> = Vec::new();
    for row in rows {
        if calls.iter().all(|seen| seen.call != row.call) {
            calls.push(row);
        }
    }
    for &Row { call, unit, .. } in calls {
        let times = RUNS.map(|h| time(rows, h, call, "library").map_or(String::new(), |time| format!("{time:.1}")));
        let ratios =
            rows.iter().filter(|row| row.call == call).filter_map(|row| Some(row.time("hand")? / row.time("library")?));
        let (least, most) = ratios.fold((f64::MAX, 0f64), |(least, most), ratio| (least.min(ratio), most.max(ratio)));
        writeln!(text, "| {call} | {unit} | {} | {least:.2} to {most:.2} |", times.join(" | ")).expect("a string");
    }
    text
}

/// The library's times of a call over the trays of `h` runs of 4,096 records, whatever D: the least and the most.
fn bounds(rows: &[Row], h: usize, call: &str, of: impl Fn(&Row) -> Option<f64>) -> (f64, f64) {
    let full = rows.iter().filter(|row| row.h == h && row.records == 4096 && row.call == call).filter_map(of);
    full.fold((f64::MAX, 0f64), |(least, most), value| (least.min(value), most.max(value)))
}

/// The targets on trays of full runs, and what was measured: a target is met where the worst of its rows meets it.
fn targets(rows: &[Row]) -> String {
    let library = |row: &Row| row.time("library");
    let rate = |row: &Row| Some(1000.0 / row.time("library")?);
    let heaps = |row: &Row| Some(row.time("heap")? / row.time("library")?);
    let word = |met: bool| if met { "met" } else { "missed" };
    let mut text = String::from("| Target | Measured | |\n|---|---|---|\n");
    let mut line = |target: &str, (least, most): (f64, f64), unit: &str, met: bool| {
        writeln!(text, "| {target} | {least:.1} to {most:.1} {unit} | {} |", word(met)).expect("a string");
    };
    for (call, h, limit) in [
        ("check tray", 1, 3.0),
        ("check tray", 8, 3.0),
        ("check tray", 63, 3.0),
        ("check index", 1, 8.0),
        ("check index", 8, 8.0),
        ("check index", 63, 8.0),
        ("build", 8, 31.0),
        ("build", 63, 45.0),
    ] {
        let measured = bounds(rows, h, call, library);
        line(&format!("{call}: at most {limit} ns a record, H {h}"), measured, "ns", measured.1 <= limit);
    }
    for (call, limit) in [("page, all in one", 110.0), ("page, 256 records each", 110.0), ("sheet", 60.0)] {
        let measured = bounds(rows, 63, call, rate);
        line(&format!("{call}: at least {limit} M records a second, H 63"), measured, "M", measured.0 >= limit);
    }
    let measured = bounds(rows, 63, "sheet", heaps);
    line("sheet: at least 10 times a heap's speed, H 63", measured, "times", measured.0 >= 10.0);
    // Rounded as the table shows them, so that what is said here can be found there.
    let ratio = |row: &Row| Some((100.0 * row.time("hand")? / row.time("library")?).round() / 100.0);
    let ratios: Vec<f64> = rows.iter().filter_map(ratio).collect();
    let (least, most) = ratios.iter().fold((f64::MAX, 0f64), |(least, most), &r| (least.min(r), most.max(r)));
    let (level, all) = (ratios.iter().filter(|&&ratio| ratio >= 1.0).count(), ratios.len());
    writeln!(
        text,
        "| every call: as fast as the same rules by hand, a ratio of 1.00 | {level} of {all} rows | {} |\n\
         | every call: a ratio of at least 0.90 | {least:.2} to {most:.2} | {} |",
        word(level == all),
        word(least >= 0.9)
    )
    .expect("a string");
    text
}

/// The model of the processor, as the system names it.
fn processor() -> String {
    let info = fs::read_to_string("/proc/cpuinfo").unwrap_or_default();
    let model = info.lines().find_map(|line| line.strip_prefix("model name")?.split_once(": "));
    model.map_or("unknown", |(_, name)| name).to_string()
}

/// What the machine's processors have done so far, in hundredths of a second, and what this thread has of it.
pub struct Load {
    all: f64,
    idle: f64,
    own: f64,
}

impl Load {
    /// The load so far, of which this thread had `own`. Where the system doesn't tell, nothing is known of others.
    pub fn now(own: Duration) -> Self {
        let stat = fs::read_to_string("/proc/stat").unwrap_or_default();
        let line = stat.lines().next().unwrap_or_default();
        let ticks: Vec<f64> = line.split_whitespace().skip(1).take(8).filter_map(|word| word.parse().ok()).collect();
        let idle = ticks.iter().skip(3).take(2).sum();
        Load { all: ticks.iter().sum(), idle, own: own.as_secs_f64() * 100.0 }
    }

    /// How much of the processors' time other programs took until a later load, in percent.
    pub fn others_until(&self, later: &Load) -> f64 {
        let all = later.all - self.all;
        let others = all - (later.idle - self.idle) - (later.own - self.own);
        100.0 * others.max(0.0) / all.max(1.0)
    }
}

/// Writes the page and the plot.
pub fn write(rows: &[Row], others: f64) -> io::Result<()> {
    let docs = Path::new(env!("CARGO_MANIFEST_DIR")).join("../../docs");
    fs::write(docs.join("BENCHMARKS.md"), page(rows, others))?;
    fs::write(docs.join("benchmarks.svg"), plot(rows))
}

fn page(rows: &[Row], others: f64) -> String {
    let (processor, table, summary, targets) = (processor(), table(rows), summary(rows), targets(rows));
    format!(
        "# Benchmarks

How long each call takes, and how long the same work takes in other ways. `cargo bench --offline` in `rust/` measures and writes this page;
`cargo bench --offline -- --quick` checks the same answers and writes nothing.

![ns a record against the number of runs](benchmarks.svg)

{summary}
Times of the library in nanoseconds, for H runs of 4,096 records (folds into one: 4,096 / H), and for D 64 where a call depends on D. The last
column is the time of the same rules written by hand, divided by the library's: the lowest and the highest ratio of all rows at the end of this
page. Above 1.00 the library is faster.

## What is compared

- **library**: the proved library through its C interface.
- **hand**: the same rules for every input, written by hand in safe Rust for speed (`rust/check/benches/hand.rs`): check index in one pass,
  build and fold over a loser tree, a sheet that remembers its records.
- **heap**: a merging iterator over a `BinaryHeap` of the runs, without an index.
- **map**: a `BTreeMap` of the visible points. It holds them in memory a second time, and building it is not counted.
- **memcpy**: the finished listing, copied.

Before anything is timed, library, hand, heap and map must give the answers and bytes of the twin.

## How it is measured

| | |
|---|---|
| Machine | {processor}, one thread. Other programs used {others:.0} % of the processors' time during the measurement |
| Build | library: `tools/build library`; Rust: `cargo bench`, opt-level 3, one codegen unit, no processor-specific flags |
| Trays | H runs of 4,096 records from fixed seeds; each key is in 1 to 4 runs, 5 % of the records are gone, and a sheet has up to 200 points. For folds of all runs into one: H runs of 4,096 / H records |
| Requests | get, seek and next: 1,000 keys in random order, and next also tests the cursor that it is given; sheet: 64 sheets in random order |
| Memory | outputs are allocated and zeroed once, and not cleared between rounds; inputs are as warm as the caches keep them |
| Times | processor time of the measuring thread. In each round the variants of a call run one after another, each once untimed and then timed; a time is the median of 15 rounds. Of five such measurements each row shows the one in which library and hand together were fastest |

## Targets

For full runs, over every D that is measured. A target is met if the worst row meets it.

{targets}
## All rows

The ratio to the library's time is in brackets.

At H 63 much of the time is spent waiting for memory: a tray of 63 runs of 4,096 records has 6.4 MB, more than the second-level cache of most
processors, and a merge or a listing reads it at 63 places in turn. The last rows are for 63 runs of 512 records, which fit into the cache, and
so show the time of the call itself.

{table}"
    )
}

/// The calls of the plot and their colours.
const LINES: [(&str, &str); 5] = [
    ("check tray", "#7a7a7a"),
    ("check index", "#1b6ca8"),
    ("build", "#b8442e"),
    ("page, all in one", "#2e8b57"),
    ("sheet", "#8a5fbf"),
];

/// The numbers of runs along the plot.
const RUNS: [usize; 3] = [1, 8, 63];

const LEFT: f64 = 70.0;
const TOP: f64 = 50.0;
const WIDTH: f64 = 420.0;
const HEIGHT: f64 = 300.0;
/// The decades of the plot's times: 1 to 1,000 ns.
const LEAST: i32 = 0;
const MOST: i32 = 3;

fn across(h: usize) -> f64 {
    LEFT + WIDTH * (h as f64).ln() / 63f64.ln()
}

fn down(time: f64) -> f64 {
    let (least, most) = (f64::from(LEAST), f64::from(MOST));
    TOP + HEIGHT * (most - time.log10().clamp(least, most)) / (most - least)
}

/// The time of a call at a number of runs, for D 64 where it depends on D.
fn time(rows: &[Row], h: usize, call: &str, variant: &str) -> Option<f64> {
    let row = rows.iter().find(|row| row.h == h && row.call == call && row.d.is_none_or(|d| d == 64))?;
    row.time(variant)
}

/// A line through the times of a call.
fn line(rows: &[Row], call: &str, variant: &str, colour: &str, dashes: &str) -> String {
    let points: Vec<(f64, f64)> =
        RUNS.iter().filter_map(|&h| Some((across(h), down(time(rows, h, call, variant)?)))).collect();
    if points.is_empty() {
        return String::new();
    }
    let path: Vec<String> = points.iter().map(|(x, y)| format!("{x:.1},{y:.1}")).collect();
    let mut text = format!(
        "  <polyline fill=\"none\" stroke=\"{colour}\" stroke-width=\"2\"{dashes} points=\"{}\"/>\n",
        path.join(" ")
    );
    for (x, y) in points.iter().filter(|_| dashes.is_empty()) {
        writeln!(text, "  <circle cx=\"{x:.1}\" cy=\"{y:.1}\" r=\"3\" fill=\"{colour}\"/>").expect("a string");
    }
    text
}

fn label(x: f64, y: f64, anchor: &str, text: &str) -> String {
    format!("  <text x=\"{x:.1}\" y=\"{y:.1}\" text-anchor=\"{anchor}\">{text}</text>\n")
}

fn grid() -> String {
    let mut text = String::new();
    for decade in LEAST..=MOST {
        let (y, time) = (down(10f64.powi(decade)), 10f64.powi(decade));
        let (right, stroke) = (LEFT + WIDTH, "stroke=\"#dddddd\"");
        writeln!(text, "  <line x1=\"{LEFT}\" y1=\"{y:.1}\" x2=\"{right}\" y2=\"{y:.1}\" {stroke}/>")
            .expect("a string");
        text += &label(LEFT - 8.0, y + 4.0, "end", &time.to_string());
    }
    for h in RUNS {
        text += &label(across(h), TOP + HEIGHT + 20.0, "middle", &h.to_string());
    }
    text + &label(LEFT + WIDTH / 2.0, TOP + HEIGHT + 42.0, "middle", "runs of 4,096 records (H)")
        + &label(LEFT - 50.0, TOP - 20.0, "start", "ns a record, D 64; solid: library, dashed: hand, dotted: heap")
}

/// The names of the lines beside the plot, in the order of their last points, kept apart.
fn legend(rows: &[Row]) -> String {
    let mut names: Vec<(f64, String, &str)> = Vec::new();
    for (call, colour) in LINES {
        names.extend(time(rows, 63, call, "library").map(|time| (down(time), format!("{call}: {time:.1}"), colour)));
    }
    names.sort_by(|a, b| a.0.total_cmp(&b.0));
    let mut text = String::new();
    let mut above = 0f64;
    for (y, name, colour) in names {
        let y = y.max(above + 16.0);
        above = y;
        let x = LEFT + WIDTH + 12.0;
        writeln!(text, "  <text x=\"{x:.1}\" y=\"{:.1}\" fill=\"{colour}\">{name}</text>", y + 4.0).expect("a string");
    }
    text
}

fn plot(rows: &[Row]) -> String {
    let mut lines = String::new();
    for (call, colour) in LINES {
        lines += &line(rows, call, "hand", colour, " stroke-dasharray=\"6 4\"");
        lines += &line(rows, call, "heap", colour, " stroke-dasharray=\"1 4\"");
        lines += &line(rows, call, "library", colour, "");
    }
    let (width, height) = (LEFT + WIDTH + 150.0, TOP + HEIGHT + 60.0);
    format!(
        "<svg xmlns=\"http://www.w3.org/2000/svg\" viewBox=\"0 0 {width} {height}\" font-family=\"sans-serif\" font-size=\"12\">\n  \
         <title>ns a record against the number of runs</title>\n  <rect width=\"{width}\" height=\"{height}\" fill=\"#ffffff\"/>\n\
         {}{lines}{}</svg>\n",
        grid(),
        legend(rows)
    )
}
