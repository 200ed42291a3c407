//! Times the library beside the tuned implementation in Rust: same inputs, same run, best of many batches, alternately; and counts the
//! instructions of both, which a busy machine does not change. All rows are timed in five runs, one after the other; the run whose ratio
//! is the median of the five counts.
//!
//! `uadp-bench [BATCHES [PART]]` prints tables and which rows miss the bar, with so many batches in all five runs together, of the rows
//! whose name has that part; without valgrind the last column is empty. Each row's answers are compared before it is timed.
//! `uadp-bench --calls ROW SIDE CALLS` makes so many calls of one side of a row, for valgrind.
mod by_one;
mod inputs;
mod jobs;

use jobs::{Job, Pair};
use std::env;
use std::hint::black_box;
use std::process::{Command, ExitCode};
use std::time::{Duration, Instant};

/// How many batches of a row are timed, if no number is given, and in how many runs.
const BATCHES: usize = 300;
const RUNS: usize = 5;
/// About how long a batch takes.
const BATCH: Duration = Duration::from_micros(300);
/// What stands beside the library in most tables.
const RUST: &str = "Rust";
/// A ratio up to this holds the bar: times vary by some hundredths.
const BAR: f64 = 1.005;

/// A row of the table. What it is about is made when it is run.
struct Row {
    name: String,
    pair: Box<dyn Fn() -> Pair>,
}

fn row<T: 'static>(name: impl Into<String>, input: impl Fn() -> T + 'static, pair: fn(T) -> Pair) -> Row {
    Row { name: name.into(), pair: Box::new(move || pair(input())) }
}

/// A table: its title, what stands beside the library, its rows.
type Table = (&'static str, &'static str, Vec<Row>);

fn tables() -> Vec<Table> {
    let each = |job: &'static str, pair: fn(inputs::Input) -> Pair| {
        inputs::standard().into_iter().map(move |(name, input)| row(format!("{job}: {name}"), input, pair)).collect::<Vec<_>>()
    };
    let some = |count: usize, job: &'static str, pair: fn(inputs::Input) -> Pair| {
        each(job, pair).into_iter().take(count).collect::<Vec<_>>()
    };
    let marks = |job: &'static str, pair: fn((Vec<u8>, usize)) -> Pair| {
        let rows = inputs::MARKS.into_iter();
        rows.map(move |(name, length, missing)| row(format!("{job}: {name}"), move || inputs::marks(length, missing), pair))
            .collect::<Vec<_>>()
    };
    let growth = [1_000, 2_000, 4_000, 8_000, 16_000, 32_000, 60_000].into_iter().flat_map(|length| {
        let array = row(format!("walk: {length} bytes of one array"), move || inputs::one_array(length), jobs::walk);
        [array, row(format!("walk: {length} bytes of UInt32 Variants"), move || inputs::small_fields(length), jobs::walk)]
    });
    let chunks = vec![
        row("a full configuration text", inputs::full_text, jobs::config),
        row("16 chunks of 1,024 bytes taken in from empty", inputs::chunk_datagrams, |datagrams| jobs::take_in(datagrams, false)),
        row("the same, completeness asked after each", inputs::chunk_datagrams, |datagrams| jobs::take_in(datagrams, true)),
        row("completeness of 16,384 bytes", inputs::chunk_datagrams, jobs::complete),
        row("16,384 bytes handed out", inputs::chunk_datagrams, jobs::hand_out),
        row("16,384 bytes combined into empty", inputs::chunk_datagrams, |datagrams| jobs::combine(datagrams, true)),
        row("16,384 bytes combined into the same", inputs::chunk_datagrams, |datagrams| jobs::combine(datagrams, false)),
    ];
    let salvage = vec![
        row("16,384 bytes salvaged, no hole", || inputs::ping(0, 0), jobs::salvage),
        row("16,384 bytes salvaged, one hole", || inputs::ping(1, 1_000), jobs::salvage),
        row("16,384 bytes salvaged, 1,000 holes", || inputs::ping(1_000, 1), jobs::salvage),
    ];
    vec![
        ("Walking in one call", RUST, each("walk", jobs::walk)),
        ("Listing", RUST, each("list", jobs::list)),
        ("Writing again, beside a copy after reading", RUST, each("rewrite", jobs::rewrite)),
        (
            "Writing the first message again, beside a copy after reading",
            RUST,
            each("rewrite the first message", jobs::rewrite_message),
        ),
        ("Walking with no room for records", RUST, some(6, "count", jobs::count)),
        ("Walking with a call for each message and field, beside one pass", RUST, some(6, "by calls", jobs::by_calls)),
        ("Configuration, chunks", RUST, chunks),
        ("Marks, beside Rust", RUST, marks("count", jobs::marks)),
        ("Marks, beside one after another", "one by one", marks("count, one by one", jobs::marks_by_one)),
        ("Salvaging", RUST, salvage),
        ("Growth with the length", RUST, growth.collect()),
    ]
}

/// The times of the library and of what stands beside it.
type Times = (f64, f64);

/// The time of one call in a batch of `calls`.
fn time_batch(calls: u32, job: &mut Job) -> f64 {
    let start = Instant::now();
    for _ in 0..calls {
        black_box(job());
    }
    start.elapsed().as_nanos() as f64 / f64::from(calls)
}

/// How many calls make a batch.
fn calls_per_batch(job: &mut Job) -> u32 {
    let once = time_batch(10, job).max(1.0);
    (BATCH.as_nanos() as f64 / once).clamp(1.0, 20_000.0) as u32
}

/// The best times of both sides in a run; none where the answers differ.
fn times(batches: usize, Pair { mut ours, mut rust }: Pair) -> Option<Times> {
    if ours() != rust() {
        return None;
    }
    let calls = calls_per_batch(&mut ours).min(calls_per_batch(&mut rust));
    let (mut our_best, mut rust_best) = (f64::INFINITY, f64::INFINITY);
    for _ in 0..batches {
        our_best = our_best.min(time_batch(calls, &mut ours));
        rust_best = rust_best.min(time_batch(calls, &mut rust));
    }
    Some((our_best, rust_best))
}

/// The run with the median ratio; none where the answers differed in a run.
fn median(runs: Vec<Option<Times>>) -> Option<Times> {
    let mut all = runs.into_iter().collect::<Option<Vec<_>>>()?;
    all.sort_by(|a, b| (a.0 / a.1).total_cmp(&(b.0 / b.1)));
    all.get(all.len() / 2).copied()
}

/// How many instructions this program takes for so many calls of one side of a row.
fn instructions(row: &str, side: &str, calls: &str) -> Option<f64> {
    let program = env::current_exe().ok()?;
    let tool = ["--tool=cachegrind", "--cache-sim=no", "--cachegrind-out-file=/dev/null"];
    let output = Command::new("valgrind").args(tool).arg(program).args(["--calls", row, side, calls]).output().ok()?;
    let text = String::from_utf8(output.stderr).ok()?;
    let line = text.lines().find(|line| line.contains("refs:"))?;
    line.rsplit(':').next()?.trim().replace(',', "").parse().ok()
}

/// Instructions of the library by those of Rust, for a call.
fn instruction_ratio(row: &str) -> Option<f64> {
    let of = |side| Some(instructions(row, side, "110")? - instructions(row, side, "10")?);
    Some(of("ours")? / of("rust")?)
}

/// Makes the calls that are to be counted.
fn make_calls(name: &str, side: &str, calls: u32) {
    let found = tables().into_iter().flat_map(|(_, _, rows)| rows).find(|row| row.name == name);
    let Pair { mut ours, mut rust } = (found.expect("a row").pair)();
    let job = if side == "ours" { &mut ours } else { &mut rust };
    (0..calls).for_each(|_| {
        black_box(job());
    });
}

fn main() -> ExitCode {
    let arguments: Vec<String> = env::args().skip(1).collect();
    if let [flag, row, side, calls] = &arguments[..] {
        if flag == "--calls" {
            make_calls(row, side, calls.parse().unwrap_or(0));
            return ExitCode::SUCCESS;
        }
    }
    let batches = arguments.first().and_then(|batches| batches.parse().ok()).unwrap_or(BATCHES);
    let part = arguments.get(1).map_or("", String::as_str);
    let mut tables = tables();
    tables.iter_mut().for_each(|(_, _, rows)| rows.retain(|row| row.name.contains(part)));
    let in_run = |_| {
        let rows = tables.iter().flat_map(|(_, _, rows)| rows);
        rows.map(|row| times((batches / RUNS).max(1), (row.pair)())).collect::<Vec<_>>()
    };
    let runs: Vec<_> = (0..RUNS).map(in_run).collect();
    let (mut missing, mut differing, mut index) = (Vec::new(), 0, 0);
    for (title, beside, rows) in tables.iter().filter(|(_, _, rows)| !rows.is_empty()) {
        println!(
            "\n{title}\n\n| | library, ns | {beside}, ns | library / {beside} | by instructions |\n|---|---:|---:|---:|---:|"
        );
        for Row { name, .. } in rows {
            let row = median(runs.iter().map(|run| run[index]).collect());
            index += 1;
            let Some((ours, rust)) = row else {
                println!("| {name} | answers differ | | | |");
                differing += 1;
                continue;
            };
            let ratio = ours / rust;
            let by_instructions = instruction_ratio(name).map_or_else(String::new, |ratio| format!("{ratio:.2}"));
            println!("| {name} | {ours:.0} | {rust:.0} | {ratio:.2} | {by_instructions} |");
            if ratio > BAR {
                missing.push(format!("{name} ({ratio:.2})"));
            }
        }
    }
    println!("\n{} rows miss the bar{} {}", missing.len(), if missing.is_empty() { "." } else { ":" }, missing.join(", "));
    ExitCode::from(u8::from(differing > 0))
}
