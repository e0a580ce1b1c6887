//! A second program for the replay, written from the paper alone, to be held
//! against another one. It lists traces and series, makes them from seeds,
//! and compares its listings and sheets with those of given programs, then once
//! more with the pages renamed. It does the same with calls on pool images, and with
//! curves, and sees that an LRU pool with a frame more holds what one without it does.
//! It also runs the program `hitchyawl` as its users do, and holds all that comes of it
//! against what must come.

mod batches;
mod calls;
mod cases;
mod compare_calls;
mod compare_curves;
mod compare_inclusion;
mod curve;
#[cfg(test)]
mod curve_tests;
mod curve_traces;
#[cfg(test)]
mod edges;
mod fixed;
mod fixed_curves;
mod fixed_images;
mod image;
#[cfg(test)]
mod image_tests;
mod inclusion;
#[cfg(test)]
mod inclusion_tests;
mod inclusion_traces;
mod picture;
mod pools;
mod program;
#[cfg(test)]
mod program_tests;
mod rare;
mod renaming;
mod replay;
mod rule_batches;
mod seen_calls;
mod session;
mod stored_calls;
#[cfg(test)]
mod tests;
mod things;
mod traces;

use renaming::{rename_listing, some_renamed_series, some_renamed_trace, Changed, Renaming};
use replay::{check, go_on, Order, Pool, Replayed, Rule, Tally};
use std::collections::BTreeMap;
use std::error::Error;
use std::fmt;
use std::io::{self, Read, Write};
use std::process::{Command, ExitCode, Output, Stdio};
use things::expect_none;
use traces::{Load, Random};

const USAGE: &str = "\
usage: listing < TRACE
       series < ITEMS
       make SEED > TRACE
       makeseries SEED > ITEMS
       stored > ITEMS
       skewed lru|clock|watt high|low > TRACE
       calls < CALLS
       makecalls SEED > CALLS
       storedcalls > CALLS
       curve [--svg] < TRACE
       makecurve SEED > TRACE
       compare HITCHYAWL-PROGRAM BENCH-PROGRAM SERIES-PROGRAM FIRST COUNT SERIESCOUNT
       comparecalls CALLS-PROGRAM FIRST COUNT
       comparecurves HITCHYAWL-PROGRAM FIRST COUNT
       compareinclusion HITCHYAWL-PROGRAM FIRST COUNT
       session HITCHYAWL FOLDER FIRST COUNT
       pace < IMAGE";

fn main() -> ExitCode {
    let arguments: Vec<String> = std::env::args().skip(1).collect();
    let arguments: Vec<&str> = arguments.iter().map(String::as_str).collect();
    match run(&arguments) {
        Ok(()) => ExitCode::SUCCESS,
        Err(error) => {
            eprintln!("{error}");
            ExitCode::FAILURE
        }
    }
}

fn run(arguments: &[&str]) -> Result<(), Box<dyn Error>> {
    let mut stdout = io::stdout().lock();
    match arguments {
        ["listing"] => {
            let text = list_trace(&all_of_stdin()?, &mut |_| {});
            stdout.write_all(text.as_bytes())?;
        }
        ["series"] => {
            let text = list_series(&all_of_stdin()?, &mut |_| {});
            stdout.write_all(text.as_bytes())?;
        }
        ["make", seed] => stdout.write_all(&traces::trace(seed.parse()?))?,
        ["makeseries", seed] => stdout.write_all(&traces::series(seed.parse()?))?,
        ["stored"] => stdout.write_all(&traces::stored())?,
        ["skewed", rule, order] => {
            let rule = match *rule {
                "lru" => Rule::Lru,
                "clock" => Rule::Clock,
                "watt" => Rule::Watt,
                _ => return Err(USAGE.into()),
            };
            let order = match *order {
                "high" => Order::HighFirst,
                "low" => Order::LowFirst,
                _ => return Err(USAGE.into()),
            };
            let load = Load {
                rule,
                ..Load::USUAL
            };
            stdout.write_all(&traces::for_timing(&load, order))?;
        }
        ["pace"] => {
            let mut bytes = all_of_stdin()?;
            let refused: u32 = (0..100_000).map(|turn| read_and_write(&mut bytes, turn)).sum();
            writeln!(stdout, "refused {refused}")?;
        }
        ["calls"] => {
            let answers: Vec<_> = calls::calls_of(&all_of_stdin()?)
                .iter()
                .map(calls::answer)
                .collect();
            stdout.write_all(calls::printed(&answers).as_bytes())?;
        }
        ["makecalls", seed] => {
            for made in batches::batch(seed.parse()?) {
                stdout.write_all(&made.call.to_bytes())?;
            }
        }
        ["storedcalls"] => {
            for call in stored_calls::stored() {
                stdout.write_all(&call.to_bytes())?;
            }
        }
        ["curve"] => stdout.write_all(curve::told(&all_of_stdin()?).as_bytes())?,
        ["curve", "--svg"] => stdout.write_all(picture::told(&all_of_stdin()?).as_bytes())?,
        ["makecurve", seed] => stdout.write_all(&curve_traces::made(seed.parse()?).bytes)?,
        ["compare", hitchyawl, bench, series, first, count, series_count] => {
            let first: u64 = first.parse()?;
            let (count, series_count) = (count.parse::<u64>()?, series_count.parse::<u64>()?);
            drop(stdout);
            compare([hitchyawl, bench, series], first, count, series_count)?;
        }
        ["comparecalls", program, first, count] => {
            drop(stdout);
            compare_calls::compare(program, first.parse()?, count.parse()?)?;
        }
        ["comparecurves", program, first, count] => {
            drop(stdout);
            compare_curves::compare(program, first.parse()?, count.parse()?)?;
        }
        ["compareinclusion", program, first, count] => {
            drop(stdout);
            compare_inclusion::compare(program, first.parse()?, count.parse()?)?;
        }
        ["session", hitchyawl, folder, first, count] => {
            drop(stdout);
            session::session(hitchyawl, folder, first.parse()?, count.parse()?)?;
        }
        _ => return Err(USAGE.into()),
    }
    Ok(())
}

/// Reads an image with another sampler number and writes it again, as the
/// program `pace` does, to be timed beside it.
fn read_and_write(bytes: &mut [u8], turn: u32) -> u32 {
    if let Some(sampler) = bytes.get_mut(56..60) {
        sampler.copy_from_slice(&turn.to_le_bytes());
    }
    let written = image::read(bytes)
        .and_then(|held| image::write(&held, Order::LowFirst, image::length_of(128)));
    std::hint::black_box(written).err().unwrap_or(0)
}

fn all_of_stdin() -> io::Result<Vec<u8>> {
    let mut bytes = Vec::new();
    io::stdin().lock().read_to_end(&mut bytes)?;
    Ok(bytes)
}

// ------------------------------------------------------------- the listings

/// What a replay put out and left, or its refusal.
type Replay<'a> = Result<Replayed<'a>, u32>;

/// The listing of one trace, gone on from this state. What came of it is shown
/// to the watcher.
fn list_next(
    state: &mut Option<(Pool, Tally)>,
    bytes: &[u8],
    watch: &mut dyn FnMut(&Replay),
) -> String {
    let result = go_on(state, bytes);
    watch(&result);
    match result {
        Ok(replayed) => replayed.to_string(),
        Err(refusal) => format!("trace refused {refusal}\n"),
    }
}

/// The listing of one trace from a fresh pool and a zero tally.
fn list_trace(bytes: &[u8], watch: &mut dyn FnMut(&Replay)) -> String {
    list_next(&mut None, bytes, watch)
}

/// The listings of a series. Each trace goes on from what the one before left;
/// an empty item throws pool and tally away.
fn list_series(bytes: &[u8], watch: &mut dyn FnMut(&Replay)) -> String {
    let mut state = None;
    let mut text = String::new();
    for item in traces::items(bytes).0 {
        if item.is_empty() {
            state = None;
            text.push_str("anew\n");
        } else {
            text.push_str(&list_next(&mut state, item, watch));
        }
    }
    text
}

/// As the lines of a listing from `pool` on.
impl fmt::Display for Pool {
    fn fmt(&self, to: &mut fmt::Formatter) -> fmt::Result {
        writeln!(to, "pool {} {} {}", self.k, self.hand, self.sampler)?;
        let in_use = self.frames.iter().filter(|frame| frame.in_use);
        writeln!(to, "frames {}", in_use.clone().count())?;
        for frame in in_use {
            let dirty = u8::from(frame.dirty);
            write!(to, "{} {dirty} {} ", frame.page, frame.pins)?;
            write!(to, "{} {}", frame.count, frame.last)?;
            for log in [frame.access.entries(), frame.write.entries()] {
                write!(to, " :")?;
                for epoch in log {
                    write!(to, " {epoch}")?;
                }
            }
            writeln!(to)?;
        }
        Ok(())
    }
}

impl fmt::Display for Replayed<'_> {
    fn fmt(&self, to: &mut fmt::Formatter) -> fmt::Result {
        writeln!(to, "rows {}", self.rows.len())?;
        for [outcome, frame, left, batch] in &self.rows {
            writeln!(to, "{outcome} {frame} {left} {batch}")?;
        }
        writeln!(to, "written {}", self.written.len())?;
        for page in &self.written {
            writeln!(to, "{page}")?;
        }
        write!(to, "{}", self.pool)?;
        writeln!(to, "hits {}", self.tally.hits)?;
        writeln!(to, "misses {}", self.tally.misses)?;
        writeln!(to, "evictions {}", self.tally.evictions)?;
        writeln!(to, "batches {}", self.tally.batches)?;
        writeln!(to, "written {}", self.tally.written)?;
        writeln!(to, "refused {}", self.tally.refused)
    }
}

// ----------------------------------------------------------- the comparison

/// How often each thing occurred.
#[derive(Default)]
struct Coverage {
    records: u64,
    refused_traces: u64,
    /// By outcome of a record.
    outcomes: BTreeMap<u32, u64>,
    /// By refusal of a trace.
    refusals: BTreeMap<u32, u64>,
    changes: Changes,
}

/// What renamings changed, by what was renamed.
type Changes = BTreeMap<String, Changed>;

const OUTCOMES: [u32; 9] = [0, 1, 2, 3, 4, 109, 110, 111, 112];
const REFUSALS: [u32; 9] = [1, 2, 3, 4, 5, 6, 7, 8, 15];
/// Traces by the first line of their sheet, and series, which have none.
const RENAMED: [&str; 4] = ["policy lru", "policy clock", "policy watt", "series"];

impl Coverage {
    fn note(&mut self, result: &Replay) {
        match result {
            Ok(Replayed { rows, .. }) => {
                self.records += rows.len() as u64;
                for [outcome, ..] in rows {
                    *self.outcomes.entry(*outcome).or_default() += 1;
                }
            }
            Err(refusal) => {
                self.refused_traces += 1;
                *self.refusals.entry(*refusal).or_default() += 1;
            }
        }
    }

    /// What should have occurred and never did. Only a series can give 9 and 15.
    fn missing(&self) -> Vec<String> {
        let outcomes = OUTCOMES
            .iter()
            .filter(|outcome| !self.outcomes.contains_key(outcome));
        let refusals = REFUSALS
            .iter()
            .filter(|refusal| !self.refusals.contains_key(refusal));
        outcomes
            .map(|outcome| format!("outcome {outcome}"))
            .chain(refusals.map(|refusal| format!("trace refusal {refusal}")))
            .chain(never_changed(&self.changes))
            .collect()
    }

    fn line(&self, count: u64, series_count: u64) -> String {
        let times = |numbers: &[u32], times: &BTreeMap<u32, u64>| {
            let time = |number| times.get(number).copied().unwrap_or(0);
            let pairs: Vec<String> = numbers
                .iter()
                .map(|number| format!("{number}:{}", time(number)))
                .collect();
            pairs.join(" ")
        };
        format!(
            "compared {count} traces and {series_count} series alike, {} records, \
             {} traces refused; outcomes {}; trace refusals {}; \
             renamed alike, and the pages with other numbers: {}",
            self.records,
            self.refused_traces,
            times(&OUTCOMES, &self.outcomes),
            times(&REFUSALS, &self.refusals),
            changes_line(&self.changes),
        )
    }
}

/// What was renamed, each with what changed in it.
fn by_name(changes: &Changes) -> [(&'static str, Changed); RENAMED.len()] {
    RENAMED.map(|name| (name, changes.get(name).copied().unwrap_or_default()))
}

/// What renamings should have changed and never did. Most pages of a series are
/// those of refused traces, so the one that becomes 0 is seldom listed there.
fn never_changed(changes: &Changes) -> Vec<String> {
    let mut never = Vec::new();
    for (renamed, changed) in by_name(changes) {
        for (name, times) in changed.named() {
            if times == 0 && (renamed, name) != ("series", "that became 0") {
                never.push(format!("{renamed} renamed: {name}"));
            }
        }
    }
    never
}

fn changes_line(changes: &Changes) -> String {
    let parts = by_name(changes).map(|(renamed, changed)| {
        let counts = changed
            .named()
            .map(|(name, times)| format!("{times} {name}"));
        format!("{renamed}, {}", counts.join(", "))
    });
    parts.join("; ")
}

/// The programs that list a trace with the word `rows`, print its sheet, and list a
/// series.
type Programs<'a> = [&'a str; 3];

/// What is made from a seed.
#[derive(Clone, Copy)]
enum Made {
    Trace,
    Series,
}

impl Made {
    fn name(self) -> &'static str {
        match self {
            Made::Trace => "trace",
            Made::Series => "series",
        }
    }

    fn renamed_name(self) -> String {
        format!("renamed {}", self.name())
    }

    fn from_seed(self, seed: u64) -> Vec<u8> {
        match self {
            Made::Trace => traces::trace(seed),
            Made::Series => traces::series(seed),
        }
    }

    /// The listing, and the sheet of a trace.
    fn printed(self, bytes: &[u8], watch: &mut dyn FnMut(&Replay)) -> [String; 2] {
        match self {
            Made::Trace => {
                let listing = list_trace(bytes, watch);
                let sheet = sheet_of(bytes, &listing);
                [listing, sheet]
            }
            Made::Series => [list_series(bytes, watch), String::new()],
        }
    }

    /// The same from the programs.
    fn printed_by(
        self,
        [hitchyawl, bench, series]: Programs,
        bytes: &[u8],
    ) -> Result<Vec<u8>, Box<dyn Error>> {
        match self {
            Made::Trace => {
                let rows = output_of(hitchyawl, &["rows"], bytes)?;
                Ok([rows, output_of(bench, &[], bytes)?].concat())
            }
            Made::Series => output_of(series, &[], bytes),
        }
    }

    fn renamed(self, random: &mut Random, bytes: &[u8]) -> Option<(Vec<u8>, Renaming)> {
        match self {
            Made::Trace => some_renamed_trace(random, bytes),
            Made::Series => some_renamed_series(random, bytes),
        }
    }
}

/// What comes of a program that is given these words and bytes.
fn run_on(program: &str, words: &[&str], input: &[u8]) -> Result<Output, Box<dyn Error>> {
    let mut child = Command::new(program)
        .args(words)
        .stdin(Stdio::piped())
        .stdout(Stdio::piped())
        .spawn()
        .map_err(|error| format!("{program}: {error}"))?;
    let mut stdin = child.stdin.take().expect("a piped input");
    let output = std::thread::scope(|scope| {
        scope.spawn(move || {
            // A program may well stop reading; its output tells the rest.
            let _ = stdin.write_all(input);
        });
        child.wait_with_output()
    })?;
    Ok(output)
}

/// All that a program prints when it is given these words and bytes.
fn output_of(program: &str, words: &[&str], input: &[u8]) -> Result<Vec<u8>, Box<dyn Error>> {
    let output = run_on(program, words, input)?;
    if !output.status.success() {
        return Err(format!("{program}: {}", output.status).into());
    }
    Ok(output.stdout)
}

/// The sheet of a trace whose listing is this: its settings and the six counts, or
/// that it is refused.
fn sheet_of(bytes: &[u8], listing: &str) -> String {
    let Ok(trace) = check(bytes) else {
        return listing.to_string();
    };
    let policy = match trace.settings.rule {
        Rule::Lru => "lru",
        Rule::Clock => "clock",
        Rule::Watt => "watt",
    };
    let lines: Vec<&str> = listing.split_inclusive('\n').collect();
    format!(
        "policy {policy}\nframes {}\nrecords {}\n{}",
        trace.settings.frames,
        trace.records.len(),
        lines[lines.len() - 6..].concat(),
    )
}

/// The first line in which two texts differ, with its number and both forms.
fn first_difference(ours: &[u8], theirs: &[u8]) -> Option<(usize, String, String)> {
    let mut ours = ours.split_inclusive(|&byte| byte == b'\n');
    let mut theirs = theirs.split_inclusive(|&byte| byte == b'\n');
    let shown = |line: Option<&[u8]>| match line {
        Some(line) => format!("{:?}", String::from_utf8_lossy(line)),
        None => "(nothing)".to_string(),
    };
    for number in 1.. {
        match (ours.next(), theirs.next()) {
            (None, None) => break,
            (a, b) if a == b => {}
            (a, b) => return Some((number, shown(a), shown(b))),
        }
    }
    None
}

/// Fails at the first line in which two texts differ, and shows both forms by name.
fn expect_alike(what: &str, names: [&str; 2], ours: &str, theirs: &[u8]) -> Result<(), String> {
    let Some((line, ours, theirs)) = first_difference(ours.as_bytes(), theirs) else {
        return Ok(());
    };
    let [our_name, their_name] = names;
    Err(format!(
        "{what}, line {line}: {our_name} {ours}, {their_name} {theirs}"
    ))
}

/// What was made from a seed with its pages renamed, and what is printed of that:
/// what was printed before, renamed. Our own replay is held against it here. Nothing
/// is renamed where no trace was accepted, and only there.
fn renamed_alike(
    made: Made,
    seed: u64,
    bytes: &[u8],
    [listing, sheet]: &[String; 2],
    changes: &mut Changes,
) -> Result<Option<(Vec<u8>, String)>, String> {
    // Other numbers than those of which the bytes were made.
    let random = &mut Random::new(seed ^ (1 << 63));
    let accepted = listing.lines().any(|line| line.starts_with("rows "));
    let (bytes, renaming) = match (accepted, made.renamed(random, bytes)) {
        (true, Some(renamed)) => renamed,
        (false, None) => return Ok(None),
        (true, None) => return Err(format!("{} accepted, but not renamed", made.name())),
        (false, Some(_)) => return Err(format!("{} refused, but renamed", made.name())),
    };
    let what = sheet.lines().next().unwrap_or(made.name());
    let changed = changes.entry(what.to_string()).or_default();
    let expected = rename_listing(listing, &renaming, changed)? + sheet;
    let replayed = made.printed(&bytes, &mut |_| {}).concat();
    let names = ["renamed", "replayed"];
    expect_alike(&made.renamed_name(), names, &expected, replayed.as_bytes())?;
    Ok(Some((bytes, expected)))
}

/// Compares what is printed of the bytes made from a seed, as they are and with the
/// pages renamed.
fn compare_one(
    programs: Programs,
    made: Made,
    seed: u64,
    coverage: &mut Coverage,
) -> Result<(), Box<dyn Error>> {
    let names = ["ours", "theirs"];
    let bytes = made.from_seed(seed);
    let ours = made.printed(&bytes, &mut |result| coverage.note(result));
    let theirs = made.printed_by(programs, &bytes)?;
    expect_alike(made.name(), names, &ours.concat(), &theirs)?;
    let renamed = renamed_alike(made, seed, &bytes, &ours, &mut coverage.changes)?;
    if let Some((bytes, ours)) = renamed {
        let theirs = made.printed_by(programs, &bytes)?;
        expect_alike(&made.renamed_name(), names, &ours, &theirs)?;
    }
    Ok(())
}

fn compare(
    programs: Programs,
    first: u64,
    count: u64,
    series_count: u64,
) -> Result<(), Box<dyn Error>> {
    let mut coverage = Coverage::default();
    let seeds = (first..first + count).map(|seed| (Made::Trace, seed));
    let series_seeds = (first..first + series_count).map(|seed| (Made::Series, seed));
    for (made, seed) in seeds.chain(series_seeds) {
        compare_one(programs, made, seed, &mut coverage)
            .map_err(|error| format!("seed {seed}, {error}"))?;
    }
    println!("{}", coverage.line(count, series_count));
    expect_none(coverage.missing())
}
