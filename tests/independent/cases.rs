//! The cases of a session: what a case is, those made from seeds, and scenarios of
//! several runs. The fixed ones stand in a list of their own.

use crate::batches;
use crate::curve_traces;
use crate::fixed::{example, EXPORTED, OLD};
use crate::image::Held;
use crate::pools::{left_by_a_replay, made_up};
use crate::program::{encoded, order_of, quoted_frames, rule_name, Bytes, Command};
use crate::program::{NUMBERS, RULES};
use crate::replay::{check, go_on, Kind, Order, Pool, Settings, Tally, Trace};
use crate::session::{shown_words, Ran, Session};
use crate::sheet_of;
use crate::traces::{self, Random};
use std::time::{Duration, Instant};

// ------------------------------------------------------------------- a case

/// What stands in the folder before the run.
#[derive(Clone, Debug)]
pub enum Node {
    File(Bytes),
    /// Unless whoever runs this may read everything.
    Unreadable(Bytes),
    /// Another name of what stands under this one.
    Link(Bytes),
    Folder,
    /// A named pipe with a reader.
    Pipe,
    /// A named pipe from which the bytes of this file come.
    Fed(Bytes),
}

#[derive(Clone, PartialEq, Eq, Debug)]
pub enum Input {
    Pipe(Bytes),
    From(Bytes),
    Closed,
}

#[derive(Clone, Copy, PartialEq, Eq, Debug)]
pub enum Output {
    Pipe,
    Full,
    Closed,
}

#[derive(Clone, Debug)]
pub struct Case {
    /// Shown before its words.
    pub about: String,
    pub words: Vec<Bytes>,
    pub nodes: Vec<(Bytes, Node)>,
    pub stdin: Input,
    pub stdout: Output,
    pub error_closed: bool,
    /// What a shell does first.
    pub first: &'static str,
    /// The mask of new files that it sets.
    pub mask: Option<u32>,
    /// Whether it sees to it that no file can be written whole.
    pub no_room: bool,
    /// When standard input ends, at the earliest.
    pub input_ends: Option<Instant>,
    /// What must come, as stated by hand: the status, what is printed, or what the
    /// output holds where nothing is, and what is saved.
    pub status: Option<u8>,
    pub gives: Option<Bytes>,
    pub saves: Option<Bytes>,
}

impl Case {
    /// A case in a folder with three files; standard input is none of them.
    pub fn new<W: AsRef<[u8]>>(words: impl IntoIterator<Item = W>) -> Case {
        Case {
            about: String::new(),
            words: words.into_iter().map(|w| w.as_ref().to_vec()).collect(),
            nodes: Vec::new(),
            stdin: Input::Pipe(b"neither trace nor text".to_vec()),
            stdout: Output::Pipe,
            error_closed: false,
            first: "",
            mask: None,
            no_room: false,
            input_ends: None,
            status: None,
            gives: None,
            saves: None,
        }
        .file("good", example())
        .file("text", EXPORTED)
        .file("old", OLD)
    }

    /// A case of words with single spaces between them.
    pub fn of(words: &str) -> Case {
        Case::new(words.split(' '))
    }

    pub fn file(self, name: impl AsRef<[u8]>, bytes: impl AsRef<[u8]>) -> Case {
        self.node(name, Node::File(bytes.as_ref().to_vec()))
    }

    pub fn node(mut self, name: impl AsRef<[u8]>, node: Node) -> Case {
        self.nodes.push((name.as_ref().to_vec(), node));
        self
    }

    pub fn input(mut self, bytes: impl AsRef<[u8]>) -> Case {
        self.stdin = Input::Pipe(bytes.as_ref().to_vec());
        self
    }

    pub fn input_from(mut self, name: &str) -> Case {
        self.stdin = Input::From(name.into());
        self
    }

    pub fn input_closed(mut self) -> Case {
        self.stdin = Input::Closed;
        self
    }

    pub fn output(mut self, stdout: Output) -> Case {
        self.stdout = stdout;
        self
    }

    pub fn error_closed(mut self) -> Case {
        self.error_closed = true;
        self
    }

    pub fn status(mut self, status: u8) -> Case {
        self.status = Some(status);
        self
    }

    pub fn gives(mut self, bytes: impl AsRef<[u8]>) -> Case {
        self.gives = Some(bytes.as_ref().to_vec());
        self.status(0)
    }

    pub fn saves(mut self, bytes: impl AsRef<[u8]>) -> Case {
        self.saves = Some(bytes.as_ref().to_vec());
        self.status(0)
    }

    pub fn refused(mut self, line: &str) -> Case {
        self.gives = Some(format!("{line}\n").into_bytes());
        self.status(1)
    }
}

// ------------------------------------------------------------ cases from seeds

/// The case of a seed: each command in turn, on a trace or text that may be damaged,
/// with settings that may be out of range.
pub fn generated(seed: u64) -> Case {
    let random = &mut Random::new(seed ^ (1 << 62));
    let command = Command::ALL[seed as usize % Command::ALL.len()];
    let input = match command {
        Command::Import => some_text(random),
        Command::Image => some_image(random, &traces::trace(seed)),
        // Of other traces most have pins, and so no curve.
        Command::Curve if random.chance(80) => curve_traces::made(u64::from(random.any())).bytes,
        _ => some_trace(random, seed),
    };
    let (name, stdin) = match random.between(0, 4) {
        0 => ("-", true),
        1 if !command.writes() => ("", true),
        _ => ("input", false),
    };
    let mut files: Vec<&str> = [name].into_iter().filter(|name| !name.is_empty()).collect();
    if command.writes() {
        files.push(some_out(random));
    }
    let mut options: Vec<Vec<String>> = some_options(random, command)
        .into_iter()
        .map(Vec::from)
        .collect();
    options.extend(some_svg(random, command));
    let pool = command.replays().then(|| some_image(random, &input));
    let image_from_stdin = pool.is_some() && !stdin && random.chance(20);
    if pool.is_some() {
        let images = some_image_options(random, image_from_stdin);
        options.extend(images.into_iter().map(Vec::from));
    }
    let words = mixed(random, files, options);
    let mut case = Case::new([command.name().to_string()].into_iter().chain(words));
    case.about = format!("seed {seed}, ");
    case = match stdin {
        true => case.input(input),
        false => case.file("input", input),
    };
    match pool {
        Some(pool) if image_from_stdin => case.input(pool),
        Some(pool) => case.file("pool", pool),
        None => case,
    }
}

/// An image that may be damaged. Most often the trace can go on from it, if that is
/// a good one.
fn some_image(random: &mut Random, trace: &[u8]) -> Bytes {
    let settings = match check(trace) {
        Ok(trace) if random.chance(85) => trace.settings,
        _ => traces::some_settings(random),
    };
    let held = match random.chance(50) {
        true => left_by_a_replay(random, settings),
        false => made_up(random, settings),
    };
    let order = traces::some_order(random);
    let mut bytes = held.encode(order);
    if random.chance(20) && !held.frames.is_empty() {
        let refusal = random.one_of(&batches::REFUSALS);
        batches::spoil(random, &mut bytes, order, refusal);
    }
    bytes
}

/// From an image, to one, both or neither.
fn some_image_options(random: &mut Random, from_stdin: bool) -> Vec<[String; 2]> {
    let mut options = Vec::new();
    let mut put = |option: &str, value: &str| options.push([option, value].map(String::from));
    if from_stdin || random.chance(70) {
        put("--from", if from_stdin { "-" } else { "pool" });
    }
    if random.chance(70) {
        let out = random.one_of(&["new", "new", "old", "pool", "none/new", "input", "-"]);
        put("--save", out);
    }
    options
}

/// The trace of any seed, or of one of those that are damaged.
fn some_trace(random: &mut Random, seed: u64) -> Bytes {
    match random.between(0, 9) {
        0..=1 => traces::trace(5 * seed + 3),
        _ => traces::trace(u64::from(random.any())),
    }
}

fn some_out(random: &mut Random) -> &'static str {
    random.one_of(&[
        "new", "new", "old", "old", "input", "-", "none/new", "./new",
    ])
}

/// The option without a value: for a curve none, once or twice, and one time in fifty where
/// it is wrong.
fn some_svg(random: &mut Random, command: Command) -> Vec<Vec<String>> {
    let times = match command {
        Command::Curve => random.one_of(&[0, 1, 1, 2]),
        _ => usize::from(random.chance(2)),
    };
    vec![vec!["--svg".to_string()]; times]
}

/// Options of a command; one time in fifty one that it does not take, or not so.
fn some_options(random: &mut Random, command: Command) -> Vec<[String; 2]> {
    let mut options = Vec::new();
    let pair = |option: &str, value: &str| [option.to_string(), value.to_string()];
    if random.chance(2) {
        options.push(some_wrong_option(random));
    }
    if command == Command::Import && random.chance(50) {
        options.push(pair("--order", random.one_of(&["high", "low"])));
    }
    if !command.takes_settings() || random.chance(20) {
        return options;
    }
    if random.chance(40) {
        options.push(pair("--rule", random.one_of(&["lru", "clock", "watt"])));
    }
    let beyond = if random.chance(30) { 10 } else { 0 };
    for (option, range) in NUMBERS {
        if random.chance(30) {
            options.push(pair(option, &some_number(random, range, beyond)));
        }
    }
    options
}

fn some_wrong_option(random: &mut Random) -> [String; 2] {
    let wrong = [
        ["--frames", "many"],
        ["--rule", "random"],
        ["--order", "both"],
        ["--size", "8"],
        ["--seed", "0x1"],
    ];
    random.one_of(&wrong).map(String::from)
}

/// A number of this range, often at its ends; beyond it so many times in a hundred.
fn some_number(random: &mut Random, range: std::ops::RangeInclusive<u64>, beyond: u32) -> String {
    let (least, greatest) = (*range.start() as u32, *range.end() as u32);
    if random.chance(beyond) {
        let above = u64::from(greatest) + 1 + u64::from(random.between(0, 3));
        let around = u64::from(least) + (1 << random.one_of(&[16, 32, 48]));
        return random.one_of(&[above, around.max(above)]).to_string();
    }
    let number = random.edged(least, greatest);
    match random.chance(10) {
        true => format!("00{number}"),
        false => number.to_string(),
    }
}

/// The files in their order, and the options anywhere between them.
fn mixed(random: &mut Random, files: Vec<&str>, options: Vec<Vec<String>>) -> Vec<String> {
    let mut groups: Vec<Vec<String>> = files.into_iter().map(|file| vec![file.into()]).collect();
    for option in options {
        let place = random.place(groups.len() + 1);
        groups.insert(place, option);
    }
    groups.concat()
}

/// Lines of records among empty ones and remarks; two in five with bad ones.
fn some_text(random: &mut Random) -> Bytes {
    let lines = match random.between(0, 29) {
        0 => 0,
        1 => random.between(7_990, 8_010),
        _ => random.between(1, 300),
    };
    let none = random.one_of(&[0, 5, 50]);
    let mut text: Vec<String> = (0..lines)
        .map(|_| match random.chance(none) {
            true => random
                .one_of(&["", "#", "# read 1", "#\t", "##"])
                .to_string(),
            false => some_line(random),
        })
        .collect();
    if random.chance(40) && !text.is_empty() {
        for _ in 0..random.between(1, 3) {
            let place = random.place(text.len());
            damage_line(random, &mut text[place]);
        }
    }
    let mut bytes = text.join("\n").into_bytes();
    if random.chance(80) {
        bytes.push(b'\n');
    }
    bytes
}

fn some_line(random: &mut Random) -> String {
    let kind = random.one_of(&["read", "write", "pin", "unpin"]);
    let page = match random.between(0, 3) {
        0 => random.any(),
        1 => random.edged(u32::MAX - 3, u32::MAX),
        _ => random.between(0, 40),
    };
    match random.chance(5) {
        true => format!("{kind} 0{page}"),
        false => format!("{kind} {page}"),
    }
}

/// Puts a character into a line, takes one out, or makes its number too great.
fn damage_line(random: &mut Random, line: &mut String) {
    let place = random.place(line.len() + 1);
    match random.between(0, 2) {
        0 => line.insert(
            place,
            random.one_of(&[' ', '\t', '\r', 'x', '-', '#', '0', '\0']),
        ),
        1 if place < line.len() => {
            line.remove(place);
        }
        _ => *line = format!("pin {}", (1u64 << 32) + u64::from(random.between(0, 9))),
    }
}

// -------------------------------------------------------------- the scenarios

type Scenario = fn(&mut Session) -> Result<(), String>;

pub const SCENARIOS: [(&str, Scenario); 6] = [
    ("runs at once", at_once),
    ("there and back", there_and_back),
    ("quote beside bench", quote_beside_bench),
    ("import of export", import_of_export),
    ("day after day", day_after_day),
    ("curve beside quote", curve_beside_quote),
];

/// Runs that write one output. Their input ends for all of them at once, so that they
/// come to writing together.
fn at_once(session: &mut Session) -> Result<(), String> {
    for turn in 0..6 {
        let ends = Instant::now() + Duration::from_millis(400);
        let out = ["old", "new"][turn % 2];
        let runs = ["3", "4", "5", "6", "7", "8"].map(|frames| {
            let case = Case::new(["set", "--frames", frames, "-", out]);
            Case {
                input_ends: Some(ends),
                ..case.input(example()).status(0)
            }
        });
        session.ran_at_once(&runs)?;
    }
    Ok(())
}

/// Some good traces, of each rule in either order.
fn good_traces() -> Vec<Bytes> {
    let mut found = Vec::new();
    for rule in RULES {
        for order in [Order::HighFirst, Order::LowFirst] {
            let fits = |bytes: &Bytes| {
                check(bytes).is_ok_and(|trace| {
                    trace.settings.rule == rule
                        && order_of(bytes) == order
                        && trace.records.len() > 300
                        && trace.records.len() < 1_000
                })
            };
            found.extend((10_000..).map(traces::trace).find(fits));
        }
    }
    found
}

/// What the program prints with these words for this input.
fn printed(session: &mut Session, words: &[&str], input: &[u8]) -> Result<Bytes, String> {
    let case = Case::new(words).input(input).status(0);
    let told = |fault| format!("{}: {fault}", shown_words(&case.words));
    session
        .ran(&case)
        .map(|Ran { stdout, .. }| stdout)
        .map_err(told)
}

fn expect_same(what: &str, first: &[u8], second: &[u8]) -> Result<(), String> {
    match first == second {
        true => Ok(()),
        false => Err(format!("{what} are not the same")),
    }
}

/// Converting twice and setting nothing give the same bytes.
fn there_and_back(session: &mut Session) -> Result<(), String> {
    for bytes in good_traces() {
        let there = printed(session, &["convert", "-", "-"], &bytes)?;
        let back = printed(session, &["convert", "-", "-"], &there)?;
        expect_same("a trace and what was converted twice", &bytes, &back)?;
        let same = printed(session, &["set", "-", "-"], &bytes)?;
        expect_same("a trace and what nothing was set in", &bytes, &same)?;
    }
    Ok(())
}

/// Three traces, each from the image that the one before saved over, print and save what
/// one replay over all of them gives with a tally for each.
fn day_after_day(session: &mut Session) -> Result<(), String> {
    for (first, command) in good_traces()
        .into_iter()
        .zip(["bench", "rows"].into_iter().cycle())
    {
        let days = days_of(&first)?;
        let mut image = None;
        let mut state: Option<(Pool, Tally)> = None;
        for (number, day) in days.iter().enumerate() {
            if let Some((_, tally)) = &mut state {
                *tally = Tally::default();
            }
            let replayed = go_on(&mut state, day).map_err(|n| format!("refused {n}"))?;
            let listing = replayed.to_string();
            let gives = match command {
                "bench" => sheet_of(day, &listing),
                _ => listing,
            };
            let saved = Held::of(replayed.pool).encode(order_of(day));
            let case = match &image {
                None => Case::new([command, "--save", "a", "day"]),
                Some(bytes) => {
                    Case::new([command, "--from", "a", "--save", "a", "day"]).file("a", bytes)
                }
            };
            let case = case.file("day", day).gives(gives).saves(&saved);
            session
                .ran(&case)
                .map_err(|fault| format!("{command}, day {number}: {fault}"))?;
            image = Some(saved);
        }
    }
    Ok(())
}

/// A trace and two more with its settings, the orders mixed.
fn days_of(first: &[u8]) -> Result<[Bytes; 3], String> {
    let Trace { settings, .. } = check(first).map_err(|n| format!("refused {n}"))?;
    let random = &mut Random::new(first.len() as u64);
    let mut source = traces::Source::new(random, settings.frames, 12);
    let mut day = |order: Order| {
        let mut records = Vec::new();
        source.fill(random, &mut records, 300);
        traces::encode(&settings, order, &records)
    };
    let others = [day(Order::HighFirst), day(Order::LowFirst)];
    let [second, third] = others;
    Ok([first.to_vec(), second, third])
}

/// The words that say all settings of a trace.
fn settings_words(settings: &Settings) -> Vec<String> {
    let Settings {
        rule,
        frames,
        batch,
        cap,
        sample,
        weight,
        epoch,
        seed,
    } = *settings;
    let numbers = [frames, batch, cap, sample, weight, epoch, seed];
    let pairs = NUMBERS.iter().zip(numbers);
    let words = pairs.flat_map(|((option, _), number)| [option.to_string(), number.to_string()]);
    ["--rule".to_string(), rule_name(rule).to_string()]
        .into_iter()
        .chain(words)
        .collect()
}

fn import_of_export(session: &mut Session) -> Result<(), String> {
    for bytes in good_traces() {
        let Trace { settings, records } = check(&bytes).map_err(|n| format!("refused {n}"))?;
        let text = printed(session, &["export"], &bytes)?;
        let order = match order_of(&bytes) {
            Order::HighFirst => "high",
            Order::LowFirst => "low",
        };
        let settings_words = settings_words(&settings);
        let mut words = vec!["import", "--order", order, "-", "-"];
        words.extend(settings_words.iter().map(String::as_str));
        let back = printed(session, &words, &text)?;
        expect_same("a trace and the import of its export", &bytes, &back)?;
        let others = printed(session, &["import", "-", "-"], &text)?;
        let kept: Option<Vec<(u32, Kind)>> = check(&others).ok().map(|trace| trace.records);
        if kept != Some(records) {
            return Err("other records came back".to_string());
        }
    }
    Ok(())
}

/// Each number of a quote is that of the sheet with such settings.
fn quote_beside_bench(session: &mut Session) -> Result<(), String> {
    let mut traces = good_traces();
    // One of LRU in the one order, one of WATT in the other.
    for bytes in [traces.remove(0), traces.remove(4)] {
        let own = check(&bytes)
            .map_err(|n| format!("refused {n}"))?
            .settings
            .frames;
        let quote = printed(session, &["quote"], &bytes)?;
        let mut lines: Vec<String> = Vec::new();
        for frames in quoted_frames(own)
            .into_iter()
            .map(|frames| frames.to_string())
        {
            let mut line = vec![frames.clone()];
            for rule in RULES.map(rule_name) {
                let words = ["bench", "--rule", rule, "--frames", &frames];
                let sheet = printed(session, &words, &bytes)?;
                line.extend(["misses", "written"].map(|count| count_in(&sheet, count)));
            }
            lines.push(line.join(" "));
        }
        let quote = String::from_utf8_lossy(&quote);
        if quote.lines().skip(1).ne(lines.iter().map(String::as_str)) {
            return Err(format!("sheets say {lines:?}, and the quote {quote:?}"));
        }
    }
    Ok(())
}

/// Without its pins and unpins a trace has a curve, whose numbers at the sizes of a quote
/// are those of LRU there, and which the rule and the frames do not change.
fn curve_beside_quote(session: &mut Session) -> Result<(), String> {
    for bytes in good_traces() {
        let mut trace = check(&bytes).map_err(|n| format!("refused {n}"))?;
        trace
            .records
            .retain(|(_, kind)| matches!(kind, Kind::Read | Kind::Write));
        let bytes = encoded(&trace.settings, order_of(&bytes), &trace.records);
        let curve = printed(session, &["curve"], &bytes)?;
        let quote = printed(session, &["quote"], &bytes)?;
        let [text, quote] = [&curve, &quote].map(|bytes| String::from_utf8_lossy(bytes));
        let frames_and_misses = |line: &str| {
            let words: Vec<&str> = line.split(' ').take(2).collect();
            words.join(" ")
        };
        for line in quote.lines().skip(1).map(frames_and_misses) {
            if !text.lines().any(|told| told == line) {
                return Err(format!("{line:?} of a quote is not in the curve"));
            }
        }
        for words in [["--rule", "clock"], ["--rule", "watt"], ["--frames", "3"]] {
            let other = printed(session, &["set", words[0], words[1], "-", "-"], &bytes)?;
            let again = printed(session, &["curve"], &other)?;
            expect_same("the curves by two rules or sizes", &curve, &again)?;
        }
    }
    Ok(())
}

/// The number of a sheet's line.
fn count_in(sheet: &[u8], name: &str) -> String {
    let text = String::from_utf8_lossy(sheet);
    let mut lines = text.lines().filter_map(|line| line.split_once(' '));
    let found = lines.find(|(first, _)| *first == name);
    found.map_or(String::new(), |(_, number)| number.to_string())
}
