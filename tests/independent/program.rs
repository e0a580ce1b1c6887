//! What the program `hitchyawl` comes to, from what is written about it alone:
//! given its words and what stands outside, its status, what it prints, and what
//! its output holds afterwards.

use crate::curve;
use crate::image::{self, Held};
use crate::picture::picture;
use crate::replay::{check, go_on, tally_of, Kind, Order, Pool, Rule, Settings, Tally, Trace};
use crate::replay::{HEADER, MOST_RECORDS, RECORD};
use crate::sheet_of;
use crate::traces::encode;
use std::collections::BTreeSet;
use std::ops::RangeInclusive;

pub type Bytes = Vec<u8>;

pub const LONGEST_TRACE: usize = HEADER + RECORD * MOST_RECORDS as usize;
pub const LONGEST_TEXT: usize = 1_048_576;
pub const LONGEST_IMAGE: usize = 1_048_576;

/// As a file's name, standard input or output.
pub const STANDARD: &[u8] = b"-";

// ------------------------------------------------------------- the commands

#[derive(Clone, Copy, PartialEq, Eq, PartialOrd, Ord, Debug)]
pub enum Command {
    Check,
    Inspect,
    Convert,
    Set,
    Export,
    Import,
    Bench,
    Rows,
    Quote,
    Image,
    Curve,
}

use Command::*;

impl Command {
    pub const ALL: [Command; 11] = [
        Check, Inspect, Convert, Set, Export, Import, Bench, Rows, Quote, Image, Curve,
    ];

    pub fn name(self) -> &'static str {
        match self {
            Check => "check",
            Inspect => "inspect",
            Convert => "convert",
            Set => "set",
            Export => "export",
            Import => "import",
            Bench => "bench",
            Rows => "rows",
            Quote => "quote",
            Image => "image",
            Curve => "curve",
        }
    }

    /// The usage, where that is fixed.
    pub fn usage(self) -> Option<&'static str> {
        match self {
            Bench => {
                Some("usage: hitchyawl bench [SETTINGS] [--from IMAGE] [--save IMAGE] [TRACE]")
            }
            Rows => Some("usage: hitchyawl rows [SETTINGS] [--from IMAGE] [--save IMAGE] [TRACE]"),
            Image => Some("usage: hitchyawl image [IMAGE]"),
            Curve => Some("usage: hitchyawl curve [--svg] [TRACE]"),
            _ => None,
        }
    }

    fn named(word: &[u8]) -> Option<Command> {
        let named = |command: &Command| command.name().as_bytes() == word;
        Command::ALL.into_iter().find(named)
    }

    fn takes(self, option: &Taken) -> bool {
        match option {
            Taken::Order => self == Import,
            Taken::Rule | Taken::Number(_) => self.takes_settings(),
            Taken::From | Taken::Save => self.replays(),
            Taken::Svg => self == Curve,
        }
    }

    /// Whether it replays from a pool that may come from an image, and leaves one that
    /// may be saved.
    pub fn replays(self) -> bool {
        matches!(self, Bench | Rows)
    }

    pub fn takes_settings(self) -> bool {
        matches!(self, Set | Import | Bench | Rows | Quote)
    }

    /// Whether it writes a file, which is named behind the one it reads.
    pub fn writes(self) -> bool {
        matches!(self, Convert | Set | Import)
    }

    fn takes_files(self) -> RangeInclusive<usize> {
        match self.writes() {
            true => 2..=2,
            false => 0..=1,
        }
    }
}

// --------------------------------------------------------- what comes of it

/// What a run comes to.
#[derive(Clone, PartialEq, Eq, Debug)]
pub enum End {
    Done {
        printed: Bytes,
        /// The name of what was written, and what it holds.
        out: Option<(Bytes, Bytes)>,
    },
    /// Of the program, or of one command.
    Help(Option<Command>),
    /// The line.
    Refused(String),
    /// The command, where that is known, and the reason, where that is fixed.
    Wrong(Option<Command>, Option<&'static str>),
    /// All was printed, and then the image could not be written under this name.
    Unsaved { printed: Bytes, named: Bytes },
    /// What cannot be read or written, and why, where that is fixed.
    Fault {
        named: Bytes,
        reason: Option<&'static str>,
    },
}

impl End {
    pub fn status(&self) -> u8 {
        match self {
            End::Done { .. } | End::Help(_) => 0,
            End::Refused(_) => 1,
            End::Wrong(..) => 2,
            End::Fault { .. } | End::Unsaved { .. } => 3,
        }
    }

    fn prints(&self) -> bool {
        match self {
            End::Done { printed, .. } => !printed.is_empty(),
            End::Help(_) | End::Refused(_) | End::Unsaved { .. } => true,
            End::Wrong(..) | End::Fault { .. } => false,
        }
    }
}

fn refused(refusal: u32) -> End {
    End::Refused(format!("trace refused {refusal}\n"))
}

fn fault(named: &[u8]) -> End {
    End::Fault {
        named: named.to_vec(),
        reason: None,
    }
}

fn too_large(named: &[u8]) -> End {
    End::Fault {
        named: named.to_vec(),
        reason: Some("File too large"),
    }
}

/// An input as it is named on standard error.
fn input_named(name: &[u8]) -> &[u8] {
    match name {
        STANDARD => b"standard input",
        _ => name,
    }
}

/// What a run finds: files, standard input and standard output.
pub trait Outside {
    /// What can be read under a name, as many bytes of it at most.
    fn read(&self, name: &[u8], most: usize) -> Option<Bytes>;
    fn can_write(&self, name: &[u8]) -> bool;
}

pub fn run(words: &[Bytes], outside: &dyn Outside) -> End {
    let end = asked(words)
        .and_then(|asked| asked.answer(outside))
        .unwrap_or_else(|end| end);
    if end.prints() && !outside.can_write(STANDARD) {
        return fault(b"standard output");
    }
    end
}

// ---------------------------------------------------------------- the words

/// The settings that are numbers.
pub const NUMBERS: [(&str, RangeInclusive<u64>); 7] = [
    ("--frames", 1..=128),
    ("--batch", 1..=16),
    ("--cap", 1..=7),
    ("--sample", 1..=16),
    ("--weight", 0..=16),
    ("--epoch", 1..=50_000),
    ("--seed", 0..=4_294_967_295),
];

/// What the options said. The last of several alike counts.
#[derive(Default)]
struct Given {
    rule: Option<Rule>,
    numbers: [Option<u64>; NUMBERS.len()],
    order: Option<Order>,
    from: Option<Bytes>,
    save: Option<Bytes>,
    svg: bool,
}

/// What is told where standard input is to be two files, and where standard output,
/// which is printed on, is to be an image.
pub const NAMED_TWICE: &str = "hitchyawl: -: standard input is named twice";
pub const TAKEN: &str = "hitchyawl: -: standard output is taken";

struct Asked {
    command: Command,
    given: Given,
    files: Vec<Bytes>,
}

/// What the words ask for, or how the run ends at once.
fn asked(words: &[Bytes]) -> Result<Asked, End> {
    let (first, rest) = words.split_first().ok_or(End::Wrong(None, None))?;
    if first == b"--help" {
        return Err(End::Help(None));
    }
    let command = Command::named(first).ok_or(End::Wrong(None, None))?;
    let (mut given, mut files) = (Given::default(), Vec::new());
    let (mut rest, mut wrong) = (rest.iter(), false);
    while let Some(word) = rest.next() {
        match word.as_slice() {
            b"--help" => return Err(End::Help(Some(command))),
            b"--" => files.extend(rest.by_ref().cloned()),
            b"-" => files.push(word.clone()),
            [b'-', ..] => match option_named(word) {
                // Help still wins over a fault, so the rest is looked through. An option has its
                // value, if it is one with a value, whether the command takes it or not.
                Some(option) => {
                    wrong |= !command.takes(&option);
                    wrong |= given.take(option, &mut rest).is_none();
                }
                None => wrong = true,
            },
            _ => files.push(word.clone()),
        }
    }
    if wrong || !command.takes_files().contains(&files.len()) {
        return Err(End::Wrong(Some(command), None));
    }
    let asked = Asked {
        command,
        given,
        files,
    };
    match asked.wrong_stream() {
        Some(reason) => Err(End::Wrong(Some(command), Some(reason))),
        None => Ok(asked),
    }
}

enum Taken {
    Rule,
    Order,
    From,
    Save,
    Number(usize),
    /// The one without a value.
    Svg,
}

fn option_named(word: &[u8]) -> Option<Taken> {
    match word {
        b"--order" => return Some(Taken::Order),
        b"--rule" => return Some(Taken::Rule),
        b"--from" => return Some(Taken::From),
        b"--save" => return Some(Taken::Save),
        b"--svg" => return Some(Taken::Svg),
        _ => {}
    }
    let mut names = NUMBERS.iter().map(|(name, _)| name.as_bytes());
    names.position(|name| name == word).map(Taken::Number)
}

impl Given {
    /// Takes an option and its value, the next word. None where that is missing or none
    /// of this option.
    fn take<'a>(
        &mut self,
        option: Taken,
        rest: &mut impl Iterator<Item = &'a Bytes>,
    ) -> Option<()> {
        match option {
            Taken::Rule => self.rule = Some(rule_named(rest.next()?)?),
            Taken::Order => self.order = Some(order_named(rest.next()?)?),
            Taken::Number(at) => self.numbers[at] = Some(number(rest.next()?)?),
            Taken::From => self.from = Some(rest.next()?.clone()),
            Taken::Save => self.save = Some(rest.next()?.clone()),
            Taken::Svg => self.svg = true,
        }
        Some(())
    }

    /// The settings as these options change them, or refusal 8.
    fn over(&self, mut settings: Settings) -> Result<Settings, u32> {
        settings.rule = self.rule.unwrap_or(settings.rule);
        for ((given, (_, range)), field) in
            self.numbers.iter().zip(&NUMBERS).zip(fields(&mut settings))
        {
            if let Some(number) = given {
                if !range.contains(number) {
                    return Err(8);
                }
                *field = *number as u32;
            }
        }
        Ok(settings)
    }
}

/// The settings in the order of their options.
fn fields(settings: &mut Settings) -> [&mut u32; NUMBERS.len()] {
    let Settings {
        rule: _,
        frames,
        batch,
        cap,
        sample,
        weight,
        epoch,
        seed,
    } = settings;
    [frames, batch, cap, sample, weight, epoch, seed]
}

fn rule_named(word: &[u8]) -> Option<Rule> {
    let named = |rule: &Rule| rule_name(*rule).as_bytes() == word;
    RULES.into_iter().find(named)
}

fn order_named(word: &[u8]) -> Option<Order> {
    match word {
        b"high" => Some(Order::HighFirst),
        b"low" => Some(Order::LowFirst),
        _ => None,
    }
}

/// Decimal digits, however many. A number beyond every field is kept as the
/// greatest there is, which is beyond every field, too.
fn number(word: &[u8]) -> Option<u64> {
    let append = |number: u64, digit: &u8| {
        let digit = u64::from(digit - b'0');
        number.saturating_mul(10).saturating_add(digit)
    };
    let digits = !word.is_empty() && word.iter().all(u8::is_ascii_digit);
    digits.then(|| word.iter().fold(0, append))
}

// --------------------------------------------------------------- the answer

pub const RULES: [Rule; 3] = [Rule::Lru, Rule::Clock, Rule::Watt];

pub fn rule_name(rule: Rule) -> &'static str {
    match rule {
        Rule::Lru => "lru",
        Rule::Clock => "clock",
        Rule::Watt => "watt",
    }
}

/// What `import` takes where no option says otherwise.
const DEFAULTS: Settings = Settings {
    rule: Rule::Lru,
    frames: 64,
    batch: 8,
    cap: 5,
    sample: 8,
    weight: 2,
    epoch: 100,
    seed: 1,
};

impl Asked {
    /// The input's name; standard input where none is given.
    fn input_name(&self) -> &[u8] {
        self.files.first().map_or(STANDARD, Vec::as_slice)
    }

    fn wrong_stream(&self) -> Option<&'static str> {
        let is_standard = |name: &Option<Bytes>| name.as_deref() == Some(STANDARD);
        if is_standard(&self.given.from) && self.input_name() == STANDARD {
            return Some(NAMED_TWICE);
        }
        is_standard(&self.given.save).then_some(TAKEN)
    }

    fn answer(&self, outside: &dyn Outside) -> Result<End, End> {
        let bytes = match self.command {
            Import => self.imported(outside)?,
            Image => self.imaged(outside)?,
            Bench | Rows => return self.replayed(outside),
            _ => self.of_trace(outside)?,
        };
        let out = match self.command.writes() {
            true => &self.files[1],
            false => STANDARD,
        };
        if out == STANDARD {
            return Ok(End::Done {
                printed: bytes,
                out: None,
            });
        }
        if !outside.can_write(out) {
            return Err(fault(out));
        }
        Ok(End::Done {
            printed: Bytes::new(),
            out: Some((out.to_vec(), bytes)),
        })
    }

    /// The input, or a byte more than the longest that is of use.
    fn input(&self, outside: &dyn Outside, longest: usize) -> Result<Bytes, End> {
        let name = self.input_name();
        let bytes = outside.read(name, longest + 1);
        bytes.ok_or_else(|| fault(input_named(name)))
    }

    /// A trace is refused as it stands before the options are.
    fn trace(&self, outside: &dyn Outside) -> Result<(Order, Trace), End> {
        let bytes = self.input(outside, LONGEST_TRACE)?;
        let mut trace = check(&bytes).map_err(refused)?;
        trace.settings = self.given.over(trace.settings).map_err(refused)?;
        Ok((order_of(&bytes), trace))
    }

    fn of_trace(&self, outside: &dyn Outside) -> Result<Bytes, End> {
        let (order, trace) = self.trace(outside)?;
        if self.command == Curve {
            return self.curve(&trace);
        }
        let Trace { settings, records } = trace;
        let written = |order| encoded(&settings, order, &records);
        let text = match self.command {
            Convert => return Ok(written(other_order(order))),
            Set => return Ok(written(order)),
            Check => "accepted\n".to_string(),
            Inspect => inspected(order, settings, &records),
            Export => records.iter().map(line_of).collect(),
            Quote => quoted(settings, &records),
            Bench | Rows | Import | Image | Curve => unreachable!("answered otherwise"),
        };
        Ok(text.into_bytes())
    }

    /// The program lends the list of a curve itself, so that there is room for it.
    fn curve(&self, trace: &Trace) -> Result<Bytes, End> {
        let misses = curve::of_trace(trace, curve::SIZES).map_err(refused)?;
        let text = match self.given.svg {
            true => picture(trace, &misses),
            false => curve::lines(&misses),
        };
        Ok(text.into_bytes())
    }

    /// The image is read before the trace is, and refused before anything else is.
    fn replayed(&self, outside: &dyn Outside) -> Result<End, End> {
        let from = self.given.from.as_ref();
        let start = from.map(|name| read_image(name, outside)).transpose()?;
        let (order, Trace { settings, records }) = self.trace(outside)?;
        let bytes = encoded(&settings, order, &records);
        let mut state = start.map(|(_, pool)| (pool, Tally::default()));
        let replayed = go_on(&mut state, &bytes).map_err(refused)?;
        let image = Held::of(replayed.pool).encode(order);
        let listing = replayed.to_string();
        let printed = match self.command {
            Bench => sheet_of(&bytes, &listing),
            _ => listing,
        };
        Ok(self.saved(printed.into_bytes(), image, outside))
    }

    /// Saves the image, if asked to, once all is printed.
    fn saved(&self, printed: Bytes, image: Bytes, outside: &dyn Outside) -> End {
        match &self.given.save {
            Some(name) if !outside.can_write(name) => End::Unsaved {
                printed,
                named: name.clone(),
            },
            name => End::Done {
                printed,
                out: name.clone().map(|name| (name, image)),
            },
        }
    }

    fn imaged(&self, outside: &dyn Outside) -> Result<Bytes, End> {
        let (order, pool) = read_image(self.input_name(), outside)?;
        let text = settings_told(order, pool.settings) + &pool.to_string();
        Ok(text.into_bytes())
    }

    fn imported(&self, outside: &dyn Outside) -> Result<Bytes, End> {
        let text = self.input(outside, LONGEST_TEXT)?;
        if text.len() > LONGEST_TEXT {
            return Err(too_large(input_named(self.input_name())));
        }
        let records =
            records_of(&text).map_err(|number| End::Refused(format!("line {number} refused\n")))?;
        if records.len() > MOST_RECORDS as usize {
            return Err(refused(4));
        }
        let settings = self.given.over(DEFAULTS).map_err(refused)?;
        let order = self.given.order.unwrap_or(Order::HighFirst);
        Ok(encoded(&settings, order, &records))
    }
}

/// The order and the pool of the image under a name.
fn read_image(name: &[u8], outside: &dyn Outside) -> Result<(Order, Pool), End> {
    let bytes = outside.read(name, LONGEST_IMAGE + 1);
    let bytes = bytes.ok_or_else(|| fault(input_named(name)))?;
    if bytes.len() > LONGEST_IMAGE {
        return Err(too_large(input_named(name)));
    }
    let image_refused = |refusal: u32| End::Refused(format!("image refused {refusal}\n"));
    let held = image::read(&bytes).map_err(image_refused)?;
    let pool = held.pool().expect("what was read is sound");
    Ok((order_of(&bytes), pool))
}

/// Of an accepted trace or image.
pub fn order_of(bytes: &[u8]) -> Order {
    match bytes[0] {
        1 => Order::HighFirst,
        _ => Order::LowFirst,
    }
}

pub fn other_order(order: Order) -> Order {
    match order {
        Order::HighFirst => Order::LowFirst,
        Order::LowFirst => Order::HighFirst,
    }
}

pub fn encoded(settings: &Settings, order: Order, records: &[(u32, Kind)]) -> Bytes {
    let records: Vec<(u32, u32)> = records
        .iter()
        .map(|&(page, kind)| (page, kind as u32))
        .collect();
    encode(settings, order, &records)
}

/// The lines of the order and of the eight settings.
fn settings_told(order: Order, mut settings: Settings) -> String {
    let order = match order {
        Order::HighFirst => "high",
        Order::LowFirst => "low",
    };
    let mut text = format!("order {order}\npolicy {}\n", rule_name(settings.rule));
    for ((option, _), field) in NUMBERS.iter().zip(fields(&mut settings)) {
        text += &format!("{} {field}\n", option.trim_start_matches('-'));
    }
    text
}

fn inspected(order: Order, settings: Settings, records: &[(u32, Kind)]) -> String {
    let text = settings_told(order, settings);
    let writes = records.iter().filter(|(_, kind)| *kind == Kind::Write);
    text + &format!("records {}\nwrites {}\n", records.len(), writes.count())
}

// ------------------------------------------------------- records as lines

fn line_of(&(page, kind): &(u32, Kind)) -> String {
    let name = match kind {
        Kind::Read => "read",
        Kind::Write => "write",
        Kind::Pin => "pin",
        Kind::Unpin => "unpin",
    };
    format!("{name} {page}\n")
}

/// The records of a text, or the number of its first bad line. What follows the
/// last line feed is a line, too; where it is empty, it is passed over.
fn records_of(text: &[u8]) -> Result<Vec<(u32, Kind)>, usize> {
    let mut records = Vec::new();
    for (number, line) in (1usize..).zip(text.split(|&byte| byte == b'\n')) {
        if !matches!(line, [] | [b'#', ..]) {
            records.push(record_of(line).ok_or(number)?);
        }
    }
    Ok(records)
}

fn record_of(line: &[u8]) -> Option<(u32, Kind)> {
    let space = line.iter().position(|&byte| byte == b' ')?;
    let kind = match &line[..space] {
        b"read" => Kind::Read,
        b"write" => Kind::Write,
        b"pin" => Kind::Pin,
        b"unpin" => Kind::Unpin,
        _ => return None,
    };
    let page = u32::try_from(number(&line[space + 1..])?).ok()?;
    Some((page, kind))
}

// ---------------------------------------------------------------- the quote

/// The frames of a quote's lines.
pub fn quoted_frames(own: u32) -> BTreeSet<u32> {
    (0..8).map(|power| 1 << power).chain([own]).collect()
}

fn quoted(settings: Settings, records: &[(u32, Kind)]) -> String {
    let mut text = "frames".to_string();
    for rule in RULES.map(rule_name) {
        text += &format!(" {rule}-misses {rule}-written");
    }
    text.push('\n');
    for frames in quoted_frames(settings.frames) {
        text += &frames.to_string();
        for rule in RULES {
            let tally = tally_of(settings.with(rule, frames), records);
            text += &format!(" {} {}", tally.misses, tally.written);
        }
        text.push('\n');
    }
    text
}
