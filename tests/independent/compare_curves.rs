//! Holds the curves and the pictures of a program against our own, trace by trace, and
//! once more with the pages renamed and in the other order; and sees to it that all
//! that should come up did.

use crate::curve::{self, Curve, SIZES};
use crate::curve_traces::{made, sorts, Made, DISTANCES, WITH_PINS};
use crate::picture::{picture, Axis};
use crate::program::{encoded, order_of, other_order, rule_name, RULES};
use crate::renaming::{some_renamed_trace, Renaming};
use crate::replay::{check, Order, Rule, Settings, Trace, HEADER, RECORD};
use crate::things::{expect_none, Things};
use crate::traces::{Random, PIN, UNPIN};
use crate::{expect_alike, list_trace, output_of};
use std::collections::BTreeSet;
use std::error::Error;

// ------------------------------------------------------- our own side first

/// The misses that the listing of a replay by LRU ends with, at the trace's own size.
fn listed_misses(trace: &Trace, order: Order) -> Option<u32> {
    let settings = Settings {
        rule: Rule::Lru,
        ..trace.settings
    };
    let listing = list_trace(&encoded(&settings, order, &trace.records), &mut |_| {});
    let mut lines = listing.lines().rev();
    lines
        .find_map(|line| line.strip_prefix("misses "))?
        .parse()
        .ok()
}

/// The curve has at the trace's own size what is listed there, and never rises.
fn expect_listed(trace: &Trace, order: Order, curve: &Curve) -> Result<(), String> {
    let own = curve[trace.settings.frames as usize - 1];
    if listed_misses(trace, order) != Some(own) {
        return Err(format!("another replay does not list {own} misses"));
    }
    match curve.windows(2).all(|two| two[0] >= two[1]) {
        true => Ok(()),
        false => Err("the curve rises".to_string()),
    }
}

/// What our own side prints of a trace: its lines, and its picture.
struct Told {
    lines: String,
    picture: String,
}

impl Told {
    fn of(trace: &Result<Trace, u32>, curve: &Result<Curve, u32>) -> Told {
        match (trace, curve) {
            (Ok(trace), Ok(curve)) => Told {
                lines: curve::lines(curve),
                picture: picture(trace, curve),
            },
            (_, Err(refusal)) | (Err(refusal), _) => Told {
                lines: curve::refused(*refusal),
                picture: curve::refused(*refusal),
            },
        }
    }
}

/// The same trace in the other order.
fn in_the_other_order(bytes: &[u8], trace: &Trace) -> Vec<u8> {
    encoded(
        &trace.settings,
        other_order(order_of(bytes)),
        &trace.records,
    )
}

// ----------------------------------------------------------- the comparison

fn compare_told(
    program: &str,
    what: &str,
    bytes: &[u8],
    ours: &Told,
) -> Result<(), Box<dyn Error>> {
    let names = ["ours", "theirs"];
    let theirs = output_of(program, &["curve"], bytes)?;
    expect_alike(&format!("{what}, curve"), names, &ours.lines, &theirs)?;
    let theirs = output_of(program, &["curve", "--svg"], bytes)?;
    expect_alike(&format!("{what}, picture"), names, &ours.picture, &theirs)?;
    Ok(())
}

/// What is told of a trace is told of it with other pages and in the other order, too.
fn compare_others(
    program: &str,
    seed: u64,
    (bytes, trace): (&[u8], &Trace),
    ours: &Told,
    seen: &mut Seen,
) -> Result<(), Box<dyn Error>> {
    // Other numbers than those of which the trace was made.
    let random = &mut Random::new(seed ^ (1 << 59));
    let renamed = some_renamed_trace(random, bytes);
    let (renamed, renaming) = renamed.ok_or("accepted, but not renamed")?;
    seen.note_renamed(&renaming);
    let names = ["as it was", "renamed"];
    let again = curve::told(&renamed);
    expect_alike("our own curve", names, &ours.lines, again.as_bytes())?;
    compare_told(program, "renamed", &renamed, ours)?;
    let other = in_the_other_order(bytes, trace);
    if check(&other).as_ref() != Ok(trace) || other == bytes {
        return Err("another trace in the other order".into());
    }
    seen.things.note("in the other order");
    compare_told(program, "in the other order", &other, ours)
}

fn compare_one(program: &str, seed: u64, seen: &mut Seen) -> Result<(), Box<dyn Error>> {
    let made = made(seed);
    let bytes = &made.bytes;
    let trace = check(bytes);
    let curve = curve::curve(bytes, SIZES);
    if let (Ok(trace), Ok(curve)) = (&trace, &curve) {
        expect_listed(trace, order_of(bytes), curve)?;
        seen.note_accepted(trace, order_of(bytes), curve);
    }
    seen.note_made(&made, &curve);
    let ours = Told::of(&trace, &curve);
    compare_told(program, "as it is", bytes, &ours)?;
    match &trace {
        Ok(trace) => compare_others(program, seed, (bytes, trace), &ours, seen),
        Err(_) => Ok(()),
    }
}

pub fn compare(program: &str, first: u64, count: u64) -> Result<(), Box<dyn Error>> {
    let mut seen = Seen::default();
    for seed in first..first + count {
        let told = |error| format!("seed {seed}, {:?}, {error}", made(seed).sort);
        compare_one(program, seed, &mut seen).map_err(told)?;
    }
    println!("{}", seen.line(count));
    expect_none(seen.missing())
}

// -------------------------------------------------------------- what came up

/// How often each thing came up.
#[derive(Default)]
struct Seen {
    records: u64,
    things: Things,
}

const REFUSALS: [u32; 9] = [1, 2, 3, 4, 5, 6, 7, 8, 17];
const STEPS: [u32; 10] = [1, 2, 5, 10, 20, 50, 100, 200, 500, 1_000];
const RECORDS: [u32; 3] = [0, 1, 8_000];

const FEATURES: [&str; 8] = [
    "own frames 1",
    "own frames 64",
    "own frames 65",
    "own frames 128",
    "pages 0 and 4294967295",
    "fewer misses with 2 frames than with 1",
    "fewer misses with 128 frames than with 127",
    "the same misses with every size",
];

const OTHERS: [&str; 5] = [
    "renamed",
    "page with another number",
    "page that was 0",
    "page that became 0",
    "in the other order",
];

/// The name of an accepted trace by this rule in this order.
pub fn accepted(rule: Rule, order: Order) -> String {
    format!("{} {order:?}", rule_name(rule))
}

/// All that must come up.
fn needed() -> Vec<String> {
    let mut needed: Vec<String> = sorts().iter().map(|sort| format!("{sort:?}")).collect();
    needed.extend(REFUSALS.map(|refusal| format!("refusal {refusal}")));
    needed.extend(WITH_PINS.map(|refusal| format!("refusal {refusal} before a pin")));
    for order in [Order::HighFirst, Order::LowFirst] {
        needed.extend(RULES.map(|rule| accepted(rule, order)));
    }
    needed.extend(DISTANCES.map(|between| format!("distance {between}")));
    needed.extend(STEPS.map(|step| format!("step {step}")));
    needed.extend(RECORDS.map(|count| format!("records {count}")));
    needed.extend(FEATURES.map(String::from));
    needed.extend(OTHERS.map(String::from));
    needed
}

/// How many different pages lie between the uses of a page and its use before.
fn distances(trace: &Trace) -> BTreeSet<u32> {
    let pages = trace.pages();
    let between = |at: usize| {
        let before = pages[..at].iter().rposition(|page| *page == pages[at])?;
        let others: BTreeSet<&u32> = pages[before + 1..at].iter().collect();
        Some(others.len() as u32)
    };
    (0..pages.len()).filter_map(between).collect()
}

/// Whether a record of these bytes is a pin or an unpin, whatever else they are.
fn has_pins(bytes: &[u8]) -> bool {
    let order = order_of(bytes);
    let mut records = bytes[HEADER..].chunks_exact(RECORD);
    records.any(|record| [PIN, UNPIN].contains(&order.number(&record[4..6])))
}

impl Seen {
    fn note_made(&mut self, made: &Made, curve: &Result<Curve, u32>) {
        self.things.note(format!("{:?}", made.sort));
        if let Err(refusal) = curve {
            self.things.note(format!("refusal {refusal}"));
            if WITH_PINS.contains(refusal) && has_pins(&made.bytes) {
                self.things.note(format!("refusal {refusal} before a pin"));
            }
        }
    }

    fn note_accepted(&mut self, trace: &Trace, order: Order, curve: &Curve) {
        let Settings { rule, frames, .. } = trace.settings;
        let records = trace.records.len();
        self.records += records as u64;
        self.things.note(accepted(rule, order));
        self.things
            .note(format!("step {}", Axis::of(curve[0]).step));
        self.things.note(format!("records {records}"));
        // Long traces have all distances, and finding them takes long.
        if records < 1_000 {
            for between in distances(trace) {
                self.things.note(format!("distance {between}"));
            }
        }
        let has = |page: u32| trace.records.iter().any(|record| record.0 == page);
        let occurred = [
            frames == 1,
            frames == 64,
            frames == 65,
            frames == 128,
            has(0) && has(u32::MAX),
            curve[0] > curve[1],
            curve[126] > curve[127],
            curve[0] == curve[127] && records > 0,
        ];
        for (thing, occurred) in FEATURES.into_iter().zip(occurred) {
            self.things.note_if(occurred, thing);
        }
    }

    fn note_renamed(&mut self, renaming: &Renaming) {
        self.things.note("renamed");
        for (page, number) in renaming.0.iter().filter(|(page, number)| page != number) {
            self.things.note("page with another number");
            if *page == 0 {
                self.things.note("page that was 0");
            }
            if *number == 0 {
                self.things.note("page that became 0");
            }
        }
    }

    /// What should have come up and never did.
    fn missing(&self) -> Vec<String> {
        self.things.missing(needed())
    }

    fn line(&self, count: u64) -> String {
        format!(
            "compared the curves and pictures of {count} traces alike, {} records; refusals {}; \
             different pages between two uses {}; steps of the axis {}; {}; {}",
            self.records,
            self.things.by_number("refusal", &REFUSALS),
            self.things.by_number("distance", &DISTANCES),
            self.things.by_number("step", &STEPS),
            self.things.by_name(&FEATURES),
            self.things.by_name(&OTHERS),
        )
    }
}
