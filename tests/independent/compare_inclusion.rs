//! Holds an LRU pool against one with a frame more after every record, trace by trace:
//! by our own replay, and as it is rebuilt from the rows of a program; and sees to it
//! that all that should come up did.

use crate::compare_curves::accepted;
use crate::inclusion::{expect_included, listed_rows, After, Course, Row};
use crate::inclusion_traces::{made, sorts, Made, SIZES};
use crate::output_of;
use crate::program::{order_of, RULES};
use crate::replay::{check, Kind, Order, Rule, Settings, Trace};
use crate::things::{expect_none, Things};
use std::error::Error;

// ----------------------------------------------------------- the comparison

/// By our own replay under LRU, with the trace's other settings.
fn ours(trace: &Trace, frames: u32) -> Result<Course, String> {
    Course::replayed(trace.settings.with(Rule::Lru, frames), &trace.records)
}

/// The rows that a program lists under LRU, with the trace's other settings.
fn rows_by(program: &str, bytes: &[u8], frames: u32) -> Result<Vec<Row>, Box<dyn Error>> {
    let words = ["rows", "--rule", "lru", "--frames", &frames.to_string()];
    let listing = String::from_utf8(output_of(program, &words, bytes)?)?;
    Ok(listed_rows(&listing).ok_or("no rows are listed")?)
}

/// The pools of two courses are the same, frame by frame, after each record.
fn expect_same(ours: &Course, theirs: &Course) -> Result<(), String> {
    let mut pairs = (1..).zip(ours.records.iter().zip(&theirs.records));
    let frames = ours.frames;
    match pairs.find(|(_, (ours, theirs))| ours != theirs) {
        None => Ok(()),
        Some((number, (ours, theirs))) => Err(format!(
            "record {number}, frames {frames}: ours {ours:?}, theirs {theirs:?}"
        )),
    }
}

/// A pool of so many frames and one with a frame more: ours, those of the program, and
/// each of ours beside the program's.
fn compare_sizes(
    program: &str,
    (bytes, trace): (&[u8], &Trace),
    frames: u32,
    seen: &mut Seen,
) -> Result<(), Box<dyn Error>> {
    let pages = trace.pages();
    let [smaller, larger] = [ours(trace, frames)?, ours(trace, frames + 1)?];
    expect_included(&pages, &smaller, &larger).map_err(|fault| format!("ours, {fault}"))?;
    seen.note_sizes(&smaller, &larger);
    let mut theirs = |frames: u32| -> Result<Course, Box<dyn Error>> {
        let rows = rows_by(program, bytes, frames)?;
        seen.note_rows(&rows);
        let rebuilt = Course::rebuilt(frames as usize, &pages, &rows);
        Ok(rebuilt.map_err(|fault| format!("theirs, frames {frames}, {fault}"))?)
    };
    let their_pools = [theirs(frames)?, theirs(frames + 1)?];
    expect_included(&pages, &their_pools[0], &their_pools[1])
        .map_err(|fault| format!("theirs, {fault}"))?;
    for (ours, theirs) in [smaller, larger].iter().zip(&their_pools) {
        expect_same(ours, theirs)?;
    }
    Ok(())
}

fn compare_one(program: &str, made: &Made, seen: &mut Seen) -> Result<(), Box<dyn Error>> {
    let bytes = &made.bytes;
    let trace = check(bytes).map_err(|refusal| format!("our trace is refused by {refusal}"))?;
    seen.note_made(made, &trace, order_of(bytes));
    for frames in made.sizes {
        compare_sizes(program, (bytes, &trace), frames, seen)?;
    }
    Ok(())
}

pub fn compare(program: &str, first: u64, count: u64) -> Result<(), Box<dyn Error>> {
    let mut seen = Seen::default();
    for seed in first..first + count {
        let made = made(seed);
        compare_one(program, &made, &mut seen)
            .map_err(|error| format!("seed {seed}, {:?}, {error}", made.sort))?;
    }
    println!("{}", seen.line(count));
    expect_none(seen.things.missing(needed()))
}

// -------------------------------------------------------------- what came up

/// How often each thing came up.
#[derive(Default)]
struct Seen {
    records: u64,
    things: Things,
}

/// Of each size, that the larger pool was of use.
const HOLDS_MORE: &str = "a page more held with a frame more than";
const HITS_MORE: &str = "a miss that is a hit with a frame more than";
const OUTCOMES: [u32; 4] = [0, 1, 2, 3];

const FEATURES: [&str; 9] = [
    "one record",
    "300 records or more",
    "pages 0 and 4294967295",
    "reads alone",
    "writes alone",
    "reads and writes",
    "batch size 1",
    "batch size 16",
    "own frames of neither pool",
];

const OF_ROWS: [&str; 3] = [
    "a batch of one page",
    "a batch of more pages",
    "no page that left",
];

/// All that must come up.
fn needed() -> Vec<String> {
    let sorts = sorts(&SIZES);
    let mut needed: Vec<String> = sorts.iter().map(|sort| format!("{sort:?}")).collect();
    for what in ["frames", HOLDS_MORE, HITS_MORE] {
        needed.extend(SIZES.map(|frames| format!("{what} {frames}")));
    }
    for order in [Order::HighFirst, Order::LowFirst] {
        needed.extend(RULES.map(|rule| accepted(rule, order)));
    }
    needed.extend(OUTCOMES.map(|outcome| format!("outcome {outcome}")));
    needed.extend(FEATURES.map(String::from));
    needed.extend(OF_ROWS.map(String::from));
    needed
}

impl Seen {
    fn note_made(&mut self, made: &Made, trace: &Trace, order: Order) {
        let Settings {
            rule,
            frames,
            batch,
            ..
        } = trace.settings;
        let count = trace.records.len();
        let writes = trace
            .records
            .iter()
            .filter(|(_, kind)| *kind == Kind::Write);
        let writes = writes.count();
        let has = |page: u32| trace.records.iter().any(|record| record.0 == page);
        self.records += count as u64;
        self.things.note(format!("{:?}", made.sort));
        self.things.note(accepted(rule, order));
        let occurred = [
            count == 1,
            count >= 300,
            has(0) && has(u32::MAX),
            writes == 0,
            writes == count,
            0 < writes && writes < count,
            batch == 1,
            batch == 16,
            made.sizes
                .iter()
                .all(|&size| frames != size && frames != size + 1),
        ];
        for (thing, occurred) in FEATURES.into_iter().zip(occurred) {
            self.things.note_if(occurred, thing);
        }
    }

    /// Once for a trace and a size, however often it is so.
    fn note_sizes(&mut self, smaller: &Course, larger: &Course) {
        let any = |holds: fn(&After, &After) -> bool| {
            let mut pairs = smaller.records.iter().zip(&larger.records);
            pairs.any(|(small, large)| holds(small, large))
        };
        let holds_more = any(|small, large| small.held.len() < large.held.len());
        let hits_more = any(|small, large| !small.hit && large.hit);
        for (occurred, what) in [
            (true, "frames"),
            (holds_more, HOLDS_MORE),
            (hits_more, HITS_MORE),
        ] {
            let thing = format!("{what} {}", smaller.frames);
            self.things.note_if(occurred, &thing);
        }
    }

    fn note_rows(&mut self, rows: &[Row]) {
        for [outcome, _, _, batch] in rows {
            self.things.note(format!("outcome {outcome}"));
            self.things.note_if(*batch == 1, OF_ROWS[0]);
            self.things.note_if(*batch > 1, OF_ROWS[1]);
        }
        let stays = rows.iter().all(|[outcome, ..]| *outcome < 2);
        self.things.note_if(stays, OF_ROWS[2]);
    }

    fn line(&self, count: u64) -> String {
        let by_size = |what| self.things.by_number(what, &SIZES);
        format!(
            "held LRU pools of {count} traces against those with a frame more, {} records; by \
             frames: tried {}; {HOLDS_MORE} {}; {HITS_MORE} {}; outcomes {}; {}; {}",
            self.records,
            by_size("frames"),
            by_size(HOLDS_MORE),
            by_size(HITS_MORE),
            self.things.by_number("outcome", &OUTCOMES),
            self.things.by_name(&FEATURES),
            self.things.by_name(&OF_ROWS),
        )
    }
}
