//! What must come up among the calls that are compared, and how often it did.

use crate::batches::{self, Trial};
use crate::calls::{kind_of, room_needed, Answer, Call, What, MOST_COUNT};
use crate::image::{self, Clause, Held, HeldFrame};
use crate::rare::{rare, RARE};
use crate::renaming::Changed;
use crate::replay::{check, row, Kind, Order, Pool, Rule, Trace, MOST_REFERENCES};
use crate::things::Things;
use std::collections::BTreeSet;

/// How often each thing came up, and which images were replayed from.
#[derive(Default)]
pub struct Seen {
    calls: u64,
    pub renamed: u64,
    things: Things,
    sound_images: BTreeSet<Vec<u8>>,
    other_images: BTreeSet<Vec<u8>>,
    pub changed: Changed,
}

/// Of so many different images a replay or a replay to counts must be accepted,
/// and so many unsound ones be handed to a replay.
const LEAST_SOUND_IMAGES: usize = 500;
const LEAST_OTHER_IMAGES: usize = 100;

const RULES: [(Rule, &str); 3] = [
    (Rule::Lru, "lru"),
    (Rule::Clock, "clock"),
    (Rule::Watt, "watt"),
];
const OUTCOMES: [u32; 9] = [0, 1, 2, 3, 4, 109, 110, 111, 112];

/// Each call with the refusals that it can give, 0 for none.
const REFUSALS: [(&str, &[u32]); 7] = [
    ("read", &[0, 1, 2, 3, 5, 6, 14]),
    ("held", &[1, 2, 3, 5, 6, 14]),
    ("write", &[0, 13, 14]),
    ("check", &[0, 14]),
    ("step", &[0, 6, 13, 14]),
    ("replay", &[0, 1, 2, 3, 4, 5, 6, 7, 8, 13, 14, 15]),
    ("counts", &[0, 1, 2, 3, 4, 5, 6, 7, 8, 14, 15]),
];

const SORTS: [&str; 25] = [
    "left by a replay",
    "left at the end",
    "made up",
    "made up at the end",
    "torn",
    "127 or 128 frames",
    "more than 128 frames",
    "a zero field past 128 frames",
    "a zero field of many frames",
    "dirty 2 past 128 frames",
    "a wrong length of many frames",
    "an overflowing count",
    "a trace as an image",
    "an image as a trace",
    "an empty trace file",
    "an empty image",
    "noise",
    "each page referred to",
    "near the truth",
    "values that meet",
    "widest products",
    "ties that floats miss",
    "hidden from floats",
    "many values that meet",
    "great batches",
];

const PINNED_SORTS: [&str; 4] = [
    "pinned of three",
    "all pinned",
    "all but one pinned",
    "one frame",
];

/// What a sound pool that is replayed from must have had.
const FEATURES: [&str; 7] = [
    "no frame in use",
    "all of 128 frames in use",
    "k 49999",
    "k 50000",
    "a pinned frame",
    "a dirty frame",
    "a pin count of 255",
];

// Room and lists.
const EXACT_ROWS: &str = "exactly the room for rows";
const EXACT_PAGES: &str = "exactly the room for pages";
const MORE_ROOM: &str = "more room";
const FEW_ROWS: &str = "too little room for rows alone";
const FEW_PAGES: &str = "too little room for pages alone";
const EXACT_BYTES: &str = "writing with exactly the room";
const A_BYTE_LESS: &str = "writing with a byte less";
const MORE_BYTES: &str = "writing with more room";
// Of two faults the one that is told.
const UNSOUND_BEFORE_TRACE: &str = "an unsound pool before a bad trace";
const UNSOUND_BEFORE_ROOM: &str = "an unsound pool before too little room to write";
const UNSOUND_BEFORE_KIND: &str = "an unsound pool before a bad kind";
const TALLY_BEFORE_TRACE: &str = "a tally before a bad trace";
const KIND_BEFORE_ROOM: &str = "a bad kind before too little room";
const SETTINGS_BEFORE_ROOM: &str = "other settings before too little room";

const OTHERS: [&str; 14] = [
    EXACT_ROWS,
    EXACT_PAGES,
    MORE_ROOM,
    FEW_ROWS,
    FEW_PAGES,
    EXACT_BYTES,
    A_BYTE_LESS,
    MORE_BYTES,
    UNSOUND_BEFORE_TRACE,
    UNSOUND_BEFORE_ROOM,
    UNSOUND_BEFORE_KIND,
    TALLY_BEFORE_TRACE,
    KIND_BEFORE_ROOM,
    SETTINGS_BEFORE_ROOM,
];

fn order_name(bytes: &[u8]) -> &'static str {
    match image::order_of_mark(bytes) {
        Some(Order::HighFirst) => "high",
        Some(Order::LowFirst) => "low",
        None => "no",
    }
}

fn other_setting(number: usize) -> String {
    format!("setting {number} differs alone")
}

fn broken_alone(clause: Clause) -> String {
    format!("{clause:?} broken alone")
}

/// All that must come up.
fn needed() -> Vec<String> {
    let mut needed: Vec<String> = Vec::new();
    for (name, refusals) in REFUSALS {
        needed.extend(refusals.iter().map(|refusal| format!("{name} {refusal}")));
    }
    for (_, rule) in RULES {
        needed.extend(OUTCOMES.map(|outcome| format!("{rule} outcome {outcome}")));
    }
    for image in ["high", "low"] {
        needed.extend(["high", "low"].map(|trace| format!("{image} image and {trace} trace")));
    }
    for lists in [&SORTS[..], &PINNED_SORTS, &FEATURES, &OTHERS] {
        needed.extend(lists.iter().map(|thing| thing.to_string()));
    }
    needed.extend(RARE.map(|thing| format!("step with {thing}")));
    needed.extend((0..8).map(other_setting));
    for count in 0..6 {
        needed.push(format!("count {count} at its greatest"));
        needed.push(format!("count {count} too great alone"));
    }
    needed.extend(Clause::ALL.map(broken_alone));
    needed.extend(batches::field_things());
    needed.extend(batches::fault_pairs());
    needed
}

impl Seen {
    /// What a call and its answer bring up.
    pub fn note_call(&mut self, trial: &Trial, answer: &Answer) {
        let Trial { call, sort } = trial;
        self.calls += 1;
        self.things.note(sort.clone());
        self.things
            .note(format!("{} {}", answer.name, answer.refusal));
        if sort.starts_with("field ") && call.what == What::Read {
            self.things.note(format!("{sort} gives {}", answer.refusal));
        }
        let Ok(held) = image::held(&call.image) else {
            return;
        };
        let broken = held.broken();
        if let (true, 1, Some(&clause)) = (sort.starts_with("field "), broken.len(), broken.first())
        {
            self.things.note(broken_alone(clause));
        }
        match held.pool() {
            Some(pool) => self.note_on_sound(call, answer, &pool),
            None => self.note_on_unsound(call),
        }
    }

    fn note_on_sound(&mut self, call: &Call, answer: &Answer, pool: &Pool) {
        match call.what {
            What::Read | What::Check => {}
            What::Write => self.note_writing(call, answer),
            What::Step => self.note_step(call, answer, pool),
            What::Replay => {
                self.note_features(&Held::of(pool));
                self.note_replay(call, answer, pool);
            }
            What::Counts => self.note_replay(call, answer, pool),
        }
    }

    fn note_on_unsound(&mut self, call: &Call) {
        match call.what {
            What::Write => {
                let short = (call.room as usize) < call.image.len();
                self.things.note_if(short, UNSOUND_BEFORE_ROOM);
            }
            What::Step => self
                .things
                .note_if(kind_of(call.kind).is_none(), UNSOUND_BEFORE_KIND),
            What::Replay => {
                self.other_images.insert(call.image.clone());
                self.things
                    .note_if(check(&call.trace).is_err(), UNSOUND_BEFORE_TRACE);
            }
            What::Read | What::Check | What::Counts => {}
        }
    }

    fn note_writing(&mut self, call: &Call, answer: &Answer) {
        let exact = call.image.len() as u32;
        let written = answer.refusal == 0;
        self.things
            .note_if(call.room == exact && written, EXACT_BYTES);
        self.things
            .note_if(call.room + 1 == exact && !written, A_BYTE_LESS);
        self.things
            .note_if(call.room > exact && written, MORE_BYTES);
    }

    fn note_tally(&mut self, call: &Call, answer: &Answer) {
        let excessive = call.tally.iter().filter(|&&count| count > MOST_COUNT);
        let alone = excessive.count() == 1 && answer.refusal == 14;
        for (number, &count) in call.tally.iter().enumerate() {
            if count == MOST_COUNT && answer.refusal == 0 {
                self.things.note(format!("count {number} at its greatest"));
            }
            if count > MOST_COUNT && alone {
                self.things.note(format!("count {number} too great alone"));
            }
        }
    }

    fn note_features(&mut self, held: &Held) {
        let any = |has: fn(&HeldFrame) -> bool| held.frames.iter().any(has);
        let occurred = [
            held.frames.is_empty(),
            held.frames.len() == 128,
            held.k == MOST_REFERENCES - 1,
            held.k == MOST_REFERENCES,
            any(|frame| frame.pins > 0),
            any(|frame| frame.dirty),
            any(|frame| frame.pins == 255),
        ];
        for (occurred, feature) in occurred.into_iter().zip(FEATURES) {
            self.things.note_if(occurred, feature);
        }
    }

    fn note_step(&mut self, call: &Call, answer: &Answer, pool: &Pool) {
        self.note_tally(call, answer);
        let short = call.room < pool.settings.batch;
        self.things
            .note_if(short && answer.refusal == 6, KIND_BEFORE_ROOM);
        match kind_of(call.kind) {
            Some(kind) if answer.refusal == 0 => self.note_steps(pool, &[(call.page, kind)]),
            _ => {}
        }
    }

    fn note_replay(&mut self, call: &Call, answer: &Answer, pool: &Pool) {
        self.note_tally(call, answer);
        let Ok(trace) = check(&call.trace) else {
            let excessive = call.tally.iter().any(|&count| count > MOST_COUNT);
            self.things.note_if(excessive, TALLY_BEFORE_TRACE);
            return;
        };
        match answer.refusal {
            0 => {
                self.sound_images.insert(call.image.clone());
                let [image, trace_order] =
                    [&call.image, &call.trace].map(|bytes| order_name(bytes));
                self.things
                    .note(format!("{image} image and {trace_order} trace"));
                self.note_steps(pool, &trace.records);
            }
            15 => self.note_other_settings(pool, &trace),
            _ => {}
        }
        if call.what == What::Replay {
            self.note_room(call, answer, room_needed(pool, &trace.records));
        }
    }

    fn note_room(&mut self, call: &Call, answer: &Answer, [rows, pages]: [u32; 2]) {
        let (few_rows, few_pages) = (call.rows < rows, call.room < pages);
        match answer.refusal {
            0 => {
                self.things
                    .note_if(call.rows == rows && rows > 0, EXACT_ROWS);
                self.things
                    .note_if(call.room == pages && pages > 0, EXACT_PAGES);
                self.things
                    .note_if(call.rows > rows && call.room > pages, MORE_ROOM);
            }
            13 => {
                self.things.note_if(few_rows && !few_pages, FEW_ROWS);
                self.things.note_if(few_pages && !few_rows, FEW_PAGES);
            }
            15 => self
                .things
                .note_if(few_rows || few_pages, SETTINGS_BEFORE_ROOM),
            _ => {}
        }
    }

    fn note_other_settings(&mut self, pool: &Pool, trace: &Trace) {
        let [ours, theirs] = [&pool.settings, &trace.settings].map(image::numbers_of);
        let differ: Vec<usize> = (0..8).filter(|&i| ours[i] != theirs[i]).collect();
        if let [number] = differ[..] {
            self.things.note(other_setting(number));
        }
    }

    fn note_steps(&mut self, pool: &Pool, records: &[(u32, Kind)]) {
        let mut pool = pool.clone();
        let rule = RULES.iter().find(|(rule, _)| *rule == pool.settings.rule);
        let rule = rule.map_or("no rule", |(_, name)| name);
        for &(page, kind) in records {
            let before = pool.clone();
            let step = pool.step(page, kind);
            let [outcome, ..] = row(&step);
            self.things.note(format!("{rule} outcome {outcome}"));
            for (thing, occurred) in rare(&before, &pool, kind, &step) {
                self.things.note_if(occurred, &format!("step with {thing}"));
            }
        }
    }

    /// What should have come up and never did.
    pub fn missing(&self) -> Vec<String> {
        let mut missing = self.things.missing(needed());
        for (images, least, what) in [
            (&self.sound_images, LEAST_SOUND_IMAGES, "sound"),
            (&self.other_images, LEAST_OTHER_IMAGES, "other"),
        ] {
            if images.len() < least {
                missing.push(format!("{least} {what} images replayed from"));
            }
        }
        let unchanged = self
            .changed
            .named()
            .into_iter()
            .filter(|(_, times)| *times == 0);
        missing.extend(unchanged.map(|(name, _)| format!("renamed: {name}")));
        missing
    }

    pub fn line(&self, count: u64) -> String {
        let refusals = REFUSALS
            .map(|(name, refusals)| format!("{name} {}", self.things.by_number(name, refusals)));
        let outcomes = OUTCOMES.map(|outcome| {
            let by_rule =
                RULES.map(|(_, rule)| self.things.times(&format!("{rule} outcome {outcome}")));
            format!("{outcome}:{}", by_rule.iter().sum::<u64>())
        });
        let clauses = Clause::ALL.map(|clause| self.things.times(&broken_alone(clause)));
        let renamed = self
            .changed
            .named()
            .map(|(name, times)| format!("{times} {name}"));
        format!(
            "compared {} calls in {count} batches alike; refusals {}; outcomes {}; replayed from \
             {} sound images and {} others; a single clause broken {} times, each at least {}; \
             {} calls renamed alike, and the pages with other numbers: {}",
            self.calls,
            refusals.join(", "),
            outcomes.join(" "),
            self.sound_images.len(),
            self.other_images.len(),
            clauses.iter().sum::<u64>(),
            clauses.iter().min().unwrap_or(&0),
            self.renamed,
            renamed.join(", "),
        )
    }
}
