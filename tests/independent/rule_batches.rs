//! The batches that try the rules: pools of which the values meet, the frames are pinned,
//! or the batches are great, missed on by one step or by some records.

use crate::batches::{settings_by_turn, trial, Trial};
use crate::calls::{Call, What};
use crate::image::{numbers_of, Held, HeldFrame, MOST_FRAMES};
use crate::pools::{absent_page, made_up_of, records_for};
use crate::replay::{Rule, Settings, MOST_REFERENCES};
use crate::traces::{self, some_order, Random, PIN, READ, UNPIN, WRITE};
use std::collections::BTreeMap;

// ----------------------------------------------------------- values that meet

/// A frame with these logs.
fn frame_of(page: u32, last: u32, access: &[u32], write: &[u32]) -> HeldFrame {
    let mut frame = HeldFrame {
        page,
        last,
        count: 1,
        dirty: !write.is_empty(),
        accesses: access.len() as u8,
        writes: write.len() as u8,
        ..HeldFrame::default()
    };
    frame.access[..access.len()].copy_from_slice(access);
    frame.write[..write.len()].copy_from_slice(write);
    frame
}

/// The number i and the age of the part that is to be a log's greatest.
type Part = (u32, u32);

/// A log that has this part for its greatest: the ages end with its age and rise by 1,
/// so that no part before it is greater.
fn log_of((i, age): Part, now: u32) -> Vec<u32> {
    assert!((i == 1 || i <= age) && age <= now, "no such log");
    (0..i).rev().map(|newer| now - age + newer).collect()
}

/// Access part and write part, if any, of two frames under weight 2. In whole numbers
/// the first ones meet; the others are ties and neighbours of ties.
const MEETING: [[Option<Part>; 4]; 30] = [
    [Some((3, 42)), None, Some((2, 35)), None],
    [Some((3, 42)), None, Some((2, 28)), None],
    [Some((3, 42)), None, Some((2, 29)), None],
    [Some((3, 42)), None, Some((2, 27)), None],
    [Some((4, 50)), None, Some((3, 42)), None],
    [Some((4, 56)), None, Some((8, 112)), None],
    [Some((4, 56)), None, Some((8, 113)), None],
    [Some((4, 56)), None, Some((8, 111)), None],
    [Some((5, 70)), None, Some((7, 98)), None],
    [Some((6, 84)), None, Some((7, 99)), None],
    [Some((1, 1)), None, Some((2, 20)), None],
    [Some((1, 2)), None, Some((2, 40)), None],
    [Some((1, 2)), None, Some((2, 41)), None],
    [Some((1, 2)), None, Some((2, 39)), None],
    [Some((1, 5)), None, Some((1, 6)), None],
    [Some((8, 8)), None, Some((2, 2)), None],
    [Some((3, 2000)), None, Some((2, 1333)), None],
    [Some((3, 2000)), None, Some((2, 1334)), None],
    [Some((2, 20)), None, Some((1, 2)), Some((1, 4))],
    [Some((2, 20)), None, Some((1, 2)), Some((1, 5))],
    [Some((2, 20)), None, Some((1, 2)), Some((1, 3))],
    [Some((1, 1)), Some((1, 1)), Some((3, 10)), None],
    [Some((1, 1)), Some((1, 1)), Some((6, 20)), None],
    [Some((1, 1)), Some((1, 1)), Some((6, 21)), None],
    [Some((3, 42)), Some((2, 28)), Some((2, 28)), Some((3, 42))],
    [Some((3, 42)), Some((2, 28)), Some((2, 28)), Some((3, 43))],
    [Some((2, 100)), Some((1, 9)), Some((2, 100)), Some((1, 10))],
    [Some((2, 99)), Some((1, 9)), Some((2, 100)), Some((1, 9))],
    [Some((1, 7)), Some((1, 3)), Some((1, 3)), Some((1, 7))],
    [Some((2, 30)), Some((4, 40)), Some((4, 60)), Some((3, 30))],
];

/// WATT with as many draws as name all of two frames, and great batches.
fn watt(frames: u32, weight: u32, epoch: u32, seed: u32) -> Settings {
    Settings {
        rule: Rule::Watt,
        frames,
        batch: 16,
        cap: 1,
        sample: if frames == 2 { 2 } else { 16 },
        weight,
        epoch,
        seed,
    }
}

fn pool_of(settings: Settings, k: u32, frames: Vec<HeldFrame>) -> Held {
    Held {
        settings: numbers_of(&settings),
        k,
        hand: 0,
        sampler: settings.seed,
        frames,
    }
}

/// A miss on a full pool, whose victim and batch say how the frames compare.
fn miss(random: &mut Random, sort: &str, held: &Held) -> Trial {
    let [_, _, batch, ..] = held.settings;
    let call = Call {
        page: absent_page(random, held),
        kind: random.one_of(&[READ, WRITE, PIN]),
        room: batch,
        ..Call::new(What::Step, &held.encode(some_order(random)))
    };
    trial(sort, call)
}

pub fn values_that_meet(random: &mut Random, turn: usize) -> Vec<Trial> {
    // With k at an epoch's end every last step can be of the epoch that is now, so
    // that a log may have any age.
    let (now, epoch) = (4_000, 10);
    let k = epoch * now + 9;
    let mut calls = Vec::new();
    for [a, b, c, d] in MEETING {
        let logs = [[a, b], [c, d]]
            .map(|parts| parts.map(|part| part.map_or(Vec::new(), |part| log_of(part, now))));
        for swapped in [false, true] {
            let mut both = [&logs[0], &logs[1]];
            if swapped {
                both.reverse();
            }
            let pages = random.one_of(&[[1, 2], [2, 1]]);
            let frames = [0, 1].map(|at: usize| {
                let [access, write] = both[at];
                frame_of(pages[at], k - 1 - at as u32, access, write)
            });
            let held = pool_of(watt(2, 2, epoch, random.any()), k, frames.to_vec());
            calls.push(miss(random, "values that meet", &held));
        }
    }
    calls.extend(ties_that_floats_miss(random, turn));
    calls.extend(hidden_from_floats(random));
    calls.extend(widest_products(random));
    calls.extend(many_that_meet(random, turn, now, k));
    calls
}

/// An access part and a write part, if any.
type Parts = (Part, Option<Part>);

/// Values under weight 2 as reduced fractions, each with all the parts that make it.
fn parts_by_value() -> BTreeMap<(u64, u64), Vec<Parts>> {
    let mut found: BTreeMap<(u64, u64), Vec<Parts>> = BTreeMap::new();
    let writes = [1, 2, 3]
        .into_iter()
        .flat_map(|j| [3, 7, 9, 11].map(|age| Some((j, age))));
    let writes: Vec<Option<Part>> = writes.chain([None]).collect();
    for age in 1..=30 {
        for (i, &write) in (1..=age.min(8)).flat_map(|i| writes.iter().map(move |write| (i, write)))
        {
            let (a, b) = fraction_of((i, age));
            let (c, d) = write.map_or((0, 1), fraction_of);
            let (above, below) = (a * d + 2 * c * b, b * d);
            let common = common_divisor(above, below);
            let parts = found.entry((above / common, below / common)).or_default();
            parts.push(((i, age), write));
        }
    }
    found
}

fn fraction_of((i, age): Part) -> (u64, u64) {
    match i {
        1 => (1, 10 * u64::from(age)),
        _ => (u64::from(i), u64::from(age)),
    }
}

fn common_divisor(a: u64, b: u64) -> u64 {
    match b {
        0 => a,
        _ => common_divisor(b, a % b),
    }
}

/// As floats would have it. They choose what is tried, and say nothing of what comes.
fn as_float((access, write): Parts) -> f64 {
    let float = |part: Part| {
        let (above, below) = fraction_of(part);
        above as f64 / below as f64
    };
    float(access) + 2.0 * write.map_or(0.0, float)
}

/// Two frames of equal value, of which floats take the one for the greater.
fn ties_that_floats_miss(random: &mut Random, turn: usize) -> Vec<Trial> {
    let (now, epoch, k) = (100, 10, 1_009);
    let mut calls = Vec::new();
    let pairs = parts_by_value().into_values().filter_map(|parts| {
        let first = parts[0];
        let other = parts
            .iter()
            .find(|other| as_float(**other) != as_float(first));
        other.map(|other| [first, *other])
    });
    for mut both in pairs.skip(turn % 8).step_by(8) {
        if random.chance(50) {
            both.reverse();
        }
        let frames = [0, 1].map(|at: usize| {
            let (access, write) = both[at];
            let write = write.map_or(Vec::new(), |part| log_of(part, now));
            frame_of(
                1 + at as u32,
                k - 1 - at as u32,
                &log_of(access, now),
                &write,
            )
        });
        let held = pool_of(watt(2, 2, epoch, random.any()), k, frames.to_vec());
        calls.push(miss(random, "ties that floats miss", &held));
    }
    calls
}

/// Two frames of unequal values under weight 16, each by the age of an access and a write
/// part: floats cannot tell them apart, in the first pair as sums of quotients, in the
/// others even as one quotient each.
const HIDDEN: [[(u32, Part); 2]; 4] = [
    [(39_866, (2, 46_263)), (40_347, (2, 46_261))],
    [(47_449, (4, 48_328)), (46_840, (4, 48_329))],
    [(44_194, (4, 46_058)), (23_691, (4, 46_123))],
    [(33_883, (4, 45_069)), (20_936, (4, 45_127))],
];

fn hidden_from_floats(random: &mut Random) -> Vec<Trial> {
    // With epochs of length 1 now is k, as great as it may be before a reference.
    let now = MOST_REFERENCES - 1;
    let mut calls = Vec::new();
    for [one, two] in HIDDEN {
        for both in [[one, two], [two, one]] {
            let frames = [0, 1].map(|at: usize| {
                let (age, write) = both[at];
                let access = log_of((1, age), now);
                frame_of(
                    1 + at as u32,
                    now - 1 - at as u32,
                    &access,
                    &log_of(write, now),
                )
            });
            let held = pool_of(watt(2, 16, 1, random.any()), now, frames.to_vec());
            calls.push(miss(random, "hidden from floats", &held));
        }
    }
    calls
}

/// The pairs of values with the widest products.
fn widest_products(random: &mut Random) -> Vec<Trial> {
    let k = MOST_REFERENCES - 1;
    let logs: [(&[u32], &[u32]); 8] = [
        (&[0], &[0]),
        (&[0], &[3, 2, 1, 0]),
        (&[1], &[3, 2, 1, 0]),
        (&[0], &[1]),
        (&[7, 6, 5, 4, 3, 2, 1, 0], &[3, 2, 1, 0]),
        (&[0], &[49_000]),
        (&[49_990], &[49_991, 49_990]),
        (&[49_997], &[49_997, 49_996, 49_995, 49_994]),
    ];
    let mut calls = Vec::new();
    for one in &logs {
        for two in &logs {
            let frames = [one, two]
                .into_iter()
                .zip([1, 2])
                .map(|((access, write), page)| frame_of(page, k - page, access, write))
                .collect();
            let held = pool_of(watt(2, 16, 1, random.any()), k, frames);
            calls.push(miss(random, "widest products", &held));
        }
    }
    calls
}

/// Eight frames of which the values meet, in any order; the batch tells theirs.
fn many_that_meet(random: &mut Random, turn: usize, now: u32, k: u32) -> Vec<Trial> {
    let few = [
        (1, 1),
        (2, 20),
        (1, 2),
        (3, 42),
        (2, 28),
        (4, 56),
        (2, 29),
        (2, 35),
    ];
    let writes = [(1, 3), (2, 60), (1, 6)];
    let mut calls = Vec::new();
    for number in 0..10 {
        let weight = [0, 2, 16][(turn + number) % 3];
        let frames = (0..8)
            .map(|at| {
                let access = log_of(random.one_of(&few), now);
                let write = log_of(random.one_of(&writes), now);
                frame_of(100 + at, k - 1 - at, &access, &write)
            })
            .collect();
        let held = pool_of(watt(8, weight, 10, random.any()), k, frames);
        calls.push(miss(random, "many values that meet", &held));
    }
    calls
}

// ----------------------------------------------------------- pins and batches

/// Each set of pinned frames of three, from every hand; all of 128, all but one.
pub fn pinned_frames(random: &mut Random, turn: usize) -> Vec<Trial> {
    let mut calls = Vec::new();
    let three = Settings {
        frames: 3,
        sample: random.between(1, 3),
        ..settings_by_turn(random, turn)
    };
    let base = made_up_of(random, three, 3, 40_000);
    for pinned in 0..8u32 {
        for hand in 0..3 {
            let mut held = base.clone();
            held.hand = hand;
            held.sampler = [0, 7, u32::MAX][hand as usize];
            for (at, frame) in held.frames.iter_mut().enumerate() {
                frame.pins = [1, 255, 2][at] * (pinned >> at & 1) as u8;
            }
            calls.push(miss(random, "pinned of three", &held));
        }
    }
    let all = Settings {
        frames: MOST_FRAMES,
        ..settings_by_turn(random, turn)
    };
    let mut held = made_up_of(random, all, MOST_FRAMES, 40_000);
    for frame in &mut held.frames {
        frame.pins = random.between(1, 255) as u8;
    }
    calls.push(miss(random, "all pinned", &held));
    for free in [0, 127, random.between(1, 126) as usize] {
        let mut held = held.clone();
        held.hand = random.one_of(&[0, free as u32, (free as u32 + 1) % 128, 127]);
        held.frames[free].pins = 0;
        held.frames[free].count = all.cap as u8;
        calls.push(miss(random, "all but one pinned", &held));
    }
    calls.extend(one_frame(random, turn));
    calls
}

/// One frame, pinned at the edges of the pin count, by every kind.
fn one_frame(random: &mut Random, turn: usize) -> Vec<Trial> {
    let settings = Settings {
        frames: 1,
        ..settings_by_turn(random, turn)
    };
    let base = made_up_of(random, settings, 1, 30);
    let mut calls = Vec::new();
    for pins in [0, 1, 254, 255] {
        let mut held = base.clone();
        held.frames[0].pins = pins;
        let image = held.encode(some_order(random));
        let absent = absent_page(random, &held);
        for kind in [READ, WRITE, PIN, UNPIN] {
            for page in [held.frames[0].page, absent] {
                let call = Call {
                    page,
                    kind,
                    room: settings.batch,
                    ..Call::new(What::Step, &image)
                };
                calls.push(trial("one frame", call));
            }
        }
    }
    calls
}

/// Full pools with many dirty frames, missed on one time after the other.
pub fn great_batches(random: &mut Random, turn: usize) -> Vec<Trial> {
    let mut calls = Vec::new();
    for (number, frames) in [1, 2, 6, 20, MOST_FRAMES].into_iter().enumerate() {
        for batch in [1, 2, 3, 16] {
            let settings = Settings {
                frames,
                batch,
                ..settings_by_turn(random, turn + number)
            };
            let held = full_and_dirty(random, settings);
            calls.push(miss(random, "great batches", &held));
            let mut records = records_for(random, &held, 5);
            records.extend((0..5).map(|_| (random.any(), READ)));
            let call = Call {
                trace: traces::encode(&settings, some_order(random), &records),
                rows: 40,
                room: MOST_FRAMES + 10,
                ..Call::new(What::Replay, &held.encode(some_order(random)))
            };
            calls.push(trial("great batches", call));
        }
    }
    calls
}

fn full_and_dirty(random: &mut Random, settings: Settings) -> Held {
    let k = random.between(5_000, 49_000);
    let mut held = made_up_of(random, settings, settings.frames, k);
    for frame in &mut held.frames {
        if frame.writes == 0 && random.chance(80) {
            (frame.writes, frame.write[0]) = (1, frame.last / settings.epoch);
        }
        frame.dirty = frame.writes > 0 && random.chance(90);
        frame.pins = u8::from(random.chance(15));
    }
    held
}
