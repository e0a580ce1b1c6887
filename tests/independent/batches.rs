//! The calls that are made from seeds, batch by batch, each batch of one sort:
//!
//! - all calls on pools that replays left and on made-up ones, with as much room as is
//!   needed, a place less and more, tallies at their greatest, traces of other settings
//!   and damaged ones;
//! - images with one field at its edge or past it, with two faults, torn, with more
//!   frames than there may be, of which the length overflows, and files of other sorts;
//! - pools that try the rules.

use crate::calls::{room_needed, Call, What, LONGEST, MOST_BYTES, MOST_COUNT};
use crate::calls::{MOST_PAGES, MOST_ROWS};
use crate::image::{self, length_of, Field, Held, HeldFrame};
use crate::image::{ENTRY, ENTRY_FIELDS, HEADER, HEADER_FIELDS, MOST_FRAMES};
use crate::pools::{absent_page, left_at, left_by_a_replay, made_up, made_up_of};
use crate::pools::{trace_for, PLAIN};
use crate::replay::{check, Order, Rule, Settings, MOST_REFERENCES, RECORD};
use crate::rule_batches::{great_batches, pinned_frames, values_that_meet};
use crate::traces::{self, put, some_order, some_settings, Random, PIN, READ, UNPIN, WRITE};

/// A call and what it was made for.
pub struct Trial {
    pub call: Call,
    pub sort: String,
}

pub fn trial(sort: &str, call: Call) -> Trial {
    Trial {
        call,
        sort: sort.to_string(),
    }
}

type Maker = fn(&mut Random, usize) -> Vec<Trial>;

/// What the batches are by turns. Most images are replayed from in those that come up
/// several times.
const MAKERS: [Maker; 16] = [
    on_pools_of_replays,
    on_made_up_pools,
    header_edges,
    entry_edges,
    on_pools_of_replays,
    on_made_up_pools,
    two_faults,
    torn,
    on_pools_at_the_end,
    on_made_up_pools,
    too_many_frames,
    values_that_meet,
    pinned_frames,
    great_batches,
    other_files,
    near_the_truth,
];

/// The calls of a seed.
pub fn batch(seed: u64) -> Vec<Trial> {
    let makers = MAKERS.len() as u64;
    let random = &mut Random::new(seed ^ (1 << 61));
    MAKERS[(seed % makers) as usize](random, (seed / makers) as usize)
}

pub const RULES: [Rule; 3] = [Rule::Lru, Rule::Clock, Rule::Watt];

pub fn settings_by_turn(random: &mut Random, turn: usize) -> Settings {
    Settings {
        rule: RULES[turn % RULES.len()],
        ..some_settings(random)
    }
}

// ------------------------------------------------------------ calls on a pool

/// How many pools a batch has all calls on.
const POOLS: usize = 6;

fn on_pools_of_replays(random: &mut Random, turn: usize) -> Vec<Trial> {
    let mut calls = Vec::new();
    for number in 0..POOLS {
        let settings = settings_by_turn(random, turn + number);
        let held = left_by_a_replay(random, settings);
        calls.extend(all_calls(random, turn + number, "left by a replay", &held));
    }
    calls
}

/// One pool that real replays left, some references before the last one or none.
fn on_pools_at_the_end(random: &mut Random, turn: usize) -> Vec<Trial> {
    let before = [1, 0, 12][turn % 3];
    let settings = settings_by_turn(random, turn / 3 + turn);
    let held = left_at(random, settings, MOST_REFERENCES - before);
    let mut calls = all_calls(random, turn, "left at the end", &held);
    let settings = Settings {
        frames: MOST_FRAMES,
        ..settings_by_turn(random, turn)
    };
    let k = MOST_REFERENCES - before;
    let held = made_up_of(random, settings, MOST_FRAMES, k);
    calls.extend(all_calls(random, turn + 1, "made up at the end", &held));
    calls
}

fn on_made_up_pools(random: &mut Random, turn: usize) -> Vec<Trial> {
    let mut calls = Vec::new();
    for number in 0..POOLS {
        let settings = settings_by_turn(random, turn + number);
        let held = made_up(random, settings);
        calls.extend(all_calls(random, turn + number, "made up", &held));
    }
    calls
}

/// All calls on a sound pool, its image in either order.
fn all_calls(random: &mut Random, turn: usize, sort: &str, held: &Held) -> Vec<Trial> {
    let image = held.encode(some_order(random));
    let mut calls = vec![Call::new(What::Read, &image)];
    calls.push(Call::new(What::Check, &image));
    calls.extend(writes(random, &image));
    calls.extend(replays(random, turn, held, &image));
    calls.extend(steps(random, turn, held, &image));
    calls.into_iter().map(|call| trial(sort, call)).collect()
}

/// Writes with exact room, a byte less, and more or none.
fn writes(random: &mut Random, image: &[u8]) -> Vec<Call> {
    let exact = image.len() as u32;
    let more = exact + random.between(1, 200);
    let other = random.one_of(&[exact + 1, more, MOST_BYTES, 0]);
    [exact, exact - 1, other]
        .into_iter()
        .map(|room| Call {
            room,
            order: some_order(random),
            ..Call::new(What::Write, image)
        })
        .collect()
}

fn some_length(random: &mut Random) -> u32 {
    match random.between(0, 19) {
        0 => 0,
        1 => 1,
        2 => MOST_ROWS / 4,
        3..=4 => random.between(100, 300),
        _ => random.between(2, 60),
    }
}

/// A tally with a count or more at the greatest.
fn great_tally(random: &mut Random) -> [u32; 6] {
    let mut tally = [0; 6].map(|_| random.between(0, MOST_COUNT));
    for _ in 0..random.between(1, 6) {
        tally[random.place(6)] = MOST_COUNT;
    }
    tally
}

/// A tally with one count too great, each by turns.
fn excessive_tally(random: &mut Random, turn: usize) -> [u32; 6] {
    let mut tally = great_tally(random);
    tally[turn % 6] = random.one_of(&[MOST_COUNT + 1, MOST_COUNT + 1, u32::MAX]);
    tally
}

/// Replays from an image, with and without lists, with exact room, a place less in one
/// of them, and more; and what is refused for the tally or the trace.
fn replays(random: &mut Random, turn: usize, held: &Held, image: &[u8]) -> Vec<Call> {
    let n = some_length(random);
    let trace = trace_for(random, held, n);
    let pool = held.pool().expect("a sound pool");
    let records = check(&trace).expect("a good trace").records;
    let [rows, room] = room_needed(&pool, &records);
    let exact = Call {
        trace,
        rows,
        room,
        ..Call::new(What::Replay, image)
    };
    let mut calls = Vec::new();
    if room <= MOST_PAGES {
        calls.push(exact.clone());
        calls.push(Call {
            rows: (rows + random.between(0, 9)).min(MOST_ROWS),
            room: (room + random.between(0, 9)).min(MOST_PAGES),
            tally: great_tally(random),
            ..exact.clone()
        });
    }
    if rows > 0 {
        calls.push(Call {
            rows: rows - random.one_of(&[1, 1, rows]),
            room: MOST_PAGES,
            ..exact.clone()
        });
    }
    if room > 0 {
        calls.push(Call {
            rows: MOST_ROWS,
            room: (room - random.one_of(&[1, 1, room])).min(MOST_PAGES),
            ..exact.clone()
        });
    }
    calls.push(Call {
        tally: excessive_tally(random, turn),
        ..exact.clone()
    });
    calls.push(counted(random, held, &exact));
    calls.extend(refused_replays(random, turn, &pool.settings, &exact));
    calls
}

/// The most records that a trace of a call has room for.
const LONGEST_TRACE: u32 = ((LONGEST - crate::replay::HEADER) / RECORD) as u32;

/// Replayed to counts; one time in eight a long trace.
fn counted(random: &mut Random, held: &Held, exact: &Call) -> Call {
    let mut call = Call {
        what: What::Counts,
        rows: 0,
        room: 0,
        tally: great_tally(random),
        ..exact.clone()
    };
    if random.chance(12) {
        let n = random.edged(1_500, LONGEST_TRACE);
        call.trace = trace_for(random, held, n);
    }
    call
}

/// Traces of other settings and damaged ones, with all room there is or none.
fn refused_replays(
    random: &mut Random,
    turn: usize,
    settings: &Settings,
    exact: &Call,
) -> Vec<Call> {
    let what = random.one_of(&[What::Replay, What::Counts]);
    let room = random.one_of(&[0, MOST_PAGES]);
    let with = |trace: Vec<u8>| Call {
        what,
        trace,
        rows: 4 * room,
        room,
        ..exact.clone()
    };
    let other = traces::other_trace(random, settings, turn as u32);
    let bad = damaged(random, &exact.trace);
    let both = damaged(random, &other);
    let mut calls = vec![with(other), with(bad)];
    if random.chance(30) {
        calls.push(with(both.clone()));
        calls.push(Call {
            tally: excessive_tally(random, turn),
            ..with(both)
        });
    }
    calls
}

/// A trace damaged in any way that does not make it too long for a call.
fn damaged(random: &mut Random, trace: &[u8]) -> Vec<u8> {
    let order = image::order_of_mark(trace).expect("a good trace");
    loop {
        let mut bytes = trace.to_vec();
        let way = random.place(100 * traces::WAYS);
        traces::damage(random, &mut bytes, order, way);
        if bytes.len() <= LONGEST {
            return bytes;
        }
    }
}

/// Steps of every kind on pages that are there and others; and refused ones.
fn steps(random: &mut Random, turn: usize, held: &Held, image: &[u8]) -> Vec<Call> {
    let [_, _, batch, ..] = held.settings;
    let absent = absent_page(random, held);
    let resident = match held.frames.is_empty() {
        true => absent,
        false => random.one_of(&held.frames).page,
    };
    let step = |page: u32, kind: u32, room: u32| Call {
        page,
        kind,
        room,
        ..Call::new(What::Step, image)
    };
    let more = (batch + random.between(1, 9)).min(MOST_PAGES);
    let some_page = random.one_of(&[absent, resident]);
    let bad = random.one_of(&[4, 5, 255, 256, 257, 0x8000, 65_535]);
    let mut calls = vec![
        step(absent, READ, batch),
        step(absent, [WRITE, PIN][turn % 2], more),
        step(resident, [READ, WRITE, PIN][turn % 3], batch),
        step(resident, UNPIN, batch),
        step(some_page, random.between(READ, UNPIN), more),
    ];
    calls.push(match turn % 6 {
        0 => step(some_page, bad, batch),
        1 => step(some_page, bad, batch - 1),
        2 => step(resident, READ, batch - 1),
        3 => step(some_page, random.between(READ, UNPIN), batch - 1),
        4 => Call {
            tally: excessive_tally(random, turn / 6),
            ..step(some_page, random.one_of(&[READ, bad]), batch - 1)
        },
        _ => Call {
            tally: excessive_tally(random, turn / 6),
            ..step(some_page, random.between(READ, UNPIN), batch)
        },
    });
    for call in &mut calls[..5] {
        if random.chance(30) {
            call.tally = great_tally(random);
        }
    }
    calls
}

// ---------------------------------------------------- one field at its edges

/// A small sound pool to put other numbers into. By turns the epochs are long, so that
/// all entries are 0; short, so that logs are full; or anything.
fn small_pool(random: &mut Random, turn: usize) -> Held {
    let epoch = match turn % 3 {
        0 => random.between(25_000, 50_000),
        1 => random.between(1, 5),
        _ => random.between(10, 1_000),
    };
    let f = random.between(1, 6);
    let settings = Settings {
        frames: f,
        epoch,
        ..settings_by_turn(random, turn)
    };
    let in_use = random.one_of(&[f, f, f.div_ceil(2)]);
    let k = random.between(in_use.max(20), 20_000);
    let mut held = made_up_of(random, settings, in_use, k);
    if turn % 2 == 0 {
        held.hand = 0;
        held.frames.iter_mut().for_each(|frame| frame.count = 0);
    }
    held
}

/// One of the calls on an image that may be unsound. It has room for all, but one time
/// in four for nothing, and its kind or its trace may be bad.
pub fn some_call(random: &mut Random, what: What, image: &[u8]) -> Call {
    let held = image::held(image).unwrap_or(Held::one_frame());
    let short = random.chance(25);
    let room = match what {
        _ if short => 0,
        What::Write => 1_000,
        _ => 64,
    };
    let call = Call::new(what, image);
    match what {
        What::Read | What::Check => call,
        What::Write => Call {
            room,
            order: some_order(random),
            ..call
        },
        What::Step => Call {
            room,
            page: match held.frames.first() {
                Some(frame) if random.chance(50) => frame.page,
                _ => random.any(),
            },
            kind: random.between(READ, UNPIN + 1),
            ..call
        },
        What::Replay | What::Counts => Call {
            rows: 6 * room,
            room,
            trace: some_trace(random, &held),
            ..call
        },
    }
}

/// Six records on a pool that may be unsound; one time in eight damaged.
fn some_trace(random: &mut Random, held: &Held) -> Vec<u8> {
    let trace = trace_for(random, held, 6);
    match random.between(0, 7) {
        0 => damaged(random, &trace),
        _ => trace,
    }
}

/// The reading of an image and another call on it, each by turns.
fn read_and_another(random: &mut Random, turn: usize, sort: &str, image: &[u8]) -> [Trial; 2] {
    let what = What::ALL[1 + turn % 5];
    [
        trial(sort, Call::new(What::Read, image)),
        trial(sort, some_call(random, what, image)),
    ]
}

fn header_edges(random: &mut Random, turn: usize) -> Vec<Trial> {
    let held = small_pool(random, turn);
    let order = some_order(random);
    let mut calls = Vec::new();
    for field in HEADER_FIELDS {
        let mut numbers = header_numbers(field.name, &held);
        numbers.extend(around_truth(random, &held.encode(order), order, &field, 0));
        for number in numbers {
            let mut image = held.encode(order);
            put(&mut image, order, field.at, field.width, number);
            let sort = format!("field {}", field.name);
            let turn = turn + calls.len() / 2;
            calls.extend(read_and_another(random, turn, &sort, &image));
        }
    }
    calls
}

/// The numbers next to that of a field, and some others that fit.
fn around_truth(
    random: &mut Random,
    image: &[u8],
    order: Order,
    field: &Field,
    start: usize,
) -> Vec<u32> {
    let at = start + field.at;
    let truth = order.number(&image[at..at + field.width]);
    let most = u32::MAX >> (32 - 8 * field.width);
    let some = random.any() & most;
    vec![
        truth.wrapping_add(1) & most,
        truth.wrapping_sub(1) & most,
        most,
        some,
    ]
}

/// The edges of a field of the header and what lies past them.
fn header_numbers(name: &str, held: &Held) -> Vec<u32> {
    let [_, f, ..] = held.settings;
    let in_use = held.frames.len() as u32;
    let newest = held.frames.iter().map(|frame| frame.last).max();
    let newest = newest.unwrap_or(0);
    let counts = held.frames.iter().map(|frame| u32::from(frame.count));
    let highest = counts.max().unwrap_or(0);
    match name {
        "mark" => vec![0x0403_0201, 0x0102_0403, 0x0102_0300, 0xFF02_0304, 0],
        "edition" => vec![0, 2, 3, 0x100, 0x101],
        "frames in use" => vec![0, 1, 128, 129, 1 << 30, (1 << 30) + in_use],
        "offset" => vec![0, 48, 63, 65, 64 << 24],
        "entry length" => vec![0, 67, 69, 72, 76],
        "file length" => vec![0, 64, 63, 68 * in_use],
        "rule" => vec![0, 1, 2, 3, 0x100],
        "frames" => vec![0, 1, in_use, in_use.saturating_sub(1), 128, 129, 0x101],
        "batch" | "sample" => vec![0, 1, 16, 17, 0x101],
        "cap" => vec![0, 1, 7, 8, highest, highest.saturating_sub(1), 0x101],
        "weight" => vec![0, 16, 17, 0x100],
        "epoch" => vec![0, 1, 50_000, 50_001, 1 << 16],
        "seed" => vec![0, u32::MAX],
        "k" => vec![0, newest, newest + 1, 49_999, 50_000, 50_001],
        "hand" => vec![0, f - 1, f, f + 1, 0x100],
        "sampler" => vec![0, u32::MAX],
        _ => vec![1, 0x80, 0x100],
    }
}

fn entry_edges(random: &mut Random, turn: usize) -> Vec<Trial> {
    let held = small_pool(random, turn);
    let order = some_order(random);
    let at = random.place(held.frames.len());
    let start = length_of(at);
    let mut calls = Vec::new();
    for field in ENTRY_FIELDS {
        let mut numbers = entry_numbers(random, field.name, &held, at);
        numbers.extend(around_truth(
            random,
            &held.encode(order),
            order,
            &field,
            start,
        ));
        for number in numbers {
            let mut image = held.encode(order);
            put(&mut image, order, start + field.at, field.width, number);
            let sort = format!("field {}", field.name);
            let turn = turn + calls.len() / 2;
            calls.extend(read_and_another(random, turn, &sort, &image));
        }
    }
    calls
}

/// The edges of a field of an entry and what lies past them.
fn entry_numbers(random: &mut Random, name: &str, held: &Held, at: usize) -> Vec<u32> {
    let frame = held.frames[at];
    let other = random.one_of(&held.frames);
    let [_, _, _, cap, _, _, epoch, _] = held.settings;
    match name {
        "page" => vec![0, other.page],
        "last step" => {
            let start = frame.access[0] * epoch;
            vec![
                0,
                other.last,
                held.k - 1,
                held.k,
                start,
                start.saturating_sub(1),
            ]
        }
        "pin count" => vec![0, 1, 254, 255, 256],
        "clock count" => vec![0, cap, cap + 1, 255, 256],
        "dirty" => vec![0, 1, 2, 0x100, 0x101],
        "accesses" => vec![0, 1, 7, 8, 9, 255, 256],
        "writes" => vec![0, 1, 3, 4, 5, 255, 256],
        "zero of an entry" => vec![1, 0x80, 0x100],
        _ => log_numbers(name, &frame, frame.last / epoch),
    }
}

/// The edges of a place of a log: 0, the last step's epoch, and the places next to it.
fn log_numbers(name: &str, frame: &HeldFrame, epoch: u32) -> Vec<u32> {
    let (log, place) = name.split_once(' ').expect("a log and a place");
    let place: usize = place.parse().expect("a place");
    let places: &[u32] = match log {
        "access" => &frame.access,
        _ => &frame.write,
    };
    let mut numbers = vec![0, 1, epoch, epoch + 1];
    let beside = [place.wrapping_sub(1), place + 1];
    for &beside in beside.iter().filter_map(|&beside| places.get(beside)) {
        numbers.extend([beside, beside.saturating_sub(1), beside.saturating_add(1)]);
    }
    numbers
}

/// Each field with what a reader says of numbers in it.
pub fn field_things() -> Vec<String> {
    let mut things = Vec::new();
    for field in HEADER_FIELDS.iter().chain(&ENTRY_FIELDS) {
        let refusals: &[u32] = match field.name {
            "mark" => &[2, 3],
            "edition" => &[3],
            "frames in use" | "offset" | "entry length" | "file length" => &[5],
            "seed" | "sampler" => &[0],
            name if name.starts_with("zero") => &[6],
            _ => &[0, 14],
        };
        let said = |refusal| format!("field {} gives {refusal}", field.name);
        things.extend(refusals.iter().map(said));
    }
    things
}

// ----------------------------------------------------------------- two faults

/// Of an image.
pub const REFUSALS: [u32; 6] = [1, 2, 3, 5, 6, 14];

/// Each lower refusal with each higher one.
fn pairs() -> impl Iterator<Item = (u32, u32)> {
    let pairs = REFUSALS.into_iter().flat_map(|a| REFUSALS.map(|b| (a, b)));
    pairs.filter(|(lower, higher)| lower < higher)
}

fn fault_pair((lower, higher): (u32, u32)) -> String {
    format!("fault {lower} before {higher}")
}

pub fn fault_pairs() -> impl Iterator<Item = String> {
    pairs().map(fault_pair)
}

/// Spoils an image of at least one entry so that a reader that looks for nothing else
/// refuses it by this number.
pub fn spoil(random: &mut Random, image: &mut Vec<u8>, order: Order, refusal: u32) {
    let entries = (image.len() - HEADER) / ENTRY;
    let entry = length_of(random.place(entries));
    let wrong = |image: &mut Vec<u8>, (at, width, number): (usize, usize, u32)| {
        put(image, order, at, width, number);
    };
    match refusal {
        1 => image.truncate(random.between(20, HEADER as u32 - 1) as usize),
        2 => image[random.place(4)] ^= 1 << random.between(3, 7),
        3 => wrong(image, (4, 2, random.one_of(&[0, 2, 0x100, 0xFFFF]))),
        5 => match random.between(0, 4) {
            0 => wrong(image, (12, 4, random.one_of(&[0, 48, 63, 65]))),
            1 => wrong(image, (16, 4, random.one_of(&[0, 67, 72, 76]))),
            2 => wrong(image, (20, 4, random.one_of(&[0, 64, u32::MAX]))),
            3 => image.push(0),
            _ => wrong(image, (8, 4, entries as u32 + 1)),
        },
        6 => {
            let zeros = [(6, 2), (44, 4), (54, 2), (60, 4), (entry + 18, 2)];
            let (at, width) = random.one_of(&zeros);
            wrong(image, (at, width, random.one_of(&[1, 0x80, 0x100])));
        }
        _ => {
            let numbers = [
                (24, 2, 3),
                (26, 2, 0),
                (36, 4, 0),
                (48, 4, MOST_REFERENCES + 1),
                (52, 2, 0xFFFF),
                (entry + 4, 4, u32::MAX),
                (entry + 8, 2, 256),
                (entry + 10, 2, 255),
                (entry + 12, 2, 2),
                (entry + 14, 2, 0x100),
                (entry + 16, 2, 5),
                (entry + 20, 4, u32::MAX),
            ];
            wrong(image, random.one_of(&numbers));
        }
    }
}

/// Each pair of faults several times; the lower number is given.
fn two_faults(random: &mut Random, turn: usize) -> Vec<Trial> {
    let mut calls = Vec::new();
    for (lower, higher) in pairs() {
        for number in 0..4 {
            let order = some_order(random);
            let mut image = small_pool(random, turn + number).encode(order);
            // The lower one last, since it may take bytes away.
            spoil(random, &mut image, order, higher);
            spoil(random, &mut image, order, lower);
            let sort = fault_pair((lower, higher));
            let turn = turn + calls.len() / 2;
            calls.extend(read_and_another(random, turn, &sort, &image));
        }
    }
    calls
}

// -------------------------------------------------------- lengths and numbers

/// A small image cut at every length; others cut anywhere, or at an entry's end.
fn torn(random: &mut Random, turn: usize) -> Vec<Trial> {
    let settings = settings_by_turn(random, turn);
    let frames = (turn % 3) as u32;
    let settings = Settings {
        frames: settings.frames.max(frames),
        ..settings
    };
    let order = [Order::HighFirst, Order::LowFirst][turn % 2];
    let small = made_up_of(random, settings, frames, 1_000).encode(order);
    let mut calls: Vec<Trial> = (0..=small.len())
        .map(|length| trial("torn", Call::new(What::Read, &small[..length])))
        .collect();
    for number in 0..12 {
        let settings = some_settings(random);
        let whole = made_up(random, settings).encode(some_order(random));
        let entry = length_of(random.place((whole.len() - HEADER) / ENTRY + 1));
        let length = match number % 4 {
            0 => random.place(HEADER),
            1 => entry,
            2 => whole.len() - 1,
            _ => random.place(whole.len()),
        };
        let mut image = whole[..length].to_vec();
        if number == 11 {
            image = [&whole[..], &vec![0; random.one_of(&[1, ENTRY])]].concat();
        }
        calls.extend(read_and_another(random, turn + number, "torn", &image));
    }
    calls
}

/// An image of so many frames, each sound where there may be so many.
fn image_of(random: &mut Random, in_use: u32, order: Order) -> Vec<u8> {
    let settings = Settings {
        frames: MOST_FRAMES,
        ..some_settings(random)
    };
    made_up_of(random, settings, in_use, 40_000).encode(order)
}

/// The most frames that an image of a call has room for.
const MANY: u32 = ((LONGEST - HEADER) / ENTRY) as u32;

fn too_many_frames(random: &mut Random, turn: usize) -> Vec<Trial> {
    let many = [130, 255, 256, 257, MANY][turn % 5];
    let mut calls = Vec::new();
    for in_use in [MOST_FRAMES - 1, MOST_FRAMES, MOST_FRAMES + 1, many] {
        let order = some_order(random);
        let image = image_of(random, in_use, order);
        let sort = match in_use > MOST_FRAMES {
            true => "more than 128 frames",
            false => "127 or 128 frames",
        };
        calls.extend(read_and_another(random, turn, sort, &image));
        let past = length_of(random.between(MOST_FRAMES.min(in_use - 1), in_use - 1) as usize);
        let any = length_of(random.place(in_use as usize));
        let spoilt = [
            ("a zero field past 128 frames", (past + 18, 2, 1)),
            ("a zero field of many frames", (any + 18, 2, 0x100)),
            ("dirty 2 past 128 frames", (past + 12, 2, 2)),
            ("a wrong length of many frames", (20, 4, 64)),
        ];
        for (sort, (at, width, number)) in spoilt {
            let mut image = image.clone();
            put(&mut image, order, at, width, number);
            let sort = match in_use > MOST_FRAMES {
                true => sort,
                false => "127 or 128 frames",
            };
            calls.push(trial(sort, Call::new(What::Read, &image)));
        }
    }
    calls.extend(overflowing(random, turn));
    calls
}

/// Counts of which the length is beyond 4 bytes, though what is left in 4 bytes of it
/// is the length stated, or the length there is, too.
fn overflowing(random: &mut Random, turn: usize) -> Vec<Trial> {
    let mut calls = Vec::new();
    for (number, count) in [u32::MAX, 1 << 30, 1 << 31, 3 << 30, (1 << 30) + 1, 1 << 26]
        .into_iter()
        .enumerate()
    {
        let order = some_order(random);
        let mut image = small_pool(random, turn).encode(order);
        image.truncate(length_of((count & 1) as usize));
        let kept = (HEADER as u32).wrapping_add(count.wrapping_mul(ENTRY as u32));
        put(&mut image, order, 8, 4, count);
        put(&mut image, order, 20, 4, kept);
        let turn = turn + number;
        calls.extend(read_and_another(
            random,
            turn,
            "an overflowing count",
            &image,
        ));
    }
    calls
}

/// Files that are none of the sort asked for, and none at all.
fn other_files(random: &mut Random, turn: usize) -> Vec<Trial> {
    let held = small_pool(random, turn);
    let image = held.encode(some_order(random));
    let trace = trace_for(random, &held, 20);
    let none = traces::encode(&PLAIN, some_order(random), &[]);
    // As long as an image of some frames, and as a trace of some records.
    let alike = trace_for(random, &held, (ENTRY as u32 * 2 + 16) / 8);
    let mut calls = Vec::new();
    for (number, bytes) in [&trace, &none, &alike].into_iter().enumerate() {
        let turn = turn + number;
        calls.extend(read_and_another(random, turn, "a trace as an image", bytes));
    }
    for what in [What::Replay, What::Counts] {
        let on = |trace: &[u8]| Call {
            trace: trace.to_vec(),
            ..Call::new(what, &image)
        };
        calls.push(trial("an image as a trace", on(&image)));
        calls.push(trial("an empty trace file", on(&[])));
    }
    for what in What::ALL {
        let call = Call {
            trace: trace.clone(),
            ..Call::new(what, &[])
        };
        calls.push(trial("an empty image", call));
    }
    let noise: Vec<u8> = (0..random.between(0, 400))
        .map(|_| random.any() as u8)
        .collect();
    calls.extend(read_and_another(random, turn, "noise", &noise));
    calls.extend(each_page_found(random, turn));
    calls
}

/// Every page of a pool referred to once, and some that are not there.
fn each_page_found(random: &mut Random, turn: usize) -> Vec<Trial> {
    let mut calls = Vec::new();
    for (number, in_use) in [MOST_FRAMES, random.between(0, MOST_FRAMES - 1)]
        .into_iter()
        .enumerate()
    {
        let settings = Settings {
            frames: MOST_FRAMES,
            ..settings_by_turn(random, turn + number)
        };
        let held = made_up_of(random, settings, in_use, 30_000);
        let mut records: Vec<(u32, u32)> = held
            .frames
            .iter()
            .map(|frame| (frame.page, random.between(READ, UNPIN)))
            .collect();
        records.extend((0..8).map(|_| (absent_page(random, &held), READ)));
        let call = Call {
            trace: traces::encode(&settings, some_order(random), &records),
            rows: 4 * records.len() as u32,
            room: 2 * MOST_FRAMES + 8,
            ..Call::new(What::Replay, &held.encode(some_order(random)))
        };
        calls.push(trial("each page referred to", call));
    }
    calls
}

/// Pools of which one to three numbers are near the truth.
fn near_the_truth(random: &mut Random, turn: usize) -> Vec<Trial> {
    let mut calls = Vec::new();
    for number in 0..60 {
        let order = some_order(random);
        let held = small_pool(random, turn + number);
        let mut image = held.encode(order);
        for _ in 0..random.one_of(&[1, 1, 1, 2, 3]) {
            put_near(random, &mut image, order);
        }
        let turn = turn + number;
        calls.extend(read_and_another(random, turn, "near the truth", &image));
    }
    calls
}

/// Puts into a field of an entry or of the pool a number near its own or another's.
fn put_near(random: &mut Random, image: &mut [u8], order: Order) {
    let entries = (image.len() - HEADER) / ENTRY;
    let field = random.one_of(&ENTRY_FIELDS);
    let [at, other] = [0; 2].map(|_| length_of(random.place(entries)) + field.at);
    let (at, other, width) = match random.between(0, 7) {
        0 => (48, 48, 4),
        1 => (52, 52, 2),
        _ => (at, other, field.width),
    };
    let from = random.one_of(&[at, at, other]);
    let number = order.number(&image[from..from + width]);
    let near = number.wrapping_add(random.one_of(&[0, 1, 1, 2, u32::MAX, u32::MAX]));
    let most = u32::MAX >> (32 - 8 * width);
    put(image, order, at, width, near & most);
}
