//! The small set of calls that is stored, short because programs answer it under
//! emulation. It has each call, both orders, and each refusal.

use crate::batches::{some_call, RULES};
use crate::calls::{Call, What, MOST_COUNT};
use crate::image::{settings_of, Held, HEADER};
use crate::pools::trace_for;
use crate::replay::{go_on, Order, Rule, Settings};
use crate::traces::{self, put, Random, PIN, READ, UNPIN, WRITE};

pub fn stored() -> Vec<Call> {
    let random = &mut Random::new(2_024);
    let settings = Settings {
        rule: Rule::Clock,
        frames: 3,
        batch: 2,
        cap: 2,
        sample: 3,
        weight: 2,
        epoch: 4,
        seed: 9,
    };
    let pages = [
        (7, WRITE),
        (8, READ),
        (9, WRITE),
        (7, READ),
        (8, PIN),
        (5, WRITE),
    ];
    let held = replayed(settings, &pages);
    let mut calls = Vec::new();
    for order in [Order::HighFirst, Order::LowFirst] {
        let image = held.encode(order);
        calls.extend(stored_on(&held, &image, order));
        calls.extend(stored_refused(random, &held, &image, order));
    }
    for rule in RULES {
        calls.extend(stored_days(Settings { rule, ..settings }));
    }
    calls
}

fn replayed(settings: Settings, records: &[(u32, u32)]) -> Held {
    let mut state = None;
    let trace = traces::encode(&settings, Order::HighFirst, records);
    let replayed = go_on(&mut state, &trace).expect("a good trace");
    Held::of(replayed.pool)
}

/// What is done with a sound pool.
fn stored_on(held: &Held, image: &[u8], order: Order) -> Vec<Call> {
    let settings = settings_of(&held.settings).expect("settings in range");
    let records = [
        (5, READ),
        (6, WRITE),
        (4, WRITE),
        (8, UNPIN),
        (8, UNPIN),
        (3, READ),
        (2, READ),
    ];
    let trace = traces::encode(&settings, Order::LowFirst, &records);
    let replay = Call {
        trace,
        rows: 28,
        room: 2 + 2,
        tally: [1, 2, 3, 4, 5, MOST_COUNT],
        ..Call::new(What::Replay, image)
    };
    let step = |page: u32, kind: u32, room: u32| Call {
        page,
        kind,
        room,
        ..Call::new(What::Step, image)
    };
    let write = |room: usize| Call {
        room: room as u32,
        order,
        ..Call::new(What::Write, image)
    };
    let mut excessive = replay.clone();
    excessive.tally[4] += MOST_COUNT;
    let mut other = replay.clone();
    other.trace = traces::encode(
        &Settings {
            seed: 8,
            ..settings
        },
        order,
        &records,
    );
    let mut bad = replay.clone();
    bad.trace.truncate(100);
    vec![
        Call::new(What::Read, image),
        Call::new(What::Check, image),
        write(image.len()),
        write(image.len() - 1),
        write(image.len() + 3),
        step(5, READ, 2),
        step(6, WRITE, 3),
        step(8, UNPIN, 2),
        step(7, UNPIN, 2),
        step(6, 4, 1),
        step(6, READ, 1),
        Call {
            rows: 27,
            ..replay.clone()
        },
        Call {
            room: 3,
            ..replay.clone()
        },
        Call {
            what: What::Counts,
            ..replay.clone()
        },
        replay,
        excessive,
        other,
        bad,
    ]
}

/// What is refused for the image.
fn stored_refused(random: &mut Random, held: &Held, image: &[u8], order: Order) -> Vec<Call> {
    let with = |numbers: &[(usize, usize, u32)]| {
        let mut image = image.to_vec();
        for &(at, width, number) in numbers {
            put(&mut image, order, at, width, number);
        }
        image
    };
    let trace = trace_for(random, held, 3);
    let images = [
        Vec::new(),
        image[..63].to_vec(),
        with(&[(0, 4, 0x0102_0403)]),
        with(&[(4, 2, 2)]),
        image[..image.len() - 1].to_vec(),
        with(&[(8, 4, u32::MAX), (20, 4, 0xFFFF_FFFC)]),
        with(&[(44, 4, 1), (26, 2, 0)]),
        with(&[(HEADER + 18, 2, 0x100)]),
        with(&[(HEADER + 12, 2, 2)]),
        trace,
    ];
    let unsound = [
        with(&[(36, 4, 0)]),
        with(&[(52, 2, 3)]),
        with(&[(HEADER, 4, held.frames[1].page)]),
    ];
    let mut calls = Vec::new();
    for (turn, bytes) in images.iter().enumerate() {
        calls.push(Call::new(What::Read, bytes));
        calls.push(some_call(random, What::ALL[1 + turn % 5], bytes));
    }
    for bytes in &unsound {
        calls.extend(What::ALL.map(|what| some_call(random, what, bytes)));
    }
    calls.push(Call {
        trace: image.to_vec(),
        ..Call::new(What::Counts, image)
    });
    calls
}

/// A day that goes on from what another left, under each rule with the same records.
fn stored_days(settings: Settings) -> [Call; 2] {
    let day = |first: u32| {
        let kinds = [WRITE, READ, WRITE, WRITE, PIN, READ];
        let records = (0..36).map(|i: u32| (first + i * i % 7, kinds[(i % 6) as usize]));
        records.collect::<Vec<_>>()
    };
    let settings = Settings {
        frames: 5,
        ..settings
    };
    let held = replayed(settings, &day(0));
    let call = Call {
        trace: traces::encode(&settings, Order::HighFirst, &day(4)),
        rows: 4 * 36,
        room: 18 + 5,
        ..Call::new(What::Replay, &held.encode(Order::LowFirst))
    };
    let counts = Call {
        what: What::Counts,
        rows: 0,
        room: 0,
        ..call.clone()
    };
    [call, counts]
}
