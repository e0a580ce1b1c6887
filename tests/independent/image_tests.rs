//! The image and the calls on it, by numbers worked by hand: an image field by field,
//! each refusal, each clause of soundness on both sides, and what each call answers.

use crate::batches::batch;
use crate::calls::*;
use crate::compare_calls::renamed_alike;
use crate::edges::bytes_of;
use crate::image::{self, *};
use crate::pools::{left_at, left_by_a_replay, made_up};
use crate::renaming::{rename_answer, some_renamed_call, Changed, Renaming};
use crate::replay::{check, go_on, Order, Rule};
use crate::seen_calls::Seen;
use crate::stored_calls::stored;
use crate::tests::{run, settings, BOTH, P, R, U, W};
use crate::traces::{encode, put, some_settings, Random};
use std::collections::{BTreeMap, BTreeSet};

// ------------------------------------------------------------ a worked image

/// The fields of the header and of two entries, high byte first.
const FIELDS: &str = "\
01020304 0001 0000 00000002 00000040 00000044 000000C8
0002 0080 0010 0007 000F 000E 00000064 12345678 00000000
00001234 007F 0000 89ABCDEF 00000000
9ABCDEF0 00001233 00FF 0007 0001 0008 0004 0000
0000002E 0000002D 0000002C 0000002B 0000002A 00000029 00000028 00000027
0000002E 0000001E 00000002 00000000
00000000 00000102 0000 0000 0000 0001 0000 0000
00000001 00000000 00000000 00000000 00000000 00000000 00000000 00000000
00000000 00000000 00000000 00000000";

/// k is 4,660, and the last steps are 4,659 and 258: of the epochs 46 and 2.
const WORKED: &str = "\
settings 2 128 16 7 15 14 100 305419896
pool 4660 127 2309737967
frames 2
2596069104 1 255 7 4659 8 4 : 46 45 44 43 42 41 40 39 : 46 30 2 0
0 0 0 0 258 1 0 : 1 0 0 0 0 0 0 0 : 0 0 0 0
";

fn worked(order: Order) -> Vec<u8> {
    let mut fields: Vec<Vec<u8>> = FIELDS.split_whitespace().map(bytes_of).collect();
    if order == Order::LowFirst {
        fields.iter_mut().for_each(|field| field.reverse());
    }
    fields.concat()
}

#[test]
fn worked_image_in_either_order() {
    assert_eq!(worked(Order::LowFirst)[..8], [4, 3, 2, 1, 1, 0, 0, 0]);
    for order in BOTH {
        let bytes = worked(order);
        let held = read(&bytes).unwrap();
        assert_eq!(held.to_string(), WORKED);
        assert_eq!(image::held(&bytes), Ok(held.clone()));
        for other in BOTH {
            assert_eq!(write(&held, other, 200), Ok(worked(other)));
            assert_eq!(write(&held, other, 199), Err(13));
        }
        assert_eq!(Held::of(&held.pool().unwrap()), held);
    }
}

#[test]
fn fields_follow_each_other() {
    for (fields, length) in [(&HEADER_FIELDS[..], HEADER), (&ENTRY_FIELDS[..], ENTRY)] {
        let end = fields.iter().fold(0, |at, field| {
            assert_eq!(field.at, at, "{}", field.name);
            at + field.width
        });
        assert_eq!(end, length);
    }
    assert_eq!((HEADER, ENTRY), (64, 68));
}

/// The pool that the paper's example leaves.
fn example_pool() -> Held {
    let records = [(7, R), (8, W), (7, R), (9, R), (8, R)];
    Held::of(&run(settings(Rule::Lru, 2), &records).2)
}

const EXAMPLE_DUMP: &str = "\
settings 0 2 1 1 1 0 1 0
pool 5 0 0
frames 2
8 0 0 1 4 1 0 : 4 0 0 0 0 0 0 0 : 0 0 0 0
9 0 0 1 3 1 0 : 3 0 0 0 0 0 0 0 : 0 0 0 0
";

// -------------------------------------------------------------- the refusals

/// The refusal of the worked image with these numbers in fields, 0 for none.
fn refusal_with(order: Order, fields: &[(usize, usize, u32)]) -> u32 {
    let mut bytes = worked(order);
    for &(at, width, number) in fields {
        put(&mut bytes, order, at, width, number);
    }
    read(&bytes).err().unwrap_or(0)
}

#[test]
fn refusals_1_to_5() {
    for order in BOTH {
        let bytes = worked(order);
        for length in 0..200 {
            let refusal = if length < 64 { 1 } else { 5 };
            assert_eq!(read(&bytes[..length]), Err(refusal));
        }
        assert_eq!(read(&[&bytes[..], &[0]].concat()), Err(5));
        assert_eq!(refusal_with(order, &[(0, 4, 0x0102_0403)]), 2);
        // The other mark makes another edition of 1.
        assert_eq!(refusal_with(order, &[(0, 4, 0x0403_0201)]), 3);
        for edition in [0, 2, 256] {
            assert_eq!(refusal_with(order, &[(4, 2, edition)]), 3);
        }
        let lengths = [
            (8, 1),
            (8, 3),
            (8, u32::MAX),
            (12, 48),
            (12, 65),
            (16, 67),
            (16, 72),
            (20, 199),
            (20, 0),
        ];
        for (at, number) in lengths {
            assert_eq!(refusal_with(order, &[(at, 4, number)]), 5);
        }
    }
}

#[test]
fn lengths_do_not_wrap() {
    // 64 + 68 x 1,073,741,824 is 64 in 4 bytes, and 64 + 68 x 4,294,967,295 is that less 4.
    for order in BOTH {
        let mut bytes = worked(order)[..64].to_vec();
        for (count, length) in [(1 << 30, 64), (u32::MAX, 0xFFFF_FFFC), (3 << 30, 64)] {
            put(&mut bytes, order, 8, 4, count);
            put(&mut bytes, order, 20, 4, length);
            assert_eq!(read(&bytes), Err(5));
        }
        put(&mut bytes, order, 8, 4, 0);
        put(&mut bytes, order, 20, 4, 64);
        assert_eq!(read(&bytes).map(|held| held.frames.len()), Ok(0));
    }
}

#[test]
fn refusal_6() {
    for order in BOTH {
        let zeros = [6, 7, 44, 45, 46, 47, 54, 55, 60, 61, 62, 63];
        for at in zeros.into_iter().chain([82, 83, 150, 151]) {
            assert_eq!(refusal_with(order, &[(at, 1, 1)]), 6);
        }
    }
}

#[test]
fn of_several_faults_the_first_check() {
    // Each for a check before those above.
    let fields = [(24, 2, 3), (82, 2, 1), (20, 4, 0), (4, 2, 2), (0, 4, 0)];
    for order in BOTH {
        let mut bytes = worked(order);
        for ((at, width, number), refusal) in fields.into_iter().zip([14, 6, 5, 3, 2]) {
            put(&mut bytes, order, at, width, number);
            assert_eq!(read(&bytes), Err(refusal));
        }
        assert_eq!(read(&bytes[..63]), Err(1));
    }
}

/// An image of so many frames, with pages and last steps from 0 up, all entries 0.
fn of_frames(count: u32, order: Order) -> Vec<u8> {
    let frames = (0..count)
        .map(|at| HeldFrame {
            page: at,
            last: at,
            accesses: 1,
            ..HeldFrame::default()
        })
        .collect();
    let held = Held {
        settings: [0, 128, 1, 1, 1, 0, 50_000, 0],
        k: count,
        hand: 0,
        sampler: 0,
        frames,
    };
    held.encode(order)
}

#[test]
fn frames_in_use() {
    for order in BOTH {
        assert!(read(&of_frames(128, order)).is_ok());
        for count in [129, 130, 881] {
            let mut bytes = of_frames(count, order);
            assert_eq!((read(&bytes), held(&bytes)), (Err(14), Err(14)));
            // A zero field behind the frames that may be comes before that.
            put(&mut bytes, order, length_of(count as usize - 1) + 18, 2, 1);
            assert_eq!((read(&bytes), held(&bytes)), (Err(6), Err(6)));
        }
    }
}

#[test]
fn held_but_not_sound() {
    let order = Order::HighFirst;
    let with = |at: usize, width: usize, number: u32| {
        let mut bytes = worked(order);
        put(&mut bytes, order, at, width, number);
        [held(&bytes).err(), read(&bytes).err()]
    };
    // Hand, k, settings and what fits in a byte.
    let fits = [
        (52, 2, 65_535),
        (48, 4, u32::MAX),
        (24, 2, 65_535),
        (26, 2, 0),
        (36, 4, 0),
        (36, 4, u32::MAX),
        (74, 2, 255),
        (78, 2, 255),
        (80, 2, 255),
        (84, 4, u32::MAX),
    ];
    for (at, width, number) in fits {
        assert_eq!(with(at, width, number), [None, Some(14)], "{at}");
    }
    // Dirty, pins, count and the numbers of entries.
    for (at, number) in [
        (76, 2),
        (76, 256),
        (72, 256),
        (74, 256),
        (78, 256),
        (80, 256),
    ] {
        assert_eq!(with(at, 2, number), [Some(14); 2], "{at}");
    }
    assert_eq!(with(72, 2, 254), [None; 2]);
}

// ----------------------------------------------------------------- soundness

type Change = fn(&mut Held);

/// Two frames, their last steps of the epochs 3 and 2.
fn two_frames() -> Held {
    let mut first = HeldFrame {
        page: 5,
        last: 35,
        pins: 1,
        count: 2,
        dirty: true,
        accesses: 3,
        writes: 2,
        ..HeldFrame::default()
    };
    first.access[..3].copy_from_slice(&[3, 2, 0]);
    first.write[..2].copy_from_slice(&[3, 1]);
    let mut second = HeldFrame {
        page: 6,
        last: 29,
        accesses: 1,
        ..HeldFrame::default()
    };
    second.access[0] = 2;
    Held {
        settings: [1, 2, 1, 2, 1, 0, 10, 0],
        k: 36,
        hand: 1,
        sampler: 0,
        frames: vec![first, second],
    }
}

#[test]
fn clauses_kept_at_their_edge() {
    let kept: [Change; 14] = [
        |_| {},
        |held| held.settings[0] = 2,
        |held| held.settings[1] = 128,
        |held| held.k = 50_000,
        |held| held.hand = 0,
        |held| held.sampler = u32::MAX,
        |held| held.frames[0].pins = 255,
        |held| held.frames[1].count = 2,
        |held| held.frames[0].dirty = false,
        |held| held.frames[1].page = 0,
        |held| held.frames[1].last = 34,
        |held| held.frames[1].last = 20,
        |held| held.frames[0].access[2] = 1,
        |held| held.frames.clear(),
    ];
    for (number, change) in kept.into_iter().enumerate() {
        let mut held = two_frames();
        change(&mut held);
        assert_eq!(held.broken(), BTreeSet::new(), "{number}");
        assert_eq!(Held::of(&held.pool().unwrap()), held);
    }
}

#[test]
fn clauses_broken_one_by_one() {
    use Clause::*;
    let broken: [(Clause, Change); 33] = [
        (SettingsInRange, |held| held.settings[0] = 3),
        (SettingsInRange, |held| held.settings[1] = 129),
        (SettingsInRange, |held| held.settings[2] = 0),
        (SettingsInRange, |held| held.settings[2] = 17),
        (SettingsInRange, |held| held.settings[3] = 8),
        (SettingsInRange, |held| held.settings[4] = 0),
        (SettingsInRange, |held| held.settings[4] = 17),
        (SettingsInRange, |held| held.settings[5] = 17),
        (SettingsInRange, |held| held.settings[6] = 0),
        (InUseAtMostF, |held| (held.settings[1], held.hand) = (1, 0)),
        (PagesDistinct, |held| held.frames[1].page = 5),
        (HandBelowF, |held| held.hand = 2),
        (KAtMost, |held| held.k = 50_001),
        (CountAtMostCap, |held| held.frames[0].count = 3),
        (CountAtMostCap, |held| held.settings[3] = 1),
        (LastBelowK, |held| held.k = 35),
        (LastBelowK, |held| held.frames[1].last = 36),
        (LastsDistinct, |held| held.frames[1].last = 35),
        (AccessLength, |held| {
            held.frames[0].last = 30;
            held.settings[6] = 3;
            held.frames[0].access = [9, 8, 7, 6, 5, 4, 3, 2];
            held.frames[0].accesses = 9;
        }),
        (AccessFalling, |held| held.frames[0].access[1] = 3),
        (AccessFalling, |held| held.frames[0].access[2] = 2),
        (AccessFalling, |held| held.frames[0].accesses = 4),
        (AccessEpoch, |held| held.frames[0].access[0] = 4),
        (AccessEpoch, |held| held.frames[1].last = 19),
        (AccessRest, |held| held.frames[0].access[7] = 1),
        (AccessRest, |held| held.frames[0].accesses = 1),
        (AccessEmpty, |held| {
            held.frames[1].accesses = 0;
            held.frames[1].access[0] = 0;
        }),
        (WriteLength, |held| {
            held.frames[0].write = [3, 2, 1, 0];
            held.frames[0].writes = 5;
        }),
        (WriteFalling, |held| held.frames[0].write[1] = 3),
        (WriteEpoch, |held| held.frames[0].write[0] = 4),
        (WriteRest, |held| held.frames[1].write[0] = 1),
        (WriteRest, |held| held.frames[0].writes = 1),
        (DirtyUnwritten, |held| held.frames[1].dirty = true),
    ];
    for (number, (clause, change)) in broken.into_iter().enumerate() {
        let mut held = two_frames();
        change(&mut held);
        assert_eq!(held.broken(), BTreeSet::from([clause]), "{number}");
        assert_eq!((held.is_sound(), held.pool()), (false, None));
        for order in BOTH {
            assert_eq!(image::held(&held.encode(order)), Ok(held.clone()));
            assert_eq!(read(&held.encode(order)), Err(14));
            assert_eq!(write(&held, order, 1_000), Err(14));
            assert_eq!(write(&held, order, 0), Err(14));
        }
    }
    let all: BTreeSet<Clause> = broken.iter().map(|(clause, _)| *clause).collect();
    assert_eq!(all, Clause::ALL.into_iter().collect());
}

// ----------------------------------------------------------------- the calls

fn answered(call: &Call) -> String {
    answer(call).to_string()
}

fn on_example(what: What) -> Call {
    Call::new(what, &example_pool().encode(Order::LowFirst))
}

#[test]
fn calls_as_bytes() {
    let call = Call {
        what: What::Counts,
        image: vec![1, 2, 3],
        trace: vec![4],
        rows: 5,
        room: 6,
        tally: [7, 8, 9, 10, 11, u32::MAX],
        page: 13,
        kind: 14,
        order: Order::LowFirst,
    };
    let numbers = [5, 3, 1, 5, 6, 7, 8, 9, 10, 11, u32::MAX, 13, 14, 1, 0, 0];
    let mut bytes: Vec<u8> = numbers.iter().flat_map(|n| n.to_be_bytes()).collect();
    bytes.extend([1, 2, 3, 4]);
    assert_eq!(call.to_bytes(), bytes);
    let twice = [&bytes[..], &bytes, &[0; 9]].concat();
    assert_eq!(calls_of(&twice), [call.clone(), call]);
}

#[test]
fn answers_to_reading_and_writing() {
    assert_eq!(
        answered(&on_example(What::Read)),
        format!("read 0\n{EXAMPLE_DUMP}")
    );
    let one_frame = "settings 0 1 1 1 1 0 1 0\npool 0 0 0\nframes 0\n";
    let empty = Call::new(What::Read, &[]);
    assert_eq!(answered(&empty), format!("read 1\n{one_frame}"));
    assert_eq!(answered(&Call::new(What::Counts, &[])), "held 1\n");
    assert_eq!(answered(&on_example(What::Check)), "check 0\n");
    let writing = |room: u32| Call {
        room,
        ..on_example(What::Write)
    };
    assert_eq!(answered(&writing(2)), "write 13\nbytes 7 7\n");
    assert_eq!(answered(&writing(0)), "write 13\nbytes\n");
    let done = answer(&writing(202));
    let mut bytes: Vec<u32> = example_pool()
        .encode(Order::HighFirst)
        .into_iter()
        .map(u32::from)
        .collect();
    assert_eq!(bytes[..12], [1, 2, 3, 4, 0, 1, 0, 0, 0, 0, 0, 2]);
    bytes.extend([7, 7]);
    assert_eq!((done.refusal, done.bytes), (0, Some(bytes)));
    let unsound = {
        let mut held = example_pool();
        held.hand = 2;
        held.encode(Order::HighFirst)
    };
    let call = Call {
        room: 1,
        ..Call::new(What::Write, &unsound)
    };
    assert_eq!(answered(&call), "write 14\nbytes 7\n");
    assert_eq!(answered(&Call::new(What::Check, &unsound)), "check 14\n");
}

#[test]
fn answers_to_steps() {
    let step = |page: u32, kind: u32, room: u32| Call {
        page,
        kind,
        room,
        tally: [1, 2, 3, 4, 5, MOST_COUNT],
        ..on_example(What::Step)
    };
    let text = "step 0\nrow 2 1 9 0\nlist 7\nsettings 0 2 1 1 1 0 1 0\npool 6 0 0\nframes 2\n\
                8 0 0 1 4 1 0 : 4 0 0 0 0 0 0 0 : 0 0 0 0\n\
                6 1 0 1 5 1 1 : 5 0 0 0 0 0 0 0 : 5 0 0 0\ntally 1 3 4 4 5 4000000000\n";
    assert_eq!(answered(&step(6, W, 1)), text);
    // A refused record is no refused call.
    let refused = format!("{EXAMPLE_DUMP}tally 1 2 3 4 5 4000000001\n");
    let text = format!("step 0\nrow 111 0 0 0\nlist 7 7\n{refused}");
    assert_eq!(answered(&step(8, U, 2)), text);
    // 14 comes first, then a bad kind, then the room.
    let given = format!("{EXAMPLE_DUMP}tally 1 2 3 4 5 4000000000\n");
    let refused = |refusal: u32, list: &str| {
        format!(
            "step {refusal}\nrow {} 0 0 0\n{list}\n{given}",
            100 + refusal
        )
    };
    assert_eq!(answered(&step(8, P, 0)), refused(13, "list"));
    assert_eq!(answered(&step(8, 4, 0)), refused(6, "list"));
    assert_eq!(answered(&step(8, 65_535, 1)), refused(6, "list 7"));
    for count in 0..6 {
        let mut call = step(8, 4, 0);
        call.tally[count] = MOST_COUNT + 1;
        assert_eq!(answer(&call).refusal, 14);
    }
}

#[test]
fn answers_to_replays() {
    let records = [(6, W), (5, R)];
    let trace = encode(&settings(Rule::Lru, 2), Order::HighFirst, &records);
    let replay = Call {
        trace,
        rows: 9,
        room: 2,
        ..on_example(What::Replay)
    };
    let left = "settings 0 2 1 1 1 0 1 0\npool 7 0 0\nframes 2\n\
                5 0 0 1 6 1 0 : 6 0 0 0 0 0 0 0 : 0 0 0 0\n\
                6 1 0 1 5 1 1 : 5 0 0 0 0 0 0 0 : 5 0 0 0\ntally 0 2 2 0 0 0\n";
    let text = format!("replay 0\nrows 2 1 9 0 2 0 8 0 7\nlist 7 7\n{left}");
    assert_eq!(answered(&replay), text);
    let counts = Call {
        what: What::Counts,
        ..replay.clone()
    };
    assert_eq!(answered(&counts), format!("counts 0\n{left}"));
    let refusal = |call: &Call| {
        let answer = answer(call);
        assert_eq!(answer.pool, Some(example_pool()));
        assert_eq!(answer.tally, Some(call.tally));
        assert_eq!(answer.rows, Some(vec![7; call.rows as usize]));
        assert_eq!(answer.list, Some(vec![7; call.room as usize]));
        answer.refusal
    };
    let mut call = Call {
        rows: 8,
        room: 1,
        ..replay
    };
    assert_eq!(answer(&call).refusal, 0);
    call.rows = 7;
    assert_eq!(refusal(&call), 13);
    (call.rows, call.room) = (8, 0);
    assert_eq!(refusal(&call), 13);
    put(&mut call.trace, Order::HighFirst, 40, 4, 1);
    assert_eq!(refusal(&call), 15);
    put(&mut call.trace, Order::HighFirst, 26, 2, 0);
    assert_eq!(refusal(&call), 8);
    call.trace.clear();
    assert_eq!(refusal(&call), 1);
    call.tally[3] = MOST_COUNT + 1;
    assert_eq!(refusal(&call), 14);
}

/// A dirty frame at the start may be written, so that it needs a place, too.
#[test]
fn room_for_dirty_frames() {
    let dirty = Held::of(&run(settings(Rule::Lru, 1), &[(1, W)]).2);
    let trace = encode(&settings(Rule::Lru, 1), Order::LowFirst, &[(2, R)]);
    let replay = |room: u32| Call {
        trace: trace.clone(),
        rows: 4,
        room,
        ..Call::new(What::Replay, &dirty.encode(Order::HighFirst))
    };
    assert_eq!(answer(&replay(0)).refusal, 13);
    let done = answer(&replay(1));
    assert_eq!((done.refusal, done.rows), (0, Some(vec![3, 0, 1, 1])));
    assert_eq!(done.list, Some(vec![1]));
}

// ------------------------------------------------------------- made and saved

#[test]
fn made_pools_are_sound() {
    let mut in_use = BTreeSet::new();
    for seed in 0..600 {
        let random = &mut Random::new(seed);
        let settings = some_settings(random);
        let held = match seed % 2 {
            0 => made_up(random, settings),
            _ => left_by_a_replay(random, settings),
        };
        assert_eq!(held.broken(), BTreeSet::new(), "seed {seed}");
        in_use.insert(held.frames.len());
    }
    assert!(in_use.contains(&0) && in_use.contains(&128));
    let random = &mut Random::new(1);
    for k in [49_999, 50_000] {
        let settings = some_settings(random);
        let held = left_at(random, settings, k);
        assert_eq!((held.k, held.is_sound()), (k, true));
    }
}

#[test]
fn replays_go_on_from_a_saved_pool() {
    for seed in 0..60 {
        let random = &mut Random::new(seed);
        let settings = some_settings(random);
        let mut state = None;
        for (day, order) in (0..3).zip(BOTH.into_iter().cycle()) {
            let held = state.as_ref().map_or_else(
                || made_up(random, settings),
                |(pool, _): &(crate::replay::Pool, _)| Held::of(pool),
            );
            let trace = crate::pools::trace_for(random, &held, 60);
            let saved = held.encode(order);
            let mut reloaded = Some((read(&saved).unwrap().pool().unwrap(), Default::default()));
            let mut kept = Some((held.pool().unwrap(), Default::default()));
            let one = go_on(&mut reloaded, &trace).unwrap().to_string();
            let two = go_on(&mut kept, &trace).unwrap().to_string();
            assert_eq!(one, two, "seed {seed}, day {day}");
            state = kept;
        }
    }
}

#[test]
fn batches_are_many_and_the_same_again() {
    let bytes = |seed| -> Vec<u8> {
        let batch = batch(seed);
        batch
            .iter()
            .flat_map(|trial| trial.call.to_bytes())
            .collect()
    };
    let all: BTreeSet<Vec<u8>> = (0..32).map(bytes).collect();
    assert_eq!((all.len(), bytes(5)), (32, bytes(5)));
    for seed in 0..16 {
        let calls: Vec<Call> = batch(seed).into_iter().map(|trial| trial.call).collect();
        assert_eq!(calls_of(&bytes(seed)), calls);
    }
}

#[test]
fn stored_calls_have_what_they_should() {
    let calls = stored();
    let length: usize = calls.iter().map(|call| call.to_bytes().len()).sum();
    assert!(length < 60_000, "{length}");
    let mut seen = BTreeSet::new();
    let mut outcomes = BTreeSet::new();
    for call in &calls {
        let answer = answer(call);
        seen.insert((answer.name, answer.refusal));
        if let (0, Some(rows)) = (answer.refusal, &answer.rows) {
            let records = check(&call.trace).unwrap().records.len();
            outcomes.extend(rows.chunks(4).take(records).map(|row| row[0]));
        }
    }
    let needed: [(&str, &[u32]); 7] = [
        ("read", &[0, 1, 2, 3, 5, 6, 14]),
        ("held", &[1, 2, 3, 5, 6, 14]),
        ("write", &[0, 13, 14]),
        ("check", &[0, 14]),
        ("step", &[0, 6, 13, 14]),
        ("replay", &[0, 5, 13, 14, 15]),
        ("counts", &[0, 5]),
    ];
    for (name, refusals) in needed {
        for &refusal in refusals {
            assert!(seen.contains(&(name, refusal)), "{name} {refusal}");
        }
    }
    assert!(
        outcomes.is_superset(&BTreeSet::from([0, 1, 2, 3, 4, 110, 111])),
        "{outcomes:?}"
    );
    assert!(calls.iter().any(|call| call.image.is_empty()));
    assert!(calls.iter().any(|call| read(&call.trace).is_ok()));
    assert!(calls.iter().any(|call| check(&call.image).is_ok()));
    let counts = |call: &Call| {
        let order = order_of_mark(&call.image)?;
        Some(order.number(call.image.get(8..12)?))
    };
    assert!(calls.iter().any(|call| counts(call) == Some(u32::MAX)));
}

// --------------------------------------------------------------- the renaming

#[test]
fn calls_are_renamed() {
    let records = [(6, W), (5, R)];
    let call = Call {
        trace: encode(&settings(Rule::Lru, 2), Order::HighFirst, &records),
        rows: 9,
        room: 2,
        page: 8,
        ..on_example(What::Replay)
    };
    let renaming = Renaming(BTreeMap::from([(5, 9), (6, 0), (8, 8), (9, 7)]));
    let mut changed = Changed::default();
    let renamed = rename_answer(&call, &answer(&call), &renaming, &mut changed);
    let text = "replay 0\nrows 2 1 7 0 2 0 8 0 7\nlist 7 7\nsettings 0 2 1 1 1 0 1 0\npool 7 0 0\n\
                frames 2\n9 0 0 1 6 1 0 : 6 0 0 0 0 0 0 0 : 0 0 0 0\n\
                0 1 0 1 5 1 1 : 5 0 0 0 0 0 0 0 : 5 0 0 0\ntally 0 2 2 0 0 0\n";
    assert_eq!(renamed.to_string(), text);
    let expected = Changed {
        listings: 1,
        left: 1,
        resident: 2,
        became_zero: 1,
        ..Changed::default()
    };
    assert_eq!(changed, expected);
    let writing = Call {
        room: 201,
        order: Order::LowFirst,
        ..on_example(What::Write)
    };
    let renamed = rename_answer(&writing, &answer(&writing), &renaming, &mut changed);
    let mut held = example_pool();
    held.frames[1].page = 7;
    let mut bytes: Vec<u32> = held
        .encode(Order::LowFirst)
        .into_iter()
        .map(u32::from)
        .collect();
    bytes.push(7);
    assert_eq!(renamed.bytes, Some(bytes));
}

#[test]
fn renaming_changes_no_call_otherwise() {
    let mut changed = Changed::default();
    // Other seeds than those that are compared with the program.
    for seed in 5_000..5_016 {
        let random = &mut Random::new(seed);
        for trial in batch(seed) {
            let ours = answer(&trial.call);
            let renamed = renamed_alike(random, &trial.call, &ours, &mut changed);
            let renamed = renamed.unwrap_or_else(|fault| panic!("seed {seed}: {fault}"));
            assert_eq!(renamed.is_some(), held(&trial.call.image).is_ok());
        }
    }
    assert!(changed.named().iter().all(|(_, times)| *times > 0));
}

#[test]
fn merged_pages_of_an_image_are_found() {
    // Of two frames with pages of their own, a renaming that is not one-to-one makes none.
    let call = on_example(What::Read);
    let merging = Renaming(BTreeMap::from([(8, 3), (9, 3)]));
    let renamed = rename_answer(&call, &answer(&call), &merging, &mut Changed::default());
    assert!(!renamed.pool.unwrap().is_sound());
    let (renamed, renaming) = some_renamed_call(&mut Random::new(1), &call).unwrap();
    let pages: Vec<u32> = read(&renamed.image)
        .unwrap()
        .frames
        .iter()
        .map(|frame| frame.page)
        .collect();
    assert_eq!(pages, [renaming.of(8), renaming.of(9)]);
}

#[test]
fn what_never_came_up_is_found() {
    let mut seen = Seen::default();
    let before = seen.missing();
    assert!(before.contains(&"read 6".to_string()));
    assert!(before.contains(&"HandBelowF broken alone".to_string()));
    assert!(before.contains(&"500 sound images replayed from".to_string()));
    for trial in batch(2) {
        seen.note_call(&trial, &answer(&trial.call));
    }
    let after = seen.missing();
    assert!(!after.contains(&"read 6".to_string()) && after.len() < before.len());
}
