//! The edges of the paper's rules, on both sides; the numbers are worked by hand.

use crate::list_trace;
use crate::replay::Kind::{Pin, Read, Unpin, Write};
use crate::replay::*;
use crate::tests::{reads, run, settings, BOTH, P, R, U, W};
use crate::traces::{encode, put};

const RULES: [Rule; 3] = [Rule::Lru, Rule::Clock, Rule::Watt];
const REFERENCES: [Kind; 3] = [Read, Write, Pin];

/// The row of one more record.
fn next(pool: &mut Pool, page: u32, kind: Kind) -> [u32; 4] {
    row(&pool.step(page, kind))
}

/// The pool after these records.
fn after(settings: Settings, records: &[(u32, u32)]) -> Pool {
    run(settings, records).2
}

/// The refusals of records that leave the pool as it is.
fn refusals<const N: usize>(pool: &mut Pool, records: [(u32, Kind); N]) -> [u32; N] {
    records.map(|(page, kind)| {
        let before = pool.clone();
        let refusal = pool.step(page, kind).unwrap_err();
        assert_eq!(*pool, before);
        refusal
    })
}

// --------------------------------------------------- the header and its ranges

#[test]
fn record_counts() {
    let plain = settings(Rule::Lru, 1);
    let most = encode(&plain, Order::LowFirst, &reads(&[5; 8_000]));
    assert_eq!(check(&most).map(|trace| trace.records.len()), Ok(8_000));
    let more = encode(&plain, Order::LowFirst, &reads(&[5; 8_001]));
    assert_eq!(check(&more), Err(4));
    let none = list_trace(&encode(&plain, Order::HighFirst, &[]), &mut |_| {});
    assert!(none.starts_with("rows 0\nwritten 0\npool 0 0 0\nframes 0\nhits 0\n"));
}

#[test]
fn settings_edges() {
    // Offset, width, least, greatest.
    let ranges = [
        (24, 2, 0, 2),
        (26, 2, 1, 128),
        (28, 2, 1, 16),
        (30, 2, 1, 7),
        (32, 2, 1, 16),
        (34, 2, 0, 16),
        (36, 4, 1, 50_000),
    ];
    // Under every rule, whether it uses the setting or not.
    for (rule, order) in RULES
        .into_iter()
        .flat_map(|rule| BOTH.map(|order| (rule, order)))
    {
        let plain = encode(&settings(rule, 2), order, &reads(&[1]));
        let refusal = |at: usize, width: usize, number: u32| {
            let mut bytes = plain.clone();
            put(&mut bytes, order, at, width, number);
            check(&bytes).err()
        };
        for (at, width, least, greatest) in ranges {
            assert_eq!(refusal(at, width, least), None);
            assert_eq!(refusal(at, width, greatest), None);
            assert_eq!(refusal(at, width, greatest + 1), Some(8));
            if least > 0 {
                assert_eq!(refusal(at, width, least - 1), Some(8));
            }
        }
        assert_eq!(refusal(40, 4, u32::MAX), None);
    }
}

/// The header's fields in the order of the table and a record's, high byte first.
const FIELDS: &str = "\
01020304 0001 0000 00000001 00000030 00000001 00000038
0002 0080 0010 0007 000F 000E 0000C350 12345678 00000000
9ABCDEF0 0001 0000";

pub fn bytes_of(field: &str) -> Vec<u8> {
    let byte = |at: usize| u8::from_str_radix(&field[at..at + 2], 16);
    let places = (0..field.len()).step_by(2);
    places.map(|at| byte(at).unwrap()).collect()
}

#[test]
fn fields_of_the_table() {
    let settings = Settings {
        rule: Rule::Watt,
        frames: 128,
        batch: 16,
        cap: 7,
        sample: 15,
        weight: 14,
        epoch: 50_000,
        seed: 0x1234_5678,
    };
    let records = vec![(0x9ABC_DEF0, Write)];
    let expected = Ok(Trace { settings, records });
    let mut fields: Vec<Vec<u8>> = FIELDS.split_whitespace().map(bytes_of).collect();
    assert_eq!(check(&fields.concat()), expected);
    fields.iter_mut().for_each(|field| field.reverse());
    assert_eq!(check(&fields.concat()), expected);
}

// -------------------------------------------------------------- the references

#[test]
fn unused_frames_from_the_lowest() {
    for f in [1, 128] {
        let mut pages: Vec<u32> = (100..100 + f).collect();
        pages.extend([99 + f, 100 + f]);
        let mut expected: Vec<[u32; 4]> = (0..f).map(|frame| [1, frame, 0, 0]).collect();
        expected.extend([[0, f - 1, 0, 0], [2, 0, 100, 0]]);
        assert_eq!(run(settings(Rule::Lru, f), &reads(&pages)).0, expected);
    }
}

#[test]
fn unused_frames_hold_no_page() {
    // Page 0 is in no frame before it is fetched, though unused ones are all zero.
    let (rows, ..) = run(settings(Rule::Lru, 2), &[(0, U), (0, R), (0, R)]);
    assert_eq!(rows, [[111, 0, 0, 0], [1, 0, 0, 0], [0, 0, 0, 0]]);
}

#[test]
fn fetched_pages_start_anew() {
    let seven = Settings {
        cap: 7,
        ..settings(Rule::Lru, 1)
    };
    let frame = |dirty: bool, pins: u8, write: &[u32]| Frame {
        in_use: true,
        page: 2,
        dirty,
        pins,
        count: 1,
        last: 3,
        access: log(&[3]),
        write: log(write),
    };
    let fetched = |kind| after(seven, &[(1, W), (1, W), (1, W), (2, kind)]).frames;
    assert_eq!(fetched(R), [frame(false, 0, &[])]);
    assert_eq!(fetched(W), [frame(true, 0, &[3])]);
    assert_eq!(fetched(P), [frame(false, 1, &[])]);
}

#[test]
fn clock_counts_end_at_the_cap() {
    for (cap, expected) in [(1, [1; 9]), (7, [1, 2, 3, 4, 5, 6, 7, 7, 7])] {
        let mut pool = Pool::fresh(Settings {
            cap,
            ..settings(Rule::Lru, 1)
        });
        let counts: [u32; 9] = std::array::from_fn(|i| {
            assert!(pool.step(1, REFERENCES[i % 3]).is_ok());
            pool.frames[0].count
        });
        assert_eq!(counts, expected);
    }
}

#[test]
fn most_references() {
    let mut pool = Pool::fresh(settings(Rule::Lru, 1));
    for _ in 0..49_999 {
        assert!(pool.step(3, Read).is_ok());
    }
    assert_eq!(pool.k, 49_999);
    let kinds = [
        (Pin, 0),
        (Pin, 109),
        (Read, 109),
        (Write, 109),
        (Unpin, 4),
        (Unpin, 111),
    ];
    for (kind, outcome) in kinds {
        assert_eq!(next(&mut pool, 3, kind), [outcome, 0, 0, 0]);
    }
    assert_eq!(pool.k, 50_000);
    assert_eq!((pool.frames[0].last, pool.frames[0].dirty), (49_999, false));
}

#[test]
fn the_last_reference_of_each_kind() {
    for (page, row) in [(3, [0, 0, 0, 0]), (4, [2, 0, 3, 0])] {
        for kind in REFERENCES {
            let mut pool = after(settings(Rule::Lru, 1), &[(3, R)]);
            pool.k = 49_999;
            assert_eq!(next(&mut pool, page, kind), row);
            assert_eq!((pool.k, pool.frames[0].last), (50_000, 49_999));
            assert_eq!(refusals(&mut pool, [(3, kind), (4, kind)]), [9, 9]);
        }
    }
}

#[test]
fn refusals_of_a_record_in_order() {
    // One frame, with a page that has all its pins.
    let mut pool = after(settings(Rule::Lru, 1), &[(3, P)]);
    pool.frames[0].pins = 255;
    let records = [(3, Pin), (4, Pin), (4, Read), (4, Write), (4, Unpin)];
    assert_eq!(refusals(&mut pool, records), [12, 10, 10, 10, 11]);
    pool.k = 50_000;
    assert_eq!(refusals(&mut pool, records), [9, 9, 9, 9, 11]);
    assert_eq!(next(&mut pool, 3, Unpin), [4, 0, 0, 0]);
}

// -------------------------------------------------------------------- the pins

#[test]
fn most_pins() {
    let mut records = vec![(9, P); 256];
    records.extend([(9, R), (9, U), (9, P), (8, U), (9, W)]);
    let (rows, _, pool, tally) = run(settings(Rule::Clock, 2), &records);
    let outcomes: Vec<u32> = rows[254..].iter().map(|row| row[0]).collect();
    assert_eq!(outcomes, [0, 112, 0, 4, 0, 111, 0]);
    assert_eq!((pool.frames[0].pins, pool.k, tally.refused), (255, 258, 2));
}

#[test]
fn an_unpin_takes_off_a_pin_alone() {
    let mut pool = after(settings(Rule::Clock, 2), &[(5, R), (6, P), (6, P)]);
    let mut expected = pool.clone();
    for pins in [1, 0] {
        expected.frames[1].pins = pins;
        assert_eq!(next(&mut pool, 6, Unpin), [4, 1, 0, 0]);
        assert_eq!(pool, expected);
    }
    // No pin left, never one, not resident, and no longer resident.
    let records = [(6, Unpin), (5, Unpin), (7, Unpin)];
    assert_eq!(refusals(&mut pool, records), [11, 11, 11]);
    assert_eq!(next(&mut pool, 7, Read), [2, 0, 5, 0]);
    assert_eq!(refusals(&mut pool, [(5, Unpin)]), [11]);
}

#[test]
fn pins_in_the_tally() {
    // A miss, a hit, neither, and two refusals, 11 and 10.
    let records = [(1, P), (1, P), (1, U), (2, U), (2, R)];
    let (_, _, pool, tally) = run(settings(Rule::Lru, 1), &records);
    let expected = Tally {
        hits: 1,
        misses: 1,
        refused: 2,
        ..Tally::default()
    };
    assert_eq!((pool.k, tally), (2, expected));
}

#[test]
fn pinned_pages_stay() {
    for rule in RULES {
        // WATT draws frames 1 and 0.
        let two = Settings {
            sample: 2,
            ..settings(rule, 2)
        };
        let (rows, ..) = run(two, &[(1, P), (2, R), (3, R), (1, U), (4, R)]);
        assert_eq!(rows[1..3], [[1, 1, 0, 0], [2, 1, 2, 0]]);
        assert_eq!(rows[3..], [[4, 0, 0, 0], [2, 0, 1, 0]]);
    }
}

#[test]
fn all_frames_pinned() {
    for rule in RULES {
        let mut pool = after(settings(rule, 2), &[(1, P), (2, P)]);
        let records = REFERENCES.map(|kind| (3, kind));
        assert_eq!(refusals(&mut pool, records), [10, 10, 10]);
        assert_eq!(next(&mut pool, 2, Unpin), [4, 1, 0, 0]);
        assert_eq!(next(&mut pool, 3, Read), [2, 1, 2, 0]);
    }
}

// -------------------------------------------------------------------- the logs

fn log<const N: usize>(entries: &[u32]) -> Log<N> {
    let mut log = Log::default();
    log.len = entries.len();
    log.epochs[..entries.len()].copy_from_slice(entries);
    log
}

#[test]
fn the_oldest_falls_out_of_a_full_log() {
    let logs = |writes: usize| {
        let frame = after(settings(Rule::Lru, 1), &vec![(1, W); writes]).frames[0];
        (frame.access, frame.write)
    };
    assert_eq!(logs(4), (log(&[3, 2, 1, 0]), log(&[3, 2, 1, 0])));
    assert_eq!(logs(5), (log(&[4, 3, 2, 1, 0]), log(&[4, 3, 2, 1])));
    let eight = [7, 6, 5, 4, 3, 2, 1, 0];
    assert_eq!(logs(8), (log(&eight), log(&[7, 6, 5, 4])));
    let nine = [8, 7, 6, 5, 4, 3, 2, 1];
    assert_eq!(logs(9), (log(&nine), log(&[8, 7, 6, 5])));
}

#[test]
fn an_epoch_stands_once_in_a_log() {
    let of_epochs = |epoch: u32, kinds: &[u32]| {
        let settings = Settings {
            epoch,
            ..settings(Rule::Lru, 1)
        };
        let records: Vec<(u32, u32)> = kinds.iter().map(|&kind| (1, kind)).collect();
        let frame = after(settings, &records).frames[0];
        (frame.access, frame.write)
    };
    // Three references in each of the epochs 0, 1 and 2.
    let kinds = [R, W, P, R, R, R, W, W, R];
    assert_eq!(of_epochs(3, &kinds), (log(&[2, 1, 0]), log(&[2, 0])));
    assert_eq!(of_epochs(3, &kinds[..3]), (log(&[0]), log(&[0])));
    // Full logs stay as they are, too.
    let eight = [7, 6, 5, 4, 3, 2, 1, 0];
    assert_eq!(of_epochs(2, &[W; 16]), (log(&eight), log(&[7, 6, 5, 4])));
}

#[test]
fn epochs_at_the_last_reference() {
    let epochs: [(u32, &[u32]); 4] = [
        (50_000, &[0]),
        (49_999, &[1, 0]),
        (25_000, &[1, 0]),
        (1, &[49_999, 0]),
    ];
    for (epoch, expected) in epochs {
        let settings = Settings {
            epoch,
            ..settings(Rule::Lru, 1)
        };
        let mut pool = after(settings, &[(1, R)]);
        pool.k = 49_999;
        assert_eq!(next(&mut pool, 1, Read), [0, 0, 0, 0]);
        assert_eq!(pool.frames[0].access.entries(), expected);
    }
}

// ------------------------------------------------------------------ the values

#[test]
fn greatest_parts() {
    // Of a part for each place, the last, a middle one or the first is greatest.
    assert_eq!(
        worth(&[20, 19, 18, 17, 16, 15, 14, 13], 100),
        Fraction(8, 87)
    );
    assert_eq!(worth(&[20, 19, 18, 17], 100), Fraction(4, 83));
    assert_eq!(worth(&[7, 6, 5, 4, 3, 2, 1, 0], 7), Fraction(2, 1));
    assert_eq!(worth(&[49, 0], 50), Fraction(1, 10));
    // Age 0 counts as 1, and age 2 as 2.
    assert_eq!(worth(&[49], 50), worth(&[50], 50));
    assert_eq!(worth(&[48], 50), Fraction(1, 20));
}

#[test]
fn values_of_the_greatest_age() {
    let value = |access: u32, write: u32| {
        let frame = Frame {
            access: log(&[access]),
            write: log(&[write]),
            ..Frame::default()
        };
        frame.value(16, 49_999)
    };
    assert_eq!(value(0, 0), Fraction(17, 499_990));
    assert_eq!(value(1, 1), Fraction(17, 499_980));
    assert!(value(0, 0) < value(1, 0) && value(1, 0) < value(0, 1));
    assert!(value(0, 1) < value(1, 1));
}

// ----------------------------------------------------------------- the victims

#[test]
fn sweep_passes_pinned() {
    let (rows, _, pool, _) = run(settings(Rule::Clock, 2), &[(1, P), (2, R), (3, R)]);
    assert_eq!((rows[2], pool.hand), ([2, 1, 2, 0], 0));
    assert_eq!(pool.frames[0].count, 1);
    // A count of 0 makes it no victim.
    let mut pool = after(settings(Rule::Clock, 2), &[(1, P), (2, R)]);
    pool.frames[0].count = 0;
    assert_eq!(next(&mut pool, 3, Read), [2, 1, 2, 0]);
    assert_eq!((pool.hand, pool.frames[0].count), (0, 0));
}

#[test]
fn sweep_goes_round() {
    let two = Settings {
        cap: 2,
        ..settings(Rule::Clock, 3)
    };
    // P7 and P8 leave the counts 0 1 1 and the hand at frame 0, page 6 the counts
    // 1 1 1 and the hand at frame 1, from where page 7 takes it round.
    let (rows, _, pool, _) = run(two, &reads(&[1, 2, 3, 1, 4, 5, 6, 7]));
    assert_eq!(rows[6..], [[2, 0, 1, 0], [2, 1, 4, 0]]);
    assert_eq!(pool.hand, 2);
    assert_eq!([0, 1, 2].map(|at| pool.frames[at].count), [0, 1, 0]);
}

#[test]
fn longest_sweep() {
    let seven = Settings {
        cap: 7,
        ..settings(Rule::Clock, 2)
    };
    let mut pool = after(seven, &[(1, P), (2, R)]);
    pool.frames[1].count = 7;
    // Frame 1 is lowered seven times before it leaves at the sixteenth visit.
    assert_eq!(next(&mut pool, 3, Read), [2, 1, 2, 0]);
    assert_eq!((pool.hand, pool.frames[0].count), (0, 1));
    assert_eq!(pool.frames[1].count, 1);
}

#[test]
fn draws_wrap_around() {
    let mut pool = Pool::fresh(settings(Rule::Watt, 3));
    // The second sum, 5,308,871,538, is kept as 1,013,904,242.
    let draws: [usize; 4] = std::array::from_fn(|_| pool.draw());
    assert_eq!((draws, pool.sampler), ([0, 2, 2, 1], 2_027_808_484));
    let seed = u32::MAX;
    let mut pool = Pool::fresh(Settings {
        seed,
        ..pool.settings
    });
    assert_eq!((pool.sampler, pool.draw()), (u32::MAX, 2));
    assert_eq!(pool.sampler, 2_654_435_768);
}

#[test]
fn draws_go_on() {
    // One draw for each victim: frames 1, 2, 3, 0.
    let pages = [10, 11, 12, 13, 14, 15, 16, 17];
    let (rows, ..) = run(settings(Rule::Watt, 4), &reads(&pages));
    let expected = [[2, 1, 11, 0], [2, 2, 12, 0], [2, 3, 13, 0], [2, 0, 10, 0]];
    assert_eq!(rows[4..], expected);
}

#[test]
fn sample_sizes() {
    // Of 16 frames the draws name 9 first and 0, the least value, last.
    let pages: Vec<u32> = (100..=116).collect();
    for (sample, row) in [
        (1, [2, 9, 109, 0]),
        (15, [2, 1, 101, 0]),
        (16, [2, 0, 100, 0]),
    ] {
        let settings = Settings {
            sample,
            ..settings(Rule::Watt, 16)
        };
        let (rows, ..) = run(settings, &reads(&pages));
        assert_eq!(rows[16], row);
    }
}

#[test]
fn drawn_frames_pinned() {
    // The one draw names frame 1, which is pinned; then all frames count.
    let records = [(1, R), (2, P), (3, R), (4, R), (5, R)];
    let (rows, _, pool, _) = run(settings(Rule::Watt, 4), &records);
    assert_eq!(rows[4], [2, 0, 1, 0]);
    assert_eq!(pool.sampler, 2_654_435_769);
    // Their values decide, at 5: 2/5 of frame 0, 1/30 and 1/20.
    let records = [(1, R), (2, P), (3, R), (4, R), (1, R), (5, R)];
    let (rows, ..) = run(settings(Rule::Watt, 4), &records);
    assert_eq!(rows[5], [2, 2, 3, 0]);
}

#[test]
fn some_drawn_frames_pinned() {
    // The draws name the frames 1, 2, 3; frame 0 has the least value.
    let three = Settings {
        sample: 3,
        ..settings(Rule::Watt, 4)
    };
    let (rows, ..) = run(three, &[(1, R), (2, P), (3, P), (4, R), (5, R)]);
    assert_eq!(rows[4], [2, 3, 4, 0]);
    let (rows, ..) = run(three, &[(1, R), (2, P), (3, P), (4, P), (5, R)]);
    assert_eq!(rows[4], [2, 0, 1, 0]);
}

#[test]
fn weights_decide() {
    let written = |weight: u32| {
        let settings = Settings {
            batch: 2,
            sample: 2,
            weight,
            ..settings(Rule::Watt, 2)
        };
        let records = [(1, W), (1, W), (2, W), (2, R), (2, R), (3, R)];
        run(settings, &records).1
    };
    // At 5 the access worths are 2/5 and 1, the write worths 2/5 and 1/30.
    assert_eq!(written(0), [1, 2]);
    assert_eq!(written(1), [1, 2]);
    assert_eq!(written(2), [2, 1]);
}

// ----------------------------------------------------------------- the batches

#[test]
fn batch_orders() {
    let written = |rule: Rule, more: &[(u32, u32)]| {
        let settings = Settings {
            batch: 3,
            cap: 3,
            ..settings(rule, 3)
        };
        let mut records = vec![(9, W), (8, W), (7, W)];
        records.extend(more);
        records.push((6, R));
        run(settings, &records).1
    };
    // The least last step; a pinned frame stays behind.
    assert_eq!(written(Rule::Lru, &[(8, R)]), [9, 7, 8]);
    assert_eq!(written(Rule::Lru, &[(8, P)]), [9, 7]);
    // The counts 2 1 1 become 0 0 0, frame 1 leaves, the hand is at frame 2.
    assert_eq!(written(Rule::Clock, &[(9, R)]), [8, 7, 9]);
    // The counts 1 3 1 become 0 2 0, frame 0 leaves, the hand is at frame 1.
    assert_eq!(written(Rule::Clock, &[(8, R), (8, R)]), [9, 7, 8]);
    // The counts 2 1 2 become 0 0 1, frame 1 leaves, the hand is at frame 2.
    assert_eq!(written(Rule::Clock, &[(9, R), (7, R)]), [8, 9, 7]);
}

#[test]
fn batch_order_by_value() {
    let four = Settings {
        batch: 4,
        weight: 1,
        ..settings(Rule::Watt, 4)
    };
    let records = [(9, W), (8, W), (7, W), (6, W), (7, R), (5, R)];
    let (rows, written, ..) = run(four, &records);
    // Frame 1 alone is drawn. At 5 the values are 1/25, 1/20, 7/10, 1/10.
    assert_eq!(rows[5], [3, 1, 8, 4]);
    assert_eq!(written, [8, 9, 6, 7]);
}

#[test]
fn batch_sizes() {
    // All frames are dirty; the batch ends at its size, or where they end.
    for (frames, batch, length) in [(17, 1, 1), (17, 16, 16), (16, 16, 16), (15, 16, 15)] {
        let settings = Settings {
            batch,
            ..settings(Rule::Lru, frames)
        };
        let mut records: Vec<(u32, u32)> = (1..=frames).map(|page| (page, W)).collect();
        records.push((99, R));
        let (rows, written, pool, _) = run(settings, &records);
        assert_eq!(rows.last(), Some(&[3, 0, 1, length]));
        assert_eq!(written, (1..=length).collect::<Vec<u32>>());
        let dirty = pool.frames.iter().filter(|frame| frame.dirty).count();
        assert_eq!(dirty, (frames - length) as usize);
    }
}

#[test]
fn batches_leave_out_clean_and_pinned() {
    for rule in RULES {
        let most = Settings {
            batch: 16,
            ..settings(rule, 4)
        };
        let records = [(1, W), (2, W), (3, R), (4, W), (2, P), (5, R)];
        let (rows, written, pool, _) = run(most, &records);
        assert_eq!((rows[5], &written[..]), ([3, 0, 1, 2], &[1, 4][..]));
        let dirty = [0, 1, 2, 3].map(|at| pool.frames[at].dirty);
        assert_eq!(dirty, [false, true, false, false]);
    }
}

#[test]
fn a_clean_victim_writes_nothing() {
    for rule in RULES {
        let two = Settings {
            batch: 2,
            sample: 2,
            ..settings(rule, 2)
        };
        let (rows, written, pool, _) = run(two, &[(1, R), (2, W), (3, R)]);
        assert_eq!((rows[2], written), ([2, 0, 1, 0], vec![]));
        assert!(pool.frames[1].dirty);
    }
}

#[test]
fn written_pages_stay_with_their_logs() {
    let two = Settings {
        batch: 2,
        ..settings(Rule::Lru, 3)
    };
    // P9, after which page 2 is clean and page 3 is not.
    let mut pool = after(two, &[(1, W), (2, W), (3, W), (4, R)]);
    assert_eq!(
        [0, 1, 2].map(|at| pool.frames[at].dirty),
        [false, false, true]
    );
    assert_eq!(pool.frames[1].write, log(&[1]));
    assert_eq!(next(&mut pool, 2, Write), [0, 1, 0, 0]);
    assert_eq!(pool.frames[1].write, log(&[4, 1]));
    assert!(pool.frames[1].dirty);
}

#[test]
fn ties_are_not_broken_by_page() {
    let evicted = |rule: Rule, [a, b, c, d]: [u32; 4]| {
        let settings = Settings {
            batch: 4,
            cap: 2,
            sample: 16,
            epoch: 100,
            ..settings(rule, 4)
        };
        let records = [(a, W), (b, W), (c, W), (d, W), (a, R), (9, R)];
        let (rows, written, ..) = run(settings, &records);
        (rows[5], written)
    };
    for pages in [[1, 2, 3, 4], [4, 3, 2, 1]] {
        let [a, b, c, d] = pages;
        // Every value is the same, and the frame decides.
        assert_eq!(evicted(Rule::Watt, pages), ([3, 0, a, 4], vec![a, b, c, d]));
        // The counts 2 1 1 1 become 0 0 0 0, and the distance from frame 2 decides.
        assert_eq!(
            evicted(Rule::Clock, pages),
            ([3, 1, b, 4], vec![b, c, d, a])
        );
    }
}
