//! The paper's examples, a damaged trace for each refusal, the renaming of pages,
//! and the soundness of the pool after every step of some generated traces.

use crate::fixed::LISTING;
use crate::image::Held;
use crate::rare::rare;
use crate::renaming::*;
use crate::replay::*;
use crate::traces::{self, encode, put, Random};
use crate::{first_difference, list_series, list_trace, never_changed, renamed_alike, Made};
use std::collections::{BTreeMap, BTreeSet};

pub const BOTH: [Order; 2] = [Order::HighFirst, Order::LowFirst];

// The kinds.
pub const R: u32 = 0;
pub const W: u32 = 1;
pub const P: u32 = 2;
pub const U: u32 = 3;

pub fn settings(rule: Rule, frames: u32) -> Settings {
    Settings {
        rule,
        frames,
        batch: 1,
        cap: 1,
        sample: 1,
        weight: 0,
        epoch: 1,
        seed: 0,
    }
}

pub fn reads(pages: &[u32]) -> Vec<(u32, u32)> {
    pages.iter().map(|&page| (page, R)).collect()
}

/// The rows, pages written, pool and tally of these records in either order.
pub fn run(settings: Settings, records: &[(u32, u32)]) -> (Vec<[u32; 4]>, Vec<u32>, Pool, Tally) {
    let [high, low] = BOTH.map(|order| {
        let mut state = None;
        let replayed = go_on(&mut state, &encode(&settings, order, records)).unwrap();
        let (rows, written) = (replayed.rows, replayed.written);
        let (pool, tally) = state.unwrap();
        (rows, written, pool, tally)
    });
    assert_eq!(high, low);
    low
}

fn listed(bytes: &[u8]) -> String {
    list_trace(bytes, &mut |_| {})
}

// -------------------------------------------------------- the worked examples

#[test]
fn p1_to_p5_worths_and_values() {
    assert_eq!(worth(&[42, 15, 8, 0], 50), Fraction(4, 50));
    assert_eq!(worth(&[50], 50), Fraction(1, 10));
    assert_eq!(worth(&[50, 49], 50), Fraction(2, 1));
    let mut frame = Frame::default();
    (frame.access.len, frame.access.epochs[0]) = (1, 49);
    (frame.write.len, frame.write.epochs[0]) = (1, 49);
    assert_eq!(frame.value(2, 50), Fraction(3, 10));
    assert_eq!(frame.value(16, 50), Fraction(17, 10));
    assert_eq!(worth(&[], 50), Fraction(0, 1));
    // Neither whole numbers nor small floats tell these apart.
    assert!(Fraction(3, 42) > Fraction(2, 35));
    assert!(Fraction(16_777_217, 16_777_216) > Fraction(1, 1));
}

#[test]
fn p6_draws() {
    let mut pool = Pool::fresh(settings(Rule::Watt, 4));
    assert_eq!([pool.draw(), pool.draw(), pool.draw()], [1, 2, 3]);
    // Frame 0 is the oldest, but of those drawn frame 1 has the least value.
    let three = Settings {
        sample: 3,
        ..settings(Rule::Watt, 4)
    };
    let (rows, _, after, _) = run(three, &reads(&[10, 11, 12, 13, 14]));
    assert_eq!(rows[4], [2, 1, 11, 0]);
    assert_eq!(after.sampler, pool.sampler);
}

#[test]
fn p7_p8_clock() {
    let settings = Settings {
        cap: 2,
        ..settings(Rule::Clock, 3)
    };
    let (rows, _, pool, _) = run(settings, &reads(&[1, 2, 3, 1, 4]));
    assert_eq!((rows[4], pool.hand), ([2, 1, 2, 0], 2));
    let (rows, _, pool, _) = run(settings, &reads(&[1, 2, 3, 1, 4, 5]));
    assert_eq!((rows[5], pool.hand), ([2, 2, 3, 0], 0));
}

#[test]
fn p9_p10_batch() {
    let settings = Settings {
        batch: 2,
        ..settings(Rule::Lru, 3)
    };
    let (rows, written, _, tally) = run(settings, &[(1, W), (2, W), (3, W), (4, R), (5, R)]);
    assert_eq!(rows[3..], [[3, 0, 1, 2], [2, 1, 2, 0]]);
    assert_eq!(written, [1, 2]);
    let expected = Tally {
        hits: 0,
        misses: 5,
        evictions: 2,
        batches: 1,
        written: 2,
        refused: 0,
    };
    assert_eq!(tally, expected);
}

#[test]
fn p11_all_pinned() {
    for rule in [Rule::Lru, Rule::Clock, Rule::Watt] {
        let (rows, _, pool, tally) = run(settings(rule, 1), &[(1, P), (2, R), (1, R)]);
        assert_eq!(rows, [[1, 0, 0, 0], [110, 0, 0, 0], [0, 0, 0, 0]]);
        assert_eq!((pool.k, pool.hand, pool.sampler), (2, 0, 0));
        assert_eq!(tally.refused, 1);
    }
}

#[test]
fn p12_orders() {
    assert_eq!(Order::HighFirst.number(&[0, 0, 0, 1]), 1);
    assert_eq!(Order::LowFirst.number(&[0, 0, 0, 1]), 16_777_216);
}

const EXAMPLE: [(u32, u32); 5] = [(7, R), (8, W), (7, R), (9, R), (8, R)];

#[test]
fn printed_example() {
    for order in BOTH {
        let bytes = encode(&settings(Rule::Lru, 2), order, &EXAMPLE);
        assert_eq!(listed(&bytes), LISTING);
    }
}

fn sheet(bytes: &[u8]) -> String {
    let [_, sheet] = Made::Trace.printed(bytes, &mut |_| {});
    sheet
}

#[test]
fn printed_sheet() {
    let counts = "hits 1\nmisses 4\nevictions 2\nbatches 1\nwritten 1\nrefused 0\n";
    for order in BOTH {
        let bytes = encode(&settings(Rule::Lru, 2), order, &EXAMPLE);
        let expected = format!("policy lru\nframes 2\nrecords 5\n{counts}");
        assert_eq!(sheet(&bytes), expected);
    }
    for (rule, name) in [(Rule::Clock, "clock"), (Rule::Watt, "watt")] {
        let bytes = encode(&settings(rule, 128), Order::LowFirst, &[]);
        let first = format!("policy {name}\nframes 128\nrecords 0\nhits 0\n");
        assert!(sheet(&bytes).starts_with(&first));
    }
    assert_eq!(sheet(&[7; 48]), "trace refused 2\n");
}

// ------------------------------------------------------------- damaged traces

/// A good trace of four records, 80 bytes, and then damaged.
fn damaged(order: Order, damage: &dyn Fn(&mut Vec<u8>)) -> Vec<u8> {
    let records = [(1, R), (2, W), (3, P), (1, U)];
    let mut bytes = encode(&settings(Rule::Lru, 2), order, &records);
    damage(&mut bytes);
    bytes
}

/// The refusal of the trace so damaged, 0 for none; its listing says the same.
fn refusal(order: Order, damage: &dyn Fn(&mut Vec<u8>)) -> u32 {
    let bytes = damaged(order, damage);
    let number = check(&bytes).err().unwrap_or(0);
    assert_eq!(
        listed(&bytes) == format!("trace refused {number}\n"),
        number > 0
    );
    number
}

/// The refusal with another number in one field.
fn refusal_with(order: Order, at: usize, width: usize, number: u32) -> u32 {
    refusal(order, &|bytes| put(bytes, order, at, width, number))
}

#[test]
fn refusals_1_to_3() {
    for order in BOTH {
        assert_eq!(refusal(order, &|_| {}), 0);
        assert_eq!(refusal(order, &|bytes| bytes.clear()), 1);
        assert_eq!(refusal(order, &|bytes| bytes.truncate(47)), 1);
        for at in 0..4 {
            assert_eq!(refusal(order, &|bytes| bytes[at] ^= 8), 2);
        }
        assert_eq!(refusal(order, &|bytes| bytes[..4].reverse()), 3);
        for edition in [0, 2, 256] {
            assert_eq!(refusal_with(order, 4, 2, edition), 3);
        }
    }
}

#[test]
fn refusals_4_and_5() {
    for order in BOTH {
        for n in [8_001, 0x2000_0004, u32::MAX] {
            assert_eq!(refusal_with(order, 8, 4, n), 4);
        }
        for n in [0, 3, 5, 8_000] {
            assert_eq!(refusal_with(order, 8, 4, n), 5);
        }
        for offset in [0, 47, 49] {
            assert_eq!(refusal_with(order, 12, 4, offset), 5);
        }
        for length in [0, 79, 81] {
            assert_eq!(refusal_with(order, 20, 4, length), 5);
        }
        for length in [48, 79, 81] {
            assert_eq!(refusal(order, &|bytes| bytes.resize(length, 0)), 5);
        }
    }
}

#[test]
fn refusals_6_to_8() {
    for order in BOTH {
        for at in [6, 7, 44, 45, 46, 47, 54, 55, 78, 79] {
            assert_eq!(refusal_with(order, at, 1, 1), 6);
        }
        for kind in [4, 256, 65_535] {
            assert_eq!(refusal_with(order, 52, 2, kind), 6);
        }
        for writes in [0, 2] {
            assert_eq!(refusal_with(order, 16, 4, writes), 7);
        }
        for frames in [0, 129] {
            assert_eq!(refusal_with(order, 26, 2, frames), 8);
        }
    }
}

#[test]
fn of_several_refusals_the_lowest() {
    // Place, width and number of a field, each for a lower refusal.
    let fields = [
        (26, 2, 129),
        (16, 4, 9),
        (44, 4, 1),
        (20, 4, 0),
        (8, 4, 8_001),
        (4, 2, 2),
        (0, 4, 0),
    ];
    for order in BOTH {
        let (mut bytes, mut lowest) = (damaged(order, &|_| {}), 8);
        for (at, width, number) in fields {
            put(&mut bytes, order, at, width, number);
            assert_eq!(check(&bytes), Err(lowest));
            lowest -= 1;
        }
        assert_eq!((lowest, check(&bytes[..47])), (1, Err(1)));
    }
}

#[test]
fn series_rules() {
    let plain = settings(Rule::Lru, 1);
    let other = Settings { seed: 1, ..plain };
    let item = |settings: &Settings| encode(settings, Order::HighFirst, &reads(&[4]));
    let items = [
        vec![7; 48],
        item(&plain),
        item(&other),
        vec![1, 2, 3],
        item(&plain),
        vec![],
        item(&other),
    ];
    let mut bytes = traces::joined(&items);
    bytes.extend([0, 0, 0, 9, 1]);
    let listing = |row: u32, pool: &str, frame: &str, hits: u32| {
        format!(
            "rows 1\n{row} 0 0 0\nwritten 0\npool {pool}\nframes 1\n4 0 0 1 {frame} :\n\
             hits {hits}\nmisses 1\nevictions 0\nbatches 0\nwritten 0\nrefused 0\n"
        )
    };
    let expected = [
        "trace refused 2\n".to_string(),
        listing(1, "1 0 0", "0 : 0", 0),
        "trace refused 15\n".to_string(),
        "trace refused 1\n".to_string(),
        listing(0, "2 0 0", "1 : 1 0", 1),
        "anew\n".to_string(),
        listing(1, "1 0 1", "0 : 0", 0),
    ];
    assert_eq!(list_series(&bytes, &mut |_| {}), expected.concat());
}

#[test]
fn other_settings_are_refused() {
    let plain = settings(Rule::Lru, 2);
    let mut others = [plain; 8];
    others[0].rule = Rule::Clock;
    others[1].frames = 3;
    others[2].batch = 2;
    others[3].cap = 2;
    others[4].sample = 2;
    others[5].weight = 1;
    others[6].epoch = 2;
    others[7].seed = 1;
    let item = |settings: &Settings| encode(settings, Order::LowFirst, &[(4, W)]);
    let mut state = None;
    assert!(go_on(&mut state, &item(&plain)).is_ok());
    let before = state.clone();
    for other in others {
        assert_eq!(go_on(&mut state, &item(&other)).err(), Some(15));
        // The checks of the trace come before.
        let mut bytes = item(&other);
        put(&mut bytes, Order::LowFirst, 16, 4, 2);
        assert_eq!(go_on(&mut state, &bytes).err(), Some(7));
    }
    assert_eq!(state, before);
}

#[test]
fn differences_are_found() {
    assert_eq!(first_difference(b"a\nb\n", b"a\nb\n"), None);
    for theirs in ["a\nc\n", "a\nb", "a\n"] {
        assert_eq!(first_difference(b"a\nb\n", theirs.as_bytes()).unwrap().0, 2);
    }
    assert_eq!(first_difference(b"", b"a").unwrap().0, 1);
}

// --------------------------------------------------------------- the renaming

#[test]
fn renamings_are_one_to_one() {
    let ends = BTreeSet::from([0, u32::MAX]);
    let sets = [
        BTreeSet::new(),
        BTreeSet::from([0]),
        ends.clone(),
        (0..40).chain(u32::MAX - 40..=u32::MAX).collect(),
    ];
    let mut seen = [false; 5];
    for (seed, pages) in (0..400).zip(sets.iter().cycle()) {
        let renaming = some_renaming(&mut Random::new(seed), pages);
        let numbers: Vec<u32> = pages.iter().map(|&page| renaming.of(page)).collect();
        let distinct: BTreeSet<u32> = numbers.iter().copied().collect();
        assert_eq!(distinct.len(), pages.len());
        assert_eq!(renaming.0.len(), pages.len());
        if pages.len() > 2 {
            let occurred = [
                distinct == *pages && numbers.is_sorted_by(|a, b| a > b),
                distinct == *pages && !numbers.is_sorted_by(|a, b| a > b),
                distinct == (0..pages.len() as u32).collect(),
                distinct != *pages && distinct.is_superset(&ends),
                distinct != *pages && distinct.is_disjoint(pages),
            ];
            seen = std::array::from_fn(|i| seen[i] || occurred[i]);
        }
    }
    assert_eq!(seen, [true; 5]);
}

#[test]
#[should_panic(expected = "page 6 has no new number")]
fn other_pages_have_no_new_number() {
    some_renaming(&mut Random::new(0), &BTreeSet::from([5, 7])).of(6);
}

#[test]
fn renamed_traces_keep_the_rest() {
    let mut marks = BTreeSet::new();
    for seed in 0..100 {
        let bytes = traces::trace(seed);
        let Ok(trace) = check(&bytes) else {
            assert!(some_renamed_trace(&mut Random::new(seed), &bytes).is_none());
            continue;
        };
        let pages: BTreeSet<u32> = trace.records.iter().map(|record| record.0).collect();
        let same = Renaming(pages.iter().map(|&page| (page, page)).collect());
        let mut same_in_either = BOTH.iter().map(|&order| rename_trace(&trace, order, &same));
        assert!(same_in_either.any(|same| same == bytes));

        let (bytes, renaming) = some_renamed_trace(&mut Random::new(seed), &bytes).unwrap();
        let mut expected = trace;
        for record in &mut expected.records {
            record.0 = renaming.of(record.0);
        }
        assert_eq!(check(&bytes), Ok(expected));
        marks.insert(bytes[0]);
    }
    assert_eq!(marks.len(), 2);
}

#[test]
fn renamed_series_keep_the_rest() {
    let plain = settings(Rule::Lru, 2);
    let other = Settings { seed: 1, ..plain };
    let item = |settings: &Settings, page| encode(settings, Order::HighFirst, &reads(&[page]));
    let refused = vec![7; 48];
    let given = [
        item(&plain, 4),
        item(&other, 5),
        refused.clone(),
        vec![],
        item(&plain, 4),
    ];
    let rest = [0, 0, 0, 9, 1];
    let bytes = [&traces::joined(&given)[..], &rest].concat();
    assert_eq!(traces::items(&bytes).0, given);
    let (renamed, renaming) = some_renamed_series(&mut Random::new(3), &bytes).unwrap();
    assert_eq!(renaming.0.keys().copied().collect::<Vec<_>>(), [4, 5]);
    let (items, after) = traces::items(&renamed);
    let page = |item: &[u8]| check(item).unwrap().records[0].0;
    assert_eq!(page(items[0]), renaming.of(4));
    assert_eq!(page(items[1]), renaming.of(5));
    assert_eq!(items[2..4], [&refused[..], &[]]);
    assert_eq!(page(items[4]), renaming.of(4));
    assert_eq!((items.len(), after), (5, &rest[..]));
}

/// LRU with two frames and batches of two.
fn by_twos() -> Settings {
    Settings {
        batch: 2,
        ..settings(Rule::Lru, 2)
    }
}

/// Every outcome, of the refusals one, by twos. Page 0 leaves dirty and, later,
/// clean.
const EVERY_OUTCOME: [(u32, u32); 10] = [
    (0, W),
    (5, R),
    (5, W),
    (6, P),
    (6, R),
    (0, R),
    (0, P),
    (9, R),
    (0, U),
    (5, R),
];

const EVERY_LISTED: &str = "\
rows 10
1 0 0 0
1 1 0 0
0 1 0 0
3 0 0 2
0 0 0 0
2 1 5 0
0 1 0 0
110 0 0 0
4 1 0 0
2 1 0 0
written 2
0
5
pool 8 0 0
frames 2
6 0 1 1 4 : 4 3 :
5 0 0 1 7 : 7 :
hits 3
misses 5
evictions 3
batches 1
written 2
refused 1
";

const EVERY_RENAMED: &str = "\
rows 10
1 0 0 0
1 1 0 0
0 1 0 0
3 0 7 2
0 0 0 0
2 1 0 0
0 1 0 0
110 0 0 0
4 1 0 0
2 1 7 0
written 2
7
0
pool 8 0 0
frames 2
4294967295 0 1 1 4 : 4 3 :
0 0 0 1 7 : 7 :
hits 3
misses 5
evictions 3
batches 1
written 2
refused 1
";

/// Page 0 gets another number, and another page 0.
fn every_renaming() -> Renaming {
    Renaming(BTreeMap::from([(0, 7), (5, 0), (6, u32::MAX), (9, 9)]))
}

#[test]
fn listings_are_renamed() {
    let renaming = every_renaming();
    for order in BOTH {
        let bytes = encode(&by_twos(), order, &EVERY_OUTCOME);
        assert_eq!(listed(&bytes), EVERY_LISTED);
        let renamed = rename_trace(&check(&bytes).unwrap(), order, &renaming);
        assert_eq!(listed(&renamed), EVERY_RENAMED);
    }
    let series = |listing| format!("trace refused 8\n{listing}anew\nanew\n{listing}");
    let mut changed = Changed::default();
    let renamed = rename_listing(&series(EVERY_LISTED), &renaming, &mut changed);
    assert_eq!(renamed, Ok(series(EVERY_RENAMED)));
    let expected = Changed {
        listings: 1,
        left: 6,
        written: 4,
        resident: 4,
        were_zero: 6,
        became_zero: 6,
    };
    assert_eq!(changed, expected);
}

#[test]
fn other_lines_are_no_listing() {
    let changes = [
        ("rows 10", "rows 9", 11),
        ("rows 10", "rows 11", 12),
        ("rows 10", "10", 1),
        ("rows 10", "rows10", 1),
        ("3 0 0 2", "3 0 0", 5),
        ("110 0 0 0", "110 0 5 0", 9),
        ("110 0 0 0", "5 0 0 0", 9),
        ("written 2\n0", "written 1\n0", 14),
        ("0\n5\npool", "0\npool", 14),
        ("pool 8 0 0", "pool 8 0", 15),
        ("frames 2", "frames 1", 18),
        (" : 7 :", " : 7", 18),
        (" : 7 :", " : x :", 18),
        ("hits 3", "hits 3 5", 19),
        ("refused 1\n", "", 24),
        ("refused 1\n", "refused 1\n5\n", 25),
        ("refused 1\n", "refused 1\nanew 5\n", 25),
        ("refused 1\n", "refused 1\nanew \n", 25),
    ];
    for (from, to, line) in changes {
        let other = EVERY_LISTED.replacen(from, to, 1);
        let renamed = rename_listing(&other, &every_renaming(), &mut Changed::default());
        let error = renamed.unwrap_err();
        assert!(
            error.starts_with(&format!("unexpected line {line} ")),
            "{to}: {error}"
        );
    }
}

/// The first line in which the listing of a trace, renamed one way, differs from
/// that of the trace renamed another way; its number and both forms.
fn difference(bytes: &[u8], listing: &Renaming, trace: &Renaming) -> Option<(usize, [String; 2])> {
    let renamed = rename_listing(&listed(bytes), listing, &mut Changed::default()).unwrap();
    let bytes = rename_trace(&check(bytes).unwrap(), Order::LowFirst, trace);
    let (line, ours, theirs) = first_difference(renamed.as_bytes(), listed(&bytes).as_bytes())?;
    Some((line, [ours, theirs]))
}

fn quoted(forms: [&str; 2]) -> [String; 2] {
    forms.map(|form| format!("{form:?}"))
}

#[test]
fn pages_not_renamed_are_found() {
    // Page 1 leaves clean, and page 2 dirty; page 3 is written with it and stays.
    let bytes = encode(
        &by_twos(),
        Order::LowFirst,
        &[(1, R), (2, W), (3, W), (4, R)],
    );
    let all = Renaming(BTreeMap::from([(1, 5), (2, 6), (3, 7), (4, 8)]));
    assert_eq!(difference(&bytes, &all, &all), None);
    let found = [
        (1, 4, ["2 0 1 0\n", "2 0 5 0\n"]),
        (2, 5, ["3 1 2 2\n", "3 1 6 2\n"]),
        (3, 8, ["3\n", "7\n"]),
        (4, 12, ["4 0 0 1 3 : 3 :\n", "8 0 0 1 3 : 3 :\n"]),
    ];
    for (page, line, forms) in found {
        let mut all_but_one = all.clone();
        all_but_one.0.insert(page, page);
        let expected = Some((line, quoted(forms)));
        assert_eq!(difference(&bytes, &all_but_one, &all), expected);
    }
}

#[test]
fn merged_pages_are_found() {
    // Two misses become a miss and a hit, which no renaming one-to-one does.
    let merging = Renaming(BTreeMap::from([(1, 3), (2, 3)]));
    let bytes = encode(&settings(Rule::Lru, 1), Order::LowFirst, &reads(&[1, 2]));
    let expected = Some((3, quoted(["2 0 3 0\n", "0 0 0 0\n"])));
    assert_eq!(difference(&bytes, &merging, &merging), expected);
}

#[test]
fn accepted_traces_alone_are_renamed() {
    let accepted = encode(&settings(Rule::Lru, 1), Order::LowFirst, &reads(&[1]));
    let refused = vec![7; 48];
    let result = |bytes: &[u8], listing: &str| {
        let printed = [listing.to_string(), String::new()];
        renamed_alike(Made::Trace, 0, bytes, &printed, &mut BTreeMap::new())
    };
    assert_eq!(result(&refused, &listed(&refused)), Ok(None));
    let error = result(&refused, &listed(&accepted)).unwrap_err();
    assert_eq!(error, "trace accepted, but not renamed");
    let error = result(&accepted, &listed(&refused)).unwrap_err();
    assert_eq!(error, "trace refused, but renamed");
}

#[test]
fn renaming_changes_nothing_else() {
    let mut changes = BTreeMap::new();
    // Other seeds than those that are compared with the programs.
    let seeds = (5_000..5_200).map(|seed| (Made::Trace, seed));
    for (made, seed) in seeds.chain([(Made::Series, 5_000)]) {
        let bytes = made.from_seed(seed);
        let printed = made.printed(&bytes, &mut |_| {});
        let result = renamed_alike(made, seed, &bytes, &printed, &mut changes);
        assert_eq!(result.err(), None, "seed {seed}");
    }
    assert_eq!(never_changed(&changes), [""; 0]);
    // What one rule never had, no other makes up for.
    changes.get_mut("policy watt").unwrap().left = 0;
    let never = ["policy watt renamed: pages that left"];
    assert_eq!(never_changed(&changes), never);
}

// -------------------------------------------------------- the generated traces

/// What an image cannot say of unused frames, and what it can say of the others.
fn sound(pool: &Pool) -> bool {
    let in_use = pool.frames.iter().take_while(|frame| frame.in_use).count();
    pool.frames.len() == pool.settings.frames as usize
        && pool.frames[in_use..]
            .iter()
            .all(|frame| *frame == Frame::default())
        && Held::of(pool).is_sound()
}

#[test]
fn steps_leave_the_pool_sound() {
    let mut seen = BTreeMap::new();
    for seed in 0..400 {
        let Ok(trace) = check(&traces::trace(seed)) else {
            continue;
        };
        let mut pool = Pool::fresh(trace.settings);
        for &(page, kind) in &trace.records {
            let before = pool.clone();
            let step = pool.step(page, kind);
            assert!(sound(&pool), "seed {seed}, {before:?}, {page} {kind:?}");
            match step {
                Ok((at, _)) => assert_eq!(pool.frames[at].page, page),
                Err(_) => assert_eq!(before, pool),
            }
            for (name, occurred) in rare(&before, &pool, kind, &step) {
                *seen.entry(name).or_insert(false) |= occurred;
            }
        }
    }
    assert!(seen.values().all(|seen| *seen), "{seen:?}");
}

#[test]
fn series_reach_the_end() {
    for seed in 0..12 {
        let (mut long, mut refused_9, mut refused_15) = (0, false, false);
        list_series(&traces::series(seed), &mut |result| match result {
            Ok(replayed) => {
                long += u32::from(replayed.rows.len() >= 7_000);
                refused_9 |= replayed.rows.iter().any(|row| row[0] == 109);
            }
            Err(refusal) => refused_15 |= *refusal == 15,
        });
        assert!(long >= 8 && refused_9 && refused_15, "seed {seed}");
    }
}

#[test]
fn stored_series_has_its_outcomes() {
    let mut seen = Vec::new();
    list_series(&traces::stored(), &mut |result| {
        seen.push(match result {
            Ok(replayed) => {
                let outcomes = replayed.rows.iter().map(|row| row[0]).collect();
                let frames = replayed.pool.settings.frames;
                Ok((outcomes, replayed.tally.evictions > frames))
            }
            Err(refusal) => Err(*refusal),
        });
    });
    let all = BTreeSet::from([0, 1, 2, 3, 4, 110, 111]);
    assert_eq!(seen[1..4], [(); 3].map(|_| Ok((all.clone(), true))));
    assert!(seen[4].is_ok() && seen[5].is_ok() && seen[8].is_ok());
    assert_eq!((&seen[6], &seen[7], seen.len()), (&Err(15), &Err(8), 9));
}
