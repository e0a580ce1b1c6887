//! That the check of inclusion finds what is amiss: in pools and rows made up for it, and
//! in replays by the rules of which nothing is promised, worked by hand.

use crate::fixed_curves::{clock_rises, watt_rises};
use crate::inclusion::*;
use crate::inclusion_traces::{made, sorts, SIZES};
use crate::replay::{check, tally_of, Kind, Order, Rule, Settings, Trace};
use crate::tests::{run, settings};
use std::collections::BTreeSet;

fn misses(course: &Course) -> usize {
    course.records.iter().filter(|after| !after.hit).count()
}

/// A course of hits and misses with what is held after each.
fn course<const N: usize>(frames: usize, records: [(bool, &[u32]); N]) -> Course {
    let after = |(hit, held): (bool, &[u32])| After {
        hit,
        held: held.to_vec(),
    };
    Course {
        frames,
        records: records.map(after).to_vec(),
    }
}

const HIT: bool = true;
const MISS: bool = false;

// ------------------------------------------------------------ what is rebuilt

const PAGES: [u32; 6] = [7, 8, 7, 9, 8, 0];

/// Of LRU with 2 frames: 8 leaves for 9, 7 dirty for 8, and 9 for 0.
const ROWS: [Row; 6] = [
    [1, 0, 0, 0],
    [1, 1, 0, 0],
    [0, 0, 0, 0],
    [2, 1, 8, 0],
    [3, 0, 7, 2],
    [2, 1, 9, 0],
];

#[test]
fn pools_are_rebuilt_from_rows() {
    let expected = course(
        2,
        [
            (MISS, &[7]),
            (MISS, &[7, 8]),
            (HIT, &[7, 8]),
            (MISS, &[7, 9]),
            (MISS, &[8, 9]),
            (MISS, &[8, 0]),
        ],
    );
    assert_eq!(Course::rebuilt(2, &PAGES, &ROWS).as_ref(), Ok(&expected));
    assert_eq!(expect_filled(&PAGES, &expected), Ok(()));
}

/// Rows that cannot be where they stand, one at a time in the place of one that can.
#[test]
fn rows_that_cannot_be_are_refused() {
    let wrong: [(usize, Row); 17] = [
        // Refused, unpinned, or no outcome at all.
        (0, [109, 0, 0, 0]),
        (2, [110, 0, 0, 0]),
        (2, [4, 0, 0, 0]),
        (2, [5, 0, 0, 0]),
        // A hit of what is not there, in another frame, or with more to it.
        (0, [0, 0, 0, 0]),
        (2, [0, 1, 0, 0]),
        (2, [0, 0, 7, 0]),
        (2, [0, 0, 0, 1]),
        // An unused frame that is not the lowest, that is in use, or that is not there.
        (1, [1, 2, 0, 0]),
        (1, [1, 0, 0, 0]),
        (3, [1, 2, 0, 0]),
        // A page that leaves a pool with room, another frame, clean with a batch, dirty
        // without one, or to come back at once.
        (1, [2, 0, 7, 0]),
        (3, [2, 0, 8, 0]),
        (3, [2, 2, 8, 0]),
        (3, [2, 1, 8, 1]),
        (4, [3, 0, 7, 0]),
        (2, [2, 0, 7, 0]),
    ];
    for (at, row) in wrong {
        let mut rows = ROWS;
        rows[at] = row;
        let fault = Course::rebuilt(2, &PAGES, &rows).unwrap_err();
        assert!(fault.starts_with(&format!("record {} ", at + 1)), "{fault}");
    }
    for count in [0, 5, 7] {
        let rows: Vec<Row> = ROWS.into_iter().cycle().take(count).collect();
        let fault = Course::rebuilt(2, &PAGES, &rows).unwrap_err();
        let told = format!("{count} records in place of 6, frames 2");
        assert_eq!(fault, told);
    }
}

#[test]
fn rows_are_taken_from_a_listing() {
    let listing = "rows 2\n1 0 0 0\n2 0 7 0\nwritten 0\n";
    assert_eq!(listed_rows(listing), Some(vec![[1, 0, 0, 0], [2, 0, 7, 0]]));
    assert_eq!(listed_rows("rows 0\nwritten 0\n"), Some(Vec::new()));
    for wrong in [
        "",
        "trace refused 5\n",
        "rows\n",
        "rows x\n1 0 0 0\n",
        "rows 2\n1 0 0 0\n",
        "rows 2\n1 0 0 0\nwritten 0\n",
        "rows 1\n1 0 0\n",
        "rows 1\n1 0 0 0 0\n",
        "rows 1\n1 0 0 -1\n",
    ] {
        assert_eq!(listed_rows(wrong), None, "{wrong:?}");
    }
}

// ----------------------------------------------------------- what is complained of

#[test]
fn pools_that_are_not_filled_are_found() {
    let pages = [5, 6, 5];
    let good: [(bool, &[u32]); 3] = [(MISS, &[5]), (MISS, &[5, 6]), (HIT, &[5, 6])];
    assert_eq!(expect_filled(&pages, &course(2, good)), Ok(()));
    assert_eq!(expect_filled(&pages, &course(9, good)), Ok(()));
    let wrong: [(usize, (bool, &[u32])); 9] = [
        // Empty, or a page too few; twice the same; a page that never came, or not yet.
        (1, (MISS, &[])),
        (1, (MISS, &[6])),
        (1, (MISS, &[6, 6])),
        (2, (HIT, &[5, 9])),
        (0, (MISS, &[6])),
        // A page too many; not the record's own page; a hit that is none; no hit that is.
        (0, (MISS, &[5, 6])),
        (1, (MISS, &[5, 5])),
        (1, (HIT, &[5, 6])),
        (2, (MISS, &[5, 6])),
    ];
    for (at, after) in wrong {
        let mut records = good;
        records[at] = after;
        let fault = expect_filled(&pages, &course(2, records)).unwrap_err();
        let front = format!("record {} of page {}, frames 2: ", at + 1, pages[at]);
        assert!(fault.starts_with(&front), "{fault}");
    }
    // A pool of one frame has room for one, and none is left out.
    assert!(expect_filled(&pages, &course(1, good)).is_err());
    let told = Err("3 records in place of 2, frames 2".to_string());
    assert_eq!(expect_filled(&pages[..2], &course(2, good)), told);
    assert!(expect_filled(&[5, 6, 5, 5], &course(2, good)).is_err());
}

#[test]
fn pools_that_are_not_included_are_found() {
    let small = course(1, [(MISS, &[1]), (MISS, &[2]), (MISS, &[1]), (HIT, &[1])]);
    let large = course(
        2,
        [
            (MISS, &[1]),
            (MISS, &[1, 2]),
            (HIT, &[1, 2]),
            (HIT, &[1, 2]),
        ],
    );
    let pages = [1, 2, 1, 1];
    assert_eq!(expect_included(&pages, &small, &large), Ok(()));
    assert_eq!(expect_included(&pages, &small, &small), Ok(()));
    // The last page alone, in the last frame, is the one that is lacking.
    let mut other = large.clone();
    other.records[3].held = vec![3, 2];
    let told = "record 4, frames 1 and 2: page 1 is in the smaller pool alone";
    assert_eq!(expect_held(&small, &other), Err(told.to_string()));
    let told = "record 2, frames 2 and 1: page 1 is in the smaller pool alone";
    assert_eq!(expect_held(&large, &small), Err(told.to_string()));
    // A hit in the smaller pool alone, made up for by no hit before it.
    let mut other = large.clone();
    (other.records[2].hit, other.records[3].hit) = (false, false);
    let told = "record 4, frames 1 and 2: a hit in the smaller pool alone";
    assert_eq!(expect_hits(&small, &other), Err(told.to_string()));
    let told = "record 4, frames 1 and 2: 3 misses, and with a frame more 4";
    assert_eq!(expect_misses(&small, &other), Err(told.to_string()));
    // With a hit before it, the misses of no beginning are more.
    other.records[2].hit = true;
    assert_eq!(expect_misses(&small, &other), Ok(()));
    assert!(expect_hits(&small, &other).is_err());
}

/// A beginning may have more misses where the whole has not.
#[test]
fn misses_are_those_of_every_beginning() {
    let small = course(1, [(MISS, &[1]), (HIT, &[1]), (MISS, &[1]), (MISS, &[1])]);
    let large = course(2, [(MISS, &[1]), (MISS, &[1]), (HIT, &[1]), (HIT, &[1])]);
    let told = "record 2, frames 1 and 2: 1 misses, and with a frame more 2";
    assert_eq!(expect_misses(&small, &large), Err(told.to_string()));
    assert!(misses(&large) < misses(&small));
}

// ------------------------------------------------------ where nothing is promised

#[test]
fn the_rising_traces_are_the_published_ones() {
    let [high, low] = [Order::HighFirst, Order::LowFirst];
    assert_eq!(
        clock_rises(high),
        include_bytes!("../../traces/clock-rises-high.trace")
    );
    assert_eq!(
        clock_rises(low),
        include_bytes!("../../traces/clock-rises-low.trace")
    );
    assert_eq!(
        watt_rises(high),
        include_bytes!("../../traces/watt-rises-high.trace")
    );
    assert_eq!(
        watt_rises(low),
        include_bytes!("../../traces/watt-rises-low.trace")
    );
}

/// Replays the trace with 2 and with 3 frames by a rule, and holds the rows against those
/// worked by hand; gives the courses.
fn by_hand(trace: &Trace, rule: Rule, rows: [&[Row]; 2]) -> [Course; 2] {
    let records: Vec<(u32, u32)> = trace
        .records
        .iter()
        .map(|&(page, kind)| (page, kind as u32))
        .collect();
    let pages = trace.pages();
    [(2, rows[0]), (3, rows[1])].map(|(frames, rows)| {
        let settings = trace.settings.with(rule, frames);
        assert_eq!(run(settings, &records).0, rows, "{frames}");
        let course = Course::replayed(settings, &trace.records).unwrap();
        assert_eq!(
            Course::rebuilt(frames as usize, &pages, rows).as_ref(),
            Ok(&course)
        );
        assert_eq!(expect_filled(&pages, &course), Ok(()));
        let counted = tally_of(settings, &trace.records).misses as usize;
        assert_eq!(counted, misses(&course));
        course
    })
}

/// The courses by a rule rise from so many misses to so many, and what is amiss is told of
/// these records.
fn expect_rise([smaller, larger]: &[Course; 2], counts: [usize; 2], told: [&str; 3]) {
    assert_eq!([misses(smaller), misses(larger)], counts);
    let faults = [
        expect_held(smaller, larger),
        expect_hits(smaller, larger),
        expect_misses(smaller, larger),
    ];
    for (fault, told) in faults.into_iter().zip(told) {
        let (number, what) = told.split_once(": ").unwrap();
        let told = format!("record {number}, frames 2 and 3: {what}");
        assert_eq!(fault, Err(told));
    }
}

/// Reads of 1 2 1 2 3 4 3 with a cap of 2. With 2 frames both counts are 2 when 3 comes:
/// the hand goes around twice and rests on frame 0. Page 2 has count 0 then, so 4 takes
/// its frame, and 3 is still there. With 3 frames 3 has a frame of its own, but a count
/// of 1: when 4 comes, the hand passes 1 and 2 twice and 3 once, and rests on 3, which is
/// missed at the end.
#[test]
fn generalised_clock_rises() {
    let trace = check(&clock_rises(Order::HighFirst)).unwrap();
    let with_two = [
        [1, 0, 0, 0],
        [1, 1, 0, 0],
        [0, 0, 0, 0],
        [0, 1, 0, 0],
        [2, 0, 1, 0],
        [2, 1, 2, 0],
        [0, 0, 0, 0],
    ];
    let with_three = [
        [1, 0, 0, 0],
        [1, 1, 0, 0],
        [0, 0, 0, 0],
        [0, 1, 0, 0],
        [1, 2, 0, 0],
        [2, 2, 3, 0],
        [2, 0, 1, 0],
    ];
    let courses = by_hand(&trace, Rule::Clock, [&with_two, &with_three]);
    let told = [
        "6: page 3 is in the smaller pool alone",
        "7: a hit in the smaller pool alone",
        "7: 4 misses, and with a frame more 5",
    ];
    expect_rise(&courses, [4, 5], told);
}

/// Reads of 1 2 3 1 4 2 4, three in an epoch, and so many draws that every frame is drawn.
/// With 2 frames all logs have one entry when a page is to leave, of an age that counts
/// as 1: always a tie, so frame 0 is taken for 3, 1 and 4, and 2 stays. With 3 frames 1
/// is hit in the second epoch; its log 1, 0 is worth 2 over 1 against tenths. So frame 1
/// is taken by a tie, for 4 and for 2, and at the end, in the third epoch, 3 leaves with
/// a twentieth.
#[test]
fn watt_rises_too() {
    let trace = check(&watt_rises(Order::HighFirst)).unwrap();
    let with_two = [
        [1, 0, 0, 0],
        [1, 1, 0, 0],
        [2, 0, 1, 0],
        [2, 0, 3, 0],
        [2, 0, 1, 0],
        [0, 1, 0, 0],
        [0, 0, 0, 0],
    ];
    let with_three = [
        [1, 0, 0, 0],
        [1, 1, 0, 0],
        [1, 2, 0, 0],
        [0, 0, 0, 0],
        [2, 1, 2, 0],
        [2, 1, 4, 0],
        [2, 2, 3, 0],
    ];
    let courses = by_hand(&trace, Rule::Watt, [&with_two, &with_three]);
    let told = [
        "5: page 2 is in the smaller pool alone",
        "6: a hit in the smaller pool alone",
        "7: 5 misses, and with a frame more 6",
    ];
    expect_rise(&courses, [5, 6], told);
}

/// All lists of so many pages, those that are alike but for the pages' names once: a page
/// that is new is the least that did not come yet.
fn page_lists(count: usize) -> Vec<Vec<u32>> {
    let mut lists = vec![Vec::new()];
    for _ in 0..count {
        let longer = |list: &Vec<u32>| {
            let new = list.iter().max().map_or(1, |most| most + 1);
            (1..=new)
                .map(|page| [list.as_slice(), &[page]].concat())
                .collect::<Vec<_>>()
        };
        lists = lists.iter().flat_map(longer).collect();
    }
    lists
}

/// Whether reads of these pages rise with a frame more, whatever the size.
fn rises(settings: Settings, pages: &[u32]) -> bool {
    let reads: Vec<(u32, Kind)> = pages.iter().map(|&page| (page, Kind::Read)).collect();
    let counts = (1..=pages.len() as u32).map(|frames| {
        let course = Course::replayed(settings.with(settings.rule, frames), &reads).unwrap();
        misses(&course)
    });
    let counts: Vec<usize> = counts.collect();
    counts.windows(2).any(|two| two[0] < two[1])
}

/// With their settings no shorter trace of reads rises.
#[test]
fn the_rising_traces_are_the_shortest() {
    for bytes in [clock_rises(Order::HighFirst), watt_rises(Order::HighFirst)] {
        let trace = check(&bytes).unwrap();
        for count in 1..trace.records.len() {
            for pages in page_lists(count) {
                assert!(!rises(trace.settings, &pages), "{pages:?}");
            }
        }
        assert!(page_lists(trace.records.len()).contains(&trace.pages()));
        assert!(rises(trace.settings, &trace.pages()));
    }
}

/// The same traces by LRU do not.
#[test]
fn lru_does_not_rise_there() {
    for (bytes, counts) in [
        (clock_rises(Order::LowFirst), [7, 4, 4, 4]),
        (watt_rises(Order::LowFirst), [7, 6, 5, 4]),
    ] {
        let trace = check(&bytes).unwrap();
        let pages = trace.pages();
        let courses = [1, 2, 3, 4].map(|frames| {
            let settings = trace.settings.with(Rule::Lru, frames);
            Course::replayed(settings, &trace.records).unwrap()
        });
        assert_eq!(courses.each_ref().map(misses), counts);
        for pair in courses.windows(2) {
            assert_eq!(expect_included(&pages, &pair[0], &pair[1]), Ok(()));
        }
    }
}

/// A record that is refused is told of.
#[test]
fn refused_records_are_found() {
    let pinned = [(1, Kind::Pin), (2, Kind::Read)];
    let fault = Course::replayed(settings(Rule::Lru, 1), &pinned);
    assert_eq!(fault, Err("record 2 is refused by 10".to_string()));
}

// ------------------------------------------------------------ what is compared

/// In so many seeds every sort has come with every size that it is for.
const ROUND: u64 = 60;

#[test]
fn every_size_and_sort_comes_up() {
    let (mut sizes, mut found) = (BTreeSet::new(), BTreeSet::new());
    for made in (0..ROUND).map(made) {
        let trace = check(&made.bytes).unwrap();
        let pinned = |(_, kind): &(u32, Kind)| matches!(kind, Kind::Pin | Kind::Unpin);
        assert!(!trace.records.is_empty() && !trace.records.iter().any(pinned));
        found.insert(made.sort);
        sizes.extend(made.sizes);
    }
    assert_eq!(sizes, BTreeSet::from(SIZES));
    assert_eq!(found, sorts(&SIZES).into_iter().collect());
    assert_eq!(made(7).bytes, made(7).bytes);
}
