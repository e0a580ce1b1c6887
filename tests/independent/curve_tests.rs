//! Curves and pictures worked by hand, their refusals, and that what a comparison needs
//! comes up.

use crate::curve::*;
use crate::curve_traces::{made, sorts, Sort, DISTANCES};
use crate::fixed::{example, example_low, refused_traces};
use crate::fixed_curves::{lines_of, picture_of_the_example};
use crate::picture::{self, picture, x, Axis};
use crate::replay::{check, Order, Rule, Settings};
use crate::tests::{reads, settings, BOTH, P, R, U, W};
use crate::traces::{encode, put};
use std::collections::BTreeSet;

/// A curve that begins so and goes on with its last number.
fn begins(front: &[u32]) -> Curve {
    std::array::from_fn(|i| front[i.min(front.len() - 1)])
}

/// The curve of these records, the same by every rule, with any frames, in either order.
fn curve_of(records: &[(u32, u32)]) -> Curve {
    let mut found = BTreeSet::new();
    for (rule, frames) in [(Rule::Lru, 1), (Rule::Clock, 128), (Rule::Watt, 5)] {
        for order in BOTH {
            let bytes = encode(&settings(rule, frames), order, records);
            found.insert(curve(&bytes, SIZES).unwrap());
        }
    }
    assert_eq!(found.len(), 1);
    found.pop_first().unwrap()
}

fn of_reads(pages: &[u32]) -> Curve {
    curve_of(&reads(pages))
}

// ---------------------------------------------------------------- the curve

#[test]
fn curves_worked_by_hand() {
    assert_eq!(of_reads(&[]), [0; 128]);
    assert_eq!(of_reads(&[7]), [1; 128]);
    assert_eq!(of_reads(&[7, 7, 7]), [1; 128]);
    assert_eq!(of_reads(&[7, 8, 7]), begins(&[3, 2]));
    assert_eq!(of_reads(&[0, u32::MAX, 0, u32::MAX]), begins(&[4, 2]));
    // With 2 frames each page has left when it comes again; with 3 the last 1 has left
    // for 4, since 2 and 3 came after it; with 4 all stay.
    assert_eq!(of_reads(&[1, 2, 3, 1, 2, 3, 4, 1]), begins(&[8, 8, 5, 4]));
    // Between two uses of 1: 2 and 3; of 2: 3 and 1; of 3, three times: nothing, 1 and 2,
    // nothing.
    assert_eq!(of_reads(&[1, 2, 3, 3, 1, 2, 3, 3]), begins(&[6, 6, 3]));
    assert_eq!(of_reads(&[1, 2, 1, 1, 2, 3, 2]), begins(&[6, 3]));
    // Of the paper's example; a write is a use like another.
    assert_eq!(curve(&example(), SIZES), Ok(begins(&[5, 4, 3])));
    assert_eq!(curve(&example_low(), SIZES), Ok(begins(&[5, 4, 3])));
    assert_eq!(curve_of(&[(7, W), (8, R), (7, W), (8, W)]), begins(&[4, 2]));
}

#[test]
fn distances_at_the_greatest_pool() {
    for (between, frames) in [(0, 1), (1, 2), (126, 127), (127, 128)] {
        let pages: Vec<u32> = (0..=between).chain([0]).collect();
        let uses = pages.len() as u32;
        let expected: Curve = std::array::from_fn(|i| if i + 1 < frames { uses } else { uses - 1 });
        assert_eq!(of_reads(&pages), expected, "{between}");
    }
    for between in [128, 129] {
        let pages: Vec<u32> = (0..=between).chain([0]).collect();
        assert_eq!(of_reads(&pages), [between + 2; 128], "{between}");
    }
}

#[test]
fn sweeps_at_the_greatest_pool() {
    let thrice = |pages: u32| -> Vec<u32> { (0..3 * pages).map(|page| page % pages).collect() };
    let mut expected = [3 * 128; 128];
    expected[127] = 128;
    assert_eq!(of_reads(&thrice(128)), expected);
    let mut expected = [3 * 127; 128];
    (expected[126], expected[127]) = (127, 127);
    assert_eq!(of_reads(&thrice(127)), expected);
    assert_eq!(of_reads(&thrice(129)), [3 * 129; 128]);
}

#[test]
fn refusals_in_their_order() {
    for order in BOTH {
        let plain = settings(Rule::Watt, 2);
        for (number, bytes) in (1..).zip(refused_traces(order)) {
            assert_eq!(curve(&bytes, SIZES), Err(number));
            assert_eq!(curve(&bytes, 0), Err(number));
        }
        let good = encode(&plain, order, &[(7, R), (8, W)]);
        assert_eq!(curve(&good, 127), Err(13));
        assert_eq!(curve(&good, 0), Err(13));
        assert_eq!(curve(&good, 129), Ok(begins(&[2])));
        for kind in [P, U] {
            for records in [[(7, kind), (8, W)], [(8, W), (7, kind)]] {
                let mut bytes = encode(&plain, order, &records);
                assert_eq!(curve(&bytes, SIZES), Err(17));
                assert_eq!(curve(&bytes, 127), Err(17));
                put(&mut bytes, order, 26, 2, 129);
                assert_eq!(curve(&bytes, 0), Err(8));
                put(&mut bytes, order, 16, 4, 2);
                assert_eq!(curve(&bytes, 0), Err(7));
            }
        }
    }
}

#[test]
fn curves_as_lines() {
    let text = told(&example());
    assert!(text.starts_with("1 5\n2 4\n3 3\n4 3\n"));
    assert!(text.ends_with("\n127 3\n128 3\nnever rises\n"));
    assert_eq!((text.lines().count(), &text), (129, &lines_of(&[5, 4, 3])));
    // Of no records, too.
    let empty = encode(&settings(Rule::Clock, 3), Order::HighFirst, &[]);
    assert!(told(&empty).ends_with("\n128 0\nnever rises\n"));
    assert_eq!(told(b""), "trace refused 1\n");
    let pinned = encode(&settings(Rule::Lru, 1), Order::LowFirst, &[(7, P)]);
    assert_eq!(told(&pinned), "trace refused 17\n");
}

// -------------------------------------------------------------- the picture

#[test]
fn steps_of_the_axis() {
    let steps = [
        (0, 1, 1),
        (1, 1, 1),
        (2, 1, 2),
        (9, 1, 9),
        (10, 1, 10),
        (11, 2, 6),
        (12, 2, 6),
        (20, 2, 10),
        (21, 5, 5),
        (25, 5, 5),
        (26, 5, 6),
        (50, 5, 10),
        (51, 10, 6),
        (100, 10, 10),
        (101, 20, 6),
        (201, 50, 5),
        (501, 100, 6),
        (1_000, 100, 10),
        (1_001, 200, 6),
        (2_001, 500, 5),
        (5_000, 500, 10),
        (5_001, 1_000, 6),
        (8_000, 1_000, 8),
    ];
    for (most, step, steps) in steps {
        assert_eq!(Axis::of(most), Axis { step, steps }, "{most}");
    }
}

#[test]
fn places_of_misses_and_frames() {
    assert_eq!([1, 16, 64, 128].map(x), [200, 380, 956, 1_724]);
    assert_eq!([0, 1].map(|misses| Axis::of(0).y(misses)), [940, 180]);
    let three = Axis::of(3);
    // A third of 760 is 253 and a third, two thirds 506 and two thirds.
    assert_eq!(
        [0, 1, 2, 3].map(|misses| three.y(misses)),
        [940, 687, 434, 180]
    );
    // Twelve is the end of the axis for eleven: 696 and two thirds.
    assert_eq!([11, 12].map(|misses| Axis::of(11).y(misses)), [244, 180]);
    // Less than one and more than nothing.
    assert_eq!([1, 11].map(|misses| Axis::of(8_000).y(misses)), [940, 939]);
    assert_eq!(
        [7_999, 8_000].map(|misses| Axis::of(8_000).y(misses)),
        [181, 180]
    );
}

#[test]
fn pictures_worked_by_hand() {
    assert_eq!(picture::told(&example()), picture_of_the_example());
    assert_eq!(picture::told(&example_low()), picture_of_the_example());
    assert_eq!(picture::told(b""), "trace refused 1\n");
    let empty = picture::told(&encode(&settings(Rule::Watt, 128), Order::LowFirst, &[]));
    for part in [
        "\n<text x=\"200\" y=\"112\">records 0</text>\n",
        "stroke-width=\"2\">\n<path d=\"M200 180H1724\"/>\n</g>\n",
        "\n<text x=\"180\" y=\"951\">0</text>\n<text x=\"180\" y=\"191\">1</text>\n</g>\n",
        "\n<path d=\"M1724 940V952\"/>\n<path d=\"M1724 940V180\" stroke-dasharray",
        "points=\"200,940 212,940 ",
        " 1712,940 1724,940\" fill",
        "<circle cx=\"1724\" cy=\"940\" r",
        "<text x=\"1724\" y=\"152\" text-anchor=\"end\">own size: frames 128, misses 0</text>\n",
    ] {
        assert!(empty.contains(part), "{part}");
    }
    assert_eq!(
        empty.lines().count(),
        picture_of_the_example().lines().count() - 8
    );
}

#[test]
fn own_sizes_to_the_left_and_to_the_right() {
    for (frames, anchor) in [(1, "start"), (64, "start"), (65, "end"), (128, "end")] {
        let bytes = encode(&settings(Rule::Lru, frames), Order::HighFirst, &reads(&[7]));
        let at = 188 + 12 * frames;
        let line = format!(
            "<text x=\"{at}\" y=\"152\" text-anchor=\"{anchor}\">own size: frames {frames}, misses 1</text>\n"
        );
        assert!(picture::told(&bytes).contains(&line), "{line}");
    }
}

/// What stands in braces in the published lines, for the example.
const NUMBERS: [(&str, &str); 10] = [
    ("{R}", "5"),
    ("{y(S)}", "788"),
    ("{y(0) + 11}", "951"),
    ("{y(S) + 11}", "799"),
    ("{S}", "1"),
    ("{x(16)}", "380"),
    ("{x(F)}", "212"),
    ("{y(M(F))}", "332"),
    ("{F}", "2"),
    ("{M(F)}", "4"),
];

/// Each line of the layout that is published stands in the picture, in this order, and
/// where the layout does not go on by dots there is none between.
#[test]
fn the_picture_is_the_published_one() {
    let layout = include_str!("../../docs/LAYOUT.md");
    let from = layout.find("<svg xmlns").unwrap();
    let published = &layout[from..from + layout[from..].find("```").unwrap()];
    let text = picture_of_the_example();
    let mut lines = text.lines().peekable();
    for line in published.lines() {
        if line.starts_with(" .. ") {
            // More of the last line's kind.
            while lines
                .next_if(|line| {
                    !line.contains("stroke-dasharray") && !line.contains("1050") && *line != "</g>"
                })
                .is_some()
            {}
            continue;
        }
        let mut line = line.to_string();
        for (name, number) in NUMBERS {
            line = line.replace(name, number);
        }
        if let Some((front, behind)) = line.split_once("{y(M(1))}") {
            let drawn = lines.next().unwrap();
            assert!(drawn.starts_with(&format!("{front}180 212,332 ")));
            assert!(drawn.ends_with(&behind[behind.find("\" fill").unwrap()..]));
            continue;
        }
        assert_eq!(lines.next(), Some(line.as_str()));
    }
    assert_eq!(lines.next(), None);
}

#[test]
fn pictures_of_other_curves_differ() {
    let trace = check(&example()).unwrap();
    let of = |front: &[u32]| picture(&trace, &begins(front));
    assert_eq!(of(&[5, 4, 3]), picture_of_the_example());
    assert_ne!(of(&[5, 4, 2]), of(&[5, 4, 3]));
    let mut last = begins(&[5, 4, 3]);
    last[127] = 2;
    assert_ne!(picture(&trace, &last), picture_of_the_example());
}

// ------------------------------------------------------- what is compared

#[test]
fn traces_are_of_their_sorts() {
    let turn = sorts().len() as u64;
    for seed in 0..2 * turn {
        let made = made(seed);
        let trace = check(&made.bytes);
        let different = |pages: &[u32]| pages.iter().collect::<BTreeSet<_>>().len();
        match made.sort {
            Sort::Damaged(refusal) | Sort::PinnedAndDamaged(refusal) => {
                assert_eq!(trace, Err(refusal), "{seed}");
            }
            Sort::Pin | Sort::Unpin => {
                assert_eq!(of_trace(&trace.unwrap(), SIZES), Err(17), "{seed}");
            }
            sort => {
                let pages = trace.unwrap().pages();
                let holds = match sort {
                    Sort::Empty => pages.is_empty(),
                    Sort::OneRecord => pages.len() == 1,
                    Sort::OnePage => different(&pages) == 1,
                    Sort::AllDifferent => different(&pages) == pages.len(),
                    Sort::EndsOfPages => pages.contains(&0) && pages.contains(&u32::MAX),
                    Sort::Sweep(among) => different(&pages) == among as usize,
                    Sort::Longest => pages.len() == 8_000,
                    _ => !pages.is_empty(),
                };
                assert!(holds, "{seed}, {sort:?}");
            }
        }
    }
    assert_eq!(made(7).bytes, made(7).bytes);
}

/// A page that comes again at a distance is a hit from one more frame on, and no sooner.
#[test]
fn distances_are_seen_in_the_curve() {
    let turns = sorts().len() as u64;
    let made = (0..3 * turns).map(made);
    for (sort, bytes) in made.map(|made| (made.sort, made.bytes)) {
        if let Sort::Distance(between) = sort {
            let curve = curve(&bytes, SIZES).unwrap();
            let at = between as usize;
            assert!(DISTANCES.contains(&between));
            if (1..128).contains(&at) {
                assert!(curve[at] < curve[at - 1], "{between}");
            }
        }
    }
}

#[test]
fn the_settings_that_stay_do_not_matter() {
    let pages: Vec<u32> = (0..400).map(|i| i * i % 97).collect();
    let records: Vec<(u32, u32)> = (0..).zip(&pages).map(|(i, page)| (*page, i % 2)).collect();
    let other = Settings {
        batch: 16,
        cap: 7,
        sample: 16,
        weight: 16,
        epoch: 50_000,
        seed: u32::MAX,
        ..settings(Rule::Watt, 77)
    };
    let bytes = encode(&other, Order::HighFirst, &records);
    assert_eq!(curve(&bytes, SIZES), Ok(curve_of(&records)));
    assert_eq!(curve_of(&records), of_reads(&pages));
}
