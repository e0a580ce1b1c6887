//! The fixed cases of a session on curves and their pictures. What every command does
//! with a trace that is refused, a file that is not there or a full device is tried
//! with all of them.

use crate::cases::{Case, Output};
use crate::curve;
use crate::fixed::{example, example_low, fed, many, refused_traces, PLAIN};
use crate::picture;
use crate::program::{Bytes, Command};
use crate::replay::{Order, Rule, Settings};
use crate::traces::{encode, put, PIN, READ, UNPIN, WRITE};

/// The lines of a curve that begins so and goes on with its last number.
pub fn lines_of(front: &[u32]) -> String {
    let last = front.last().copied().unwrap_or(0);
    let misses = |frames: usize| front.get(frames - 1).copied().unwrap_or(last);
    let sizes = (1..=128).map(|frames| format!("{frames} {}\n", misses(frames)));
    sizes.collect::<String>() + "never rises\n"
}

/// The polyline of the example: 760 of height for 5 misses, so 608 for 4 and 456 for 3.
fn points_of_the_example() -> String {
    let rest: Vec<String> = (3..=128)
        .map(|frames| format!("{},484", 188 + 12 * frames))
        .collect();
    format!("200,180 212,332 {}", rest.join(" "))
}

/// The picture of the paper's example, worked by hand but for the points that are alike.
pub fn picture_of_the_example() -> String {
    r##"<svg xmlns="http://www.w3.org/2000/svg" width="180mm" height="115mm" viewBox="0 0 1800 1150" font-family="sans-serif" font-size="32">
<title>LRU misses by pool size</title>
<rect width="1800" height="1150" fill="white"/>
<text x="200" y="64" font-size="48">LRU misses by pool size</text>
<text x="200" y="112">records 5</text>
<g fill="none" stroke="#bbb" stroke-width="2">
<path d="M200 788H1724"/>
<path d="M200 636H1724"/>
<path d="M200 484H1724"/>
<path d="M200 332H1724"/>
<path d="M200 180H1724"/>
</g>
<g text-anchor="end">
<text x="180" y="951">0</text>
<text x="180" y="799">1</text>
<text x="180" y="647">2</text>
<text x="180" y="495">3</text>
<text x="180" y="343">4</text>
<text x="180" y="191">5</text>
</g>
<g text-anchor="middle">
<text x="200" y="990">1</text>
<text x="380" y="990">16</text>
<text x="572" y="990">32</text>
<text x="764" y="990">48</text>
<text x="956" y="990">64</text>
<text x="1148" y="990">80</text>
<text x="1340" y="990">96</text>
<text x="1532" y="990">112</text>
<text x="1724" y="990">128</text>
<text x="962" y="1050">frames</text>
<text x="962" y="1110">never rises: more frames never cost more misses</text>
<text transform="translate(50 560) rotate(-90)">misses</text>
</g>
<g fill="none" stroke="black" stroke-width="3">
<path d="M200 180V940H1724"/>
<path d="M200 940V952"/>
<path d="M380 940V952"/>
<path d="M572 940V952"/>
<path d="M764 940V952"/>
<path d="M956 940V952"/>
<path d="M1148 940V952"/>
<path d="M1340 940V952"/>
<path d="M1532 940V952"/>
<path d="M1724 940V952"/>
<path d="M212 940V180" stroke-dasharray="12 10"/>
</g>
<polyline points="{points}" fill="none" stroke="black" stroke-width="6" stroke-linejoin="round"/>
<circle cx="212" cy="332" r="12" fill="white" stroke="black" stroke-width="5"/>
<text x="212" y="152" text-anchor="start">own size: frames 2, misses 4</text>
</svg>
"##
    .replace("{points}", &points_of_the_example())
}

pub fn fixed() -> Vec<Case> {
    [
        done(),
        whatever_rule_and_frames(),
        refused(),
        wrong_words(),
        standard_streams(),
        names(),
        rising(),
    ]
    .concat()
}

/// Reads of these pages with 3 frames.
fn reads_of(settings: Settings, order: Order, pages: [u32; 7]) -> Bytes {
    let records = pages.map(|page| (page, READ));
    let settings = Settings {
        frames: 3,
        ..settings
    };
    encode(&settings, order, &records)
}

/// By generalised clock it has 4 misses with 2 frames and 5 with 3.
pub fn clock_rises(order: Order) -> Bytes {
    let settings = Settings {
        rule: Rule::Clock,
        cap: 2,
        ..PLAIN
    };
    reads_of(settings, order, [1, 2, 1, 2, 3, 4, 3])
}

/// By WATT it has 5 misses with 2 frames and 6 with 3.
pub fn watt_rises(order: Order) -> Bytes {
    let settings = Settings {
        rule: Rule::Watt,
        sample: 16,
        epoch: 3,
        ..PLAIN
    };
    reads_of(settings, order, [1, 2, 3, 1, 4, 2, 4])
}

/// A quote that begins so; four different pages are fetched once each where all have room.
fn quote_of(below_four: &str) -> String {
    let names = "frames lru-misses lru-written clock-misses clock-written watt-misses watt-written";
    let with_room = [4, 8, 16, 32, 64, 128].map(|frames| format!("{frames} 4 0 4 0 4 0\n"));
    format!("{names}\n{below_four}{}", with_room.concat())
}

/// By the other rules a frame more may cost a miss more, and a quote shows it. The curve
/// is LRU's all the same, and never rises.
fn rising() -> Vec<Case> {
    let mut cases = Vec::new();
    for order in [Order::HighFirst, Order::LowFirst] {
        let clock = quote_of("1 7 0 7 0 7 0\n2 4 0 4 0 4 0\n3 4 0 5 0 4 0\n");
        let watt = quote_of("1 7 0 7 0 7 0\n2 6 0 6 0 5 0\n3 5 0 4 0 6 0\n");
        for (bytes, quote, misses) in [
            (clock_rises(order), clock, &[7, 4][..]),
            (watt_rises(order), watt, &[7, 6, 5, 4]),
        ] {
            cases.extend([
                Case::of("quote a").file("a", &bytes).gives(quote),
                Case::of("curve a").file("a", bytes).gives(lines_of(misses)),
            ]);
        }
    }
    cases
}

/// The words with and without `--svg`.
const BOTH: [&str; 2] = ["curve", "curve --svg"];

fn done() -> Vec<Case> {
    let reads = |pages: &[u32]| -> Bytes {
        let records: Vec<(u32, u32)> = pages.iter().map(|&page| (page, READ)).collect();
        encode(&PLAIN, Order::LowFirst, &records)
    };
    let picture = picture_of_the_example();
    let mut cases = vec![
        Case::of("curve good").gives(lines_of(&[5, 4, 3])),
        Case::of("curve low")
            .file("low", example_low())
            .gives(lines_of(&[5, 4, 3])),
        Case::of("curve a")
            .file("a", reads(&[1, 2, 3, 1, 2, 3, 4, 1]))
            .gives(lines_of(&[8, 8, 5, 4])),
        Case::of("curve a")
            .file("a", reads(&[9, 9, 9]))
            .gives(lines_of(&[1])),
        Case::of("curve a")
            .file("a", reads(&[]))
            .gives(lines_of(&[0])),
        Case::of("curve a")
            .file("a", reads(&[0, u32::MAX, 0]))
            .gives(lines_of(&[3, 2])),
        Case::of("curve --svg low")
            .file("low", example_low())
            .gives(&picture),
    ];
    // It may stand anywhere behind the command, and be given twice.
    for words in [
        "curve --svg good",
        "curve good --svg",
        "curve --svg good --svg",
        "curve --svg --svg good",
        "curve --svg -- good",
    ] {
        cases.push(Case::of(words).gives(&picture));
    }
    cases
}

/// The same records by each rule with the least, a middle and the most frames, in
/// either order: one curve, and pictures that tell the frames.
fn whatever_rule_and_frames() -> Vec<Case> {
    let mut cases = Vec::new();
    let records: Vec<(u32, u32)> = many(700)
        .into_iter()
        .map(|(page, kind)| (page * page % 141, kind))
        .collect();
    let lines = curve::told(&encode(&PLAIN, Order::HighFirst, &records));
    for rule in [Rule::Lru, Rule::Clock, Rule::Watt] {
        for (turn, frames) in [1, 64, 65, 128].into_iter().enumerate() {
            let settings = Settings {
                rule,
                frames,
                batch: 4,
                seed: frames,
                ..PLAIN
            };
            let order = [Order::HighFirst, Order::LowFirst][turn % 2];
            let bytes = encode(&settings, order, &records);
            cases.extend([
                Case::of("curve a").file("a", &bytes).gives(&lines),
                Case::of("curve --svg a")
                    .file("a", &bytes)
                    .gives(picture::told(&bytes)),
            ]);
        }
    }
    cases
}

/// Records with the kinds of a trace that has no curve, and those that would do.
const PINNED: [[u32; 4]; 5] = [
    [PIN, READ, READ, WRITE],
    [READ, WRITE, WRITE, PIN],
    [UNPIN, READ, WRITE, READ],
    [WRITE, READ, READ, UNPIN],
    [READ, PIN, UNPIN, READ],
];

fn pinned(order: Order, kinds: [u32; 4]) -> Bytes {
    let records: Vec<(u32, u32)> = (0..)
        .zip(kinds)
        .map(|(page, kind)| (page % 3, kind))
        .collect();
    encode(&PLAIN, order, &records)
}

/// By 17 after all that the trace itself is refused by.
fn refused() -> Vec<Case> {
    let mut cases = Vec::new();
    for order in [Order::HighFirst, Order::LowFirst] {
        for (number, bytes) in (1..).zip(refused_traces(order)) {
            let case = Case::of("curve --svg bad").file("bad", bytes);
            cases.push(case.refused(&format!("trace refused {number}")));
        }
        for kinds in PINNED {
            for words in BOTH {
                let case = Case::of(&format!("{words} bad")).file("bad", pinned(order, kinds));
                cases.push(case.refused("trace refused 17"));
            }
        }
        let damages = [
            (4, 2, 2, 3),
            (8, 4, 8_001, 4),
            (12, 4, 47, 5),
            (44, 4, 1, 6),
            // The kind of the record behind the pin.
            (60, 2, 4, 6),
            (16, 4, 3, 7),
            (24, 2, 3, 8),
            (26, 2, 0, 8),
            (26, 2, 129, 8),
            (36, 4, 50_001, 8),
        ];
        for (turn, (at, width, number, refusal)) in damages.into_iter().enumerate() {
            let mut bytes = pinned(order, PINNED[0]);
            put(&mut bytes, order, at, width, number);
            let words = format!("{} bad", BOTH[turn % 2]);
            let case = Case::of(&words).file("bad", bytes);
            cases.push(case.refused(&format!("trace refused {refusal}")));
        }
    }
    // Others take such a trace.
    let kinds = PINNED[1];
    for words in ["check a", "bench a", "quote a"] {
        let case = Case::of(words).file("a", pinned(Order::LowFirst, kinds));
        cases.push(case.status(0));
    }
    cases
}

/// Told before a file is looked for.
const WRONG_WORDS: &str = "\
curve good good
curve --svg good good
curve good new --svg
curve - -
curve --svg=1 good
curve --svg= good
curve -svg good
curve --SVG good
curve --sv good
curve --svgs good
curve svg good
curve --png good
curve --frames 4 good
curve --rule lru good
curve --seed 1 --svg good
curve --batch 8 good
curve --svg --order high good
curve --from good good
curve --save new good
curve --svg --save new good
curve good --frames
curve --svg --wrong
curve --frames --svg good
curve -- good --svg
curve -- --svg good
curves good
Curve good
--svg good
--svg curve good
set --frames --svg good new
import --order --svg text new
curve --wrong missing
curve --svg missing none/new
";

fn wrong_words() -> Vec<Case> {
    let mut cases: Vec<Case> = WRONG_WORDS.lines().map(Case::of).collect();
    for command in Command::ALL.into_iter().filter(|it| *it != Command::Curve) {
        let mut words = vec![command.name(), "--svg", "good"];
        words.extend(command.writes().then_some("new"));
        cases.push(Case::new(&words));
        // It has no value, so that what follows is a file.
        words.swap(1, 2);
        cases.push(Case::new(&words));
    }
    cases.push(Case::new(["curve", "--svg\n", "good"]));
    cases.push(Case::new(["curve", "--svg ", "good"]));
    let mut cases: Vec<Case> = cases.into_iter().map(|case| case.status(2)).collect();
    let helps = [
        "curve --svg --help",
        "curve --help --svg",
        "curve good new --svg --help",
        "curve --frames x --help",
        "check --svg --help",
        "bench --svg good --help",
    ];
    cases.extend(helps.map(|words| Case::of(words).status(0)));
    // As the value of an option it is none; `--help` behind it is.
    cases.push(Case::of("check --frames --svg --help").status(0));
    cases.push(Case::of("curve --frames --help").status(2));
    cases.push(Case::of("curve --svg -- --help").status(3));
    cases
}

fn standard_streams() -> Vec<Case> {
    let picture = picture_of_the_example();
    let svg = || Case::of("curve --svg");
    let mut cases = vec![
        svg().input(example()).gives(&picture),
        svg().input_from("good").gives(&picture),
        svg().input_closed().status(3),
        svg().input("").refused("trace refused 1"),
        svg().input(&example()[..50]).refused("trace refused 5"),
        svg()
            .input(pinned(Order::HighFirst, PINNED[2]))
            .refused("trace refused 17"),
        Case::of("curve - --svg").input(example()).gives(&picture),
        Case::of("curve --svg /dev/stdin")
            .input_from("good")
            .gives(&picture),
        Case::of("curve --svg good").input_closed().gives(&picture),
        Case::of("curve --svg good").error_closed().gives(&picture),
        Case::of("curve --svg missing").status(3),
        Case::of("curve --svg .").status(3),
        Case::of("curve --svg /dev/zero").refused("trace refused 2"),
        fed("curve fed", "good").gives(lines_of(&[5, 4, 3])),
        fed("curve --svg fed", "good").gives(&picture),
    ];
    for output in [Output::Full, Output::Closed] {
        for words in [
            "curve --svg good",
            "curve bad",
            "curve --svg bad",
            "curve --help",
        ] {
            let case = Case::of(words).file("bad", pinned(Order::LowFirst, PINNED[0]));
            cases.push(case.output(output).status(3));
        }
        let wrong = Case::of("curve --svg --frames 4 good").output(output);
        cases.push(wrong.status(2));
    }
    let most = encode(&PLAIN, Order::HighFirst, &many(8_000));
    cases.push(svg().input(&most).status(0));
    cases.push(svg().input(most).output(Output::Full).status(3));
    cases
}

fn names() -> Vec<Case> {
    let lines = lines_of(&[5, 4, 3]);
    vec![
        Case::of("curve -- --svg")
            .file("--svg", example())
            .gives(&lines),
        Case::of("curve -- --svg").status(3),
        Case::of("curve --svg -- --svg")
            .file("--svg", example())
            .gives(picture_of_the_example()),
        Case::of("check -- --svg")
            .file("--svg", example())
            .gives("accepted\n"),
        Case::of("set -- good --svg").gives(example()),
        Case::of("curve ./--svg")
            .file("--svg", example())
            .gives(&lines),
        Case::of("curve svg").file("svg", example()).gives(&lines),
        // As the value of another option it is a name.
        Case::of("bench --save --svg good").status(0),
    ]
}
