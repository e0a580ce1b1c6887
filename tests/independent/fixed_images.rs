//! The fixed cases of a session that are about images, most of them with what must
//! come stated by hand.

use crate::cases::{Case, Node, Output};
use crate::fixed::{example, example_low, fed, many, refused_traces, LISTING, OLD, PLAIN, SHEET};
use crate::image::{length_of, Held, HeldFrame, HEADER};
use crate::program::{Bytes, LONGEST_IMAGE, NUMBERS};
use crate::replay::{Order, Settings, MOST_REFERENCES};
use crate::traces::{encode, put};

// ------------------------------------------------------ the files of the cases

/// A frame that was read once, in the epoch of its last step.
fn once_read(page: u32, last: u32) -> HeldFrame {
    HeldFrame {
        page,
        last,
        count: 1,
        accesses: 1,
        access: [last, 0, 0, 0, 0, 0, 0, 0],
        ..HeldFrame::default()
    }
}

fn pool_of(k: u32, frames: [HeldFrame; 2]) -> Held {
    Held {
        settings: [0, 2, 1, 1, 1, 0, 1, 0],
        k,
        hand: 0,
        sampler: 0,
        frames: frames.to_vec(),
    }
}

/// The image of the pool that the paper's example leaves.
pub fn monday(order: Order) -> Bytes {
    pool_of(5, [once_read(8, 4), once_read(9, 3)]).encode(order)
}

/// The image of what the example leaves when it goes on from there.
fn tuesday(order: Order) -> Bytes {
    pool_of(10, [once_read(9, 8), once_read(8, 9)]).encode(order)
}

const MONDAY_TOLD: &str = "\
order high
policy lru
frames 2
batch 1
cap 1
sample 1
weight 0
epoch 1
seed 0
pool 5 0 0
frames 2
8 0 0 1 4 : 4 :
9 0 0 1 3 : 3 :
";

const TUESDAY_SHEET: &str = "\
policy lru
frames 2
records 5
hits 2
misses 3
evictions 3
batches 1
written 1
refused 0
";

const TUESDAY_LISTING: &str = "\
rows 5
2 1 9 0
0 0 0 0
0 1 0 0
3 0 8 1
2 1 7 0
written 1
8
pool 10 0 0
frames 2
9 0 0 1 8 : 8 :
8 0 0 1 9 : 9 :
hits 2
misses 3
evictions 3
batches 1
written 1
refused 0
";

/// A pool with everything in it that a line can tell.
fn full_of_things(order: Order) -> Bytes {
    let first = HeldFrame {
        page: u32::MAX,
        last: 4_659,
        pins: 255,
        count: 7,
        dirty: true,
        accesses: 8,
        writes: 4,
        access: [46, 45, 44, 43, 42, 41, 40, 39],
        write: [46, 30, 2, 0],
    };
    let second = HeldFrame {
        accesses: 1,
        ..HeldFrame::default()
    };
    let held = Held {
        settings: [2, 128, 16, 7, 15, 14, 100, 305_419_896],
        k: 4_660,
        hand: 127,
        sampler: u32::MAX,
        frames: vec![first, second],
    };
    held.encode(order)
}

const FULL_TOLD: &str = "\
order low
policy watt
frames 128
batch 16
cap 7
sample 15
weight 14
epoch 100
seed 305419896
pool 4660 127 4294967295
frames 2
4294967295 1 255 7 4659 : 46 45 44 43 42 41 40 39 : 46 30 2 0
0 0 0 0 0 : 0 :
";

const WIDE: Settings = Settings {
    frames: 128,
    ..PLAIN
};

/// The image of 128 pages, each read once, and this k.
fn many_pages(order: Order, k: u32) -> Bytes {
    let held = Held {
        settings: [0, 128, 1, 1, 1, 0, 1, 0],
        k,
        hand: 0,
        sampler: 0,
        frames: (0..128).map(|at| once_read(1_000 + at, at)).collect(),
    };
    held.encode(order)
}

fn monday_with(order: Order, at: usize, width: usize, number: u32) -> Bytes {
    let mut bytes = monday(order);
    put(&mut bytes, order, at, width, number);
    bytes
}

/// An image for each of the refusals that one can have, some for several reasons.
fn refused_images(order: Order) -> Vec<(u32, Bytes)> {
    let with = |at, width, number| monday_with(order, at, width, number);
    let good = monday(order);
    vec![
        (1, good[..63].to_vec()),
        (1, Bytes::new()),
        (2, [b"\x01\x02\x04\x03", &good[4..]].concat()),
        (3, with(4, 2, 2)),
        (3, with(4, 2, 0)),
        (5, [&good[..], b"\0"].concat()),
        (5, with(8, 4, u32::MAX)),
        (5, with(16, 4, 72)),
        (6, with(44, 4, 1)),
        (6, with(length_of(1) + 18, 2, 256)),
        (14, with(26, 2, 0)),
        (14, with(36, 4, 0)),
        (14, with(48, 4, MOST_REFERENCES + 1)),
        (14, with(52, 2, 2)),
        (14, with(HEADER, 4, 9)),
        (14, with(HEADER + 12, 2, 2)),
        (14, with(HEADER + 12, 2, 1)),
        (14, with(HEADER + 14, 2, 0)),
    ]
}

/// A case with these images beside the usual files.
fn of(words: &str) -> Case {
    let [high, low] = [Order::HighFirst, Order::LowFirst];
    Case::of(words)
        .file("low", example_low())
        .file("pool", monday(high))
        .file("poollow", monday(low))
}

// -------------------------------------------------------------- the fixed list

pub fn fixed() -> Vec<Case> {
    [
        told(),
        saved(),
        gone_on(),
        wrong_words(),
        refused(),
        of_two_faults_the_images(),
        other_settings(),
        torn(),
        reading(),
        long_images(),
        writing(),
        standard_streams(),
        names(),
    ]
    .concat()
}

fn told() -> Vec<Case> {
    let low = MONDAY_TOLD.replace("high", "low");
    vec![
        of("image pool").gives(MONDAY_TOLD),
        of("image poollow").gives(&low),
        of("image").input_from("pool").gives(MONDAY_TOLD),
        of("image -").input_from("poollow").gives(&low),
        of("image").input(monday(Order::LowFirst)).gives(&low),
        of("image -- pool").gives(MONDAY_TOLD),
        of("image things")
            .file("things", full_of_things(Order::LowFirst))
            .gives(FULL_TOLD),
        of("image empty")
            .file("empty", Held::one_frame().encode(Order::HighFirst))
            .gives(
                "order high\npolicy lru\nframes 1\nbatch 1\ncap 1\nsample 1\nweight 0\nepoch 1\n\
                 seed 0\npool 0 0 0\nframes 0\n",
            ),
        of("image many")
            .file("many", many_pages(Order::LowFirst, 50_000))
            .status(0),
    ]
}

fn saved() -> Vec<Case> {
    let (high, low) = (Order::HighFirst, Order::LowFirst);
    vec![
        of("bench --save new good").gives(SHEET).saves(monday(high)),
        of("bench good --save new").gives(SHEET).saves(monday(high)),
        of("bench --save new low").gives(SHEET).saves(monday(low)),
        of("rows --save new good")
            .gives(LISTING)
            .saves(monday(high)),
        of("rows low --save new").gives(LISTING).saves(monday(low)),
        of("bench --save old good").gives(SHEET).saves(monday(high)),
        of("bench --save good good")
            .gives(SHEET)
            .saves(monday(high)),
        of("rows --save ./old good")
            .gives(LISTING)
            .saves(monday(high)),
        of("bench --save none/new --save new good").saves(monday(high)),
        of("bench --save - --save new good").saves(monday(high)),
        of("bench --save new --frames 4 good").status(0),
        of("bench --save new --rule watt --frames 128 --seed 77 good").status(0),
        // A new file beside the old one's other name.
        of("bench --save old good")
            .node("kept", Node::Link("old".into()))
            .saves(monday(high)),
    ]
}

fn gone_on() -> Vec<Case> {
    let (high, low) = (Order::HighFirst, Order::LowFirst);
    let empty = encode(&PLAIN, low, &[]);
    let wide = encode(&WIDE, high, &many(40));
    vec![
        of("bench --from pool good").gives(TUESDAY_SHEET),
        of("bench good --from pool").gives(TUESDAY_SHEET),
        of("rows --from pool good").gives(TUESDAY_LISTING),
        // In the other byte order than the trace's, which is that of what is saved.
        of("bench --from poollow good").gives(TUESDAY_SHEET),
        of("rows --from pool low").gives(TUESDAY_LISTING),
        of("bench --from poollow --save new good")
            .gives(TUESDAY_SHEET)
            .saves(tuesday(high)),
        of("rows --from pool --save new low")
            .gives(TUESDAY_LISTING)
            .saves(tuesday(low)),
        of("bench --from pool --save pool good")
            .gives(TUESDAY_SHEET)
            .saves(tuesday(high)),
        of("rows good --save poollow --from poollow")
            .gives(TUESDAY_LISTING)
            .saves(tuesday(high)),
        of("bench --from missing --from pool good").gives(TUESDAY_SHEET),
        of("bench --from - --from pool")
            .input_from("good")
            .gives(TUESDAY_SHEET),
        of("bench --from pool --from missing good").status(3),
        of("bench --from pool")
            .input_from("good")
            .gives(TUESDAY_SHEET),
        of("rows --from pool -")
            .input_from("low")
            .gives(TUESDAY_LISTING),
        of("bench --from - good")
            .input_from("pool")
            .gives(TUESDAY_SHEET),
        of("rows good --from -")
            .input_from("poollow")
            .gives(TUESDAY_LISTING),
        of("bench --from /dev/stdin good")
            .input_from("pool")
            .gives(TUESDAY_SHEET),
        of("bench --from pool --frames 2 --seed 0 good").gives(TUESDAY_SHEET),
        of("bench --from pool -- good").gives(TUESDAY_SHEET),
        // Without records the pool is saved as it was read, in the trace's order.
        of("bench --from pool --save new empty")
            .file("empty", empty)
            .saves(monday(low)),
        of("bench --from many --save new wide")
            .file("many", many_pages(low, 128))
            .file("wide", &wide)
            .status(0),
        of("rows --from many --save many wide")
            .file("many", many_pages(low, MOST_REFERENCES - 1))
            .file("wide", &wide)
            .status(0),
        of("rows --from many --save new wide")
            .file("many", many_pages(low, MOST_REFERENCES))
            .file("wide", &wide)
            .saves(many_pages(high, MOST_REFERENCES)),
    ]
}

/// Told before a file is looked for.
const WRONG_WORDS: &str = "\
image pool pool
image - -
image --frames 2 pool
image --rule lru pool
image --order high pool
image --from pool
image --save new pool
image --wrong
check --from pool good
inspect --from pool good
export --save new good
convert --from pool good new
set --from pool good new
set --save new good new
import --save new text old
import --from pool text new
quote --from pool good
quote --save new good
bench --from=pool good
bench --fro pool good
bench -from pool good
bench --From pool good
bench --image pool good
bench good --from
bench good --save
rows --save new good --from
bench --from pool good good
bench --save new good good
bench --from - - good
bench --save - good good
bench --from - --frames
bench --save - good --from
bench --from - --wrong
bench --from pool --frames x good
";

fn wrong_words() -> Vec<Case> {
    let twice = [
        "bench --from -",
        "bench --from - -",
        "rows --from -",
        "rows - --from -",
        "bench --from pool --from -",
        "bench --from - --save new",
        "bench --frames 0 --from - -",
    ];
    let taken = [
        "bench --save - good",
        "rows --save - good",
        "bench --save -",
        "rows --from pool --save - good",
        "bench --save new --save - missing",
        "bench --from - --save - good",
        "bench --from missing --save - good",
    ];
    let words = WRONG_WORDS.lines().chain(twice).chain(taken);
    let mut cases: Vec<Case> = words.map(|words| of(words).status(2)).collect();
    // It is the value of the option, whatever it looks like.
    cases.push(of("bench --from --help good").status(3));
    cases.push(of("bench --save --help good").saves(monday(Order::HighFirst)));
    cases.push(of("bench --from - --help").status(0));
    cases.push(of("bench --save - --help").status(0));
    cases.push(of("image pool pool --help").status(0));
    cases.push(of("bench --from -- good").status(3));
    cases
}

/// Each refusal of an image by each command, in either order; what was there stays.
fn refused() -> Vec<Case> {
    let mut cases = Vec::new();
    let commands = [
        "image bad",
        "bench --from bad --save old good",
        "rows good --from bad --save old",
        "bench --from bad --save bad good",
        "rows --from bad --save new low",
    ];
    for (turn, words) in commands.into_iter().enumerate() {
        let order = [Order::HighFirst, Order::LowFirst][turn % 2];
        for (number, bytes) in refused_images(order) {
            let case = of(words).file("bad", bytes);
            cases.push(case.refused(&format!("image refused {number}")));
        }
    }
    // Each refusal of a trace that goes on from a good image.
    for (turn, order) in [Order::HighFirst, Order::LowFirst].into_iter().enumerate() {
        let words = [
            "bench --from pool --save old bad",
            "rows bad --from pool --save pool",
        ][turn];
        for (number, bytes) in (1..).zip(refused_traces(order)) {
            let case = of(words).file("bad", bytes);
            cases.push(case.refused(&format!("trace refused {number}")));
        }
    }
    cases.extend([
        of("bench --save old bad")
            .file("bad", &example()[..47])
            .refused("trace refused 1"),
        of("rows --save old --frames 0 good").refused("trace refused 8"),
        // A trace given as an image, and the other way round.
        of("image good").refused("image refused 5"),
        of("image low").refused("image refused 5"),
        of("image none")
            .file("none", encode(&PLAIN, Order::HighFirst, &[]))
            .refused("image refused 1"),
        of("image text").refused("image refused 1"),
        of("bench --from good good").refused("image refused 5"),
        of("bench --from low --save old pool").refused("image refused 5"),
        of("bench pool").refused("trace refused 5"),
        of("rows --from pool --save old poollow").refused("trace refused 5"),
        of("check pool").refused("trace refused 5"),
        of("inspect poollow").refused("trace refused 5"),
        of("convert pool old").refused("trace refused 5"),
        of("quote pool").refused("trace refused 5"),
    ]);
    cases
}

/// Where the image is bad, nothing else is told.
fn of_two_faults_the_images() -> Vec<Case> {
    let bad = |words: &str| {
        let case = of(words)
            .file("badpool", monday_with(Order::HighFirst, 60, 4, 1))
            .file("bad", &refused_traces(Order::HighFirst)[1]);
        case.refused("image refused 6")
    };
    let mut cases = vec![
        bad("bench --from badpool bad"),
        bad("rows bad --from badpool"),
        bad("bench --from badpool --frames 0 good"),
        bad("bench --from badpool --frames 3 good"),
        bad("bench --from badpool missing"),
        bad("bench --from badpool .").node("folder", Node::Folder),
        bad("bench --from badpool --save none/new good"),
        bad("bench --from badpool"),
        bad("bench --from badpool").input_closed(),
        bad("rows --from - bad").input_from("badpool"),
    ];
    cases.extend([
        of("bench --from missing bad")
            .file("bad", &refused_traces(Order::LowFirst)[3])
            .status(3),
        of("bench --from missing missingtoo").status(3),
        of("bench --from missing --frames 0 good").status(3),
        of("bench --from pool missing").status(3),
        of("bench --from pool --frames 0 missing").status(3),
        of("bench --from pool --frames 0 good").refused("trace refused 8"),
        of("bench --from pool --frames 3 --batch 0 good").refused("trace refused 8"),
    ]);
    cases
}

/// Each setting in turn is another than the image's.
fn other_settings() -> Vec<Case> {
    let mut cases = Vec::new();
    let others = NUMBERS.map(|(option, _)| [option, "5"]);
    let rules = [["--rule", "clock"], ["--rule", "watt"]];
    for (turn, [option, value]) in others.into_iter().chain(rules).enumerate() {
        let command = ["bench", "rows"][turn % 2];
        let words = [
            command, option, value, "--from", "pool", "--save", "old", "good",
        ];
        cases.push(of(&words.join(" ")).refused("trace refused 15"));
    }
    cases.push(
        of("bench --from many good")
            .file("many", many_pages(Order::LowFirst, 200))
            .refused("trace refused 15"),
    );
    cases.push(
        of("bench --from many --frames 128 good")
            .file("many", many_pages(Order::LowFirst, 200))
            .status(0),
    );
    cases
}

/// A small image cut at every length.
fn torn() -> Vec<Case> {
    let mut held = pool_of(5, [once_read(8, 4), once_read(9, 3)]);
    held.frames.truncate(1);
    let whole = held.encode(Order::LowFirst);
    let commands = [
        "image torn",
        "bench --from torn --save old good",
        "rows --save torn --from torn good",
    ];
    let case = |length: usize| {
        let case = of(commands[length % 3]).file("torn", &whole[..length]);
        let refusal = if length < 64 { 1 } else { 5 };
        case.refused(&format!("image refused {refusal}"))
    };
    (0..whole.len()).map(case).collect()
}

fn reading() -> Vec<Case> {
    let mut cases = Vec::new();
    for words in ["image", "bench good --from", "rows --save old good --from"] {
        for input in ["folder", "good/x", "none/pool", "."] {
            let case = of(&format!("{words} {input}")).node("folder", Node::Folder);
            cases.push(case.status(3));
        }
    }
    cases.extend([
        of("image /dev/null").refused("image refused 1"),
        of("bench --from /dev/null good").refused("image refused 1"),
        of("image unreadable").node("unreadable", Node::Unreadable(monday(Order::HighFirst))),
        of("bench --from unreadable good")
            .node("unreadable", Node::Unreadable(monday(Order::HighFirst))),
        Case::new(["bench", "--from", "", "good"]).status(3),
        Case::new(["image", ""]).status(3),
    ]);
    cases
}

/// Images at the most bytes that are read.
fn long_images() -> Vec<Case> {
    let longer = |length: usize| {
        let mut bytes = monday(Order::HighFirst);
        bytes.resize(length, 0);
        bytes
    };
    let (most, more) = (longer(LONGEST_IMAGE), longer(LONGEST_IMAGE + 1));
    // A right length, but far more frames than there may be.
    let frames = |count: usize| {
        let mut bytes = longer(length_of(count));
        put(&mut bytes, Order::HighFirst, 8, 4, count as u32);
        put(&mut bytes, Order::HighFirst, 20, 4, length_of(count) as u32);
        bytes
    };
    vec![
        of("image long")
            .file("long", &most)
            .refused("image refused 5"),
        of("image long").file("long", &more).status(3),
        of("image long")
            .file("long", frames(129))
            .refused("image refused 14"),
        of("image long")
            .file("long", frames(15_000))
            .refused("image refused 14"),
        of("image").input(&most).refused("image refused 5"),
        of("image").input(&more).status(3),
        of("image -").input(vec![0; LONGEST_IMAGE + 1]).status(3),
        of("bench --from long good")
            .file("long", &most)
            .refused("image refused 5"),
        of("bench --from long --save old good")
            .file("long", &more)
            .status(3),
        of("rows --from - good").input(&more).status(3),
        of("bench --from long missing")
            .file("long", &more)
            .status(3),
        of("image /dev/zero").status(3),
        of("bench --from /dev/zero --frames 0 missing").status(3),
    ]
}

/// What an image is saved under. A name that cannot be written is told of when the
/// sheet is out.
fn writing() -> Vec<Case> {
    let mut cases = Vec::new();
    for (words, printed) in [
        ("bench good --save", SHEET),
        ("rows --from pool good --save", TUESDAY_LISTING),
    ] {
        let onto = |out: &str| {
            let case = of(&format!("{words} {out}"));
            case.node("folder", Node::Folder).node("pipe", Node::Pipe)
        };
        let some = [
            "new",
            "old",
            "folder/new",
            "./new",
            "./-",
            "/dev/null",
            "/dev/stdout",
            "pipe",
        ];
        cases.extend(some.map(|out| onto(out).status(0)));
        let none = [
            "none/new",
            "folder",
            ".",
            "folder/",
            "new/",
            "old/new",
            "old/",
            "/dev/full",
            "/dev/none/new",
        ];
        for out in none {
            cases.push(onto(out).gives(printed).status(3));
        }
        let masked = |first, mask| {
            let case = onto("old").status(0);
            Case {
                first,
                mask: Some(mask),
                ..case
            }
        };
        cases.push(masked("umask 027; ", 0o027));
        cases.push(masked("umask 0; ", 0));
    }
    // A file that can only be begun, as on a full disk.
    let case = of("bench --from many --save many wide")
        .file("many", many_pages(Order::LowFirst, 128))
        .file("wide", encode(&WIDE, Order::HighFirst, &[]));
    cases.push(Case {
        first: "ulimit -f 1; ",
        no_room: true,
        ..case.status(3)
    });
    cases.extend([
        Case::new(["bench", "--save", "", "good"])
            .gives(SHEET)
            .status(3),
        of("bench --save old good")
            .file("old.part", OLD)
            .file("old.tmp", OLD)
            .file(".old.part", OLD)
            .saves(monday(Order::HighFirst)),
        // What is refused is told, and the output not looked at.
        of("bench --save none/new --frames 0 good").refused("trace refused 8"),
        of("bench --save none/new missing").status(3),
    ]);
    cases
}

/// Where nothing can be printed, nothing is saved.
fn standard_streams() -> Vec<Case> {
    let mut cases = Vec::new();
    for output in [Output::Full, Output::Closed] {
        cases.extend([
            of("image pool").output(output).status(3),
            of("image good").output(output).status(3),
            of("bench --save old good").output(output).status(3),
            of("bench --save new good").output(output).status(3),
            of("rows --from pool --save pool good")
                .output(output)
                .status(3),
            of("bench --save none/new good").output(output).status(3),
            of("bench --from bad --save old good")
                .file("bad", b"")
                .output(output)
                .status(3),
            of("bench --from missing --save old good")
                .output(output)
                .status(3),
            of("bench --save - good").output(output).status(2),
        ]);
    }
    cases.extend([
        of("image").input_closed().status(3),
        of("image -").input_closed().status(3),
        of("image pool").input_closed().gives(MONDAY_TOLD),
        of("image pool").error_closed().gives(MONDAY_TOLD),
        of("bench --from - good").input_closed().status(3),
        of("bench --from pool").input_closed().status(3),
        of("bench --from pool --save new good")
            .input_closed()
            .gives(TUESDAY_SHEET)
            .saves(tuesday(Order::HighFirst)),
        of("bench --from pool --save new good")
            .error_closed()
            .saves(tuesday(Order::HighFirst)),
        of("bench --save none/new good")
            .error_closed()
            .gives(SHEET)
            .status(3),
        of("bench --save -").error_closed().status(2),
        of("image").input_from(".").status(3),
        of("image").input("").refused("image refused 1"),
    ]);
    let from_a_pipe = [
        ("image fed", MONDAY_TOLD),
        ("bench --from fed good", TUESDAY_SHEET),
        ("rows good --from fed", TUESDAY_LISTING),
    ];
    cases.extend(from_a_pipe.map(|(words, printed)| {
        fed(words, "pool")
            .file("pool", monday(Order::HighFirst))
            .gives(printed)
    }));
    cases
}

fn names() -> Vec<Case> {
    let odd: [&[u8]; 7] = [
        b"two words",
        b"line\nfeed",
        b"\xff\xfe\x80",
        b"$(echo x)`y`*?[a]",
        b"-dash",
        b"--frames",
        b"--",
    ];
    let mut cases = Vec::new();
    for name in odd {
        let words = [b"bench", &b"--from"[..], name, b"good", b"--save", name];
        cases.push(Case::new(words).status(3));
        let case = Case::new(words).file(name, monday(Order::HighFirst));
        cases.push(case.gives(TUESDAY_SHEET).saves(tuesday(Order::HighFirst)));
        cases.push(
            Case::new([b"rows", &b"good"[..], b"--save", name]).saves(monday(Order::HighFirst)),
        );
        let case = Case::new([b"image", &b"--"[..], name]).file(name, monday(Order::HighFirst));
        cases.push(case.gives(MONDAY_TOLD));
    }
    for length in [256, 4_097, 100_000] {
        let long = "x".repeat(length);
        cases.push(Case::new(["image", &long]).status(3));
        cases.push(Case::new(["bench", "--from", &long, "good"]).status(3));
        cases.push(
            Case::new(["bench", "--save", &long, "good"])
                .gives(SHEET)
                .status(3),
        );
    }
    cases
}
