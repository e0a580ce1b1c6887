//! The fixed cases of a session, most of them with what must come stated by hand.

use crate::cases::{Case, Node, Output};
use crate::program::{Bytes, Command, LONGEST_TEXT, NUMBERS};
use crate::replay::{Order, Rule, Settings, MOST_RECORDS};
use crate::traces::{encode, put};
use crate::{fixed_curves, fixed_images};

// ------------------------------------------------------ the files of the cases

pub const OLD: &str = "what was there before\n";

/// Of the paper's example, as all that follow.
pub const EXPORTED: &str = "read 7\nwrite 8\nread 7\nread 9\nread 8\n";

const INSPECTED: &str = "\
order high
policy lru
frames 2
batch 1
cap 1
sample 1
weight 0
epoch 1
seed 0
records 5
writes 1
";

pub const SHEET: &str = "\
policy lru
frames 2
records 5
hits 1
misses 4
evictions 2
batches 1
written 1
refused 0
";

const SHEET_OF_FOUR: &str = "\
policy lru
frames 4
records 5
hits 2
misses 3
evictions 0
batches 0
written 0
refused 0
";

const SHEET_OF_CLOCK: &str = "\
policy clock
frames 2
records 5
hits 2
misses 3
evictions 1
batches 0
written 0
refused 0
";

pub const LISTING: &str = "\
rows 5
1 0 0 0
1 1 0 0
0 0 0 0
3 1 8 1
2 0 7 0
written 1
8
pool 5 0 0
frames 2
8 0 0 1 4 : 4 :
9 0 0 1 3 : 3 :
hits 1
misses 4
evictions 2
batches 1
written 1
refused 0
";

const QUOTE: &str = "\
frames lru-misses lru-written clock-misses clock-written watt-misses watt-written
1 5 1 5 1 5 1
2 4 1 3 0 4 1
4 3 0 3 0 3 0
8 3 0 3 0 3 0
16 3 0 3 0 3 0
32 3 0 3 0 3 0
64 3 0 3 0 3 0
128 3 0 3 0 3 0
";

pub const PLAIN: Settings = Settings {
    rule: Rule::Lru,
    frames: 2,
    batch: 1,
    cap: 1,
    sample: 1,
    weight: 0,
    epoch: 1,
    seed: 0,
};

const RECORDS: [(u32, u32); 5] = [(7, 0), (8, 1), (7, 0), (9, 0), (8, 0)];

/// The paper's example.
pub fn example() -> Bytes {
    encode(&PLAIN, Order::HighFirst, &RECORDS)
}

pub fn example_low() -> Bytes {
    encode(&PLAIN, Order::LowFirst, &RECORDS)
}

/// The example with a number at a place.
fn example_with(order: Order, at: usize, width: usize, number: u32) -> Bytes {
    let mut bytes = encode(&PLAIN, order, &RECORDS);
    put(&mut bytes, order, at, width, number);
    bytes
}

/// The settings of an import without options, stated by hand.
pub const IMPORT_SETTINGS: Settings = Settings {
    rule: Rule::Lru,
    frames: 64,
    batch: 8,
    cap: 5,
    sample: 8,
    weight: 2,
    epoch: 100,
    seed: 1,
};

/// What `import` makes of the example's text.
fn imported(order: Order) -> Bytes {
    encode(&IMPORT_SETTINGS, order, &RECORDS)
}

/// A trace for each of the refusals 1 to 8.
pub fn refused_traces(order: Order) -> [Bytes; 8] {
    let with = |at, width, number| example_with(order, at, width, number);
    let good = with(6, 2, 0);
    [
        good[..47].to_vec(),
        [b"\x01\x02\x04\x03", &good[4..]].concat(),
        with(4, 2, 2),
        with(8, 4, MOST_RECORDS + 1),
        [&good[..], b"\0"].concat(),
        with(52, 2, 4),
        with(16, 4, 2),
        with(26, 2, 129),
    ]
}

/// The words of a command on an input, and on an output where it writes one.
fn on(command: Command, input: &str, out: &str) -> Vec<String> {
    let mut words = vec![command.name(), input];
    words.extend(command.writes().then_some(out));
    words.into_iter().map(String::from).collect()
}

/// The commands that read a trace.
fn of_traces() -> impl Iterator<Item = Command> + Clone {
    let reads = |command: &Command| !matches!(command, Command::Import | Command::Image);
    Command::ALL.into_iter().filter(reads)
}

/// What each command reads when all is well.
fn input_of(command: Command) -> &'static str {
    match command {
        Command::Import => "text",
        _ => "good",
    }
}

/// So many records over 300 pages.
pub fn many(count: u32) -> Vec<(u32, u32)> {
    (0..count).map(|page| (page % 300, page % 2)).collect()
}

/// The longest input of a command that is taken.
fn most_of(command: Command) -> Bytes {
    match command {
        Command::Import => b"pin 12\n".repeat(MOST_RECORDS as usize),
        _ => encode(&PLAIN, Order::LowFirst, &many(MOST_RECORDS)),
    }
}

// -------------------------------------------------------------- the fixed list

pub fn fixed() -> Vec<Case> {
    [
        done(),
        helps(),
        wrong_words(),
        refused(),
        torn(),
        settings(),
        texts(),
        bad_texts(),
        long_texts(),
        reading(),
        writing(),
        standard_streams(),
        names(),
        fixed_images::fixed(),
        fixed_curves::fixed(),
    ]
    .concat()
}

fn done() -> Vec<Case> {
    let low = Order::LowFirst;
    let mut cases = vec![
        Case::of("check good").gives("accepted\n"),
        Case::of("inspect good").gives(INSPECTED),
        Case::of("inspect low")
            .file("low", example_low())
            .gives(INSPECTED.replace("high", "low")),
        Case::of("export good").gives(EXPORTED),
        Case::of("bench good").gives(SHEET),
        Case::of("rows good").gives(LISTING),
        Case::of("quote good").gives(QUOTE),
        Case::of("quote good --frames 3").gives(QUOTE.replace("\n4 ", "\n3 3 0 3 0 3 0\n4 ")),
        Case::of("quote --frames 128 good").gives(QUOTE),
        Case::of("quote --rule watt good").gives(QUOTE),
        Case::of("bench --frames 4 good").gives(SHEET_OF_FOUR),
        Case::of("bench good --rule clock").gives(SHEET_OF_CLOCK),
        Case::of("convert good new").gives(example_low()),
        Case::of("convert low new")
            .file("low", example_low())
            .gives(example()),
        Case::of("set good new").gives(example()),
        Case::of("set low new")
            .file("low", example_low())
            .gives(example_low()),
        Case::of("set --frames 7 good new").gives(example_with(Order::HighFirst, 26, 2, 7)),
        Case::of("set --rule watt low new")
            .file("low", example_low())
            .gives(example_with(low, 24, 2, 2)),
        Case::of("import text new").gives(imported(Order::HighFirst)),
        Case::of("import --order high text new").gives(imported(Order::HighFirst)),
        Case::of("import text --order low new").gives(imported(low)),
        Case::of("import --order high --order low text new").gives(imported(low)),
        Case::of(
            "import text new --rule lru --frames 2 --batch 1 --cap 1 --sample 1 --weight 0 \
             --epoch 1 --seed 0",
        )
        .gives(example()),
    ];
    let empty = encode(&PLAIN, Order::HighFirst, &[]);
    for command in of_traces() {
        cases.push(
            Case::new(on(command, "empty", "new"))
                .file("empty", &empty)
                .status(0),
        );
    }
    cases
}

fn helps() -> Vec<Case> {
    let mut cases = vec![Case::of("--help").status(0)];
    for command in Command::ALL {
        cases.push(Case::new([command.name(), "--help"]).status(0));
    }
    let others = [
        "check --help good",
        "check missing --help",
        "check --frames 4 --help",
        "set good --help",
        "set --frames 4 good new --help",
        "set --frames x --help good new",
        "set --wrong --help",
        "convert a b c d --help",
        "import --order up --help",
    ];
    cases.extend(others.map(|words| Case::of(words).status(0)));
    // As the value of an option and behind `--` it is no option.
    cases.push(Case::of("set --frames --help good new").status(2));
    cases.push(Case::of("check --frames --help").status(2));
    cases.push(Case::of("check --frames -- --help").status(0));
    cases.push(Case::of("check -- --help").status(3));
    cases.push(
        Case::of("check -- --help")
            .file("--help", example())
            .status(0),
    );
    cases
}

/// Told before a file is looked for, as the last of them show.
const WRONG_WORDS: &str = "\
chek good
Check good
cleanfirst
--frames 4
-
check good good
check good good good
check - -
inspect good good
export good new
bench good new
rows good new
quote good new
convert
convert good
convert good new more
set
set good
set --frames 4
set --frames 4 good
set good new more
import
import text
import text new more
check --wrong good
check -x good
check -h
check --frames 4 good
check --rule lru good
inspect --seed 1 good
export --batch 2 good
convert --order low good new
convert --frames 4 good new
set --order low good new
bench --order high good
quote --order high good
set --frames=4 good new
set --frame 4 good new
set -frames 4 good new
set --Frames 4 good new
set --policy lru good new
set good new --frames
set good new --rule
import text new --order
bench good --seed
set --rule fifo good new
set --rule LRU good new
set --rule 0 good new
set --rule lru, good new
import --order up text new
import --order High text new
set --frames x good new
set --frames -1 good new
set --frames +1 good new
set --frames 1e3 good new
set --frames 0x4 good new
set --frames 4. good new
set --frames 4, good new
set --frames -- good new
set --frames x --frames 4 good new
quote --epoch five good
rows --weight 2x good
bench --cap - good
check --wrong missing
set --frames x missing none/new
convert missing
";

fn wrong_words() -> Vec<Case> {
    let mut cases: Vec<Case> = WRONG_WORDS.lines().map(Case::of).collect();
    cases.push(Case::new(["check\n", "good"]));
    cases.push(Case::new([""]));
    cases.push(Case::new(["set", "--frames", "", "good", "new"]));
    cases.push(Case::new(["set", "--frames", " 1", "good", "new"]));
    cases.push(Case::new(["set", "--frames", "1 ", "good", "new"]));
    cases.push(Case::new(["set", "--frames", "1\n", "good", "new"]));
    cases.push(Case::new(["set", "--rule", "", "good", "new"]));
    cases.push(Case::new([&b"ch\xffck"[..], b"good"]));
    cases.push(Case::new([&b"check"[..], b"--\xff", b"good"]));
    cases.push(Case::new(["set", "--seed", "\u{663}", "good", "new"]));
    cases.push(Case::new([""; 0]));
    cases.into_iter().map(|case| case.status(2)).collect()
}

/// Each refusal by each command, in either order, onto what was there.
fn refused() -> Vec<Case> {
    let mut cases = Vec::new();
    for (turn, command) in of_traces().enumerate() {
        let order = [Order::HighFirst, Order::LowFirst][turn % 2];
        for (number, bytes) in (1..).zip(refused_traces(order)) {
            let case = Case::new(on(command, "bad", "old")).file("bad", bytes);
            cases.push(case.refused(&format!("trace refused {number}")));
        }
    }
    let bad = |words: &str, number: usize| {
        let bytes = &refused_traces(Order::HighFirst)[number - 1];
        let case = Case::of(words).file("bad", bytes);
        case.refused(&format!("trace refused {number}"))
    };
    // A trace is refused as it stands, before its settings and before the output is.
    cases.extend([
        bad("set --frames 4 bad new", 8),
        bad("set --frames 0 bad new", 7),
        bad("bench --frames 129 bad", 5),
        bad("convert bad none/new", 6),
        bad("set bad .", 2),
        bad("convert bad /dev/full", 3),
        bad("convert bad /dev/stdout", 4),
        bad("convert bad -", 5),
        bad("convert bad bad", 6),
    ]);
    cases
}

/// A small trace cut at every length, by each command in turn.
fn torn() -> Vec<Case> {
    let whole = encode(&PLAIN, Order::LowFirst, &[(7, 1), (8, 3)]);
    let commands: Vec<Command> = of_traces().collect();
    let case = |length: usize| {
        let command = commands[length % commands.len()];
        let case = Case::new(on(command, "torn", "old")).file("torn", &whole[..length]);
        let refusal = if length < 48 { 1 } else { 5 };
        case.refused(&format!("trace refused {refusal}"))
    };
    (0..whole.len()).map(case).collect()
}

/// Each setting at the ends of its range and beyond, some too great for any field.
fn settings() -> Vec<Case> {
    let mut cases = Vec::new();
    for (turn, (option, range)) in NUMBERS.into_iter().enumerate() {
        let (least, greatest) = (*range.start(), *range.end());
        let mut values = vec![
            (least.to_string(), true),
            (greatest.to_string(), true),
            (format!("000{greatest}"), true),
            ((greatest + 1).to_string(), false),
            ((least + (1 << 32)).to_string(), false),
            ((u128::from(least) + (1 << 64)).to_string(), false),
            (format!("{least}{}", "0".repeat(40)), least == 0),
        ];
        if greatest < 1 << 16 {
            values.push(((least + (1 << 16)).to_string(), false));
        }
        if least > 0 {
            values.push(((least - 1).to_string(), false));
        }
        for (at, (value, taken)) in values.into_iter().enumerate() {
            let words = match (at + turn) % 5 {
                0 => ["import", option, &value, "text", "old"].to_vec(),
                1 => ["bench", "good", option, &value].to_vec(),
                2 => ["rows", option, &value, "good"].to_vec(),
                3 => ["quote", option, &value, "good"].to_vec(),
                _ => ["set", "good", option, &value, "old"].to_vec(),
            };
            let case = Case::new(words);
            cases.push(match taken {
                true => case.status(0),
                false => case.refused("trace refused 8"),
            });
        }
    }
    cases.extend([
        Case::of("set --frames 0 --frames 4 good new").gives(example_with(
            Order::HighFirst,
            26,
            2,
            4,
        )),
        Case::of("set --frames 4 --frames 0 good new").refused("trace refused 8"),
        Case::of("set --rule watt --rule lru good new").gives(example()),
        Case::of("quote --rule clock --frames 129 good").refused("trace refused 8"),
        Case::of("quote --batch 0 good").refused("trace refused 8"),
        Case::of("set --epoch 50001 good none/new").refused("trace refused 8"),
        Case::of("set --epoch 50001 missing new").status(3),
        Case::new([
            "set",
            "--batch",
            &format!("{}4", "0".repeat(5_000)),
            "good",
            "new",
        ])
        .gives(example_with(Order::HighFirst, 28, 2, 4)),
    ]);
    cases
}

fn import_of(text: impl AsRef<[u8]>) -> Case {
    Case::of("import text-here new").file("text-here", text)
}

/// Texts that are taken.
fn texts() -> Vec<Case> {
    let texts = [
        "",
        "\n",
        "\n\n\n",
        "#",
        "#\n",
        "# read 1\n",
        "#\r\n",
        "##\n#read x\n",
        "read 1",
        "read 1\n",
        "read 1\n\n",
        "\nread 1\n",
        "# one\nread 1\n\n# two\nwrite 2\npin 2\nunpin 2",
        "read 0\nwrite 4294967295\n",
        "read 007\n",
        "read 0000000000000000000000000000000000000000000000000000000004294967295\n",
        "unpin 5\nunpin 5\n",
    ];
    let mut cases: Vec<Case> = texts.map(|text| import_of(text).status(0)).to_vec();
    let same = ["\n# the example\nread 7\nwrite 008\n#\nread 7\n\nread 9\nread 8"];
    cases.extend(same.map(|text| import_of(text).gives(imported(Order::HighFirst))));
    cases.push(import_of(b"#\x00\xff\x80\nread 1\n").status(0));
    cases
}

/// Texts with a bad line, and its number.
fn bad_texts() -> Vec<Case> {
    let lines = [
        "read",
        "read ",
        "read  1",
        "read\t1",
        "read 1 ",
        "read 1\r",
        "\r",
        " ",
        "\t",
        " read 1",
        " #",
        "Read 1",
        "READ 1",
        "reads 1",
        "rea 1",
        "write",
        "writ 1",
        "unpins 1",
        "pin",
        "pin 1 2",
        "read 1 read 2",
        "read x",
        "read -1",
        "read +1",
        "read 1.0",
        "read 1e3",
        "read 0x1",
        "read 4294967296",
        "read 18446744073709551617",
        "read 99999999999999999999999999999999",
        "read 1#",
        "read 1 # one",
        "1",
        "7 read",
        "read,1",
        "\0",
        "read 1\0",
        "trace",
    ];
    let mut cases = Vec::new();
    for (turn, line) in lines.into_iter().enumerate() {
        let (text, number) = match turn % 4 {
            0 => (line.to_string(), 1),
            1 => (format!("{line}\n"), 1),
            2 => (format!("read 1\n\n# no record\n{line}\nwrite 2\n"), 4),
            _ => (format!("\n{line}\nread x\n"), 2),
        };
        let case = Case::of("import --order low bad old").file("bad", text);
        cases.push(case.refused(&format!("line {number} refused")));
    }
    cases.extend([
        import_of(b"read \xff1\n").refused("line 1 refused"),
        import_of(b"re\xffd 1\n").refused("line 1 refused"),
        import_of(example()).refused("line 1 refused"),
        import_of(b"read \xd9\xa3\n").refused("line 1 refused"),
        // Before a setting is refused, and before the output is.
        Case::of("import --frames 0 bad none/new")
            .file("bad", "read 1\nread x\n")
            .refused("line 2 refused"),
        Case::of("import --frames 0 text none/new").refused("trace refused 8"),
    ]);
    cases
}

/// Texts at the most records and the most bytes there may be.
fn long_texts() -> Vec<Case> {
    let most = "read 4294967295\n".repeat(8_000);
    let more = format!("{most}pin 1");
    // Lines that are no records are not counted among them.
    let mixed = "# none\n\nwrite 3\n".repeat(8_000);
    let filled = |length: usize, text: &str| {
        let mut bytes = vec![b'#'; length - text.len()];
        bytes.extend(text.bytes());
        bytes
    };
    let words = "import long old";
    let long = |text: &[u8]| Case::of(words).file("long", text);
    vec![
        long(most.as_bytes()).status(0),
        long(mixed.as_bytes()).status(0),
        long(more.as_bytes()).refused("trace refused 4"),
        long(format!("{most}\n# more\n").as_bytes()).status(0),
        long(format!("{more}\nread x\n").as_bytes()).refused("line 8002 refused"),
        Case::of("import --frames 0 long old")
            .file("long", &more)
            .refused("trace refused 4"),
        long(&filled(LONGEST_TEXT, "\nread 7\n")).status(0),
        long(&filled(LONGEST_TEXT, "\nread 7")).status(0),
        long(&filled(LONGEST_TEXT, "\nread x")).refused("line 2 refused"),
        long(&filled(LONGEST_TEXT + 1, "\nread 7\n")).status(3),
        long(&filled(LONGEST_TEXT + 1, "\nread x\n")).status(3),
        long(&b"\n".repeat(LONGEST_TEXT)).status(0),
        long(&b"\n".repeat(LONGEST_TEXT + 1)).status(3),
        Case::of("import - old")
            .input(filled(LONGEST_TEXT + 1, "\n"))
            .status(3),
        Case::of("import /dev/zero old").status(3),
        Case::of("import --frames 0 /dev/zero none/new").status(3),
    ]
}

fn reading() -> Vec<Case> {
    let mut cases = Vec::new();
    for command in Command::ALL {
        for input in ["missing", "folder", "good/x", "none/good"] {
            let case = Case::new(on(command, input, "old")).node("folder", Node::Folder);
            cases.push(case.status(3));
        }
    }
    let zeros = |length: usize| {
        let mut bytes = example();
        bytes.resize(length, 0);
        bytes
    };
    let most = most_of(Command::Check);
    let more = encode(&PLAIN, Order::LowFirst, &many(MOST_RECORDS + 1));
    for command in of_traces() {
        let words = on(command, "most", "new");
        cases.push(Case::new(words).file("most", &most).status(0));
    }
    cases.extend([
        Case::of("check more")
            .file("more", more)
            .refused("trace refused 4"),
        Case::of("check more")
            .file("more", [&most[..], b"\0"].concat())
            .refused("trace refused 5"),
        Case::of("check long")
            .file("long", zeros(100_000))
            .refused("trace refused 5"),
        Case::of("check long")
            .file("long", zeros(2_000_000))
            .refused("trace refused 5"),
        Case::of("check long")
            .file("long", vec![0; 2_000_000])
            .refused("trace refused 2"),
        Case::of("check /dev/null").refused("trace refused 1"),
        Case::of("convert /dev/null old").refused("trace refused 1"),
        Case::of("check /dev/zero").refused("trace refused 2"),
        Case::of("convert /dev/zero old").refused("trace refused 2"),
        Case::of("check unreadable").node("unreadable", Node::Unreadable(example())),
        Case::of("import unreadable old").node("unreadable", Node::Unreadable(b"read 1".to_vec())),
        // The input's fault is told before the output's.
        Case::of("convert missing none/new").status(3),
        Case::of("import missing /dev/full").status(3),
        Case::of("set folder folder")
            .node("folder", Node::Folder)
            .status(3),
    ]);
    cases
}

fn writing() -> Vec<Case> {
    let mut cases = Vec::new();
    let writing = Command::ALL.into_iter().filter(|command| command.writes());
    for command in writing {
        let onto = |out: &str| {
            let case = Case::new(on(command, input_of(command), out));
            case.node("folder", Node::Folder).node("pipe", Node::Pipe)
        };
        for out in [
            "new",
            "old",
            "folder/new",
            "./new",
            "/dev/null",
            "/dev/stdout",
            "-",
            "pipe",
            "./-",
        ] {
            cases.push(onto(out).status(0));
        }
        let none = [
            "none/new",
            "folder",
            ".",
            "folder/",
            "new/",
            "old/new",
            "old/",
            "/dev/full",
            "/dev/none/new",
        ];
        cases.extend(none.map(|out| onto(out).status(3)));
        let masked = |first, mask| {
            let case = onto("old").status(0);
            Case {
                first,
                mask: Some(mask),
                ..case
            }
        };
        // A file that can only be begun, as on a full disk.
        let case = Case::new(on(command, "most", "old")).file("most", most_of(command));
        cases.push(Case {
            first: "ulimit -f 1; ",
            no_room: true,
            ..case.status(3)
        });
        cases.push(masked("umask 027; ", 0o027));
        cases.push(masked("umask 0; ", 0));
    }
    cases.extend([
        Case::of("convert good good").gives(example_low()),
        Case::of("set --frames 4 good good").gives(example_with(Order::HighFirst, 26, 2, 4)),
        Case::of("set --frames 4 good ./good").status(0),
        Case::of("import text text").gives(imported(Order::HighFirst)),
        Case::of("set --frames 0 good good").refused("trace refused 8"),
        Case::of("import old old").refused("line 1 refused"),
        Case::of("convert old pipe")
            .node("pipe", Node::Pipe)
            .refused("trace refused 1"),
        // A renamed file is another one, and who had the old one keeps it.
        Case::of("convert good old")
            .node("kept", Node::Link("old".into()))
            .gives(example_low()),
        Case::of("set --frames 4 good good")
            .node("kept", Node::Link("good".into()))
            .status(0),
        // What others may have left beside it, or what another run is about to write.
        Case::of("convert good old")
            .file("old.part", OLD)
            .file("old.tmp", OLD)
            .file("old.1.part", OLD)
            .file(".old.part", OLD)
            .gives(example_low()),
    ]);
    cases
}

/// Standard input, output and error as pipes, files, a full device, and closed.
fn standard_streams() -> Vec<Case> {
    let mut cases = Vec::new();
    for command in of_traces().filter(|command| !command.writes()) {
        let name = command.name();
        cases.extend([
            Case::new([name]).input(example()).status(0),
            Case::new([name, "-"]).input(example()).status(0),
            Case::new([name])
                .input(&example()[..50])
                .refused("trace refused 5"),
            Case::new([name]).input_from("good").status(0),
            Case::new([name]).input_closed().status(3),
            Case::new([name, "good"]).input_closed().status(0),
            Case::new([name, "good"]).output(Output::Full).status(3),
            Case::new([name, "good"]).output(Output::Closed).status(3),
        ]);
    }
    for command in Command::ALL.into_iter().filter(|command| command.writes()) {
        let (name, from) = (command.name(), input_of(command));
        cases.extend([
            Case::new([name, "-", "new"]).input_from(from).status(0),
            Case::new([name, "-", "-"]).input_from(from).status(0),
            Case::new([name, "/dev/stdin", "new"])
                .input_from(from)
                .status(0),
            Case::new([name, "-", "new"]).input_closed().status(3),
            Case::new([name, from, "new"]).input_closed().status(0),
            Case::new([name, from, "-"]).output(Output::Full).status(3),
            Case::new([name, from, "-"])
                .output(Output::Closed)
                .status(3),
            Case::new([name, from, "/dev/stdout"])
                .output(Output::Full)
                .status(3),
            // It prints nothing, so that it does not matter.
            Case::new([name, from, "new"])
                .output(Output::Full)
                .status(0),
            Case::new([name, from, "new"])
                .output(Output::Closed)
                .status(0),
            Case::new([name, from, "new"]).error_closed().status(0),
            Case::new([name, from, "new"])
                .input_closed()
                .output(Output::Closed)
                .error_closed()
                .status(0),
        ]);
    }
    cases.extend([
        Case::of("--help").output(Output::Full).status(3),
        Case::of("set --help").output(Output::Full).status(3),
        Case::of("--help").output(Output::Closed).status(3),
        Case::of("check old").output(Output::Full).status(3),
        Case::of("check --wrong").output(Output::Full).status(2),
        Case::of("check --wrong").output(Output::Closed).status(2),
        Case::of("check missing").output(Output::Closed).status(3),
        Case::of("check missing").error_closed().status(3),
        Case::of("check --wrong").error_closed().status(2),
        Case::of("check old")
            .error_closed()
            .refused("trace refused 1"),
        Case::of("check").input_from(".").status(3),
        Case::of("import - new").input_from(".").status(3),
        Case::of("check").input("").refused("trace refused 1"),
        Case::of("import - new").input("").status(0),
        Case::of("rows")
            .input(vec![1; 300_000])
            .refused("trace refused 2"),
        fed("check fed", "good").gives("accepted\n"),
        fed("convert fed new", "good").gives(example_low()),
        fed("import fed new", "text").gives(imported(Order::HighFirst)),
    ]);
    cases
}

/// A case with a named pipe from which one of the files comes.
pub fn fed(words: &str, from: &str) -> Case {
    let first = match from {
        "good" => "cat good >fed & ",
        "pool" => "cat pool >fed & ",
        _ => "cat text >fed & ",
    };
    let case = Case::of(words).node("fed", Node::Fed(from.into()));
    Case { first, ..case }
}

fn names() -> Vec<Case> {
    let odd: [&[u8]; 12] = [
        b"two words",
        b" ",
        b"line\nfeed",
        b"\n",
        b"tab\there",
        b"\xff\xfe\x80",
        b"$(echo x)`y`*?[a]",
        b"quote'\"",
        b"back\\slash",
        b"n%sn%n",
        b".hidden",
        "\u{e9}\u{4e2d}".as_bytes(),
    ];
    let mut cases = Vec::new();
    for name in odd {
        cases.extend([
            Case::new([b"check", name])
                .file(name, example())
                .gives("accepted\n"),
            Case::new([b"check", name]).status(3),
            Case::new([b"convert", &b"good"[..], name]).gives(example_low()),
        ]);
    }
    for name in ["-dash", "--", "--help", "--frames"] {
        cases.extend([
            Case::new(["check", "--", name])
                .file(name, example())
                .gives("accepted\n"),
            Case::new(["check", "--", name]).status(3),
            Case::new(["set", "--frames", "2", "--", "good", name]).gives(example()),
        ]);
    }
    cases.extend([
        Case::of("check --").input(example()).gives("accepted\n"),
        Case::of("check -- -").input(example()).gives("accepted\n"),
        Case::of("set good --frames 2 -- new").gives(example()),
        Case::of("set -- good new --frames 2").status(2),
        Case::new(["check", ""]).status(3),
        Case::new(["convert", "good", ""]).status(3),
        Case::new(["import", "", "new"]).status(3),
    ]);
    for length in [256, 4_095, 4_096, 4_097, 5_000, 100_000] {
        let long = "x".repeat(length);
        cases.extend([
            Case::new(["check", &long]).status(3),
            Case::new(["convert", "good", &long]).status(3),
            Case::new(["convert", "old", &long]).refused("trace refused 1"),
        ]);
    }
    let deep = |length: usize, name: &str| "./".repeat((length - name.len()) / 2) + name;
    cases.extend([
        Case::new(["check", &deep(4_000, "good")]).gives("accepted\n"),
        Case::new(["check", &deep(4_096, "good")]).status(3),
        Case::new(["convert", "good", &deep(4_000, "new!")]).gives(example_low()),
        Case::new(["convert", "good", &deep(4_096, "new!")]).status(3),
        Case::new(["check", &"x".repeat(200)])
            .file("x".repeat(200), example())
            .gives("accepted\n"),
        Case::new(["convert", "good", &"x".repeat(200)]).gives(example_low()),
    ]);
    cases
}
