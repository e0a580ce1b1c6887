//! The edges of what the program is to do, on both sides, worked by hand; and that a
//! session finds what is amiss.

use crate::cases::{generated, Case, Output};
use crate::fixed::{example, fixed, IMPORT_SETTINGS};
use crate::fixed_images::monday;
use crate::image::read;
use crate::program::*;
use crate::replay::{check, Kind, Order, Rule, Settings};
use crate::session::{expect_end, expect_folder, Found, Ran, Seen, REFUSALS};
use crate::tests::{settings, R, W};
use crate::traces::encode;
use std::collections::{BTreeMap, BTreeSet};
use std::path::PathBuf;

/// Files by their names; what is not there can be written, but for `no`.
struct Files(BTreeMap<Bytes, Bytes>);

impl Outside for Files {
    fn read(&self, name: &[u8], most: usize) -> Option<Bytes> {
        let bytes = self.0.get(name)?;
        Some(bytes[..most.min(bytes.len())].to_vec())
    }

    fn can_write(&self, name: &[u8]) -> bool {
        name != b"no"
    }
}

fn end_of(words: &str, files: &[(&str, &[u8])]) -> End {
    let words: Vec<Bytes> = words.split_whitespace().map(Bytes::from).collect();
    let files = files
        .iter()
        .map(|(name, bytes)| (name.as_bytes().to_vec(), bytes.to_vec()));
    run(&words, &Files(files.collect()))
}

/// What is printed, or written to `out`, from the example as `a` and as standard input.
fn made(words: &str) -> Bytes {
    let example = example();
    match end_of(words, &[("a", &example), ("-", &example)]) {
        End::Done { printed, out: None } => printed,
        End::Done { printed, out } => {
            let (name, bytes) = out.unwrap();
            assert_eq!((printed.len(), name), (0, b"out".to_vec()));
            bytes
        }
        end => panic!("{words}: {end:?}"),
    }
}

fn printed(words: &str) -> String {
    String::from_utf8(made(words)).unwrap()
}

/// The line by which the example is refused.
fn refused(words: &str) -> Option<String> {
    match end_of(words, &[("a", &example())]) {
        End::Refused(line) => Some(line),
        _ => None,
    }
}

fn status(words: &str) -> u8 {
    end_of(words, &[("a", &example()), ("-", &example())]).status()
}

// ---------------------------------------------------------------- the commands

#[test]
fn commands_on_the_example() {
    assert_eq!(printed("check a"), "accepted\n");
    assert_eq!(printed("check"), "accepted\n");
    assert_eq!(
        printed("export a"),
        "read 7\nwrite 8\nread 7\nread 9\nread 8\n"
    );
    let inspected = "order high\npolicy lru\nframes 2\nbatch 1\ncap 1\nsample 1\nweight 0\n\
                     epoch 1\nseed 0\nrecords 5\nwrites 1\n";
    assert_eq!(printed("inspect a"), inspected);
    let sheet = "policy lru\nframes 2\nrecords 5\nhits 1\nmisses 4\nevictions 2\n\
                 batches 1\nwritten 1\nrefused 0\n";
    assert_eq!(printed("bench a"), sheet);
    let end = &sheet[sheet.find("hits").unwrap()..];
    let rows = printed("rows a");
    assert!(rows.starts_with("rows 5\n1 0 0 0\n") && rows.ends_with(end));
}

#[test]
fn each_setting_goes_to_its_place() {
    let set = made(
        "set a out --rule watt --frames 3 --batch 4 --cap 5 --sample 6 --weight 7 \
         --epoch 8 --seed 9",
    );
    let expected = "order high\npolicy watt\nframes 3\nbatch 4\ncap 5\nsample 6\nweight 7\n\
                    epoch 8\nseed 9\nrecords 5\nwrites 1\n";
    assert_eq!(inspected(&set), expected);
    assert_eq!(
        check(&set).unwrap().records,
        check(&example()).unwrap().records
    );
    assert_eq!(made("set a out"), example());
}

#[test]
fn converting_changes_the_order_alone() {
    let low = made("convert a out");
    assert_eq!(
        (order_of(&low), &low[..4]),
        (Order::LowFirst, &[4, 3, 2, 1][..])
    );
    assert_eq!(check(&low), check(&example()));
    let End::Done {
        out: Some((_, back)),
        ..
    } = end_of("convert b out", &[("b", &low)])
    else {
        panic!("refused");
    };
    assert_eq!(back, example());
}

#[test]
fn quotes() {
    let first =
        "frames lru-misses lru-written clock-misses clock-written watt-misses watt-written\n";
    let quote = printed("quote a");
    assert!(quote.starts_with(&format!(
        "{first}1 5 1 5 1 5 1\n2 4 1 3 0 4 1\n4 3 0 3 0 3 0\n"
    )));
    assert!(quote.ends_with("\n128 3 0 3 0 3 0\n") && quote.lines().count() == 9);
    // The trace's own frames have a line once.
    for (own, lines) in [(1, 8), (3, 9), (127, 9), (128, 8)] {
        assert_eq!(quoted_frames(own).len(), lines);
        let words = format!("quote --frames {own} a");
        assert_eq!(printed(&words).lines().count(), lines + 1);
    }
    let numbers: Vec<u32> = quoted_frames(5).into_iter().collect();
    assert_eq!(numbers, [1, 2, 4, 5, 8, 16, 32, 64, 128]);
    assert_eq!(printed("quote --rule clock a"), quote);
}

// ------------------------------------------------------------------- the words

#[test]
fn statuses_of_words() {
    for words in [
        "check a",
        "check -",
        "set a out --frames 4",
        "--help",
        "set --help",
    ] {
        assert_eq!(status(words), 0, "{words}");
    }
    let wrong = [
        "",
        "chek a",
        "check a a",
        "set a",
        "set a out more",
        "check --frames 4 a",
        "convert --order low a out",
        "set a out --frames",
        "set --frames four a out",
        "set --frames -4 a out",
        "set --rule fifo a out",
        "set --frames=4 a out",
        "set --frames --help a out",
        "set -- a out --frames 4",
        "check -x no",
    ];
    for words in wrong {
        assert_eq!(status(words), 2, "{words}");
    }
    for words in [
        "check no",
        "set no no",
        "check -- --help",
        "set --frames 0 no out",
    ] {
        assert_eq!(status(words), 3, "{words}");
    }
}

#[test]
fn help_wins_over_faults() {
    let set = End::Help(Some(Command::Set));
    for words in [
        "set --help",
        "set --wrong --help",
        "set --frames x --help",
        "set a b c --help",
    ] {
        assert_eq!(end_of(words, &[]), set, "{words}");
    }
    assert_eq!(end_of("--help", &[]), End::Help(None));
}

#[test]
fn faults_name_the_file() {
    let fault = |named: &str| End::Fault {
        named: named.into(),
        reason: None,
    };
    assert_eq!(end_of("check b", &[]), fault("b"));
    assert_eq!(end_of("check", &[]), fault("standard input"));
    assert_eq!(end_of("import - out", &[]), fault("standard input"));
    assert_eq!(end_of("convert b no", &[]), fault("b"));
    assert_eq!(end_of("convert a no", &[("a", &example())]), fault("no"));
    // What is refused is told before the output's fault.
    assert_eq!(refused("set --frames 0 a no").unwrap(), "trace refused 8\n");
}

// ---------------------------------------------------------------- the settings

#[test]
fn ends_of_the_settings() {
    let ranges = [
        ("frames", "1", "128", "129"),
        ("batch", "1", "16", "17"),
        ("cap", "1", "7", "8"),
        ("sample", "1", "16", "17"),
        ("weight", "0", "16", "17"),
        ("epoch", "1", "50000", "50001"),
        ("seed", "0", "4294967295", "4294967296"),
    ];
    for (option, least, greatest, above) in ranges {
        let words = |value: &str| format!("set --{option} {value} a out");
        let line = Some("trace refused 8\n".to_string());
        for taken in [least, greatest, &format!("000{greatest}")] {
            let told = inspected(&made(&words(taken)));
            let line = format!("\n{option} {}\n", taken.trim_start_matches("000"));
            assert!(told.contains(&line), "{told}");
        }
        assert_eq!(refused(&words(above)), line);
        assert_eq!(refused(&words("18446744073709551617")), line);
        assert_eq!(refused(&words(&"9".repeat(100))), line);
        assert_eq!(refused(&words("65537")).is_some(), option != "seed");
        assert_eq!(refused(&words("0")).is_some(), least == "1");
        let last = format!("set --{option} {above} --{option} {greatest} a out");
        assert_eq!(refused(&last), None);
    }
}

fn inspected(bytes: &[u8]) -> String {
    match end_of("inspect b", &[("b", bytes)]) {
        End::Done { printed, .. } => String::from_utf8(printed).unwrap(),
        end => panic!("{end:?}"),
    }
}

#[test]
fn traces_are_refused_as_they_stand() {
    let mut bytes = example();
    bytes[27] = 0;
    let line = End::Refused("trace refused 8\n".to_string());
    assert_eq!(end_of("set --frames 4 b out", &[("b", &bytes)]), line);
    bytes.push(0);
    let line = End::Refused("trace refused 5\n".to_string());
    assert_eq!(end_of("bench --frames 129 b", &[("b", &bytes)]), line);
    bytes.resize(LONGEST_TRACE + 1_000, 0);
    assert_eq!(end_of("check b", &[("b", &bytes)]), line);
}

// ------------------------------------------------------------------- the texts

/// The records of a text, or the line by which it is refused.
fn import(text: &[u8]) -> Result<Vec<(u32, Kind)>, String> {
    match end_of("import text out", &[("text", text)]) {
        End::Done {
            out: Some((_, bytes)),
            ..
        } => Ok(check(&bytes).unwrap().records),
        End::Refused(line) => Err(line),
        end => panic!("{end:?}"),
    }
}

#[test]
fn lines_that_are_records() {
    use Kind::{Pin, Read, Unpin, Write};
    let text = b"read 1\nwrite 2\n\n# pin 3\npin 4294967295\nunpin 0004";
    let records = vec![(1, Read), (2, Write), (u32::MAX, Pin), (4, Unpin)];
    assert_eq!(import(text), Ok(records.clone()));
    assert_eq!(import(&[&text[..], b"\n"].concat()), Ok(records));
    for none in ["", "\n", "\n\n", "#", "#\n", "#read 1\r\n"] {
        assert_eq!(import(none.as_bytes()), Ok(Vec::new()), "{none:?}");
    }
}

#[test]
fn lines_that_are_none() {
    let lines = [
        "read",
        "read ",
        "read  1",
        "read\t1",
        "read 1 ",
        " read 1",
        "read 1\r",
        "\r",
        " ",
        " #",
        "Read 1",
        "READ 1",
        "reads 1",
        "unpi 1",
        "read x",
        "read -1",
        "read +1",
        "read 1 2",
        "read 4294967296",
        "read 18446744073709551617",
        "read 1#",
        "7",
        "\0",
    ];
    for line in lines {
        let error = |number| Err(format!("line {number} refused\n"));
        assert_eq!(import(line.as_bytes()), error(1), "{line:?}");
        let later = format!("read 1\n\n#\n{line}\nread x\n");
        assert_eq!(import(later.as_bytes()), error(4), "{line:?}");
    }
}

#[test]
fn most_lines() {
    let most = b"read 1\n".repeat(8_000);
    let more = b"read 1\n".repeat(8_001);
    assert_eq!(import(&most).map(|records| records.len()), Ok(8_000));
    assert_eq!(import(&more), Err("trace refused 4\n".to_string()));
    // A bad line comes before that, and that before a setting.
    let bad = [&more[..], b"read x"].concat();
    assert_eq!(import(&bad), Err("line 8002 refused\n".to_string()));
    let refused = |words: &str, text: &[u8]| end_of(words, &[("text", text)]);
    let line = |line: &str| End::Refused(format!("{line}\n"));
    assert_eq!(
        refused("import --cap 8 text out", &more),
        line("trace refused 4")
    );
    assert_eq!(
        refused("import --cap 8 text out", &bad),
        line("line 8002 refused")
    );
    assert_eq!(
        refused("import --cap 8 text out", &most),
        line("trace refused 8")
    );
}

#[test]
fn longest_text() {
    let mut text = vec![b'\n'; LONGEST_TEXT];
    assert_eq!(import(&text), Ok(Vec::new()));
    text.push(b'\n');
    let fault = |named: &str| End::Fault {
        named: named.into(),
        reason: Some("File too large"),
    };
    assert_eq!(end_of("import text out", &[("text", &text)]), fault("text"));
    let words = "import - out --frames 0";
    assert_eq!(end_of(words, &[("-", &text)]), fault("standard input"));
    assert_eq!(LONGEST_TEXT, 1_048_576);
}

#[test]
fn defaults_of_import() {
    let records = [(7, R), (8, W)];
    let import = |words: &str| match end_of(words, &[("text", b"read 7\nwrite 8\n")]) {
        End::Done {
            out: Some((_, bytes)),
            ..
        } => bytes,
        end => panic!("{end:?}"),
    };
    assert_eq!(
        import("import text out"),
        encode(&IMPORT_SETTINGS, Order::HighFirst, &records)
    );
    assert_eq!(
        import("import --order low text out"),
        encode(&IMPORT_SETTINGS, Order::LowFirst, &records)
    );
    let watt = Settings {
        rule: Rule::Watt,
        seed: 0,
        ..IMPORT_SETTINGS
    };
    assert_eq!(
        import("import text --rule watt out --seed 0"),
        encode(&watt, Order::HighFirst, &records)
    );
}

#[test]
fn text_and_trace_say_the_same() {
    let plain = settings(Rule::Lru, 1);
    let records = [(0, R), (u32::MAX, W), (5, 2), (5, 3)];
    let trace = encode(&plain, Order::LowFirst, &records);
    let End::Done { printed, .. } = end_of("export t", &[("t", &trace)]) else {
        panic!("refused");
    };
    assert_eq!(printed, b"read 0\nwrite 4294967295\npin 5\nunpin 5\n");
    assert_eq!(import(&printed).unwrap(), check(&trace).unwrap().records);
}

// ------------------------------------------------------------------ the images

/// The end of a run beside the example as `a`, the image of what it leaves as `pool`,
/// and `bad`, which is neither.
fn end_with_pool(words: &str) -> End {
    let (example, pool) = (example(), monday(Order::LowFirst));
    end_of(words, &[("a", &example), ("pool", &pool), ("bad", b"")])
}

fn image_refused(number: u32) -> End {
    End::Refused(format!("image refused {number}\n"))
}

fn trace_refused(number: u32) -> End {
    End::Refused(format!("trace refused {number}\n"))
}

#[test]
fn images_are_told() {
    let told = "order low\npolicy lru\nframes 2\nbatch 1\ncap 1\nsample 1\nweight 0\nepoch 1\n\
                seed 0\npool 5 0 0\nframes 2\n8 0 0 1 4 : 4 :\n9 0 0 1 3 : 3 :\n";
    let done = End::Done {
        printed: told.into(),
        out: None,
    };
    assert_eq!(end_with_pool("image pool"), done);
    let pool = monday(Order::LowFirst);
    assert_eq!(end_of("image", &[("-", &pool)]), done);
    assert_eq!(end_with_pool("image a"), image_refused(5));
    assert_eq!(end_with_pool("image bad"), image_refused(1));
    assert_eq!(end_with_pool("bench pool"), trace_refused(5));
}

#[test]
fn pools_are_saved_in_the_order_of_the_trace() {
    let sheet = printed("bench a");
    let saved = |words: &str| match end_with_pool(words) {
        End::Done {
            printed,
            out: Some((name, bytes)),
        } => (printed, name, bytes),
        end => panic!("{words}: {end:?}"),
    };
    let (printed, name, bytes) = saved("bench --save new a");
    assert_eq!((printed, name), (sheet.into_bytes(), b"new".to_vec()));
    assert_eq!(bytes, monday(Order::HighFirst));
    let (printed, _, bytes) = saved("rows --from pool --save pool a");
    let text = String::from_utf8(printed).unwrap();
    assert!(text.starts_with("rows 5\n2 1 9 0\n0 0 0 0\n0 1 0 0\n3 0 8 1\n2 1 7 0\nwritten 1\n8\n"));
    assert!(text.contains("\npool 10 0 0\nframes 2\n9 0 0 1 8 : 8 :\n8 0 0 1 9 : 9 :\nhits 2\n"));
    let held = read(&bytes).unwrap();
    assert_eq!((order_of(&bytes), held.k), (Order::HighFirst, 10));
    // The last of several counts.
    let (_, name, bytes) = saved("bench --from bad --save no --from pool a --save new");
    assert_eq!((name, held), (b"new".to_vec(), read(&bytes).unwrap()));
}

#[test]
fn images_are_refused_first() {
    for words in [
        "bench --from bad a",
        "bench --from bad bad",
        "bench --from bad missing",
        "bench --from bad --frames 0 a",
        "rows --from bad --save no a",
    ] {
        assert_eq!(end_with_pool(words), image_refused(1), "{words}");
    }
    assert_eq!(end_with_pool("bench --from pool bad"), trace_refused(1));
    assert_eq!(
        end_with_pool("bench --from pool --cap 8 a"),
        trace_refused(8)
    );
    assert_eq!(
        end_with_pool("rows --from pool --cap 7 a"),
        trace_refused(15)
    );
    let fault = |named: &str| End::Fault {
        named: named.into(),
        reason: None,
    };
    assert_eq!(end_with_pool("bench --from x y"), fault("x"));
    assert_eq!(end_with_pool("bench --from pool y"), fault("y"));
    assert_eq!(end_with_pool("bench --from - a"), fault("standard input"));
}

#[test]
fn longest_image() {
    let mut bytes = vec![0; LONGEST_IMAGE];
    assert_eq!(end_of("image b", &[("b", &bytes)]), image_refused(2));
    bytes.push(0);
    let fault = |named: &str| End::Fault {
        named: named.into(),
        reason: Some("File too large"),
    };
    assert_eq!(end_of("image b", &[("b", &bytes)]), fault("b"));
    assert_eq!(end_of("image", &[("-", &bytes)]), fault("standard input"));
    let words = "bench --frames 0 --from b missing";
    assert_eq!(end_of(words, &[("b", &bytes)]), fault("b"));
    assert_eq!(LONGEST_IMAGE, 1_048_576);
}

#[test]
fn streams_that_are_taken() {
    let wrong = |reason| End::Wrong(Some(Command::Bench), reason);
    for words in [
        "bench --from -",
        "bench - --from -",
        "bench --from pool --from -",
    ] {
        assert_eq!(end_with_pool(words), wrong(Some(NAMED_TWICE)), "{words}");
    }
    for words in [
        "bench --save - a",
        "bench --save -",
        "bench --from x --save - y",
    ] {
        assert_eq!(end_with_pool(words), wrong(Some(TAKEN)), "{words}");
    }
    // Other faults of the words are told before.
    for words in [
        "bench --from - --save",
        "bench --from - a a",
        "bench --save - a --frames x",
        "bench --save - --wrong",
    ] {
        assert_eq!(end_with_pool(words), wrong(None), "{words}");
    }
    assert_eq!(end_with_pool("bench --from - --from pool a").status(), 0);
    for words in [
        "check --from pool a",
        "image --save new pool",
        "quote --save b a",
    ] {
        assert_eq!(end_with_pool(words).status(), 2, "{words}");
    }
}

/// Nothing can be printed, and everything else written.
struct Mute(Files);

impl Outside for Mute {
    fn read(&self, name: &[u8], most: usize) -> Option<Bytes> {
        self.0.read(name, most)
    }

    fn can_write(&self, name: &[u8]) -> bool {
        name != STANDARD
    }
}

#[test]
fn printing_comes_before_saving() {
    let sheet = printed("bench a").into_bytes();
    let unsaved = End::Unsaved {
        printed: sheet,
        named: b"no".to_vec(),
    };
    assert_eq!(end_with_pool("bench --save no a"), unsaved);
    assert_eq!(unsaved.status(), 3);
    let words = ["bench", "--save", "new", "a"].map(Bytes::from);
    let files = Files(BTreeMap::from([(b"a".to_vec(), example())]));
    let fault = End::Fault {
        named: b"standard output".to_vec(),
        reason: None,
    };
    assert_eq!(run(&words, &Mute(files)), fault);
}

#[test]
fn other_ends_of_images_are_found() {
    let unsaved = End::Unsaved {
        printed: b"sheet\n".to_vec(),
        named: b"no/new".to_vec(),
    };
    let told = "hitchyawl: no/new: No such file or directory\n";
    assert!(passes(&unsaved, 3, "sheet\n", told));
    assert!(!passes(&unsaved, 3, "", told));
    assert!(!passes(&unsaved, 0, "sheet\n", ""));
    assert!(!passes(
        &unsaved,
        3,
        "sheet\n",
        "hitchyawl: new: Is a directory\n"
    ));
    let saved = End::Done {
        printed: b"sheet\n".to_vec(),
        out: Some((b"/dev/stdout".to_vec(), b"image".to_vec())),
    };
    assert!(passes(&saved, 0, "sheet\nimage", ""));
    assert!(!passes(&saved, 0, "imagesheet\n", "") && !passes(&saved, 0, "sheet\n", ""));
    let usage = "usage: hitchyawl rows [SETTINGS] [--from IMAGE] [--save IMAGE] [TRACE]\n";
    let twice = End::Wrong(Some(Command::Rows), Some(NAMED_TWICE));
    let taken = End::Wrong(Some(Command::Rows), Some(TAKEN));
    let other = End::Wrong(Some(Command::Rows), None);
    let told = |reason: &str| format!("{reason}\n{usage}");
    assert!(passes(&twice, 2, "", &told(NAMED_TWICE)));
    assert!(passes(&taken, 2, "", &told(TAKEN)));
    assert!(passes(&other, 2, "", &told("hitchyawl: --from: no value")));
    assert!(!passes(&twice, 2, "", &told(TAKEN)));
    assert!(!passes(&other, 2, "", &told(TAKEN)));
    assert!(!passes(
        &twice,
        2,
        "",
        &format!("{NAMED_TWICE}\nusage: hitchyawl rows [TRACE]\n")
    ));
}

// ------------------------------------------------------------------ the session

/// Whether a run that ended so passes where this must come.
fn passes(end: &End, status: i32, stdout: &str, stderr: &str) -> bool {
    let ran = Ran {
        status: Some(status),
        stdout: stdout.into(),
        stderr: stderr.into(),
    };
    expect_end(end, &Case::new(["check"]), &ran).is_ok()
}

#[test]
fn other_ends_are_found() {
    let done = End::Done {
        printed: b"accepted\n".to_vec(),
        out: None,
    };
    assert!(passes(&done, 0, "accepted\n", ""));
    assert!(!passes(&done, 1, "accepted\n", ""));
    assert!(!passes(&done, 0, "accepted", ""));
    assert!(!passes(&done, 0, "accepted\n\n", ""));
    assert!(!passes(&done, 0, "accepted\n", "note\n"));
    let refused = End::Refused("line 2 refused\n".to_string());
    assert!(passes(&refused, 1, "line 2 refused\n", ""));
    assert!(!passes(&refused, 1, "line 3 refused\n", ""));
    assert!(!passes(&refused, 0, "line 2 refused\n", ""));
    let written = End::Done {
        printed: Bytes::new(),
        out: Some((b"/dev/stdout".to_vec(), b"bytes".to_vec())),
    };
    assert!(passes(&written, 0, "bytes", "") && !passes(&written, 0, "", ""));
}

#[test]
fn other_words_on_standard_error_are_found() {
    let fault = End::Fault {
        named: b"a\nb".to_vec(),
        reason: None,
    };
    assert!(passes(&fault, 3, "", "hitchyawl: a\nb: Is a directory\n"));
    let amiss = [
        "",
        "a\nb: Is a directory\n",
        "hitchyawl: a: Is a directory\n",
        "hitchyawl: a\nb: \n",
        "hitchyawl: a\nb: Is a directory",
        "hitchyawl: a\nb: Is a directory\nmore\n",
    ];
    assert!(amiss.iter().all(|stderr| !passes(&fault, 3, "", stderr)));
    assert!(!passes(
        &fault,
        3,
        "accepted\n",
        "hitchyawl: a\nb: Is a directory\n"
    ));
    let long = End::Fault {
        named: b"a".to_vec(),
        reason: Some("File too large"),
    };
    assert!(passes(&long, 3, "", "hitchyawl: a: File too large\n"));
    assert!(!passes(&long, 3, "", "hitchyawl: a: No such file\n"));
    let wrong = End::Wrong(Some(Command::Set), None);
    assert!(passes(
        &wrong,
        2,
        "",
        "hitchyawl: no\nusage: hitchyawl set A B\n"
    ));
    assert!(!passes(&wrong, 2, "", "hitchyawl: set\n"));
    assert!(!passes(&wrong, 2, "", "usage: hitchyawl set A B\n"));
    assert!(!passes(
        &wrong,
        2,
        "",
        "hitchyawl: no\nusage: hitchyawl check A\n"
    ));
    assert!(!passes(
        &wrong,
        2,
        "x",
        "hitchyawl: no\nusage: hitchyawl set A B\n"
    ));
}

#[test]
fn poor_help_is_found() {
    let help = End::Help(Some(Command::Set));
    assert!(passes(
        &help,
        0,
        "Sets.\n\n  hitchyawl set --frames 4 a b\n",
        ""
    ));
    assert!(!passes(&help, 0, "", ""));
    assert!(!passes(&help, 0, "hitchyawl sets a b\n", ""));
    assert!(!passes(&help, 0, "Use set with hitchyawl set a b\n", ""));
    assert!(!passes(&help, 0, "", "  hitchyawl set a b\n"));
    let all = Command::ALL.map(Command::name).join(" ");
    let text = format!("{all}\nhitchyawl check a\n");
    assert!(passes(&End::Help(None), 0, &text, ""));
    assert!(!passes(&End::Help(None), 0, &text.replace("quote", ""), ""));
}

#[test]
fn what_cannot_be_captured_is_not_asked_for() {
    let end = End::Fault {
        named: b"standard output".to_vec(),
        reason: None,
    };
    let case = Case::new(["check"]).output(Output::Full);
    let ran = Ran {
        status: Some(3),
        stdout: Bytes::new(),
        stderr: b"hitchyawl: standard output: No space left on device\n".to_vec(),
    };
    assert!(expect_end(&end, &case, &ran).is_ok());
    let killed = Ran {
        status: None,
        ..ran
    };
    assert!(expect_end(&end, &case, &killed).is_err());
}

#[test]
fn other_files_are_found() {
    let file = |bytes: &[u8], mode: u32| Found::File {
        bytes: bytes.to_vec(),
        mode,
    };
    let folder = |files: &[(&str, Found)]| -> BTreeMap<PathBuf, Found> {
        let files = files.iter().cloned();
        files
            .map(|(name, found)| (PathBuf::from(name), found))
            .collect()
    };
    let must = folder(&[("a", file(b"1", 0o644)), ("b", Found::Folder)]);
    assert!(expect_folder(&must, &must).is_ok());
    let others = [
        folder(&[("a", file(b"1", 0o644))]),
        folder(&[("a", file(b"2", 0o644)), ("b", Found::Folder)]),
        folder(&[("a", file(b"1", 0o600)), ("b", Found::Folder)]),
        folder(&[("a", file(b"1", 0o644)), ("b", file(b"", 0o644))]),
        folder(&[
            ("a", file(b"1", 0o644)),
            ("b", Found::Folder),
            ("a.part", file(b"", 0o644)),
        ]),
        folder(&[("a", Found::Pipe(b"1".to_vec())), ("b", Found::Folder)]),
    ];
    assert!(others
        .iter()
        .all(|other| expect_folder(&must, other).is_err()));
}

#[test]
fn what_never_occurred_is_found() {
    let mut seen = Seen::default();
    for command in Command::ALL {
        let words = [command.name().into()];
        seen.note(
            &words,
            &End::Done {
                printed: Bytes::new(),
                out: None,
            },
        );
        seen.note(&words, &End::Wrong(None, None));
        if command != Command::Rows {
            seen.note(
                &words,
                &End::Fault {
                    named: Bytes::new(),
                    reason: None,
                },
            );
        }
        for line in REFUSALS {
            if !["trace refused 8", "image refused 14", "line refused"].contains(&line) {
                seen.note(&words, &End::Refused(format!("{line}\n")));
            }
        }
    }
    let never = [
        "rows with status 3",
        "trace refused 8",
        "image refused 14",
        "line refused",
        "help",
    ];
    assert_eq!(seen.missing(), never);
    seen.note(&[], &End::Refused("line 12 refused\n".to_string()));
    seen.note(&[], &End::Help(None));
    assert_eq!(seen.missing(), never[..3]);
}

#[test]
fn cases_are_many_and_differ() {
    let cases = fixed();
    assert!(cases.len() > 500);
    let stated = cases.iter().filter(|case| case.status.is_some());
    // Whether a file without rights can be read depends on who runs this.
    assert!(stated.count() + 4 >= cases.len());
    let made = |seed| format!("{:?}", generated(seed));
    assert_eq!((0..300).map(made).collect::<BTreeSet<_>>().len(), 300);
    // A seed gives the same case again.
    assert_eq!(made(7), made(7));
}
