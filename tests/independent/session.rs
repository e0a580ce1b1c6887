//! Runs the program `hitchyawl` on cases, each in a scratch folder of its own, and
//! holds what it printed, its status and the files it left against what must come.

use crate::cases::{self, Case, Input, Node, Output};
use crate::program::{self, Bytes, Command, End, Outside, STANDARD};
use crate::things::expect_none;
use crate::{first_difference, fixed};
use std::collections::BTreeMap;
use std::error::Error;
use std::ffi::OsStr;
use std::fs::{self, File};
use std::io::{self, Read, Write};
use std::os::unix::ffi::OsStrExt;
use std::os::unix::fs::{FileTypeExt, OpenOptionsExt, PermissionsExt};
use std::os::unix::process::CommandExt;
use std::path::{Path, PathBuf};
use std::process::{self, Child, ExitStatus, Stdio};
use std::sync::mpsc::{self, Receiver, RecvTimeoutError};
use std::thread;
use std::time::{Duration, Instant};

/// A run that takes longer is ended and is a fault.
const LIMIT: Duration = Duration::from_secs(20);

fn path_of(name: &[u8]) -> &Path {
    Path::new(OsStr::from_bytes(name))
}

// --------------------------------------------------------------- a run of it

/// What came of a run.
#[derive(Clone, Debug)]
pub struct Ran {
    /// None where a signal ended it.
    pub status: Option<i32>,
    pub stdout: Bytes,
    pub stderr: Bytes,
}

/// The program with these words. A shell stands between where descriptors are to be
/// closed or something is to happen first; it is replaced by the program.
fn start(program: &Path, folder: &Path, case: &Case) -> io::Result<Child> {
    let mut command = match shell_text(case) {
        Some(text) => {
            let mut shell = process::Command::new("sh");
            shell.arg("-c").arg(text).arg(program);
            shell
        }
        None => process::Command::new(program),
    };
    command
        .args(case.words.iter().map(|word| OsStr::from_bytes(word)))
        .current_dir(folder)
        .process_group(0)
        .stdin(match &case.stdin {
            Input::Pipe(_) => Stdio::piped(),
            Input::From(name) => Stdio::from(File::open(folder.join(path_of(name)))?),
            Input::Closed => Stdio::null(),
        })
        .stdout(match case.stdout {
            Output::Pipe => Stdio::piped(),
            Output::Full => Stdio::from(File::options().write(true).open("/dev/full")?),
            Output::Closed => Stdio::null(),
        })
        .stderr(Stdio::piped())
        .spawn()
}

fn shell_text(case: &Case) -> Option<String> {
    let closed = [
        (case.stdin == Input::Closed, " <&-"),
        (case.stdout == Output::Closed, " >&-"),
        (case.error_closed, " 2>&-"),
    ];
    let closed: String = closed
        .iter()
        .filter(|(closed, _)| *closed)
        .map(|(_, text)| *text)
        .collect();
    let text = format!("{}exec \"$0\" \"$@\"{closed}", case.first);
    (text != "exec \"$0\" \"$@\"").then_some(text)
}

fn all_of(from: Option<impl Read>) -> io::Result<Bytes> {
    let mut bytes = Bytes::new();
    if let Some(mut from) = from {
        from.read_to_end(&mut bytes)?;
    }
    Ok(bytes)
}

/// Ends the run and what it started where it takes too long; says whether it did.
fn watch(child: u32, ended: Receiver<()>) -> bool {
    let late = ended.recv_timeout(LIMIT) == Err(RecvTimeoutError::Timeout);
    if late {
        let group = format!("-{child}");
        let _ = process::Command::new("kill")
            .args(["-KILL", "--", &group])
            .status();
    }
    late
}

/// Runs the program on a case in a folder that is ready for it.
fn run(program: &Path, folder: &Path, case: &Case) -> Result<Ran, String> {
    let failed = |error: io::Error| format!("{}: {error}", program.display());
    let mut child = start(program, folder, case).map_err(failed)?;
    let (running, ended) = mpsc::channel::<()>();
    let id = child.id();
    let (late, ran) = thread::scope(|scope| {
        let watch = scope.spawn(move || watch(id, ended));
        let ran = ran_to_its_end(&mut child, case);
        drop(running);
        (watch.join().expect("a watch that ends"), ran)
    });
    if late {
        return Err(format!("still ran after {LIMIT:?}"));
    }
    let (status, stdout, stderr) = ran.map_err(failed)?;
    Ok(Ran {
        status: status.code(),
        stdout,
        stderr,
    })
}

fn ran_to_its_end(child: &mut Child, case: &Case) -> io::Result<(ExitStatus, Bytes, Bytes)> {
    let (stdin, stdout, stderr) = (child.stdin.take(), child.stdout.take(), child.stderr.take());
    let (stdout, stderr) = thread::scope(|scope| {
        scope.spawn(move || {
            if let (Some(mut stdin), Input::Pipe(bytes)) = (stdin, &case.stdin) {
                // A program may well stop reading.
                let _ = stdin.write_all(bytes);
                if let Some(ends) = case.input_ends {
                    thread::sleep(ends.saturating_duration_since(Instant::now()));
                }
            }
        });
        let stderr = scope.spawn(move || all_of(stderr));
        (all_of(stdout), stderr.join().expect("a reader that ends"))
    });
    Ok((child.wait()?, stdout?, stderr?))
}

// --------------------------------------------------------- the scratch folder

/// What stands under a name.
#[derive(Clone, PartialEq, Eq, Debug)]
pub enum Found {
    File {
        bytes: Bytes,
        mode: u32,
    },
    Folder,
    /// A named pipe and what was in it.
    Pipe(Bytes),
}

type Folder = BTreeMap<PathBuf, Found>;

/// A folder for one case, and the reading ends of its named pipes.
struct Scratch {
    folder: PathBuf,
    pipes: BTreeMap<PathBuf, File>,
    /// The bits of a file that is made without a word about them.
    mode: u32,
}

impl Scratch {
    fn new(folder: &Path, nodes: &[(Bytes, Node)]) -> io::Result<Scratch> {
        if folder.exists() {
            fs::remove_dir_all(folder)?;
        }
        fs::create_dir_all(folder)?;
        let mut scratch = Scratch {
            folder: fs::canonicalize(folder)?,
            pipes: BTreeMap::new(),
            mode: 0,
        };
        let probe = folder.join("probe");
        scratch.mode = mode_of(&File::create(&probe)?.metadata()?);
        fs::remove_file(probe)?;
        for (name, node) in nodes {
            scratch.put(path_of(name), node)?;
        }
        Ok(scratch)
    }

    fn put(&mut self, name: &Path, node: &Node) -> io::Result<()> {
        let path = self.folder.join(name);
        match node {
            Node::File(bytes) => fs::write(path, bytes),
            Node::Unreadable(bytes) => {
                fs::write(&path, bytes)?;
                fs::set_permissions(path, fs::Permissions::from_mode(0))
            }
            Node::Link(to) => fs::hard_link(self.folder.join(path_of(to)), path),
            Node::Folder => fs::create_dir(path),
            Node::Fed(_) => make_pipe(&path),
            Node::Pipe => {
                make_pipe(&path)?;
                let end = File::options()
                    .read(true)
                    .write(true)
                    .custom_flags(O_NONBLOCK)
                    .open(path)?;
                self.pipes.insert(name.to_path_buf(), end);
                Ok(())
            }
        }
    }

    /// All that stands there.
    fn found(&self) -> io::Result<Folder> {
        let mut found = Folder::new();
        let mut folders = vec![self.folder.clone()];
        while let Some(folder) = folders.pop() {
            for entry in fs::read_dir(folder)? {
                let path = entry?.path();
                let name = path.strip_prefix(&self.folder).map_err(io::Error::other)?;
                found.insert(name.to_path_buf(), self.found_at(name)?);
                if path.is_dir() {
                    folders.push(path);
                }
            }
        }
        Ok(found)
    }

    fn found_at(&self, name: &Path) -> io::Result<Found> {
        let path = self.folder.join(name);
        let metadata = fs::symlink_metadata(&path)?;
        if metadata.is_dir() {
            return Ok(Found::Folder);
        }
        if metadata.file_type().is_fifo() {
            return Ok(Found::Pipe(self.drained(name)));
        }
        Ok(Found::File {
            // What may not be read has no right bytes either.
            bytes: fs::read(path).unwrap_or_default(),
            mode: mode_of(&metadata),
        })
    }

    fn drained(&self, name: &Path) -> Bytes {
        let mut bytes = Bytes::new();
        if let Some(mut end) = self.pipes.get(name) {
            // It ends with the fault that it would have to wait.
            let _ = end.read_to_end(&mut bytes);
        }
        bytes
    }

    /// What must stand there after a run, where this stood before.
    fn expected(&self, mut folder: Folder, case: &Case, end: &End) -> Folder {
        let End::Done {
            out: Some((name, bytes)),
            ..
        } = end
        else {
            return folder;
        };
        if let Some(name) = self.place(name) {
            let mode = case.mask.map_or(self.mode, |mask| 0o666 & !mask);
            let bytes = bytes.clone();
            let found = match folder.get(&name) {
                Some(Found::Pipe(_)) => Found::Pipe(bytes),
                _ => Found::File { bytes, mode },
            };
            folder.insert(name, found);
        }
        folder
    }

    /// The place of a file in the folder, if it is there.
    fn place(&self, name: &[u8]) -> Option<PathBuf> {
        let path = self.folder.join(path_of(name));
        let parent = fs::canonicalize(path.parent()?).ok()?;
        let path = parent.join(path.file_name()?);
        path.strip_prefix(&self.folder).ok().map(Path::to_path_buf)
    }
}

/// As Linux has it.
const O_NONBLOCK: i32 = 0o4000;

fn mode_of(metadata: &fs::Metadata) -> u32 {
    metadata.permissions().mode() & 0o7777
}

fn make_pipe(path: &Path) -> io::Result<()> {
    let made = process::Command::new("mkfifo").arg(path).status()?;
    match made.success() {
        true => Ok(()),
        false => Err(io::Error::other(format!("mkfifo: {made}"))),
    }
}

/// A case in its folder, before the program has run.
struct Before<'a>(&'a Path, &'a Case);

impl Outside for Before<'_> {
    fn read(&self, name: &[u8], most: usize) -> Option<Bytes> {
        let Before(folder, case) = self;
        if let Some((_, Node::Fed(from))) = case.nodes.iter().find(|(fed, _)| fed == name) {
            return self.read(from, most);
        }
        match (name, &case.stdin) {
            (STANDARD | b"/dev/stdin", Input::Pipe(bytes)) => Some(bytes.clone()),
            (STANDARD | b"/dev/stdin", Input::From(name)) => self.read(name, most),
            (STANDARD | b"/dev/stdin", Input::Closed) => None,
            _ => {
                let file = File::open(folder.join(path_of(name))).ok()?;
                all_of(Some(file.take(most as u64))).ok()
            }
        }
    }

    fn can_write(&self, name: &[u8]) -> bool {
        let Before(folder, case) = self;
        let path = folder.join(path_of(name));
        match name {
            STANDARD | b"/dev/stdout" => case.stdout == Output::Pipe,
            b"" | [.., b'/'] | b"/dev/full" => false,
            _ => match fs::metadata(&path) {
                Ok(found) if found.is_dir() => false,
                Ok(found) if !found.is_file() => true,
                _ if case.no_room => false,
                Ok(_) => can_make(&path.with_file_name("probe")),
                Err(_) => can_make(&path),
            },
        }
    }
}

/// Whether a new file can be made; it is taken away again.
fn can_make(path: &Path) -> bool {
    let made = File::options().write(true).create_new(true).open(path);
    made.is_ok() && fs::remove_file(path).is_ok()
}

// ------------------------------------------------------------ the comparison

fn shown(bytes: &[u8]) -> String {
    let text = String::from_utf8_lossy(bytes);
    let front: String = text.chars().take(300).collect();
    let rest = if front.len() < text.len() { "..." } else { "" };
    format!("{front:?}{rest}")
}

pub fn shown_words(words: &[Bytes]) -> String {
    let words: Vec<String> = words.iter().map(|word| shown(word)).collect();
    words.join(" ")
}

fn shown_case(case: &Case) -> String {
    let input = match &case.stdin {
        Input::From(name) => format!(" <{}", shown(name)),
        Input::Pipe(_) | Input::Closed => String::new(),
    };
    let output = match case.stdout {
        Output::Full => " >/dev/full",
        Output::Pipe | Output::Closed => "",
    };
    let shell = shell_text(case).map_or(String::new(), |text| format!(", by {text:?}"));
    let words = shown_words(&case.words);
    format!("{}{words}{input}{output}{shell}", case.about)
}

/// What a run printed and how it ended, against what must come.
pub fn expect_end(end: &End, case: &Case, ran: &Ran) -> Result<(), String> {
    let status = i32::from(end.status());
    if ran.status != Some(status) {
        return Err(format!(
            "status {:?} in place of {status}, standard error {}",
            ran.status,
            shown(&ran.stderr)
        ));
    }
    if case.stdout == Output::Pipe {
        expect_stdout(end, &ran.stdout)?;
    }
    match case.error_closed {
        true => Ok(()),
        false => expect_stderr(end, &ran.stderr),
    }
}

fn expect_stdout(end: &End, stdout: &[u8]) -> Result<(), String> {
    let expected = match end {
        End::Help(command) => return expect_help(*command, stdout),
        End::Done {
            printed,
            out: Some((name, bytes)),
        } if name == b"/dev/stdout" => [&printed[..], bytes].concat(),
        End::Done { printed, .. } | End::Unsaved { printed, .. } => printed.clone(),
        End::Refused(line) => line.clone().into_bytes(),
        End::Wrong(..) | End::Fault { .. } => Bytes::new(),
    };
    match first_difference(&expected, stdout) {
        None => Ok(()),
        Some((line, ours, theirs)) => Err(format!(
            "standard output, line {line}: ours {ours}, theirs {theirs}"
        )),
    }
}

fn names_all(text: &str, commands: &[Command]) -> Result<(), String> {
    let mut words = text.split(|char: char| !char.is_ascii_alphanumeric() && char != '-');
    for command in commands {
        if !words.clone().any(|word| word == command.name()) {
            return Err(format!("{} is not named in {text:?}", command.name()));
        }
    }
    match words.any(|word| word == "hitchyawl") {
        true => Ok(()),
        false => Err(format!("hitchyawl is not named in {text:?}")),
    }
}

/// A help names its commands and has a line that begins as a run of one does.
fn expect_help(command: Option<Command>, stdout: &[u8]) -> Result<(), String> {
    let text = String::from_utf8(stdout.to_vec()).map_err(|error| format!("help: {error}"))?;
    let commands = command.map_or(Command::ALL.to_vec(), |command| vec![command]);
    names_all(&text, &commands).map_err(|fault| format!("help: {fault}"))?;
    let example = |line: &str| {
        let mut words = line.split_whitespace();
        let is_run = words.next() == Some("hitchyawl");
        let run = words.next();
        is_run && commands.iter().any(|command| run == Some(command.name()))
    };
    match text.lines().any(example) && text.ends_with('\n') {
        true => Ok(()),
        false => Err(format!("help: no example in {text:?}")),
    }
}

/// What the system says of files that cannot be read or written here.
const REASONS: [&str; 8] = [
    "Bad file descriptor",
    "File name too long",
    "File too large",
    "Is a directory",
    "No space left on device",
    "No such file or directory",
    "Not a directory",
    "Permission denied",
];

fn expect_stderr(end: &End, stderr: &[u8]) -> Result<(), String> {
    match end {
        End::Done { .. } | End::Help(_) | End::Refused(_) if stderr.is_empty() => Ok(()),
        End::Done { .. } | End::Help(_) | End::Refused(_) => amiss("is not empty", stderr),
        End::Wrong(command, reason) => expect_usage(*command, *reason, stderr),
        End::Fault { named, reason } => expect_fault(named, *reason, stderr),
        End::Unsaved { named, .. } => expect_fault(named, None, stderr),
    }
}

fn amiss(what: &str, stderr: &[u8]) -> Result<(), String> {
    Err(format!("standard error {what}: {}", shown(stderr)))
}

/// A reason, then the usage. A reason that is fixed is told where no other one is.
fn expect_usage(
    command: Option<Command>,
    reason: Option<&'static str>,
    stderr: &[u8],
) -> Result<(), String> {
    let text = String::from_utf8_lossy(stderr);
    let Some((told, usage)) = text.split_once('\n') else {
        return amiss("has no usage", stderr);
    };
    if !told.starts_with(reason.unwrap_or("hitchyawl: ")) {
        return amiss("does not begin with its reason", stderr);
    }
    let fixed = [program::NAMED_TWICE, program::TAKEN];
    if reason.is_none() && fixed.iter().any(|reason| told.starts_with(reason)) {
        return amiss("has a reason that another one comes before", stderr);
    }
    let fixed_usage = command.and_then(Command::usage);
    if fixed_usage.is_some_and(|fixed| !usage.lines().any(|line| line == fixed)) {
        return amiss("has another usage", stderr);
    }
    let commands = command.map_or(Command::ALL.to_vec(), |command| vec![command]);
    names_all(usage, &commands).map_err(|fault| format!("usage: {fault}"))
}

/// A line that names the file and a reason.
fn expect_fault(named: &[u8], reason: Option<&str>, stderr: &[u8]) -> Result<(), String> {
    let front = [b"hitchyawl: ", named, b": "].concat();
    let told = stderr.strip_prefix(front.as_slice());
    let Some((b'\n', told)) = told.and_then(<[u8]>::split_last) else {
        return amiss("does not name the file", stderr);
    };
    match reason {
        _ if told.is_empty() || told.contains(&b'\n') => amiss("is not one line", stderr),
        Some(reason) if told != reason.as_bytes() => amiss("has another reason", stderr),
        _ if !REASONS.iter().any(|reason| told == reason.as_bytes()) => {
            amiss("has no reason", stderr)
        }
        _ => Ok(()),
    }
}

/// The first name under which something else stands than must.
pub fn expect_folder(expected: &Folder, found: &Folder) -> Result<(), String> {
    for name in expected.keys().chain(found.keys()) {
        let [ours, theirs] = [expected, found].map(|folder| folder.get(name));
        if ours != theirs {
            let [ours, theirs] = [ours, theirs].map(shown_found);
            return Err(format!("afterwards {name:?}: ours {ours}, theirs {theirs}"));
        }
    }
    Ok(())
}

fn shown_found(found: Option<&Found>) -> String {
    match found {
        None => "(nothing)".to_string(),
        Some(Found::Folder) => "a folder".to_string(),
        Some(Found::Pipe(bytes)) => format!("a pipe with {}", shown(bytes)),
        Some(Found::File { bytes, mode }) => {
            format!("{} bytes, mode {mode:o}: {}", bytes.len(), shown(bytes))
        }
    }
}

/// What a case says by hand, against what comes of the rules.
fn expect_by_hand(case: &Case, end: &End) -> Result<(), String> {
    let (printed, out) = match end {
        End::Done { printed, out } => (Some(printed.clone()), out.as_ref()),
        End::Unsaved { printed, .. } => (Some(printed.clone()), None),
        End::Refused(line) => (Some(line.clone().into_bytes()), None),
        _ => (None, None),
    };
    let out = out.map(|(_, bytes)| bytes.clone());
    // Where nothing is printed, it is the output that is given.
    let given = match printed {
        Some(printed) if printed.is_empty() && out.is_some() => out.clone(),
        printed => printed,
    };
    let holds = case.status.is_none_or(|status| status == end.status())
        && (case.gives.is_none() || case.gives == given)
        && (case.saves.is_none() || case.saves == out);
    match holds {
        true => Ok(()),
        false => Err(format!("the case says otherwise than the rules: {end:?}")),
    }
}

// --------------------------------------------------------------- the session

/// How often each thing occurred.
#[derive(Default)]
pub struct Seen {
    runs: u64,
    /// By command and status.
    ends: BTreeMap<(Option<Command>, u8), u64>,
    /// By the line, without its line feed; bad lines together.
    refusals: BTreeMap<String, u64>,
    helps: u64,
}

pub const REFUSALS: [&str; 17] = [
    "trace refused 1",
    "trace refused 2",
    "trace refused 3",
    "trace refused 4",
    "trace refused 5",
    "trace refused 6",
    "trace refused 7",
    "trace refused 8",
    "trace refused 15",
    "trace refused 17",
    "image refused 1",
    "image refused 2",
    "image refused 3",
    "image refused 5",
    "image refused 6",
    "image refused 14",
    "line refused",
];

impl Seen {
    pub fn note(&mut self, words: &[Bytes], end: &End) {
        let named = |command: &Command| {
            words
                .first()
                .is_some_and(|w| w == command.name().as_bytes())
        };
        let command = Command::ALL.into_iter().find(named);
        self.runs += 1;
        *self.ends.entry((command, end.status())).or_default() += 1;
        match end {
            End::Help(_) => self.helps += 1,
            End::Refused(line) => {
                let line = line.trim_end();
                let line = match line.starts_with("line ") {
                    true => "line refused",
                    false => line,
                };
                *self.refusals.entry(line.to_string()).or_default() += 1;
            }
            _ => {}
        }
    }

    fn times(&self, command: Option<Command>, status: u8) -> u64 {
        self.ends.get(&(command, status)).copied().unwrap_or(0)
    }

    /// What should have occurred and never did.
    pub fn missing(&self) -> Vec<String> {
        let mut missing = Vec::new();
        for command in Command::ALL {
            let never = (0..4).filter(|&status| self.times(Some(command), status) == 0);
            missing.extend(never.map(|status| format!("{} with status {status}", command.name())));
        }
        let never = REFUSALS
            .iter()
            .filter(|line| !self.refusals.contains_key(**line));
        missing.extend(never.map(|line| line.to_string()));
        if self.helps == 0 {
            missing.push("help".to_string());
        }
        missing
    }

    fn line(&self) -> String {
        let by_status = |command| {
            let times = [0, 1, 2, 3].map(|status| self.times(command, status).to_string());
            times.join("/")
        };
        let commands =
            Command::ALL.map(|command| format!("{} {}", command.name(), by_status(Some(command))));
        let refusals = REFUSALS.map(|line| {
            let times = self.refusals.get(line).copied().unwrap_or(0);
            format!("{} {times}", line.trim_start_matches("trace "))
        });
        format!(
            "ran {} cases alike, by status 0/1/2/3: {}, no command {}; {}; help {}",
            self.runs,
            commands.join(", "),
            by_status(None),
            refusals.join(", "),
            self.helps,
        )
    }
}

/// The program, and where its cases stand.
pub struct Session {
    program: PathBuf,
    folder: PathBuf,
    seen: Seen,
}

impl Session {
    /// Runs a case and holds it against what must come; gives what was printed.
    pub fn ran(&mut self, case: &Case) -> Result<Ran, String> {
        let told = |error: io::Error| format!("the scratch folder: {error}");
        let scratch = Scratch::new(&self.folder, &case.nodes).map_err(told)?;
        let end = program::run(&case.words, &Before(&scratch.folder, case));
        self.seen.note(&case.words, &end);
        expect_by_hand(case, &end)?;
        let before = scratch.found().map_err(told)?;
        let ran = run(&self.program, &scratch.folder, case)?;
        expect_end(&end, case, &ran)?;
        let expected = scratch.expected(before, case, &end);
        expect_folder(&expected, &scratch.found().map_err(told)?)?;
        Ok(ran)
    }

    /// Runs cases of the same files and the same output at once. Afterwards that is
    /// what one of them makes of it.
    pub fn ran_at_once(&mut self, cases: &[Case]) -> Result<(), String> {
        let told = |error: io::Error| format!("the scratch folder: {error}");
        let scratch = Scratch::new(&self.folder, &cases[0].nodes).map_err(told)?;
        let before = scratch.found().map_err(told)?;
        let ends: Vec<End> = cases
            .iter()
            .map(|case| program::run(&case.words, &Before(&scratch.folder, case)))
            .collect();
        let (program, folder) = (&self.program, &scratch.folder);
        let rans: Vec<Result<Ran, String>> = thread::scope(|scope| {
            let start = |case| scope.spawn(move || run(program, folder, case));
            let runs: Vec<_> = cases.iter().map(start).collect();
            let joined = runs.into_iter().map(|run| run.join());
            joined.map(|ran| ran.expect("a run that ends")).collect()
        });
        let found = scratch.found().map_err(told)?;
        let mut left = Err("no run".to_string());
        for ((case, end), ran) in cases.iter().zip(&ends).zip(rans) {
            self.seen.note(&case.words, end);
            expect_end(end, case, &ran?)?;
            let expected = scratch.expected(before.clone(), case, end);
            left = left.or(expect_folder(&expected, &found));
        }
        left
    }

    /// The faults of all cases, until there are enough of them.
    fn all(&mut self, first: u64, count: u64) -> Vec<String> {
        let mut faults = Vec::new();
        let generated = (first..first + count).map(cases::generated);
        for case in fixed::fixed().into_iter().chain(generated) {
            if let Err(fault) = self.ran(&case) {
                faults.push(format!("{}: {fault}", shown_case(&case)));
            }
            if faults.len() == MOST_FAULTS {
                return faults;
            }
        }
        for (what, scenario) in cases::SCENARIOS {
            if let Err(fault) = scenario(self) {
                faults.push(format!("{what}: {fault}"));
            }
        }
        faults
    }
}

/// So many faults are told of; more say no more.
const MOST_FAULTS: usize = 20;

pub fn session(program: &str, folder: &str, first: u64, count: u64) -> Result<(), Box<dyn Error>> {
    let mut session = Session {
        program: std::path::absolute(program)?,
        folder: Path::new(folder).join("case"),
        seen: Seen::default(),
    };
    let faults = session.all(first, count);
    fs::remove_dir_all(&session.folder)?;
    if !faults.is_empty() {
        return Err(faults.join("\n").into());
    }
    println!("{}", session.seen.line());
    expect_none(session.seen.missing())
}
