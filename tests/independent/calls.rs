//! Single calls on the pool that an image says, and what comes of them: how a call is
//! put as bytes, and what is printed of its answer.
//!
//! A call is 16 numbers of 4 bytes, high byte first, then the bytes of an image, then
//! those of a trace. The numbers: the call; the two lengths; how many places are lent
//! for rows, and how many for the pages written or, to be written into, for bytes; the
//! six counts of the tally; page and kind of a step; the order to write in; two zeros.

use crate::image::{self, Held};
use crate::replay::{check, go_on, row, Kind, Order, Outcome, Pool, Tally};
use std::fmt::{self, Write as _};

pub type Bytes = Vec<u8>;

/// What every lent place holds before a call.
pub const LENT: u32 = 7;

/// The most places that are lent for rows and for pages, and the most bytes.
pub const MOST_ROWS: u32 = 4_096;
pub const MOST_PAGES: u32 = 1_024;
pub const MOST_BYTES: u32 = 16_384;

/// The longest image and the longest trace of a call.
pub const LONGEST: usize = 60_000;

/// The greatest count of a tally that may be handed in.
pub const MOST_COUNT: u32 = 4_000_000_000;

const NUMBERS: usize = 16;

// -------------------------------------------------------------------- a call

#[derive(Clone, Copy, PartialEq, Eq, PartialOrd, Ord, Debug)]
pub enum What {
    Read,
    Write,
    Check,
    Step,
    Replay,
    Counts,
}

impl What {
    pub const ALL: [What; 6] = [
        What::Read,
        What::Write,
        What::Check,
        What::Step,
        What::Replay,
        What::Counts,
    ];

    pub fn name(self) -> &'static str {
        match self {
            What::Read => "read",
            What::Write => "write",
            What::Check => "check",
            What::Step => "step",
            What::Replay => "replay",
            What::Counts => "counts",
        }
    }
}

#[derive(Clone, PartialEq, Eq, Debug)]
pub struct Call {
    pub what: What,
    pub image: Bytes,
    pub trace: Bytes,
    /// Places lent for rows, four to a row.
    pub rows: u32,
    /// Places lent for pages, or bytes.
    pub room: u32,
    pub tally: [u32; 6],
    pub page: u32,
    pub kind: u32,
    pub order: Order,
}

impl Call {
    /// A call that lends nothing and hands in a zero tally.
    pub fn new(what: What, image: &[u8]) -> Call {
        Call {
            what,
            image: image.to_vec(),
            trace: Bytes::new(),
            rows: 0,
            room: 0,
            tally: [0; 6],
            page: 0,
            kind: 0,
            order: Order::HighFirst,
        }
    }

    pub fn to_bytes(&self) -> Bytes {
        let [hits, misses, evictions, batches, written, refused] = self.tally;
        let numbers: [u32; NUMBERS] = [
            self.what as u32,
            self.image.len() as u32,
            self.trace.len() as u32,
            self.rows,
            self.room,
            hits,
            misses,
            evictions,
            batches,
            written,
            refused,
            self.page,
            self.kind,
            self.order as u32,
            0,
            0,
        ];
        let mut bytes: Bytes = numbers
            .iter()
            .flat_map(|number| number.to_be_bytes())
            .collect();
        bytes.extend(&self.image);
        bytes.extend(&self.trace);
        bytes
    }

    /// The first call of these bytes and what follows it; nothing where none is whole.
    fn first_of(bytes: &[u8]) -> Option<(Call, &[u8])> {
        let (front, rest) = bytes.split_at_checked(4 * NUMBERS)?;
        let number = |at: usize| Order::HighFirst.number(&front[4 * at..4 * at + 4]);
        let (image, rest) = rest.split_at_checked(number(1) as usize)?;
        let (trace, rest) = rest.split_at_checked(number(2) as usize)?;
        let call = Call {
            what: *What::ALL.get(number(0) as usize)?,
            image: image.to_vec(),
            trace: trace.to_vec(),
            rows: number(3),
            room: number(4),
            tally: std::array::from_fn(|i| number(5 + i)),
            page: number(11),
            kind: number(12),
            order: match number(13) {
                0 => Order::HighFirst,
                _ => Order::LowFirst,
            },
        };
        Some((call, rest))
    }
}

/// The whole calls of these bytes, up to the first that is none.
pub fn calls_of(mut bytes: &[u8]) -> Vec<Call> {
    let mut calls = Vec::new();
    while let Some((call, rest)) = Call::first_of(bytes) {
        calls.push(call);
        bytes = rest;
    }
    calls
}

// ----------------------------------------------------------------- an answer

/// What came of a call: its name and refusal, or 0; then what it hands back, as far as
/// it hands back such a thing.
#[derive(Clone, PartialEq, Eq, Debug)]
pub struct Answer {
    pub name: &'static str,
    pub refusal: u32,
    pub row: Option<[u32; 4]>,
    pub bytes: Option<Vec<u32>>,
    pub rows: Option<Vec<u32>>,
    pub list: Option<Vec<u32>>,
    pub pool: Option<Held>,
    pub tally: Option<[u32; 6]>,
}

impl Answer {
    fn new(name: &'static str, refusal: u32) -> Answer {
        Answer {
            name,
            refusal,
            row: None,
            bytes: None,
            rows: None,
            list: None,
            pool: None,
            tally: None,
        }
    }
}

impl fmt::Display for Answer {
    fn fmt(&self, to: &mut fmt::Formatter) -> fmt::Result {
        writeln!(to, "{} {}", self.name, self.refusal)?;
        let lists = [
            ("row", self.row.as_ref().map(<[u32; 4]>::as_slice)),
            ("bytes", self.bytes.as_deref()),
            ("rows", self.rows.as_deref()),
            ("list", self.list.as_deref()),
        ];
        for (name, numbers) in lists {
            write_line(to, name, numbers)?;
        }
        if let Some(pool) = &self.pool {
            write!(to, "{pool}")?;
        }
        write_line(to, "tally", self.tally.as_ref().map(<[u32; 6]>::as_slice))
    }
}

fn write_line(to: &mut fmt::Formatter, name: &str, numbers: Option<&[u32]>) -> fmt::Result {
    let Some(numbers) = numbers else {
        return Ok(());
    };
    to.write_str(name)?;
    for number in numbers {
        write!(to, " {number}")?;
    }
    to.write_char('\n')
}

/// What is printed of so many calls.
pub fn printed(answers: &[Answer]) -> String {
    let mut text = String::new();
    for (number, answer) in answers.iter().enumerate() {
        // Writing to a string cannot fail.
        let _ = write!(text, "case {number}\n{answer}");
    }
    text
}

pub fn answer(call: &Call) -> Answer {
    if call.what == What::Read {
        return read(call);
    }
    let held = match image::held(&call.image) {
        Ok(held) => held,
        Err(refusal) => return Answer::new("held", refusal),
    };
    match call.what {
        What::Read => unreachable!("answered above"),
        What::Write => write(call, &held),
        What::Check => Answer::new("check", if held.is_sound() { 0 } else { 14 }),
        What::Step => step(call, held),
        What::Replay => replay(call, held),
        What::Counts => counts(call, held),
    }
}

fn read(call: &Call) -> Answer {
    let (refusal, pool) = match image::read(&call.image) {
        Ok(held) => (0, held),
        Err(refusal) => (refusal, Held::one_frame()),
    };
    Answer {
        pool: Some(pool),
        ..Answer::new("read", refusal)
    }
}

fn write(call: &Call, held: &Held) -> Answer {
    let written = image::write(held, call.order, call.room as usize);
    let refusal = written.as_ref().err().copied().unwrap_or(0);
    let written = written.unwrap_or_default().into_iter().map(u32::from);
    Answer {
        bytes: Some(lent(call.room, written)),
        ..Answer::new("write", refusal)
    }
}

/// So many lent places after these numbers were stored at their front.
fn lent(places: u32, stored: impl IntoIterator<Item = u32>) -> Vec<u32> {
    let mut list: Vec<u32> = stored.into_iter().collect();
    assert!(list.len() <= places as usize, "more than there is room for");
    list.resize(places as usize, LENT);
    list
}

/// A sound pool and a tally to go on from, or refusal 14.
fn start(call: &Call, held: &Held) -> Result<(Pool, Tally), u32> {
    let [hits, misses, evictions, batches, written, refused] = call.tally;
    let tally = Tally {
        hits,
        misses,
        evictions,
        batches,
        written,
        refused,
    };
    match held.pool() {
        Some(pool) if call.tally.iter().all(|&count| count <= MOST_COUNT) => Ok((pool, tally)),
        _ => Err(14),
    }
}

pub fn counts_of(tally: &Tally) -> [u32; 6] {
    let Tally {
        hits,
        misses,
        evictions,
        batches,
        written,
        refused,
    } = *tally;
    [hits, misses, evictions, batches, written, refused]
}

pub fn kind_of(number: u32) -> Option<Kind> {
    [Kind::Read, Kind::Write, Kind::Pin, Kind::Unpin]
        .get(number as usize)
        .copied()
}

/// What a call put out and left.
struct Worked {
    rows: Vec<[u32; 4]>,
    written: Vec<u32>,
    pool: Held,
    tally: [u32; 6],
}

impl Worked {
    /// Nothing put out, and what was given handed back.
    fn refused(call: &Call, held: Held) -> Worked {
        Worked {
            rows: Vec::new(),
            written: Vec::new(),
            pool: held,
            tally: call.tally,
        }
    }

    /// The refusal, or 0, and what is handed back.
    fn settled(result: Result<Worked, u32>, call: &Call, held: Held) -> (u32, Worked) {
        match result {
            Ok(worked) => (0, worked),
            Err(refusal) => (refusal, Worked::refused(call, held)),
        }
    }
}

fn step(call: &Call, held: Held) -> Answer {
    let (refusal, worked) = Worked::settled(stepped(call, &held), call, held);
    let row = worked.rows.first().copied();
    Answer {
        row: Some(row.unwrap_or([100 + refusal, 0, 0, 0])),
        list: Some(lent(call.room, worked.written)),
        pool: Some(worked.pool),
        tally: Some(worked.tally),
        ..Answer::new("step", refusal)
    }
}

fn stepped(call: &Call, held: &Held) -> Result<Worked, u32> {
    let (mut pool, mut tally) = start(call, held)?;
    let kind = kind_of(call.kind).ok_or(6u32)?;
    if call.room < pool.settings.batch {
        return Err(13);
    }
    let step = pool.step(call.page, kind);
    tally.raise(&step);
    let rows = vec![row(&step)];
    let written = match step {
        Ok((_, Outcome::Dirty { written, .. })) => written,
        _ => Vec::new(),
    };
    Ok(Worked {
        rows,
        written,
        pool: Held::of(&pool),
        tally: counts_of(&tally),
    })
}

fn replay(call: &Call, held: Held) -> Answer {
    let (refusal, worked) = Worked::settled(replayed(call, &held, true), call, held);
    Answer {
        rows: Some(lent(call.rows, worked.rows.concat())),
        list: Some(lent(call.room, worked.written)),
        pool: Some(worked.pool),
        tally: Some(worked.tally),
        ..Answer::new("replay", refusal)
    }
}

fn counts(call: &Call, held: Held) -> Answer {
    let (refusal, worked) = Worked::settled(replayed(call, &held, false), call, held);
    Answer {
        pool: Some(worked.pool),
        tally: Some(worked.tally),
        ..Answer::new("counts", refusal)
    }
}

fn replayed(call: &Call, held: &Held, with_lists: bool) -> Result<Worked, u32> {
    let (pool, tally) = start(call, held)?;
    let trace = check(&call.trace)?;
    if trace.settings != pool.settings {
        return Err(15);
    }
    let [rows, pages] = room_needed(&pool, &trace.records);
    if with_lists && (call.rows < rows || call.room < pages) {
        return Err(13);
    }
    let mut state = Some((pool, tally));
    let replayed = go_on(&mut state, &call.trace)?;
    Ok(Worked {
        rows: replayed.rows,
        written: replayed.written,
        pool: Held::of(replayed.pool),
        tally: counts_of(replayed.tally),
    })
}

/// The places for rows and for pages that a replay of these records needs.
pub fn room_needed(pool: &Pool, records: &[(u32, Kind)]) -> [u32; 2] {
    let writes = records.iter().filter(|(_, kind)| *kind == Kind::Write);
    let dirty = pool.frames.iter().filter(|frame| frame.dirty);
    [
        4 * records.len() as u32,
        (writes.count() + dirty.count()) as u32,
    ]
}
