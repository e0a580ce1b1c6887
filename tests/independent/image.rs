//! The pool image, from what is published about it alone: the pool that its bytes
//! say, whether that pool is sound, and the bytes of a pool.

use crate::replay::{Frame, Log, Order, Pool, Rule, Settings, MOST_REFERENCES};
use crate::traces::put;
use std::collections::BTreeSet;
use std::fmt;
use std::ops::RangeInclusive;

pub const HEADER: usize = 64;
pub const ENTRY: usize = 68;
pub const MOST_FRAMES: u32 = 128;
const EDITION: u32 = 1;

// --------------------------------------------------------------- the layout

/// A place of the header or of an entry, so many bytes wide.
#[derive(Clone, Copy, PartialEq, Eq, Debug)]
pub struct Field {
    pub name: &'static str,
    pub at: usize,
    pub width: usize,
}

const fn field(name: &'static str, at: usize, width: usize) -> Field {
    Field { name, at, width }
}

pub const HEADER_FIELDS: [Field; 21] = [
    field("mark", 0, 4),
    field("edition", 4, 2),
    field("zero at 6", 6, 2),
    field("frames in use", 8, 4),
    field("offset", 12, 4),
    field("entry length", 16, 4),
    field("file length", 20, 4),
    field("rule", 24, 2),
    field("frames", 26, 2),
    field("batch", 28, 2),
    field("cap", 30, 2),
    field("sample", 32, 2),
    field("weight", 34, 2),
    field("epoch", 36, 4),
    field("seed", 40, 4),
    field("zero at 44", 44, 4),
    field("k", 48, 4),
    field("hand", 52, 2),
    field("zero at 54", 54, 2),
    field("sampler", 56, 4),
    field("zero at 60", 60, 4),
];

/// Where the eight settings stand, in the order of a trace's header.
const SETTINGS: [(usize, usize); 8] = [
    (24, 2),
    (26, 2),
    (28, 2),
    (30, 2),
    (32, 2),
    (34, 2),
    (36, 4),
    (40, 4),
];

const HEADER_ZEROS: [(usize, usize); 4] = [(6, 2), (44, 4), (54, 2), (60, 4)];

pub const ENTRY_FIELDS: [Field; 20] = [
    field("page", 0, 4),
    field("last step", 4, 4),
    field("pin count", 8, 2),
    field("clock count", 10, 2),
    field("dirty", 12, 2),
    field("accesses", 14, 2),
    field("writes", 16, 2),
    field("zero of an entry", 18, 2),
    field("access 0", 20, 4),
    field("access 1", 24, 4),
    field("access 2", 28, 4),
    field("access 3", 32, 4),
    field("access 4", 36, 4),
    field("access 5", 40, 4),
    field("access 6", 44, 4),
    field("access 7", 48, 4),
    field("write 0", 52, 4),
    field("write 1", 56, 4),
    field("write 2", 60, 4),
    field("write 3", 64, 4),
];

pub fn length_of(frames: usize) -> usize {
    HEADER + ENTRY * frames
}

// ----------------------------------------------------------------- the pool

/// A frame in use, with all the places of its logs.
#[derive(Clone, Copy, Default, PartialEq, Eq, Debug)]
pub struct HeldFrame {
    pub page: u32,
    pub last: u32,
    pub pins: u8,
    pub count: u8,
    pub dirty: bool,
    /// How many entries the logs are said to have.
    pub accesses: u8,
    pub writes: u8,
    pub access: [u32; 8],
    pub write: [u32; 4],
}

/// A pool, sound or not: whatever an image can say of one. Its frames in use are the
/// lowest-numbered and all others are zero, since an image cannot say otherwise.
#[derive(Clone, PartialEq, Eq, Debug)]
pub struct Held {
    /// Rule, frames, batch, cap, sample, weight, epoch length and seed.
    pub settings: [u32; 8],
    pub k: u32,
    pub hand: u32,
    pub sampler: u32,
    pub frames: Vec<HeldFrame>,
}

/// What a pool must keep to be sound; the rest no image can break.
#[derive(Clone, Copy, PartialEq, Eq, PartialOrd, Ord, Debug)]
pub enum Clause {
    SettingsInRange,
    InUseAtMostF,
    PagesDistinct,
    HandBelowF,
    KAtMost,
    CountAtMostCap,
    LastBelowK,
    LastsDistinct,
    AccessLength,
    AccessFalling,
    AccessEpoch,
    AccessRest,
    AccessEmpty,
    WriteLength,
    WriteFalling,
    WriteEpoch,
    WriteRest,
    DirtyUnwritten,
}

impl Clause {
    pub const ALL: [Clause; 18] = [
        Clause::SettingsInRange,
        Clause::InUseAtMostF,
        Clause::PagesDistinct,
        Clause::HandBelowF,
        Clause::KAtMost,
        Clause::CountAtMostCap,
        Clause::LastBelowK,
        Clause::LastsDistinct,
        Clause::AccessLength,
        Clause::AccessFalling,
        Clause::AccessEpoch,
        Clause::AccessRest,
        Clause::AccessEmpty,
        Clause::WriteLength,
        Clause::WriteFalling,
        Clause::WriteEpoch,
        Clause::WriteRest,
        Clause::DirtyUnwritten,
    ];
}

pub const RANGES: [RangeInclusive<u32>; 8] = [
    0..=2,
    1..=128,
    1..=16,
    1..=7,
    1..=16,
    0..=16,
    1..=50_000,
    0..=u32::MAX,
];

impl Held {
    /// What a refused reading hands back.
    pub fn one_frame() -> Held {
        Held {
            settings: [0, 1, 1, 1, 1, 0, 1, 0],
            k: 0,
            hand: 0,
            sampler: 0,
            frames: Vec::new(),
        }
    }

    pub fn of(pool: &Pool) -> Held {
        let in_use = pool.frames.iter().filter(|frame| frame.in_use);
        Held {
            settings: numbers_of(&pool.settings),
            k: pool.k,
            hand: pool.hand as u32,
            sampler: pool.sampler,
            frames: in_use.map(HeldFrame::of).collect(),
        }
    }

    /// The same as a pool that a replay can go on from, where it is sound.
    pub fn pool(&self) -> Option<Pool> {
        if !self.is_sound() {
            return None;
        }
        let mut pool = Pool::fresh(settings_of(&self.settings)?);
        pool.k = self.k;
        pool.hand = self.hand as usize;
        pool.sampler = self.sampler;
        for (place, frame) in pool.frames.iter_mut().zip(&self.frames) {
            *place = frame.frame();
        }
        Some(pool)
    }

    pub fn is_sound(&self) -> bool {
        self.broken().is_empty()
    }

    /// The clauses of soundness that the pool does not keep.
    pub fn broken(&self) -> BTreeSet<Clause> {
        let [_, f, _, cap, _, _, epoch, _] = self.settings;
        let mut kept = vec![
            (Clause::SettingsInRange, in_range(&self.settings)),
            (Clause::InUseAtMostF, self.frames.len() <= f as usize),
            (
                Clause::PagesDistinct,
                distinct(self.frames.iter().map(|frame| frame.page)),
            ),
            (Clause::HandBelowF, self.hand < f),
            (Clause::KAtMost, self.k <= MOST_REFERENCES),
            (
                Clause::LastsDistinct,
                distinct(self.frames.iter().map(|frame| frame.last)),
            ),
        ];
        for frame in &self.frames {
            kept.push((Clause::CountAtMostCap, u32::from(frame.count) <= cap));
            kept.push((Clause::LastBelowK, frame.last < self.k));
            // Without an epoch length there are no epochs; the settings are out of range then.
            kept.extend(frame.logs_kept(frame.last.checked_div(epoch)));
        }
        let broken = kept.into_iter().filter(|(_, kept)| !kept);
        broken.map(|(clause, _)| clause).collect()
    }

    /// The image; nothing is checked here.
    pub fn encode(&self, order: Order) -> Vec<u8> {
        let length = length_of(self.frames.len());
        let mut bytes = vec![0; length];
        let fields = [
            (0, 4, 0x0102_0304),
            (4, 2, EDITION),
            (8, 4, self.frames.len() as u32),
            (12, 4, HEADER as u32),
            (16, 4, ENTRY as u32),
            (20, 4, length as u32),
            (48, 4, self.k),
            (52, 2, self.hand),
            (56, 4, self.sampler),
        ];
        for (at, width, number) in fields {
            put(&mut bytes, order, at, width, number);
        }
        for ((at, width), number) in SETTINGS.into_iter().zip(self.settings) {
            put(&mut bytes, order, at, width, number);
        }
        for (place, frame) in bytes[HEADER..].chunks_exact_mut(ENTRY).zip(&self.frames) {
            frame.encode(order, place);
        }
        bytes
    }
}

fn in_range(settings: &[u32; 8]) -> bool {
    settings
        .iter()
        .zip(RANGES)
        .all(|(number, range)| range.contains(number))
}

fn distinct(numbers: impl ExactSizeIterator<Item = u32>) -> bool {
    let count = numbers.len();
    numbers.collect::<BTreeSet<_>>().len() == count
}

pub fn numbers_of(settings: &Settings) -> [u32; 8] {
    [
        settings.rule as u32,
        settings.frames,
        settings.batch,
        settings.cap,
        settings.sample,
        settings.weight,
        settings.epoch,
        settings.seed,
    ]
}

/// The settings that these numbers are, where they are in range.
pub fn settings_of(numbers: &[u32; 8]) -> Option<Settings> {
    let &[rule, frames, batch, cap, sample, weight, epoch, seed] = numbers;
    let rule = *[Rule::Lru, Rule::Clock, Rule::Watt].get(rule as usize)?;
    in_range(numbers).then_some(Settings {
        rule,
        frames,
        batch,
        cap,
        sample,
        weight,
        epoch,
        seed,
    })
}

/// Which of the five clauses of a log it keeps: its length, falling, no entry above
/// the last step's epoch, zero behind the entries, and that there is one if one must be.
fn log_kept(entries: u8, places: &[u32], epoch: Option<u32>, needed: bool) -> [bool; 5] {
    let entries = usize::from(entries);
    let (log, rest) = places.split_at(entries.min(places.len()));
    [
        entries <= places.len(),
        log.windows(2).all(|pair| pair[0] > pair[1]),
        epoch.is_none_or(|epoch| log.iter().all(|&entry| entry <= epoch)),
        rest.iter().all(|&place| place == 0),
        entries > 0 || !needed,
    ]
}

impl HeldFrame {
    fn of(frame: &Frame) -> HeldFrame {
        HeldFrame {
            page: frame.page,
            last: frame.last,
            pins: frame.pins,
            count: frame.count as u8,
            dirty: frame.dirty,
            accesses: frame.access.len as u8,
            writes: frame.write.len as u8,
            access: frame.access.epochs,
            write: frame.write.epochs,
        }
    }

    /// Of a sound pool.
    fn frame(&self) -> Frame {
        Frame {
            in_use: true,
            page: self.page,
            dirty: self.dirty,
            pins: self.pins,
            count: u32::from(self.count),
            last: self.last,
            access: Log {
                len: usize::from(self.accesses),
                epochs: self.access,
            },
            write: Log {
                len: usize::from(self.writes),
                epochs: self.write,
            },
        }
    }

    fn logs_kept(&self, epoch: Option<u32>) -> Vec<(Clause, bool)> {
        let access = [
            Clause::AccessLength,
            Clause::AccessFalling,
            Clause::AccessEpoch,
            Clause::AccessRest,
            Clause::AccessEmpty,
        ];
        let write = [
            Clause::WriteLength,
            Clause::WriteFalling,
            Clause::WriteEpoch,
            Clause::WriteRest,
            Clause::DirtyUnwritten,
        ];
        let access_kept = log_kept(self.accesses, &self.access, epoch, true);
        let write_kept = log_kept(self.writes, &self.write, epoch, self.dirty);
        let clauses = access.into_iter().zip(access_kept);
        clauses.chain(write.into_iter().zip(write_kept)).collect()
    }

    fn numbers(&self) -> [u32; ENTRY_FIELDS.len()] {
        let mut numbers = [0; ENTRY_FIELDS.len()];
        numbers[..7].copy_from_slice(&[
            self.page,
            self.last,
            u32::from(self.pins),
            u32::from(self.count),
            u32::from(self.dirty),
            u32::from(self.accesses),
            u32::from(self.writes),
        ]);
        numbers[8..16].copy_from_slice(&self.access);
        numbers[16..].copy_from_slice(&self.write);
        numbers
    }

    fn encode(&self, order: Order, place: &mut [u8]) {
        for (field, number) in ENTRY_FIELDS.iter().zip(self.numbers()) {
            put(place, order, field.at, field.width, number);
        }
    }
}

// -------------------------------------------------------- reading and writing

/// The order of a known mark.
pub fn order_of_mark(bytes: &[u8]) -> Option<Order> {
    match bytes.get(..4)? {
        [1, 2, 3, 4] => Some(Order::HighFirst),
        [4, 3, 2, 1] => Some(Order::LowFirst),
        _ => None,
    }
}

/// An image whose header is whole and known, and the order of the numbers in it.
struct Image<'a> {
    bytes: &'a [u8],
    order: Order,
}

impl Image<'_> {
    /// The refusals 1 to 3.
    fn of(bytes: &[u8]) -> Result<Image<'_>, u32> {
        if bytes.len() < HEADER {
            return Err(1);
        }
        let order = order_of_mark(bytes).ok_or(2u32)?;
        let image = Image { bytes, order };
        match image.number(4, 2) {
            EDITION => Ok(image),
            _ => Err(3),
        }
    }

    fn number(&self, at: usize, width: usize) -> u32 {
        self.order.number(&self.bytes[at..at + width])
    }

    /// Refusal 5. A count may be so great that no file is that long.
    fn check_lengths(&self) -> Result<(), u32> {
        let [in_use, offset, entry, stated] = [8, 12, 16, 20].map(|at| self.number(at, 4));
        let length = HEADER as u64 + ENTRY as u64 * u64::from(in_use);
        let right = offset as usize == HEADER
            && entry as usize == ENTRY
            && u64::from(stated) == length
            && self.bytes.len() as u64 == length;
        right.then_some(()).ok_or(5)
    }

    fn entries(&self) -> impl Iterator<Item = &[u8]> {
        self.bytes[HEADER..].chunks_exact(ENTRY)
    }

    /// Refusal 6.
    fn check_zeros(&self) -> Result<(), u32> {
        let zero = |&(at, width): &(usize, usize)| self.number(at, width) == 0;
        let of_entries = self
            .entries()
            .all(|entry| self.order.number(&entry[18..20]) == 0);
        let right = HEADER_ZEROS.iter().all(zero) && of_entries;
        right.then_some(()).ok_or(6)
    }

    /// The pool, or refusal 14 where a pool has no place for a number.
    fn held(&self) -> Result<Held, u32> {
        let frames: Option<Vec<HeldFrame>> =
            self.entries().map(|entry| self.held_frame(entry)).collect();
        let frames = frames.ok_or(14u32)?;
        if frames.len() > MOST_FRAMES as usize {
            return Err(14);
        }
        Ok(Held {
            settings: SETTINGS.map(|(at, width)| self.number(at, width)),
            k: self.number(48, 4),
            hand: self.number(52, 2),
            sampler: self.number(56, 4),
            frames,
        })
    }

    fn held_frame(&self, entry: &[u8]) -> Option<HeldFrame> {
        let number = |at: usize, width: usize| self.order.number(&entry[at..at + width]);
        let small = |at: usize| u8::try_from(number(at, 2)).ok();
        Some(HeldFrame {
            page: number(0, 4),
            last: number(4, 4),
            pins: small(8)?,
            count: small(10)?,
            dirty: match number(12, 2) {
                0 => false,
                1 => true,
                _ => return None,
            },
            accesses: small(14)?,
            writes: small(16)?,
            access: std::array::from_fn(|i| number(20 + 4 * i, 4)),
            write: std::array::from_fn(|i| number(52 + 4 * i, 4)),
        })
    }
}

/// The pool that an image says, sound or not. It is refused where the bytes are no
/// image, and by 14 where a pool has no place for what they say.
pub fn held(bytes: &[u8]) -> Result<Held, u32> {
    let image = Image::of(bytes)?;
    image.check_lengths()?;
    image.check_zeros()?;
    image.held()
}

/// The sound pool of an image, or the refusal 1, 2, 3, 5, 6 or 14.
pub fn read(bytes: &[u8]) -> Result<Held, u32> {
    let held = held(bytes)?;
    match held.is_sound() {
        true => Ok(held),
        false => Err(14),
    }
}

/// The image of a sound pool that has so many bytes of room, or the refusal 14 or 13.
pub fn write(held: &Held, order: Order, room: usize) -> Result<Vec<u8>, u32> {
    if !held.is_sound() {
        return Err(14);
    }
    if room < length_of(held.frames.len()) {
        return Err(13);
    }
    Ok(held.encode(order))
}

// ----------------------------------------------------------------- the dump

impl fmt::Display for Held {
    fn fmt(&self, to: &mut fmt::Formatter) -> fmt::Result {
        write!(to, "settings")?;
        write_numbers(to, &self.settings)?;
        writeln!(to)?;
        writeln!(to, "pool {} {} {}", self.k, self.hand, self.sampler)?;
        writeln!(to, "frames {}", self.frames.len())?;
        self.frames
            .iter()
            .try_for_each(|frame| writeln!(to, "{frame}"))
    }
}

impl fmt::Display for HeldFrame {
    fn fmt(&self, to: &mut fmt::Formatter) -> fmt::Result {
        let dirty = u8::from(self.dirty);
        write!(to, "{} {dirty} {} {} ", self.page, self.pins, self.count)?;
        write!(to, "{} {} {} :", self.last, self.accesses, self.writes)?;
        write_numbers(to, &self.access)?;
        write!(to, " :")?;
        write_numbers(to, &self.write)
    }
}

/// Each number behind a space.
fn write_numbers(to: &mut fmt::Formatter, numbers: &[u32]) -> fmt::Result {
    numbers
        .iter()
        .try_for_each(|number| write!(to, " {number}"))
}
