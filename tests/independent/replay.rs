//! An independent replay, written from the paper alone and as plainly as it is
//! worded there: the trace checker (refusals 1 to 8), the pool with its three
//! rules, the rows and the tally.

use std::cmp::Ordering;
use std::ops::RangeInclusive;

pub const HEADER: usize = 48;
pub const RECORD: usize = 8;
pub const MOST_RECORDS: u32 = 8_000;

pub const MOST_REFERENCES: u32 = 50_000;
const MOST_SAMPLE: usize = 16;
const SAMPLER_STEP: u32 = 2_654_435_769;

// ---------------------------------------------------------------- the trace

#[derive(Clone, Copy, PartialEq, Eq, Debug)]
pub enum Order {
    HighFirst,
    LowFirst,
}

impl Order {
    /// The number in these bytes, all of them.
    pub fn number(self, bytes: &[u8]) -> u32 {
        let append = |number, byte: &u8| number << 8 | u32::from(*byte);
        match self {
            Order::HighFirst => bytes.iter().fold(0, append),
            Order::LowFirst => bytes.iter().rfold(0, append),
        }
    }
}

#[derive(Clone, Copy, PartialEq, Eq, Debug)]
pub enum Rule {
    Lru,
    Clock,
    Watt,
}

#[derive(Clone, Copy, PartialEq, Eq, Debug)]
pub struct Settings {
    pub rule: Rule,
    pub frames: u32,
    pub batch: u32,
    pub cap: u32,
    pub sample: u32,
    pub weight: u32,
    pub epoch: u32,
    pub seed: u32,
}

impl Settings {
    /// The others with this rule and these frames.
    pub fn with(self, rule: Rule, frames: u32) -> Settings {
        Settings {
            rule,
            frames,
            ..self
        }
    }
}

#[derive(Clone, Copy, PartialEq, Eq, Debug)]
pub enum Kind {
    Read,
    Write,
    Pin,
    Unpin,
}

/// A trace that has passed the checks 1 to 8.
#[derive(Clone, PartialEq, Eq, Debug)]
pub struct Trace {
    pub settings: Settings,
    pub records: Vec<(u32, Kind)>,
}

impl Trace {
    pub fn pages(&self) -> Vec<u32> {
        self.records.iter().map(|(page, _)| *page).collect()
    }
}

/// The trace in these bytes, or the first of the refusals 1 to 8.
pub fn check(bytes: &[u8]) -> Result<Trace, u32> {
    let header = Header::of(bytes)?;
    header.check_length(bytes.len())?;
    header.check_zeros()?;
    let records = records(&bytes[HEADER..], header.order)?;
    header.check_writes(&records)?;
    let settings = header.settings()?;
    Ok(Trace { settings, records })
}

/// A header and the order of the numbers in it.
struct Header<'a> {
    bytes: &'a [u8],
    order: Order,
}

impl Header<'_> {
    /// The refusals 1 to 3: a header's bytes, a known mark, edition 1.
    fn of(bytes: &[u8]) -> Result<Header<'_>, u32> {
        let bytes = bytes.get(..HEADER).ok_or(1u32)?;
        let order = match bytes[..4] {
            [1, 2, 3, 4] => Order::HighFirst,
            [4, 3, 2, 1] => Order::LowFirst,
            _ => return Err(2),
        };
        let header = Header { bytes, order };
        match header.number(4, 2) {
            1 => Ok(header),
            _ => Err(3),
        }
    }

    /// The number at a place of the paper's table, so many bytes wide.
    fn number(&self, at: usize, width: usize) -> u32 {
        self.order.number(&self.bytes[at..at + width])
    }

    /// The refusals 4 and 5: not too many records, and the file ends behind them.
    fn check_length(&self, actual: usize) -> Result<(), u32> {
        let n = self.number(8, 4);
        if n > MOST_RECORDS {
            return Err(4);
        }
        let length = HEADER + RECORD * n as usize;
        let [offset, stated] = [12, 20].map(|at| self.number(at, 4) as usize);
        if offset != HEADER || stated != length || actual != length {
            return Err(5);
        }
        Ok(())
    }

    /// Refusal 6, where the header gives it.
    fn check_zeros(&self) -> Result<(), u32> {
        if self.number(6, 2) != 0 || self.number(44, 4) != 0 {
            return Err(6);
        }
        Ok(())
    }

    /// Refusal 7.
    fn check_writes(&self, records: &[(u32, Kind)]) -> Result<(), u32> {
        let writes = records.iter().filter(|(_, kind)| *kind == Kind::Write);
        if self.number(16, 4) as usize != writes.count() {
            return Err(7);
        }
        Ok(())
    }

    /// The settings, or refusal 8; their ranges are the same under every rule.
    fn settings(&self) -> Result<Settings, u32> {
        let rule = match self.number(24, 2) {
            0 => Rule::Lru,
            1 => Rule::Clock,
            2 => Rule::Watt,
            _ => return Err(8),
        };
        Ok(Settings {
            rule,
            frames: within(self.number(26, 2), 1..=128)?,
            batch: within(self.number(28, 2), 1..=16)?,
            cap: within(self.number(30, 2), 1..=7)?,
            sample: within(self.number(32, 2), 1..=16)?,
            weight: within(self.number(34, 2), 0..=16)?,
            epoch: within(self.number(36, 4), 1..=50_000)?,
            seed: self.number(40, 4),
        })
    }
}

fn within(number: u32, range: RangeInclusive<u32>) -> Result<u32, u32> {
    range.contains(&number).then_some(number).ok_or(8)
}

/// The records behind a header, or refusal 6.
fn records(bytes: &[u8], order: Order) -> Result<Vec<(u32, Kind)>, u32> {
    let mut records = Vec::with_capacity(bytes.len() / RECORD);
    for record in bytes.chunks_exact(RECORD) {
        let kind = match order.number(&record[4..6]) {
            0 => Kind::Read,
            1 => Kind::Write,
            2 => Kind::Pin,
            3 => Kind::Unpin,
            _ => return Err(6),
        };
        if order.number(&record[6..8]) != 0 {
            return Err(6);
        }
        records.push((order.number(&record[0..4]), kind));
    }
    Ok(records)
}

// ---------------------------------------------------------------- the value

/// A fraction, compared exactly. A worth is at most 8 over 1 and has at most
/// 500,000 below the line, so the products of two values stay below 2^63.
#[derive(Clone, Copy, Debug)]
pub struct Fraction(pub u64, pub u64);

impl Ord for Fraction {
    fn cmp(&self, other: &Fraction) -> Ordering {
        (self.0 * other.1).cmp(&(other.0 * self.1))
    }
}

impl PartialOrd for Fraction {
    fn partial_cmp(&self, other: &Fraction) -> Option<Ordering> {
        Some(self.cmp(other))
    }
}

impl PartialEq for Fraction {
    fn eq(&self, other: &Fraction) -> bool {
        self.cmp(other) == Ordering::Equal
    }
}

impl Eq for Fraction {}

/// The greatest part of a log, newest entry first; 0 for an empty one.
pub fn worth(log: &[u32], now: u32) -> Fraction {
    let part = |(i, epoch): (u64, &u32)| {
        let age = u64::from(now - epoch).max(1);
        match i {
            1 => Fraction(1, 10 * age),
            _ => Fraction(i, age),
        }
    };
    let parts = (1..).zip(log).map(part);
    parts.fold(Fraction(0, 1), Fraction::max)
}

// ----------------------------------------------------------------- the pool

/// A log of up to N epochs, newest first; the places behind them are 0.
#[derive(Clone, Copy, PartialEq, Eq, Debug)]
pub struct Log<const N: usize> {
    pub len: usize,
    pub epochs: [u32; N],
}

impl<const N: usize> Default for Log<N> {
    fn default() -> Log<N> {
        Log {
            len: 0,
            epochs: [0; N],
        }
    }
}

impl<const N: usize> Log<N> {
    pub fn entries(&self) -> &[u32] {
        &self.epochs[..self.len]
    }

    fn put(&mut self, now: u32) {
        if self.entries().first() != Some(&now) {
            self.epochs.rotate_right(1);
            self.epochs[0] = now;
            self.len = N.min(self.len + 1);
        }
    }
}

#[derive(Clone, Copy, Default, PartialEq, Eq, Debug)]
pub struct Frame {
    pub in_use: bool,
    pub page: u32,
    pub dirty: bool,
    pub pins: u8,
    pub count: u32,
    pub last: u32,
    pub access: Log<8>,
    pub write: Log<4>,
}

impl Frame {
    /// Access worth + weight x write worth.
    pub fn value(&self, weight: u32, now: u32) -> Fraction {
        let Fraction(a, b) = worth(self.access.entries(), now);
        let Fraction(c, d) = worth(self.write.entries(), now);
        Fraction(a * d + u64::from(weight) * c * b, b * d)
    }
}

#[derive(Clone, PartialEq, Eq, Debug)]
pub struct Pool {
    pub settings: Settings,
    pub k: u32,
    pub hand: usize,
    pub sampler: u32,
    /// All f of them, in use or not.
    pub frames: Vec<Frame>,
}

/// What came of a record that was not refused.
#[derive(Clone, PartialEq, Eq, Debug)]
pub enum Outcome {
    Hit,
    Unused,
    Clean { left: u32 },
    Dirty { left: u32, written: Vec<u32> },
    Unpinned,
}

/// The frame of a record and what came of it, or its refusal.
pub type Step = Result<(usize, Outcome), u32>;

impl Pool {
    pub fn fresh(settings: Settings) -> Pool {
        Pool {
            settings,
            k: 0,
            hand: 0,
            sampler: settings.seed,
            frames: vec![Frame::default(); settings.frames as usize],
        }
    }

    /// Works one record. A refused one leaves the pool as it is.
    pub fn step(&mut self, page: u32, kind: Kind) -> Step {
        match kind {
            Kind::Unpin => self.unpin(page),
            Kind::Read | Kind::Write | Kind::Pin => self.reference(page, kind),
        }
    }

    fn unpin(&mut self, page: u32) -> Step {
        match self.resident(page) {
            Some(at) if self.frames[at].pins > 0 => {
                self.frames[at].pins -= 1;
                Ok((at, Outcome::Unpinned))
            }
            _ => Err(11),
        }
    }

    fn reference(&mut self, page: u32, kind: Kind) -> Step {
        if self.k == MOST_REFERENCES {
            return Err(9);
        }
        let now = self.k / self.settings.epoch;
        let (at, outcome) = match self.resident(page) {
            Some(at) => {
                let frame = &mut self.frames[at];
                if kind == Kind::Pin && frame.pins == 255 {
                    return Err(12);
                }
                frame.count = self.settings.cap.min(frame.count + 1);
                (at, Outcome::Hit)
            }
            None => self.fetch(page, now)?,
        };
        let frame = &mut self.frames[at];
        frame.last = self.k;
        self.k += 1;
        frame.access.put(now);
        if kind == Kind::Write {
            frame.write.put(now);
            frame.dirty = true;
        }
        if kind == Kind::Pin {
            frame.pins += 1;
        }
        Ok((at, outcome))
    }

    /// Puts a page into the lowest unused frame, else into the victim's.
    fn fetch(&mut self, page: u32, now: u32) -> Step {
        let (at, outcome) = match self.frames.iter().position(|frame| !frame.in_use) {
            Some(at) => (at, Outcome::Unused),
            None => self.evict(now)?,
        };
        self.frames[at] = Frame {
            in_use: true,
            page,
            count: 1,
            ..Frame::default()
        };
        Ok((at, outcome))
    }

    fn evict(&mut self, now: u32) -> Step {
        if self.unpinned().next().is_none() {
            return Err(10);
        }
        let at = match self.settings.rule {
            Rule::Lru => self.least_last_step(),
            Rule::Clock => self.sweep(),
            Rule::Watt => self.least_drawn_value(now),
        };
        let left = self.frames[at].page;
        if self.frames[at].dirty {
            let written = self.write_batch(at, now);
            Ok((at, Outcome::Dirty { left, written }))
        } else {
            Ok((at, Outcome::Clean { left }))
        }
    }

    fn resident(&self, page: u32) -> Option<usize> {
        let holds = |frame: &Frame| frame.page == page && frame.in_use;
        self.frames.iter().position(holds)
    }

    fn unpinned(&self) -> impl Iterator<Item = usize> + '_ {
        (0..self.frames.len()).filter(|&at| self.frames[at].pins == 0)
    }

    // The three victims; at least one frame is unpinned.

    fn least_last_step(&self) -> usize {
        self.unpinned()
            .min_by_key(|&at| self.frames[at].last)
            .expect("an unpinned frame")
    }

    fn sweep(&mut self) -> usize {
        loop {
            let at = self.hand;
            self.hand = (at + 1) % self.frames.len();
            let frame = &mut self.frames[at];
            if frame.pins > 0 {
                continue;
            }
            if frame.count == 0 {
                break at;
            }
            frame.count -= 1;
        }
    }

    pub fn draw(&mut self) -> usize {
        self.sampler = self.sampler.wrapping_add(SAMPLER_STEP);
        (self.sampler % self.settings.frames) as usize
    }

    fn least_drawn_value(&mut self, now: u32) -> usize {
        let mut drawn = [0; MOST_SAMPLE];
        let drawn = &mut drawn[..self.settings.sample as usize];
        for at in drawn.iter_mut() {
            *at = self.draw();
        }
        self.least_value(drawn.iter().copied(), now)
            .or_else(|| self.least_value(0..self.frames.len(), now))
            .expect("an unpinned frame")
    }

    fn least_value(&self, drawn: impl Iterator<Item = usize>, now: u32) -> Option<usize> {
        let weight = self.settings.weight;
        drawn
            .filter(|&at| self.frames[at].pins == 0)
            .min_by_key(|&at| (self.frames[at].value(weight, now), at))
    }

    /// Writes the dirty victim and those that go with it; gives their pages.
    fn write_batch(&mut self, victim: usize, now: u32) -> Vec<u32> {
        let (f, hand, weight) = (self.frames.len(), self.hand, self.settings.weight);
        let frames = &self.frames;
        let mut batch: Vec<usize> = self
            .unpinned()
            .filter(|&at| frames[at].dirty && at != victim)
            .collect();
        match self.settings.rule {
            Rule::Lru => batch.sort_by_key(|&at| frames[at].last),
            Rule::Clock => batch.sort_by_key(|&at| (frames[at].count, (at + f - hand) % f)),
            Rule::Watt => batch.sort_by_cached_key(|&at| (frames[at].value(weight, now), at)),
        }
        batch.insert(0, victim);
        batch.truncate(self.settings.batch as usize);
        for &at in &batch {
            self.frames[at].dirty = false;
        }
        batch.iter().map(|&at| self.frames[at].page).collect()
    }
}

// ------------------------------------------------------------ rows and tally

pub fn row(step: &Step) -> [u32; 4] {
    let (frame, outcome) = match step {
        Ok((frame, outcome)) => (*frame as u32, outcome),
        Err(refusal) => return [100 + refusal, 0, 0, 0],
    };
    match outcome {
        Outcome::Hit => [0, frame, 0, 0],
        Outcome::Unused => [1, frame, 0, 0],
        Outcome::Clean { left } => [2, frame, *left, 0],
        Outcome::Dirty { left, written } => [3, frame, *left, written.len() as u32],
        Outcome::Unpinned => [4, frame, 0, 0],
    }
}

#[derive(Clone, Copy, Default, PartialEq, Eq, Debug)]
pub struct Tally {
    pub hits: u32,
    pub misses: u32,
    pub evictions: u32,
    pub batches: u32,
    pub written: u32,
    pub refused: u32,
}

impl Tally {
    pub fn raise(&mut self, step: &Step) {
        let [outcome, _, _, written] = row(step);
        self.hits += u32::from(outcome == 0);
        self.misses += u32::from((1..=3).contains(&outcome));
        self.evictions += u32::from((2..=3).contains(&outcome));
        self.batches += u32::from(outcome == 3);
        self.written += written;
        self.refused += u32::from(outcome > 100);
    }
}

/// The counts of a replay of these records from a fresh pool.
pub fn tally_of(settings: Settings, records: &[(u32, Kind)]) -> Tally {
    let (mut pool, mut tally) = (Pool::fresh(settings), Tally::default());
    for &(page, kind) in records {
        tally.raise(&pool.step(page, kind));
    }
    tally
}

/// What one replay put out, and what it left.
pub struct Replayed<'a> {
    pub rows: Vec<[u32; 4]>,
    pub written: Vec<u32>,
    pub pool: &'a Pool,
    pub tally: &'a Tally,
}

/// Checks and replays one trace, from a fresh pool where there is none yet. A
/// refused trace (1 to 8, then 15) leaves pool and tally alone.
pub fn go_on<'a>(state: &'a mut Option<(Pool, Tally)>, bytes: &[u8]) -> Result<Replayed<'a>, u32> {
    let trace = check(bytes)?;
    let fresh = || (Pool::fresh(trace.settings), Tally::default());
    let (pool, tally) = state.get_or_insert_with(fresh);
    if pool.settings != trace.settings {
        return Err(15);
    }
    let (mut rows, mut pages) = (Vec::new(), Vec::new());
    for &(page, kind) in &trace.records {
        let step = pool.step(page, kind);
        tally.raise(&step);
        rows.push(row(&step));
        if let Ok((_, Outcome::Dirty { written, .. })) = step {
            pages.extend(written);
        }
    }
    Ok(Replayed {
        rows,
        written: pages,
        pool,
        tally,
    })
}
