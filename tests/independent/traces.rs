//! The generator of traces and series, deterministic from a seed. It has its
//! own writer and knows nothing of the pool; it aims at what is rare:
//!
//! - both orders, all rules, settings with their ends, 0, 1 and 8,000 records;
//! - scans, bursts, stretches of pinning and releasing, unpins amiss;
//! - a page pinned past 255 times, and frames of which nearly all are pinned;
//! - values that are equal or differ by less than a small float can hold;
//! - damage for each of the refusals 1 to 8, some of it twofold;
//! - series to the end of k, with traces damaged or of other settings, starts
//!   anew and an input that ends inside an item between and behind.

use crate::replay::{Order, Rule, Settings, HEADER, MOST_RECORDS, RECORD};

pub const READ: u32 = 0;
pub const WRITE: u32 = 1;
pub const PIN: u32 = 2;
pub const UNPIN: u32 = 3;

/// Page and kind.
pub type Record = (u32, u32);

// -------------------------------------------------------------- the numbers

/// Splitmix, 64 bits wide.
pub struct Random(u64);

impl Random {
    pub fn new(seed: u64) -> Random {
        let mut random = Random(seed);
        random.next();
        random
    }

    fn next(&mut self) -> u64 {
        self.0 = self.0.wrapping_add(0x9E37_79B9_7F4A_7C15);
        let mut z = self.0;
        z = (z ^ (z >> 30)).wrapping_mul(0xBF58_476D_1CE4_E5B9);
        z = (z ^ (z >> 27)).wrapping_mul(0x94D0_49BB_1331_11EB);
        z ^ (z >> 31)
    }

    pub fn any(&mut self) -> u32 {
        (self.next() >> 32) as u32
    }

    /// A number from low to high, both included.
    pub fn between(&mut self, low: u32, high: u32) -> u32 {
        let width = u64::from(high - low) + 1;
        low + ((u64::from(self.any()) * width) >> 32) as u32
    }

    pub fn chance(&mut self, percent: u32) -> bool {
        self.between(0, 99) < percent
    }

    /// As between, with more weight on the two ends.
    pub fn edged(&mut self, low: u32, high: u32) -> u32 {
        match self.between(0, 5) {
            0 => low,
            1 => high,
            _ => self.between(low, high),
        }
    }

    /// A place in a list of this length.
    pub fn place(&mut self, length: usize) -> usize {
        self.between(0, length as u32 - 1) as usize
    }

    pub fn one_of<T: Copy>(&mut self, list: &[T]) -> T {
        list[self.place(list.len())]
    }
}

// --------------------------------------------------------------- the writer

/// Puts a number at a place, so many bytes wide.
pub fn put(bytes: &mut [u8], order: Order, at: usize, width: usize, number: u32) {
    let place = &mut bytes[at..at + width];
    place.copy_from_slice(&number.to_be_bytes()[4 - width..]);
    if order == Order::LowFirst {
        place.reverse();
    }
}

/// The trace of these records; nothing is checked here.
pub fn encode(settings: &Settings, order: Order, records: &[Record]) -> Vec<u8> {
    let length = HEADER + RECORD * records.len();
    let writes = records.iter().filter(|(_, kind)| *kind == WRITE).count();
    let fields = [
        (0, 4, 0x0102_0304),
        (4, 2, 1),
        (8, 4, records.len() as u32),
        (12, 4, HEADER as u32),
        (16, 4, writes as u32),
        (20, 4, length as u32),
        (24, 2, settings.rule as u32),
        (26, 2, settings.frames),
        (28, 2, settings.batch),
        (30, 2, settings.cap),
        (32, 2, settings.sample),
        (34, 2, settings.weight),
        (36, 4, settings.epoch),
        (40, 4, settings.seed),
    ];
    let mut bytes = vec![0; length];
    for (at, width, number) in fields {
        put(&mut bytes, order, at, width, number);
    }
    for (place, (page, kind)) in bytes[HEADER..].chunks_exact_mut(RECORD).zip(records) {
        put(place, order, 0, 4, *page);
        put(place, order, 4, 2, *kind);
    }
    bytes
}

// ----------------------------------------------------- settings and records

pub fn some_order(random: &mut Random) -> Order {
    random.one_of(&[Order::HighFirst, Order::LowFirst])
}

pub fn some_settings(random: &mut Random) -> Settings {
    Settings {
        rule: random.one_of(&[Rule::Lru, Rule::Clock, Rule::Watt]),
        frames: match random.between(0, 9) {
            0..=4 => random.one_of(&[1, 2, 2, 3, 3, 4, 4, 127, 128, 128]),
            5..=7 => random.between(1, 16),
            _ => random.between(1, 128),
        },
        batch: random.edged(1, 16),
        cap: random.edged(1, 7),
        sample: random.edged(1, 16),
        weight: random.edged(0, 16),
        epoch: match random.between(0, 9) {
            0..=3 => random.between(1, 4),
            4..=6 => random.between(5, 100),
            7 | 8 => random.between(101, 5_000),
            _ => random.one_of(&[5_001, 7_999, 8_000, 49_999, 50_000]),
        },
        seed: match random.between(0, 5) {
            0 => random.one_of(&[0, 1, u32::MAX]),
            _ => random.any(),
        },
    }
}

/// Records over one set of pages. It keeps what it has pinned, so that later
/// traces of a series can still unpin it.
pub struct Source {
    pages: Vec<u32>,
    /// How strongly the front of the pages is preferred: 1 is evenly.
    skew: u32,
    /// The next place of a scan.
    scan: usize,
    pinned: Vec<u32>,
    /// The most pins in a hundred records of a common stretch.
    most_pins: u32,
}

impl Source {
    pub fn new(random: &mut Random, frames: u32, most_pins: u32) -> Source {
        let count = match random.between(0, 9) {
            0 => random.between(1, frames),
            1..=4 => frames + random.between(1, 4),
            5..=7 => frames + random.between(1, 2 * frames),
            _ => 4 * frames + random.between(0, 2_000),
        };
        let first = random.any();
        let mut pages: Vec<u32> = match random.between(0, 2) {
            0 => (0..count).collect(),
            1 => (0..count).map(|i| first.wrapping_add(i << 16)).collect(),
            _ => (0..count).map(|_| random.any()).collect(),
        };
        for edge in [0, u32::MAX, 1 << 31] {
            if random.chance(50) {
                let place = random.place(pages.len());
                pages[place] = edge;
            }
        }
        Source::over(random, pages, Vec::new(), most_pins)
    }

    /// Over these pages, of which some are pinned already.
    pub fn over(random: &mut Random, pages: Vec<u32>, pinned: Vec<u32>, most_pins: u32) -> Source {
        Source {
            pages,
            skew: random.between(1, 4),
            scan: 0,
            pinned,
            most_pins,
        }
    }

    fn page(&self, random: &mut Random) -> u32 {
        let places = (0..self.skew).map(|_| random.place(self.pages.len()));
        self.pages[places.min().unwrap_or(0)]
    }

    fn unpin(&mut self, random: &mut Random) -> u32 {
        if self.pinned.is_empty() || random.chance(20) {
            return self.page(random);
        }
        let place = random.place(self.pinned.len());
        self.pinned.swap_remove(place)
    }

    /// Puts records behind those present until there are n of them, stretch
    /// after stretch: pages of any kind, a scan, or a burst of a few hot ones;
    /// some writes, and in a hundred records so many pins and unpins.
    pub fn fill(&mut self, random: &mut Random, records: &mut Vec<Record>, n: usize) {
        while records.len() < n {
            let what = random.between(0, 9);
            let writes = random.one_of(&[0, 20, 50, 50, 80, 100]);
            let (pins, unpins) = match what {
                0..=3 => (
                    random.between(0, self.most_pins),
                    random.between(0, self.most_pins + 3),
                ),
                4 if self.most_pins > 2 => (60, 25),
                5 | 6 if !self.pinned.is_empty() => (0, 70),
                _ => (0, 0),
            };
            let hot: Vec<u32> = (0..random.between(1, 4))
                .map(|_| self.page(random))
                .collect();
            let length = random.between(3, if n > 1_000 { 200 } else { 50 }) as usize;
            for _ in 0..length.min(n - records.len()) {
                let page = match what {
                    0..=6 => self.page(random),
                    7 => {
                        self.scan = (self.scan + 1) % self.pages.len();
                        self.pages[self.scan]
                    }
                    _ => random.one_of(&hot),
                };
                records.push(if random.chance(pins) {
                    self.pinned.push(page);
                    (page, PIN)
                } else if random.chance(unpins) {
                    (self.unpin(random), UNPIN)
                } else if random.chance(writes) {
                    (page, WRITE)
                } else {
                    (page, READ)
                });
            }
        }
    }
}

/// A page pinned past 255 times, with a few other records in between.
pub fn pinned_full(random: &mut Random) -> Vec<Record> {
    let page = random.any();
    let mut records = Vec::new();
    for _ in 0..random.between(256, 275) {
        records.push((page, PIN));
        match random.between(0, 99) {
            0 => records.push((page, UNPIN)),
            1..=10 => {
                let near = page.wrapping_add(random.between(0, 9));
                records.push((near, random.one_of(&[READ, WRITE])));
            }
            _ => {}
        }
    }
    for _ in 0..random.between(0, 10) {
        records.push((page, random.one_of(&[READ, WRITE, PIN, UNPIN])));
    }
    records
}

/// All frames but one or two pinned and the rest gone through, so that WATT
/// mostly draws pinned frames alone.
pub fn nearly_all_pinned(random: &mut Random, frames: u32) -> Vec<Record> {
    let first = random.any();
    let mut pages: Vec<u32> = (0..frames).map(|i| first.wrapping_add(i)).collect();
    let mut records = Vec::new();
    for &page in &pages {
        records.push((page, random.one_of(&[READ, WRITE])));
    }
    for _ in 0..random.between(1, 2).min(frames) {
        let free = random.place(pages.len());
        pages.swap_remove(free);
    }
    records.extend(pages.iter().map(|&page| (page, PIN)));
    for _ in 0..random.between(5, 40) {
        let page = first.wrapping_add(frames + random.between(0, 6));
        records.push((page, random.one_of(&[READ, WRITE])));
    }
    if random.chance(50) {
        records.extend(pages.iter().map(|&page| (page, UNPIN)));
    }
    records
}

// -------------------------------------------------------------- close values

/// The ages, of the write and of the read, of two pages written once and read
/// once later. Their values, 1 / (10 read) + weight / (10 write), are equal or
/// close. A write is more than twenty times as old as the read, so that the
/// read alone makes the access worth.
fn close_pair(random: &mut Random, weight: u64, oldest: u32, equal: bool) -> Option<[[u64; 2]; 2]> {
    (0..50_000).find_map(|_| {
        let c = u64::from(random.between(2, oldest / 30));
        let a = u64::from(random.between(20 * c as u32 + 1, oldest));
        let d = c + u64::from(random.between(1, 1 + c as u32 / 4));
        // 1/c + weight/a = 1/d + weight/b, solved for b and rounded.
        let above = weight * a * c * d;
        let below = a * d + weight * c * d - a * c;
        let b = (above + below / 2) / below;
        let (left, right) = ((a + weight * c) * b * d, (b + weight * d) * a * c);
        let difference = left.abs_diff(right);
        let close = difference * 20_000_000 < left;
        let fits = b > 20 * d && b != a && close && (difference == 0) == equal;
        fits.then_some([[a, c], [b, d]])
    })
}

/// A trace under WATT that puts such pairs into one batch. Every epoch has one
/// reference; a pinned page takes those that are not wanted.
fn close_values(random: &mut Random, order: Order) -> Vec<u8> {
    let now = random.between(2_500, 6_000);
    let weight = random.between(1, 16);
    let first = random.any() | 1;
    let mut records = vec![(0, READ); now as usize];
    records[0] = (0, PIN);
    let mut pages = (0..).map(|i: u32| first.wrapping_add(2 * i));
    let mut frames = 1;
    for number in 0..8 {
        let pair = close_pair(random, u64::from(weight), now - 1, number % 2 == 0);
        for ages in pair.into_iter().flatten() {
            let [write, read] = ages.map(|age| now as usize - age as usize);
            if records[write] == (0, READ) && records[read] == (0, READ) {
                let page = pages.next().unwrap_or(first);
                records[write] = (page, WRITE);
                records[read] = (page, READ);
                frames += 1;
            }
        }
    }
    records.extend(pages.take(4).map(|page| (page, READ)));
    let settings = Settings {
        rule: Rule::Watt,
        frames,
        batch: 16,
        weight,
        epoch: 1,
        ..some_settings(random)
    };
    encode(&settings, order, &records)
}

// --------------------------------------------------------------- the damage

/// Fields of the header and of a record, their widths, and numbers they must
/// not hold.
const WRONG_FIELDS: [(usize, usize, &[u32]); 14] = [
    (4, 2, &[0, 2, 0x100, 0x101, 0xFFFF]),
    (6, 2, &[1, 0x100, 0x80, 0xFFFF]),
    (8, 4, &[8_001, 0x2000_0000, 0x8000_0000, u32::MAX]),
    (12, 4, &[0, 47, 49, 56, 48 << 24, u32::MAX]),
    (24, 2, &[3, 0x100, 0xFFFF]),
    (26, 2, &[0, 129, 0x100]),
    (28, 2, &[0, 17, 0x100]),
    (30, 2, &[0, 8, 0x100]),
    (32, 2, &[0, 17, 0x100]),
    (34, 2, &[17, 0x100, 0xFFFF]),
    (36, 4, &[0, 50_001, u32::MAX]),
    (44, 4, &[1, 0x100, 1 << 16, 1 << 31]),
    (HEADER + 4, 2, &[4, 0x100, 5, 0x300, 0xFFFF]),
    (HEADER + 6, 2, &[1, 0x100, 0x80, 0xFFFF]),
];

/// As many ways as there are fields, and others.
pub const WAYS: usize = WRONG_FIELDS.len() + 10;

fn put_off_by_one(random: &mut Random, bytes: &mut [u8], order: Order, at: usize) {
    let number = order.number(&bytes[at..at + 4]);
    let number = number.wrapping_add(random.one_of(&[1, u32::MAX]));
    put(bytes, order, at, 4, number);
}

/// One record too many, and nothing else amiss.
fn put_a_record_too_many(bytes: &mut Vec<u8>, order: Order) {
    let length = HEADER + RECORD * (MOST_RECORDS as usize + 1);
    bytes.resize(length, 0);
    put(bytes, order, 8, 4, MOST_RECORDS + 1);
    put(bytes, order, 20, 4, length as u32);
}

fn flip_a_bit(random: &mut Random, bytes: &mut [u8]) {
    bytes[random.place(bytes.len())] ^= 1 << random.between(0, 7);
}

/// Damages a trace in one of the ways by turns, a field with each of its
/// numbers by turns.
pub fn damage(random: &mut Random, bytes: &mut Vec<u8>, order: Order, turn: usize) {
    if bytes.len() < HEADER {
        return;
    }
    let way = turn % WAYS;
    match WRONG_FIELDS.get(way) {
        Some(&(at, width, wrong)) => {
            let number = wrong[turn / WAYS % wrong.len()];
            damage_field(random, bytes, order, (at, width, number));
        }
        None => damage_otherwise(random, bytes, order, way - WRONG_FIELDS.len()),
    }
}

/// Puts a number into a field; into that of any record, where it is a record's.
fn damage_field(
    random: &mut Random,
    bytes: &mut [u8],
    order: Order,
    (mut at, width, number): (usize, usize, u32),
) {
    let records = (bytes.len() - HEADER) / RECORD;
    if at > HEADER && records > 0 {
        at += RECORD * random.place(records);
    }
    if at + width <= bytes.len() {
        put(bytes, order, at, width, number);
    }
}

/// The ways other than a field's wrong number: the length, the mark, and counts
/// that are wrong only beside the rest.
fn damage_otherwise(random: &mut Random, bytes: &mut Vec<u8>, order: Order, way: usize) {
    let length = bytes.len();
    match way {
        0 => bytes.truncate(random.one_of(&[0, 1, 4, 24, 47])),
        1 => bytes.truncate(random.place(length)),
        2 => bytes.truncate(random.one_of(&[HEADER, length - 1, length - RECORD])),
        3 => bytes.resize(length + random.one_of(&[1, 2, 7, 8, 16]), 0),
        4 => flip_a_bit(random, &mut bytes[..4]),
        5 => bytes[..4].reverse(),
        6 => put_off_by_one(random, bytes, order, 16),
        7 => {
            let at = random.one_of(&[8, 20]);
            put_off_by_one(random, bytes, order, at);
        }
        8 => put_a_record_too_many(bytes, order),
        _ => {
            for _ in 0..random.between(1, 3) {
                flip_a_bit(random, bytes);
            }
        }
    }
}

// -------------------------------------------------------- traces and series

/// The trace of a seed. One in sixty has the most records there may be, and one
/// has close values; one in five is damaged, some of those twice.
pub fn trace(seed: u64) -> Vec<u8> {
    let random = &mut Random::new(seed);
    let order = some_order(random);
    if seed % 60 == 11 {
        return close_values(random, order);
    }
    let mut settings = some_settings(random);
    let frames = settings.frames;
    let mut records = match random.between(0, 19) {
        0 => pinned_full(random),
        1 | 2 => {
            settings.sample = random.between(1, 3);
            nearly_all_pinned(random, frames)
        }
        _ => Vec::new(),
    };
    let n = match random.between(0, 99) {
        _ if seed % 60 == 7 => MOST_RECORDS,
        0..=2 => 0,
        3..=5 => 1,
        6..=40 => random.between(2, 60),
        _ => random.between(60 + 2 * frames, 800),
    };
    Source::new(random, frames, 12).fill(random, &mut records, n as usize);
    let mut bytes = encode(&settings, order, &records);
    if seed % 5 == 3 {
        damage(random, &mut bytes, order, seed as usize / 5);
        if random.chance(25) {
            let turn = random.place(100 * WAYS);
            damage(random, &mut bytes, order, turn);
        }
    }
    bytes
}

fn good_trace(random: &mut Random, source: &mut Source, settings: &Settings, n: u32) -> Vec<u8> {
    let mut records = Vec::new();
    source.fill(random, &mut records, n as usize);
    encode(settings, some_order(random), &records)
}

/// A damaged trace that is no empty item.
fn bad_trace(random: &mut Random, settings: &Settings) -> Vec<u8> {
    let order = some_order(random);
    let mut records = Vec::new();
    Source::new(random, settings.frames, 0).fill(random, &mut records, 30);
    let mut bytes = encode(settings, order, &records);
    let turn = random.place(100 * WAYS);
    damage(random, &mut bytes, order, turn);
    if bytes.is_empty() {
        bytes.push(1);
    }
    bytes
}

/// A trace of which one setting is another, each by turns.
pub fn other_trace(random: &mut Random, settings: &Settings, turn: u32) -> Vec<u8> {
    let mut other = *settings;
    while other == *settings {
        let fresh = some_settings(random);
        match turn % 8 {
            0 => other.rule = fresh.rule,
            1 => other.frames = fresh.frames,
            2 => other.batch = fresh.batch,
            3 => other.cap = fresh.cap,
            4 => other.sample = fresh.sample,
            5 => other.weight = fresh.weight,
            6 => other.epoch = fresh.epoch,
            _ => other.seed = fresh.seed,
        }
    }
    let source = &mut Source::new(random, other.frames, 12);
    good_trace(random, source, &other, 40)
}

/// The items as a series, each preceded by its length high byte first.
pub fn joined(items: &[Vec<u8>]) -> Vec<u8> {
    let item = |item: &Vec<u8>| [&(item.len() as u32).to_be_bytes()[..], &item[..]].concat();
    items.iter().flat_map(item).collect()
}

/// The whole items of a series, and the bytes behind them.
pub fn items(mut bytes: &[u8]) -> (Vec<&[u8]>, &[u8]) {
    let mut items = Vec::new();
    while let Some((length, rest)) = bytes.split_first_chunk::<4>() {
        let length = u32::from_be_bytes(*length) as usize;
        let Some((item, rest)) = rest.split_at_checked(length) else {
            break;
        };
        bytes = rest;
        items.push(item);
    }
    (items, bytes)
}

/// The series of a seed. Ten traces go on from one another, most of them long, so that k reaches its
/// end; damaged traces, traces of other settings and empty items stand between.
pub fn series(seed: u64) -> Vec<u8> {
    let random = &mut Random::new(!seed);
    let settings = some_settings(random);
    let frames = settings.frames;
    // Few pins, none where they would stop a single frame for long.
    let most_pins = if frames == 1 { 0 } else { 2 };
    let source = &mut Source::new(random, frames, most_pins);
    let mut items = items_before(random, source, &settings);
    // A page that keeps 255 pins until k has reached its end.
    let held = (seed & 1 == 0 && frames > 1).then(|| random.any());
    for part in 0..10 {
        items.extend(items_of_part(random, source, &settings, part, held));
    }
    if random.chance(50) {
        items.extend(items_anew(random, source));
    }
    let mut bytes = joined(&items);
    if random.chance(20) {
        // The input ends inside an item.
        bytes.truncate(bytes.len() - random.between(1, 60) as usize);
    }
    bytes
}

/// What may come before the start that counts.
fn items_before(random: &mut Random, source: &mut Source, settings: &Settings) -> Vec<Vec<u8>> {
    let mut items = Vec::new();
    if random.chance(30) {
        items.push(bad_trace(random, settings));
    }
    if random.chance(30) {
        items.push(good_trace(random, source, settings, 300));
        items.push(Vec::new());
        source.pinned.clear();
    }
    items
}

/// One of the ten traces, what is done in this part to the page that is held, and
/// refused ones.
fn items_of_part(
    random: &mut Random,
    source: &mut Source,
    settings: &Settings,
    part: u32,
    held: Option<u32>,
) -> Vec<Vec<u8>> {
    let n = match part {
        3 => random.between(0, 60),
        _ => random.between(7_000, 8_000),
    };
    let mut items = vec![good_trace(random, source, settings, n)];
    let records = match (held, part) {
        (Some(page), 4) => vec![(page, PIN); 260],
        (Some(page), 8) => vec![(page, PIN), (page, WRITE), (page, UNPIN), (page, PIN)],
        _ => Vec::new(),
    };
    if !records.is_empty() {
        items.push(encode(settings, some_order(random), &records));
    }
    if random.chance(20) {
        items.push(bad_trace(random, settings));
    }
    items.push(other_trace(random, settings, part));
    items
}

/// A start anew, under other settings.
fn items_anew(random: &mut Random, source: &mut Source) -> Vec<Vec<u8>> {
    let mut items = vec![Vec::new(); random.one_of(&[1, 1, 2])];
    source.pinned.clear();
    let settings = some_settings(random);
    items.push(good_trace(random, source, &settings, 500));
    items.push(good_trace(random, source, &settings, 200));
    items
}

/// The stored series, short because programs replay it under emulation: the
/// paper's example; for each rule a trace with every outcome 0 to 4, 110 and
/// 111; then one pool with which three traces go on, and between them one of
/// other settings and one damaged. The seeds are chosen for these outcomes.
pub fn stored() -> Vec<u8> {
    let mut items = vec![example()];
    for (rule, frames, batch, seed) in [
        (Rule::Lru, 3, 2, 42),
        (Rule::Clock, 5, 3, 611),
        (Rule::Watt, 8, 4, 861),
    ] {
        let random = &mut Random::new(seed);
        let source = &mut Source::new(random, frames, 12);
        items.push(Vec::new());
        items.push(good_trace(random, source, &small(rule, frames, batch), 120));
    }
    items.push(Vec::new());
    items.extend(stored_on_one_pool());
    joined(&items)
}

/// Settings for a stored trace.
fn small(rule: Rule, frames: u32, batch: u32) -> Settings {
    Settings {
        rule,
        frames,
        batch,
        cap: 2,
        sample: 3,
        weight: 2,
        epoch: 7,
        seed: 4_000_000_000,
    }
}

/// The paper's example, of which it prints the sheet.
fn example() -> Vec<u8> {
    let settings = Settings {
        cap: 1,
        sample: 1,
        weight: 0,
        epoch: 1,
        seed: 0,
        ..small(Rule::Lru, 2, 1)
    };
    let records = [(7, READ), (8, WRITE), (7, READ), (9, READ), (8, READ)];
    encode(&settings, Order::HighFirst, &records)
}

fn stored_on_one_pool() -> [Vec<u8>; 5] {
    let random = &mut Random::new(67);
    let settings = small(Rule::Watt, 16, 5);
    let source = &mut Source::new(random, settings.frames, 12);
    [
        good_trace(random, source, &settings, 100),
        good_trace(random, source, &settings, 100),
        other_trace(random, &settings, 7),
        bad_trace(random, &settings),
        good_trace(random, source, &settings, 60),
    ]
}

/// What a trace for timing is like.
#[derive(Clone, Copy, Debug)]
pub struct Load {
    pub rule: Rule,
    pub frames: u32,
    pub batch: u32,
    pub records: u32,
    /// How many of a hundred records are writes.
    pub writes: u32,
    /// Whether nearly all pages have room in the pool together.
    pub near: bool,
}

impl Load {
    pub const USUAL: Load = Load {
        rule: Rule::Lru,
        frames: 128,
        batch: 8,
        records: MOST_RECORDS,
        writes: 50,
        near: false,
    };
}

/// A trace for timing: over 450 pages of which the low ones are named far more
/// often, or, near, over as many pages as there are frames and now and then
/// another.
pub fn for_timing(load: &Load, order: Order) -> Vec<u8> {
    let random = &mut Random::new(1);
    let settings = Settings {
        rule: load.rule,
        frames: load.frames,
        batch: load.batch,
        cap: 3,
        sample: 8,
        weight: 2,
        epoch: 100,
        seed: 1,
    };
    let mut writes_left = load.records * load.writes / 100;
    let mut records = Vec::new();
    for left in (1..=load.records).rev() {
        let page = if load.near && random.chance(99) {
            random.between(0, load.frames - 1)
        } else {
            let u = f64::from(random.between(0, u32::MAX - 1)) / f64::from(u32::MAX);
            (450.0 * u * u * u) as u32
        };
        let write = random.between(1, left) <= writes_left;
        writes_left -= u32::from(write);
        records.push((page, if write { WRITE } else { READ }));
    }
    encode(&settings, order, &records)
}
