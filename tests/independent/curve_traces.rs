//! The traces of which curves are compared, deterministic from a seed: each sort in
//! turn, by each rule in either order. Most have no pin: pages at random, near or far
//! from each other, and pages that come again when just so many others have. The rest
//! are refused: with a pin or an unpin, damaged, or both.

use crate::replay::{check, Order, Rule, Settings, MOST_RECORDS};
use crate::traces::{self, damage, encode, Random, Record, Source, PIN, READ, UNPIN, WAYS, WRITE};

/// A trace and its sort.
pub struct Made {
    pub sort: Sort,
    pub bytes: Vec<u8>,
}

#[derive(Clone, Copy, PartialEq, Eq, PartialOrd, Ord, Debug)]
pub enum Sort {
    Empty,
    OneRecord,
    OnePage,
    FewPages,
    AllDifferent,
    /// Nearly all or some of the pages are the least and the greatest there are.
    EndsOfPages,
    Evenly,
    Skewed,
    /// Stretches of any pages, scans and bursts.
    Mixed,
    /// Stretches, each among the pages of one of some sets.
    Phases,
    /// A page comes again when so many different ones have come since.
    Distance(u32),
    /// Around and around so many pages.
    Sweep(u32),
    /// The most records there may be.
    Longest,
    Pin,
    Unpin,
    /// In a way that is refused by this number.
    Damaged(u32),
    /// The same with a pin or an unpin.
    PinnedAndDamaged(u32),
}

use Sort::*;

/// How many different pages lie between two uses of a page, around what matters: with
/// one more frame than that it is a hit.
pub const DISTANCES: [u32; 6] = [0, 1, 126, 127, 128, 129];

pub const SWEEPS: [u32; 4] = [127, 128, 129, 130];

/// The damages by whose number a pin is not told of.
pub const WITH_PINS: [u32; 3] = [6, 7, 8];

/// Each sort as often as it is to come in one turn.
pub fn sorts() -> Vec<Sort> {
    let mut sorts = vec![
        Empty,
        OneRecord,
        OnePage,
        AllDifferent,
        EndsOfPages,
        Evenly,
        Evenly,
        Evenly,
        Skewed,
        Skewed,
        Skewed,
        Mixed,
        Mixed,
        Mixed,
        Longest,
        Pin,
        Unpin,
    ];
    sorts.extend(DISTANCES.map(Distance));
    sorts.extend(SWEEPS.map(Sweep));
    sorts.extend((1..=8).map(Damaged));
    sorts.extend(WITH_PINS.map(PinnedAndDamaged));
    sorts
}

const RULES: [Rule; 3] = [Rule::Lru, Rule::Clock, Rule::Watt];
const ORDERS: [Order; 2] = [Order::HighFirst, Order::LowFirst];

/// The trace of a seed.
pub fn made(seed: u64) -> Made {
    // Other numbers than those of which other things are made.
    let random = &mut Random::new(seed ^ (1 << 61));
    let sorts = sorts();
    let (turn, sort) = (seed as usize / sorts.len(), seed as usize % sorts.len());
    let sort = sorts[sort];
    let order = ORDERS[turn % ORDERS.len()];
    let mut settings = Settings {
        rule: RULES[turn % RULES.len()],
        ..traces::some_settings(random)
    };
    if random.chance(40) {
        // Where a picture names its own size on the other side, and at the ends.
        settings.frames = random.one_of(&[1, 64, 65, 127, 128]);
    }
    let count = some_count(random);
    let mut records = records_of(random, sort, count);
    if let Pin | Unpin | PinnedAndDamaged(_) = sort {
        put_pins(random, &mut records, sort);
    }
    let mut bytes = encode(&settings, order, &records);
    if let Damaged(refusal) | PinnedAndDamaged(refusal) = sort {
        bytes = damaged(random, &bytes, order, refusal);
    }
    Made { sort, bytes }
}

// ------------------------------------------------------------- the records

/// Records of a sort, so many of them where the sort does not say how many.
pub fn records_of(random: &mut Random, sort: Sort, count: usize) -> Vec<Record> {
    let pages = match sort {
        Empty => Vec::new(),
        OneRecord => vec![random.edged(0, u32::MAX)],
        OnePage => vec![random.any(); count],
        FewPages => {
            let among = random.between(2, 6) as usize;
            any_of(random, among, count, 1)
        }
        AllDifferent => different(random, count),
        EndsOfPages => ends_of_pages(random, count),
        Evenly => with_skew(random, count, 1),
        Skewed => {
            let skew = random.between(2, 5);
            with_skew(random, count, skew)
        }
        Distance(between) => at_distance(random, between),
        Sweep(pages) => sweep(random, pages),
        Longest => {
            let skew = random.between(1, 4);
            with_skew(random, MOST_RECORDS as usize, skew)
        }
        Phases => phases(random, count),
        Mixed => return mixed(random, count),
        Pin | Unpin | Damaged(_) | PinnedAndDamaged(_) => return mixed(random, 60),
    };
    with_kinds(random, pages)
}

/// Few records and many, so that the axis of a picture gets all its steps.
fn some_count(random: &mut Random) -> usize {
    let (low, high) = random.one_of(&[
        (1, 12),
        (10, 60),
        (40, 120),
        (80, 300),
        (200, 600),
        (400, 1_100),
        (900, 2_200),
        (1_900, 4_000),
    ]);
    random.between(low, high) as usize
}

/// Reads and writes.
fn with_kinds(random: &mut Random, pages: Vec<u32>) -> Vec<Record> {
    let writes = random.one_of(&[0, 20, 50, 100]);
    let mut kind = || if random.chance(writes) { WRITE } else { READ };
    pages.into_iter().map(|page| (page, kind())).collect()
}

/// So many different pages, in no order.
fn different(random: &mut Random, count: usize) -> Vec<u32> {
    let (first, step) = (random.any(), random.any() | 1);
    let page = |i: u32| first.wrapping_add(i.wrapping_mul(step));
    (0..count as u32).map(page).collect()
}

/// Any of some pages: fewer than the greatest pool has frames, about as many, and more.
fn with_skew(random: &mut Random, count: usize, skew: u32) -> Vec<u32> {
    let (low, high) = random.one_of(&[(2, 20), (21, 120), (120, 140), (141, 600), (600, 3_000)]);
    let among = random.between(low, high) as usize;
    any_of(random, among, count, skew)
}

/// Any of so many pages, the front ones more often with a greater skew.
fn any_of(random: &mut Random, among: usize, count: usize, skew: u32) -> Vec<u32> {
    let pages = different(random, among);
    let mut some = || (0..skew).map(|_| random.place(among)).min();
    (0..count).map(|_| pages[some().unwrap_or(0)]).collect()
}

fn ends_of_pages(random: &mut Random, count: usize) -> Vec<u32> {
    let others = random.one_of(&[0, 20, 80]);
    let mut page = || match random.chance(others) {
        true => random.any(),
        false => random.one_of(&[0, u32::MAX]),
    };
    let pages = (0..count).map(|_| page());
    // Both are there, and both come again.
    pages.chain([0, u32::MAX, 0, u32::MAX]).collect()
}

fn phases(random: &mut Random, count: usize) -> Vec<u32> {
    let mut some_set = |_| {
        let among = random.between(1, 40) as usize;
        different(random, among)
    };
    let sets: Vec<Vec<u32>> = (0..4).map(&mut some_set).collect();
    let mut pages = Vec::new();
    while pages.len() < count {
        let set = &sets[random.place(sets.len())];
        let length = random.between(1, 3 * set.len() as u32);
        pages.extend((0..length).map(|_| random.one_of(set)));
    }
    pages.truncate(count);
    pages
}

/// Some pages, each of which comes again when so many different ones have, some of those
/// more than once. What is before and behind is random.
fn at_distance(random: &mut Random, between: u32) -> Vec<u32> {
    let mut pages = Vec::new();
    for _ in 0..random.between(1, 5) {
        let before = random.between(0, 40) as usize;
        pages.extend(with_skew(random, before, 1));
        let others = different(random, between as usize + 1);
        let (page, others) = others.split_first().expect("a page at least");
        pages.push(*page);
        for at in 0..others.len() {
            pages.push(others[at]);
            if random.chance(20) {
                pages.push(others[random.place(at + 1)]);
            }
        }
        pages.push(*page);
    }
    pages
}

fn sweep(random: &mut Random, among: u32) -> Vec<u32> {
    let pages = different(random, among as usize);
    let count = random.between(among + 1, 5 * among) as usize;
    pages.iter().copied().cycle().take(count).collect()
}

/// As other traces are filled, with reads and writes in the place of pins and unpins.
fn mixed(random: &mut Random, count: usize) -> Vec<Record> {
    let frames = random.one_of(&[1, 4, 16, 60, 128]);
    let mut records = Vec::new();
    Source::new(random, frames, 0).fill(random, &mut records, count);
    for (_, kind) in &mut records {
        *kind = match *kind {
            PIN | READ => READ,
            _ => WRITE,
        };
    }
    records
}

// -------------------------------------------------------------- the refused

/// Makes pins or unpins of one record or of some: the first, the last or any.
fn put_pins(random: &mut Random, records: &mut [Record], sort: Sort) {
    let last = records.len() - 1;
    for _ in 0..random.one_of(&[1, 1, 1, 4]) {
        let any = random.place(records.len());
        records[random.one_of(&[0, last, any])].1 = match sort {
            Pin => PIN,
            Unpin => UNPIN,
            _ => random.one_of(&[PIN, UNPIN]),
        };
    }
}

/// The trace with a damage by which it is refused so.
fn damaged(random: &mut Random, bytes: &[u8], order: Order, refusal: u32) -> Vec<u8> {
    let some_damage = |_| {
        let mut bytes = bytes.to_vec();
        let turn = random.place(100 * WAYS);
        damage(random, &mut bytes, order, turn);
        bytes
    };
    let mut tried = (0..).map(some_damage);
    let found = tried.find(|bytes| check(bytes) == Err(refusal));
    found.expect("a damage for each refusal")
}
