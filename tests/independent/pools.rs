//! Pools to call on: those that replays left, and those made up of any numbers that
//! leave them sound, often with a clause of soundness at its edge; and traces to go on
//! with from them.

use crate::calls::kind_of;
use crate::image::{numbers_of, settings_of, Held, HeldFrame};
use crate::replay::{Pool, Rule, Settings, MOST_REFERENCES};
use crate::traces::{self, Random, Record, Source};
use std::collections::BTreeSet;

// ------------------------------------------------------ what replays left

fn worked(pool: &mut Pool, records: &[Record]) {
    for &(page, kind) in records {
        let kind = kind_of(kind).expect("a kind of record");
        // A refused record leaves the pool as it is.
        let _ = pool.step(page, kind);
    }
}

/// What a replay from a fresh pool left.
pub fn left_by_a_replay(random: &mut Random, settings: Settings) -> Held {
    let f = settings.frames;
    let mut records = match random.between(0, 5) {
        0 => traces::pinned_full(random),
        1 => traces::nearly_all_pinned(random, f),
        _ => Vec::new(),
    };
    let n = match random.between(0, 9) {
        0 => random.between(0, 5),
        1 => random.between(1, f),
        _ => random.between(2 * f, 2 * f + 400),
    };
    Source::new(random, f, 12).fill(random, &mut records, n as usize);
    let mut pool = Pool::fresh(settings);
    worked(&mut pool, &records);
    Held::of(&pool)
}

/// What replays left that came to this k.
pub fn left_at(random: &mut Random, settings: Settings, k: u32) -> Held {
    let most_pins = if settings.frames == 1 { 0 } else { 2 };
    let source = &mut Source::new(random, settings.frames, most_pins);
    let mut pool = Pool::fresh(settings);
    while pool.k < k {
        let mut records = Vec::new();
        source.fill(random, &mut records, 5_000.min(k - pool.k) as usize);
        worked(&mut pool, &records);
        // Should every frame be pinned, a page that is there is still read.
        let resident = pool.frames[0].page;
        if pool.k < k {
            worked(&mut pool, &[(resident, traces::READ)]);
        }
    }
    Held::of(&pool)
}

// -------------------------------------------------------------- made up

/// What the frames of a made-up pool are like.
struct Manner {
    /// How many of a hundred frames are pinned.
    pinned: u32,
    /// How many of a hundred frames have a write log, and how many of those are dirty.
    written: u32,
    dirty: u32,
    /// Whether the logs reach from the last step's epoch down without a gap.
    dense: bool,
}

fn some_manner(random: &mut Random) -> Manner {
    Manner {
        pinned: random.one_of(&[0, 0, 0, 10, 50, 90, 100]),
        written: random.one_of(&[0, 50, 80, 100]),
        dirty: random.one_of(&[20, 80, 100]),
        dense: random.chance(30),
    }
}

/// A sound pool with these settings, made up.
pub fn made_up(random: &mut Random, settings: Settings) -> Held {
    let f = settings.frames;
    let in_use = match random.between(0, 5) {
        0 => random.edged(0, f),
        1 => f - 1,
        _ => f,
    };
    let k = match random.between(0, 7) {
        0 => in_use,
        1 => MOST_REFERENCES - 1,
        2 => MOST_REFERENCES,
        3 => in_use + random.between(1, 200),
        _ => random.between(in_use + 1, MOST_REFERENCES),
    };
    made_up_of(random, settings, in_use, k)
}

/// A sound pool with so many frames in use and this k, which is not below that.
pub fn made_up_of(random: &mut Random, settings: Settings, in_use: u32, k: u32) -> Held {
    let manner = some_manner(random);
    let pages = some_pages(random, in_use);
    let lasts = some_lasts(random, in_use, k);
    let frames = pages
        .into_iter()
        .zip(lasts)
        .map(|(page, last)| some_frame(random, &manner, &settings, page, last))
        .collect();
    Held {
        settings: numbers_of(&settings),
        k,
        hand: random.edged(0, settings.frames - 1),
        sampler: match random.between(0, 3) {
            0 => random.one_of(&[0, 1, u32::MAX, u32::MAX - 1]),
            _ => random.any(),
        },
        frames,
    }
}

fn shuffle(random: &mut Random, numbers: &mut [u32]) {
    for last in (1..numbers.len()).rev() {
        numbers.swap(last, random.place(last + 1));
    }
}

/// Distinct pages, the two ends among them more often than not.
fn some_pages(random: &mut Random, count: u32) -> Vec<u32> {
    let mut pages = match random.between(0, 2) {
        0 => (0..count).collect(),
        1 => BTreeSet::new(),
        _ => BTreeSet::from([0, u32::MAX]),
    };
    let low = random.chance(50);
    while pages.len() < count as usize {
        pages.insert(match low {
            true => random.between(0, 3 * count),
            false => random.any(),
        });
    }
    let mut pages: Vec<u32> = pages.into_iter().collect();
    shuffle(random, &mut pages);
    pages.truncate(count as usize);
    pages
}

/// Distinct last steps below k, the least and the greatest among them more often than
/// not; near the end, or anywhere.
fn some_lasts(random: &mut Random, count: u32, k: u32) -> Vec<u32> {
    let first = match random.between(0, 2) {
        0 => k - count,
        1 => (k - count).saturating_sub(random.between(0, 50)),
        _ => 0,
    };
    let mut lasts = BTreeSet::new();
    if random.chance(70) {
        lasts.extend([first, k.saturating_sub(1)]);
    }
    while lasts.len() < count as usize {
        lasts.insert(random.between(first, k - 1));
    }
    let mut lasts: Vec<u32> = lasts.into_iter().collect();
    shuffle(random, &mut lasts);
    lasts.truncate(count as usize);
    lasts
}

fn some_frame(
    random: &mut Random,
    manner: &Manner,
    settings: &Settings,
    page: u32,
    last: u32,
) -> HeldFrame {
    let epoch = last / settings.epoch;
    let mut frame = HeldFrame {
        page,
        last,
        count: random.edged(0, settings.cap) as u8,
        ..HeldFrame::default()
    };
    if random.chance(manner.pinned) {
        frame.pins = match random.between(0, 3) {
            0 => random.one_of(&[254, 255]),
            1 => random.between(1, 255) as u8,
            _ => 1,
        };
    }
    frame.accesses = put_some_log(random, &mut frame.access, epoch, manner.dense);
    if random.chance(manner.written) {
        frame.writes = put_some_log(random, &mut frame.write, epoch, manner.dense);
        frame.dirty = random.chance(manner.dirty);
    }
    frame
}

/// Puts one entry or more into a log; gives how many.
fn put_some_log(random: &mut Random, places: &mut [u32], epoch: u32, dense: bool) -> u8 {
    let most = (places.len() as u32).min(epoch.saturating_add(1));
    let entries = random.edged(1, most);
    let mut log = BTreeSet::new();
    if dense {
        log.extend(epoch + 1 - entries..=epoch);
    }
    if random.chance(60) {
        log.insert(epoch);
    }
    if random.chance(20) {
        log.insert(0);
    }
    while log.len() < entries as usize {
        log.insert(match random.chance(50) {
            true => epoch - random.between(0, epoch.min(12)),
            false => random.between(0, epoch),
        });
    }
    let newest_first = log.into_iter().rev().take(places.len());
    let mut entries = 0;
    for (place, entry) in places.iter_mut().zip(newest_first) {
        *place = entry;
        entries += 1;
    }
    entries
}

// ---------------------------------------------------------- what goes on

/// Pages of a pool and others; what is pinned there can be unpinned.
fn source_for(random: &mut Random, held: &Held) -> Source {
    let mut pages: Vec<u32> = held.frames.iter().map(|frame| frame.page).collect();
    let others = match random.between(0, 2) {
        0 => 1,
        1 => random.between(1, 4),
        _ => random.between(1, 20 + held.frames.len() as u32),
    };
    pages.extend((0..others).map(|_| random.any()));
    for edge in [0, u32::MAX] {
        if random.chance(30) {
            pages.push(edge);
        }
    }
    shuffle(random, &mut pages);
    let pinned = held.frames.iter().filter(|frame| frame.pins > 0);
    let pinned = pinned.map(|frame| frame.page).collect();
    Source::over(random, pages, pinned, 12)
}

/// So many records over the pages of a pool and others.
pub fn records_for(random: &mut Random, held: &Held, n: u32) -> Vec<Record> {
    let mut records = Vec::new();
    source_for(random, held).fill(random, &mut records, n as usize);
    records
}

/// Such a trace with the settings of the pool, or with others where those are out of
/// range, in either order.
pub fn trace_for(random: &mut Random, held: &Held, n: u32) -> Vec<u8> {
    let settings = settings_of(&held.settings).unwrap_or(PLAIN);
    let records = records_for(random, held, n);
    traces::encode(&settings, traces::some_order(random), &records)
}

pub const PLAIN: Settings = Settings {
    rule: Rule::Lru,
    frames: 1,
    batch: 1,
    cap: 1,
    sample: 1,
    weight: 0,
    epoch: 1,
    seed: 0,
};

/// A page that no frame holds.
pub fn absent_page(random: &mut Random, held: &Held) -> u32 {
    loop {
        let page = random.any();
        if held.frames.iter().all(|frame| frame.page != page) {
            return page;
        }
    }
}
