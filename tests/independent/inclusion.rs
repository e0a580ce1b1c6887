//! More memory must not look worse: what an LRU pool holds after a record, one with a
//! frame more holds, too, so that its misses are never more. That is looked at here
//! after every record of a trace without pins, whoever replayed it.

use crate::renaming::numbers;
use crate::replay::{Kind, Outcome, Pool, Settings};
use std::collections::BTreeSet;

/// What a record came to: whether it was a hit, and the page in each frame in use
/// afterwards, from frame 0 up.
#[derive(Clone, PartialEq, Eq, Debug)]
pub struct After {
    pub hit: bool,
    pub held: Vec<u32>,
}

/// What the records of a trace came to, one after the other, from a fresh pool of so
/// many frames.
#[derive(Clone, PartialEq, Eq, Debug)]
pub struct Course {
    pub frames: usize,
    pub records: Vec<After>,
}

pub type Row = [u32; 4];

// ------------------------------------------------------------ where they come from

impl Course {
    /// By our own replay, as the frames of its pool tell it and not its rows.
    pub fn replayed(settings: Settings, records: &[(u32, Kind)]) -> Result<Course, String> {
        let mut pool = Pool::fresh(settings);
        let mut after = |(number, &(page, kind)): (usize, &(u32, Kind))| {
            let step = pool.step(page, kind);
            let (_, outcome) = step.map_err(|no| format!("record {number} is refused by {no}"))?;
            let in_use = pool.frames.iter().filter(|frame| frame.in_use);
            Ok(After {
                hit: outcome == Outcome::Hit,
                held: in_use.map(|frame| frame.page).collect(),
            })
        };
        let records: Result<_, String> = (1..).zip(records).map(&mut after).collect();
        Ok(Course {
            frames: settings.frames as usize,
            records: records?,
        })
    }

    /// By the rows of a replay alone. Each must be one that its page can have there.
    pub fn rebuilt(frames: usize, pages: &[u32], rows: &[Row]) -> Result<Course, String> {
        expect_count(frames, pages.len(), rows.len())?;
        let (mut held, mut records) = (Vec::new(), Vec::new());
        for (number, (&page, &row)) in (1..).zip(pages.iter().zip(rows)) {
            let hit = follow(&mut held, frames, page, row).ok_or_else(|| {
                format!("record {number} of page {page} has the row {row:?} where {held:?} is held")
            })?;
            let held = held.clone();
            records.push(After { hit, held });
        }
        Ok(Course { frames, records })
    }
}

/// Nothing is told of what a trace does not have, and nothing left out.
fn expect_count(frames: usize, due: usize, told: usize) -> Result<(), String> {
    match told == due {
        true => Ok(()),
        false => Err(format!("{told} records in place of {due}, frames {frames}")),
    }
}

/// Does to the pages that are held what a row says of a page, and tells whether it was a
/// hit; none where the row cannot be.
fn follow(held: &mut Vec<u32>, frames: usize, page: u32, row: Row) -> Option<bool> {
    let [outcome, frame, left, batch] = row;
    let at = frame as usize;
    let resident = held.contains(&page);
    match outcome {
        0 if held.get(at) == Some(&page) && [left, batch] == [0, 0] => Some(true),
        1 if !resident && at == held.len() && at < frames && [left, batch] == [0, 0] => {
            held.push(page);
            Some(false)
        }
        2 | 3 if !resident && held.len() == frames && (batch > 0) == (outcome == 3) => {
            let leaving = held.get_mut(at).filter(|page| **page == left)?;
            *leaving = page;
            Some(false)
        }
        _ => None,
    }
}

/// The rows at the beginning of a listing.
pub fn listed_rows(listing: &str) -> Option<Vec<Row>> {
    let mut lines = listing.lines();
    let count: usize = lines.next()?.strip_prefix("rows ")?.parse().ok()?;
    let rows: Vec<Row> = lines.take(count).map(numbers).collect::<Option<_>>()?;
    (rows.len() == count).then_some(rows)
}

// ------------------------------------------------------------------ what must hold

/// All that is promised of the smaller pool and the larger one, and that each of them
/// holds what it must: pools that are always empty would be included, too.
pub fn expect_included(pages: &[u32], smaller: &Course, larger: &Course) -> Result<(), String> {
    for course in [smaller, larger] {
        expect_filled(pages, course)?;
    }
    expect_held(smaller, larger)?;
    expect_hits(smaller, larger)?;
    expect_misses(smaller, larger)
}

/// After each record a pool has its page and as many different ones as have come, but no
/// more than it has frames; and a hit is what was held before.
pub fn expect_filled(pages: &[u32], course: &Course) -> Result<(), String> {
    let Course { frames, records } = course;
    expect_count(*frames, pages.len(), records.len())?;
    let (mut come, mut before): (BTreeSet<u32>, &[u32]) = (BTreeSet::new(), &[]);
    for (number, (page, after)) in (1..).zip(pages.iter().zip(records)) {
        come.insert(*page);
        let held: BTreeSet<u32> = after.held.iter().copied().collect();
        let due = come.len().min(*frames);
        let filled = [held.len(), after.held.len()] == [due; 2] && held.is_subset(&come);
        if !filled || !held.contains(page) || after.hit != before.contains(page) {
            return Err(format!(
                "record {number} of page {page}, frames {frames}: {after:?}"
            ));
        }
        before = &after.held;
    }
    Ok(())
}

/// Each page in the smaller pool is in the larger one.
pub fn expect_held(smaller: &Course, larger: &Course) -> Result<(), String> {
    expect_each(smaller, larger, |small, large| {
        let mut pages = small.held.iter();
        let page = pages.find(|page| !large.held.contains(page))?;
        Some(format!("page {page} is in the smaller pool alone"))
    })
}

/// A hit in the smaller pool is one in the larger.
pub fn expect_hits(smaller: &Course, larger: &Course) -> Result<(), String> {
    expect_each(smaller, larger, |small, large| {
        (small.hit && !large.hit).then(|| "a hit in the smaller pool alone".to_string())
    })
}

/// Of every beginning the larger pool has no more misses.
pub fn expect_misses(smaller: &Course, larger: &Course) -> Result<(), String> {
    let mut misses = [0, 0];
    expect_each(smaller, larger, |small, large| {
        misses[0] += u32::from(!small.hit);
        misses[1] += u32::from(!large.hit);
        let [small, large] = misses;
        (large > small).then(|| format!("{small} misses, and with a frame more {large}"))
    })
}

/// Fails at the first record of which something amiss is told.
fn expect_each(
    smaller: &Course,
    larger: &Course,
    mut amiss: impl FnMut(&After, &After) -> Option<String>,
) -> Result<(), String> {
    let pairs = smaller.records.iter().zip(&larger.records);
    for (number, (small, large)) in (1..).zip(pairs) {
        if let Some(told) = amiss(small, large) {
            let [smaller, larger] = [smaller, larger].map(|course| course.frames);
            return Err(format!(
                "record {number}, frames {smaller} and {larger}: {told}"
            ));
        }
    }
    Ok(())
}
