//! Pages renamed one-to-one, at random: those of traces and images, and those of what
//! is printed of them. Only the sameness of pages counts in a replay, so what it
//! prints of a renamed trace is what it printed before, renamed. Unused frames are
//! not printed, so that no listing can show a page of theirs renamed.

use crate::calls::{Answer, Call};
use crate::image::{self, length_of};
use crate::replay::{check, Order, Trace};
use crate::traces::{self, put, Random};
use std::collections::{BTreeMap, BTreeSet};
use std::iter::Peekable;
use std::str::Lines;

// ------------------------------------------------------------- the renaming

/// The new number of each page.
#[derive(Clone)]
pub struct Renaming(pub BTreeMap<u32, u32>);

impl Renaming {
    pub fn of(&self, page: u32) -> u32 {
        match self.0.get(&page) {
            Some(number) => *number,
            None => panic!("page {page} has no new number"),
        }
    }
}

/// Gives each of the pages one of as many distinct numbers, mixed or from the
/// greatest down.
pub fn some_renaming(random: &mut Random, pages: &BTreeSet<u32>) -> Renaming {
    let mut numbers = some_numbers(random, pages);
    if random.chance(25) {
        numbers.reverse();
    } else {
        for last in (1..numbers.len()).rev() {
            numbers.swap(last, random.place(last + 1));
        }
    }
    Renaming(pages.iter().copied().zip(numbers).collect())
}

/// Distinct numbers in rising order, at least as many as there are pages: those
/// of the pages, the least there are, or any, with or without the two ends.
fn some_numbers(random: &mut Random, pages: &BTreeSet<u32>) -> Vec<u32> {
    let mut numbers = match random.between(0, 3) {
        0 => pages.clone(),
        1 => (0..pages.len() as u32).collect(),
        2 => BTreeSet::from([0, u32::MAX]),
        _ => BTreeSet::new(),
    };
    while numbers.len() < pages.len() {
        numbers.insert(random.any());
    }
    numbers.into_iter().collect()
}

// --------------------------------------------------------- traces and series

/// The same trace over the new pages, in this order.
pub fn rename_trace(trace: &Trace, order: Order, renaming: &Renaming) -> Vec<u8> {
    let records = trace.records.iter();
    let records: Vec<(u32, u32)> = records
        .map(|&(page, kind)| (renaming.of(page), kind as u32))
        .collect();
    traces::encode(&trace.settings, order, &records)
}

/// A trace with its pages renamed at random, in either order, and the renaming;
/// nothing of a refused one.
pub fn some_renamed_trace(random: &mut Random, bytes: &[u8]) -> Option<(Vec<u8>, Renaming)> {
    let (items, renaming) = some_renamed_items(random, &[bytes])?;
    Some((items.concat(), renaming))
}

/// A series with the pages of all its accepted traces renamed as one; all else in
/// it stays as it is.
pub fn some_renamed_series(random: &mut Random, bytes: &[u8]) -> Option<(Vec<u8>, Renaming)> {
    let (items, rest) = traces::items(bytes);
    let (items, renaming) = some_renamed_items(random, &items)?;
    Some(([&traces::joined(&items)[..], rest].concat(), renaming))
}

fn some_renamed_items(random: &mut Random, items: &[&[u8]]) -> Option<(Vec<Vec<u8>>, Renaming)> {
    let checked: Vec<_> = items.iter().map(|item| check(item)).collect();
    if checked.iter().all(Result::is_err) {
        return None;
    }
    let accepted = checked.iter().flatten();
    let pages = accepted.flat_map(|trace| trace.records.iter().map(|(page, _)| *page));
    let renaming = some_renaming(random, &pages.collect());
    let renamed = items
        .iter()
        .zip(&checked)
        .map(|(item, checked)| match checked {
            Ok(trace) => rename_trace(trace, traces::some_order(random), &renaming),
            Err(_) => item.to_vec(),
        });
    Some((renamed.collect(), renaming))
}

// ----------------------------------------------------------------- the calls

/// The pages of an image's entries, where it says a pool.
fn pages_of_image(bytes: &[u8]) -> Option<Vec<u32>> {
    let held = image::held(bytes).ok()?;
    Some(held.frames.iter().map(|frame| frame.page).collect())
}

/// The same bytes of an image over the new pages.
fn rename_image(bytes: &[u8], order: Order, renaming: &Renaming) -> Vec<u8> {
    let mut bytes = bytes.to_vec();
    for (entry, page) in pages_of_image(&bytes).into_iter().flatten().enumerate() {
        put(&mut bytes, order, length_of(entry), 4, renaming.of(page));
    }
    bytes
}

/// A call with the pages of its image, of its trace and of its step renamed as one, and
/// the renaming; nothing where the image says no pool. A refused trace stays as it is.
pub fn some_renamed_call(random: &mut Random, call: &Call) -> Option<(Call, Renaming)> {
    let mut pages: BTreeSet<u32> = pages_of_image(&call.image)?.into_iter().collect();
    let trace = check(&call.trace);
    pages.insert(call.page);
    pages.extend(
        trace
            .iter()
            .flat_map(|trace| trace.records.iter())
            .map(|record| record.0),
    );
    let renaming = some_renaming(random, &pages);
    let order = image::order_of_mark(&call.image)?;
    let renamed = Call {
        image: rename_image(&call.image, order, &renaming),
        trace: match &trace {
            Ok(trace) => rename_trace(trace, traces::some_order(random), &renaming),
            Err(_) => call.trace.clone(),
        },
        page: renaming.of(call.page),
        ..call.clone()
    };
    Some((renamed, renaming))
}

/// What is answered to a call, with the pages renamed and all else kept.
pub fn rename_answer(
    call: &Call,
    answer: &Answer,
    renaming: &Renaming,
    changed: &mut Changed,
) -> Answer {
    let mut counted = Counted { renaming, changed };
    let mut renamed = answer.clone();
    let stored = stored_rows(call, answer);
    for (row, places) in stored.iter().zip(rows_of(&mut renamed)) {
        if let [2 | 3, _, left, _] = *row {
            places[2] = counted.renamed(left, |changed| &mut changed.left);
        }
    }
    // The places behind the pages written keep what they held.
    let written: u32 = stored.iter().map(|row| row[3]).sum();
    for page in renamed.list.iter_mut().flatten().take(written as usize) {
        *page = counted.renamed(*page, |changed| &mut changed.written);
    }
    for frame in renamed.pool.iter_mut().flat_map(|pool| &mut pool.frames) {
        frame.page = counted.renamed(frame.page, |changed| &mut changed.resident);
    }
    if let Some(bytes) = renamed.bytes.as_mut().filter(|_| answer.refusal == 0) {
        rename_bytes(bytes, call, &mut counted);
    }
    changed.listings += 1;
    renamed
}

/// The rows that a call that was not refused stored or gave.
fn stored_rows(call: &Call, answer: &Answer) -> Vec<[u32; 4]> {
    let records = match check(&call.trace) {
        Ok(trace) if answer.refusal == 0 => trace.records.len(),
        _ => 0,
    };
    let rows = answer.rows.iter().flat_map(|rows| rows.chunks_exact(4));
    let rows = rows
        .take(records)
        .map(|row| [row[0], row[1], row[2], row[3]]);
    rows.chain(answer.row).collect()
}

/// The places of the rows of an answer.
fn rows_of(answer: &mut Answer) -> impl Iterator<Item = &mut [u32]> {
    let row = answer.row.iter_mut().map(|row| row.as_mut_slice());
    let rows = answer.rows.iter_mut();
    rows.flat_map(|rows| rows.chunks_exact_mut(4)).chain(row)
}

/// Renames the pages in the bytes of an image that was written.
fn rename_bytes(bytes: &mut [u32], call: &Call, counted: &mut Counted) {
    let pages = pages_of_image(&call.image).unwrap_or_default();
    for (entry, page) in pages.into_iter().enumerate() {
        let page = counted.renamed(page, |changed| &mut changed.resident);
        let mut place = [0; 4];
        put(&mut place, call.order, 0, 4, page);
        let at = length_of(entry);
        bytes[at..at + 4].copy_from_slice(&place.map(u32::from));
    }
}

/// A renaming, and what it has changed.
struct Counted<'a> {
    renaming: &'a Renaming,
    changed: &'a mut Changed,
}

impl Counted<'_> {
    /// The new number of a page, counted where it is another one.
    fn renamed(&mut self, page: u32, place: fn(&mut Changed) -> &mut u64) -> u32 {
        let number = self.renaming.of(page);
        if number != page {
            *place(self.changed) += 1;
            self.changed.were_zero += u64::from(page == 0);
            self.changed.became_zero += u64::from(number == 0);
        }
        number
    }
}

// -------------------------------------------------------------- the listings

/// How many listings were renamed, and how many of their pages got another number:
/// those that left, those written, and those resident at the end. Of all these,
/// how many were 0, and how many became 0.
#[derive(Clone, Copy, Default, PartialEq, Eq, Debug)]
pub struct Changed {
    pub listings: u64,
    pub left: u64,
    pub written: u64,
    pub resident: u64,
    pub were_zero: u64,
    pub became_zero: u64,
}

impl Changed {
    /// Each of them by its name.
    pub fn named(&self) -> [(&'static str, u64); 6] {
        [
            ("listings", self.listings),
            ("pages that left", self.left),
            ("written", self.written),
            ("resident", self.resident),
            ("that were 0", self.were_zero),
            ("that became 0", self.became_zero),
        ]
    }
}

/// What is printed of a trace or of a series, with the pages renamed and all else
/// kept. A line that does not belong there is an error, so that no page is passed
/// over.
pub fn rename_listing(
    listing: &str,
    renaming: &Renaming,
    changed: &mut Changed,
) -> Result<String, String> {
    let mut renamer = Renamer {
        counted: Counted { renaming, changed },
        lines: listing.lines().peekable(),
        text: String::new(),
    };
    if renamer.items().is_some() {
        renamer.counted.changed.listings += 1;
        return Ok(renamer.text);
    }
    let done = renamer.text.lines().count();
    let line = listing.lines().nth(done).unwrap_or("(nothing)");
    Err(format!(
        "unexpected line {} of a listing: {line:?}",
        done + 1
    ))
}

/// Takes lines and puts them into the text, one for one. Each step is nothing where
/// a line is not of the form due there.
struct Renamer<'a> {
    counted: Counted<'a>,
    lines: Peekable<Lines<'a>>,
    text: String,
}

impl Renamer<'_> {
    fn items(&mut self) -> Option<()> {
        while let Some(&line) = self.lines.peek() {
            if line == "anew" {
                self.lines.next();
                self.put(line);
            } else if line.starts_with("trace") {
                let [_] = self.keep("trace refused")?;
            } else {
                self.replayed()?;
            }
        }
        Some(())
    }

    fn replayed(&mut self) -> Option<()> {
        let [rows] = self.keep("rows")?;
        for _ in 0..rows {
            self.row()?;
        }
        let [written] = self.keep("written")?;
        for _ in 0..written {
            self.written_page()?;
        }
        let [_k, _hand, _sampler] = self.keep("pool")?;
        let [frames] = self.keep("frames")?;
        for _ in 0..frames {
            self.frame()?;
        }
        let counts = [
            "hits",
            "misses",
            "evictions",
            "batches",
            "written",
            "refused",
        ];
        for count in counts {
            let [_] = self.keep(count)?;
        }
        Some(())
    }

    /// A page left in the outcomes 2 and 3 alone; the 0 of others is no page.
    fn row(&mut self) -> Option<()> {
        let line = self.lines.next()?;
        match numbers(line)? {
            [outcome @ (2 | 3), frame, left, batch] => {
                let left = self.counted.renamed(left, |changed| &mut changed.left);
                self.put(&format!("{outcome} {frame} {left} {batch}"));
            }
            [0 | 1 | 4 | 109..=112, _, 0, 0] => self.put(line),
            _ => return None,
        }
        Some(())
    }

    fn written_page(&mut self) -> Option<()> {
        let [page] = numbers(self.lines.next()?)?;
        let page = self.counted.renamed(page, |changed| &mut changed.written);
        self.put(&page.to_string());
        Some(())
    }

    /// The page, four numbers, and the two logs, each behind a colon.
    fn frame(&mut self) -> Option<()> {
        let (page, rest) = self.lines.next()?.split_once(' ')?;
        let [page] = numbers(page)?;
        let parts: Vec<&str> = rest.split(" :").collect();
        let [state, access, write] = parts[..] else {
            return None;
        };
        let [_dirty, _pins, _count, _last] = numbers(state)?;
        any_numbers(access)?;
        any_numbers(write)?;
        let page = self.counted.renamed(page, |changed| &mut changed.resident);
        self.put(&format!("{page} {rest}"));
        Some(())
    }

    /// Keeps a line of this name and, behind a space, so many numbers; gives the
    /// numbers.
    fn keep<const N: usize>(&mut self, name: &str) -> Option<[u32; N]> {
        let line = self.lines.next()?;
        let numbers = numbers(line.strip_prefix(name)?.strip_prefix(' ')?)?;
        self.put(line);
        Some(numbers)
    }

    fn put(&mut self, line: &str) {
        self.text.push_str(line);
        self.text.push('\n');
    }
}

/// The numbers of a line, exactly so many.
pub fn numbers<const N: usize>(line: &str) -> Option<[u32; N]> {
    any_numbers(line)?.try_into().ok()
}

fn any_numbers(line: &str) -> Option<Vec<u32>> {
    let words = line.split_whitespace();
    words.map(|word| word.parse().ok()).collect()
}
