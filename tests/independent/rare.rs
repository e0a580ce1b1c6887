//! What is rare in a replay, and must come up among those that are compared.

use crate::replay::{row, Frame, Kind, Outcome, Pool, Rule, Step};

/// Whether the next draws, as many as there are for one victim, name pinned frames
/// alone.
fn every_drawn_pinned(pool: &Pool) -> bool {
    let mut drawing = pool.clone();
    (0..pool.settings.sample).all(|_| pool.frames[drawing.draw()].pins > 0)
}

pub const RARE: [&str; 12] = [
    "every drawn frame pinned",
    "both logs full",
    "a clock count of 7",
    "a pin count of 255",
    "a batch of 16",
    "equal values in a batch",
    "a sweep past every frame",
    "an access out of a full log",
    "a write out of a full log",
    "a write with nothing new to log",
    "a first write in epoch 0",
    "a count kept at the cap",
];

/// What is rare in one step, each with whether it occurred.
pub fn rare(before: &Pool, after: &Pool, kind: Kind, step: &Step) -> [(&'static str, bool); 12] {
    let settings = before.settings;
    let watt = settings.rule == Rule::Watt;
    let (at, batch) = match step {
        Ok((at, Outcome::Dirty { written, .. })) => (Some(*at), &written[..]),
        Ok((at, _)) => (Some(*at), &[][..]),
        Err(_) => (None, &[][..]),
    };
    let [old, new] = [before, after].map(|pool| at.map_or(Frame::default(), |at| pool.frames[at]));
    let outcome = row(step)[0];
    let (hit, evicted) = (outcome == 0, [2, 3].contains(&outcome));
    let now = before.k / settings.epoch;
    let value = |page: u32| {
        let mut frames = before.frames.iter();
        let frame = frames.find(|frame| frame.page == page)?;
        Some(frame.value(settings.weight, now))
    };
    let others = batch.get(1..).unwrap_or_default();
    let mut counts = before.frames.iter().zip(&after.frames);
    let same_logs = old.access == new.access && old.write == new.write;
    let occurred = [
        watt && evicted && every_drawn_pinned(before),
        new.access.len == 8 && new.write.len == 4,
        new.count == 7,
        new.pins == 255,
        batch.len() == 16,
        watt && others.windows(2).any(|two| value(two[0]) == value(two[1])),
        counts.any(|(old, new)| old.page == new.page && old.count > new.count + 1),
        hit && old.access.len == 8 && old.access != new.access,
        hit && old.write.len == 4 && old.write != new.write,
        hit && kind == Kind::Write && same_logs,
        hit && kind == Kind::Write && old.write.len == 0 && now == 0,
        hit && old.count == settings.cap && new.count == settings.cap,
    ];
    std::array::from_fn(|i| (RARE[i], occurred[i]))
}
