//! The curve of a trace: the misses that LRU has with each number of frames. It is
//! found as it is defined, by a replay from a fresh pool at each size, and not by how
//! far two uses of a page are apart: that is how the one it is held against finds it.

use crate::replay::{check, tally_of, Kind, Rule, Trace};

/// The sizes of a pool: 1 frame, 2 frames, and so on.
pub const SIZES: usize = 128;

pub const NO_ROOM: u32 = 13;
pub const HAS_PINS: u32 = 17;

/// Place i has the misses with i + 1 frames.
pub type Curve = [u32; SIZES];

/// The curve of the trace in these bytes for a list of so many places, or the first of
/// the refusals.
pub fn curve(bytes: &[u8], places: usize) -> Result<Curve, u32> {
    of_trace(&check(bytes)?, places)
}

/// Of a trace that is accepted.
pub fn of_trace(trace: &Trace, places: usize) -> Result<Curve, u32> {
    if trace.records.iter().any(|(_, kind)| pins(*kind)) {
        return Err(HAS_PINS);
    }
    if places < SIZES {
        return Err(NO_ROOM);
    }
    Ok(std::array::from_fn(|i| misses(trace, i as u32 + 1)))
}

fn pins(kind: Kind) -> bool {
    match kind {
        Kind::Pin | Kind::Unpin => true,
        Kind::Read | Kind::Write => false,
    }
}

/// Whatever rule and frames the trace names; its other settings are kept.
fn misses(trace: &Trace, frames: u32) -> u32 {
    tally_of(trace.settings.with(Rule::Lru, frames), &trace.records).misses
}

/// Told of every curve, since no number of it is above the one before.
const LAST_LINE: &str = "never rises\n";

/// A line for each size, the frames and the misses, and the last one.
pub fn lines(curve: &Curve) -> String {
    let line = |(frames, misses): (u32, &u32)| format!("{frames} {misses}\n");
    let sizes = (1..).zip(curve).map(line);
    sizes.chain([LAST_LINE.to_string()]).collect()
}

/// The lines of the trace in these bytes, or the one by which it is refused.
pub fn told(bytes: &[u8]) -> String {
    curve(bytes, SIZES).map_or_else(refused, |curve| lines(&curve))
}

pub fn refused(refusal: u32) -> String {
    format!("trace refused {refusal}\n")
}
