//! The traces of which pools of two sizes are held against each other, deterministic
//! from a seed: reads and writes alone, each sort with each size in turn.

use crate::curve_traces::{records_of, Sort};
use crate::traces::{encode, some_order, some_settings, Random};

/// The frames of the smaller pool; the larger one has one more.
pub const SIZES: [u32; 12] = [1, 2, 3, 4, 7, 8, 15, 16, 31, 63, 64, 127];

/// So many of the sizes, a small, a middle and a great one, are tried with one trace.
const AT_ONCE: usize = 3;
const TURN: usize = SIZES.len() / AT_ONCE;

/// A trace, its sort, and the sizes that it is tried with.
pub struct Made {
    pub sort: Sort,
    pub sizes: [u32; AT_ONCE],
    pub bytes: Vec<u8>,
}

/// The sorts for these sizes. A page that comes again when just so many others have as
/// the smaller pool has frames, and a loop of a page more, miss there and hit in the
/// larger pool; the loops are longer than both pools of the other sizes below.
pub fn sorts(sizes: &[u32]) -> Vec<Sort> {
    let mut sorts = vec![
        Sort::OneRecord,
        Sort::OnePage,
        Sort::FewPages,
        Sort::AllDifferent,
        Sort::EndsOfPages,
        Sort::Evenly,
        Sort::Skewed,
        Sort::Mixed,
        Sort::Phases,
    ];
    sorts.extend(sizes.iter().map(|&frames| Sort::Distance(frames)));
    sorts.extend(sizes.iter().map(|&frames| Sort::Sweep(frames + 1)));
    sorts
}

/// The trace of a seed, with any rule and frames in its header.
pub fn made(seed: u64) -> Made {
    // Other numbers than those of which other things are made.
    let random = &mut Random::new(seed ^ (1 << 58));
    let at = seed as usize;
    let sizes = std::array::from_fn(|place| SIZES[at % TURN + place * TURN]);
    let sorts = sorts(&sizes);
    let sort = sorts[at / TURN % sorts.len()];
    let (settings, order) = (some_settings(random), some_order(random));
    let (low, high) = random.one_of(&[(1, 12), (10, 60), (40, 200), (150, 400), (300, 700)]);
    let count = random.between(low, high) as usize;
    let records = records_of(random, sort, count);
    let bytes = encode(&settings, order, &records);
    Made { sort, sizes, bytes }
}
