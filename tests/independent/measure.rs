//! Times the proved replay to counts beside the independent one, on the same
//! traces, under each rule at what a user meets: small and large pools, few and
//! many records, reads and writes. Either checks the trace and starts from a
//! fresh pool. Then the proved curve beside the proved replays by LRU that give the
//! same numbers.

#[allow(dead_code)]
mod replay;
#[allow(dead_code)]
mod traces;

use replay::{check, Order, Pool, Rule, Tally, HEADER, RECORD};
use std::hint::black_box;
use std::time::{Duration, Instant};
use traces::{for_timing, put, Load, Random};

const RUNS: u32 = 100;
const ORDER: Order = Order::LowFirst;
const RULES: [(&str, Rule); 3] = [
    ("lru", Rule::Lru),
    ("clock", Rule::Clock),
    ("watt", Rule::Watt),
];

type Counts = [u32; 6];

extern "C" {
    fn hitchyawl_counts(bytes: *const u8, length: usize, out: *mut u8, room: usize) -> u32;
    fn hitchyawl_curve(bytes: *const u8, length: usize, out: *mut u8, room: usize) -> u32;
}

fn proved(bytes: &[u8]) -> Counts {
    let mut out = [0; 24];
    // SAFETY: two buffers that do not overlap, with their lengths.
    let refusal =
        unsafe { hitchyawl_counts(bytes.as_ptr(), bytes.len(), out.as_mut_ptr(), out.len()) };
    assert_eq!(refusal, 0);
    std::array::from_fn(|i| ORDER.number(&out[4 * i..4 * i + 4]))
}

fn independent(bytes: &[u8]) -> Counts {
    let trace = check(bytes).expect("a good trace");
    let mut pool = Pool::fresh(trace.settings);
    let mut tally = Tally::default();
    for &(page, kind) in &trace.records {
        tally.raise(&pool.step(page, kind));
    }
    let Tally {
        hits,
        misses,
        evictions,
        batches,
        written,
        refused,
    } = tally;
    [hits, misses, evictions, batches, written, refused]
}

/// How long so many calls on the same trace take.
fn timed(replay: fn(&[u8]) -> Counts, bytes: &[u8], calls: u32) -> Duration {
    let start = Instant::now();
    for _ in 0..calls {
        black_box(replay(black_box(bytes)));
    }
    start.elapsed()
}

/// Nanoseconds a record, or a call where there is none: of the proved replay,
/// then of the independent one.
fn measured(load: &Load) -> [f64; 2] {
    let bytes = for_timing(load, ORDER);
    assert_eq!(proved(&bytes), independent(&bytes), "{load:?}");
    // Short traces are called often enough that the clock's own time is nothing.
    let calls = 2_000 / load.records.clamp(20, 2_000);
    // By turns, so that a slow moment of the machine meets both.
    let mut least = [Duration::MAX; 2];
    for _ in 0..RUNS {
        for (least, replay) in least.iter_mut().zip([proved, independent]) {
            *least = timed(replay, &bytes, calls).min(*least);
        }
    }
    least.map(|time| time.as_nanos() as f64 / f64::from(calls * load.records.max(1)))
}

/// A row of the table; the ratios under each rule.
fn row(load: Load) -> [f64; 3] {
    let Load {
        frames,
        records,
        writes,
        batch,
        near,
        ..
    } = load;
    let pages = if near { "near" } else { "skewed" };
    print!("{frames:>6} {records:>7} {writes:>6} {batch:>5} {pages:<6}");
    let ratios = RULES.map(|(_, rule)| {
        let [proved, independent] = measured(&Load { rule, ..load });
        let ratio = proved / independent;
        print!("  {proved:>7.1} {independent:>7.1} {ratio:>5.2}");
        ratio
    });
    println!();
    ratios
}

/// Small and large pools, each with reads only, with writes in batches of three
/// sizes, and with nearly all hits; then few records.
fn loads() -> Vec<Load> {
    let mut loads = Vec::new();
    for frames in [1, 8, 16, 32, 128] {
        let usual = Load {
            frames,
            ..Load::USUAL
        };
        loads.push(Load { writes: 0, ..usual });
        loads.extend([1, 8, 16].map(|batch| Load { batch, ..usual }));
        loads.push(Load {
            near: true,
            ..usual
        });
    }
    for frames in [16, 128] {
        loads.extend([0, 100, 1_000].map(|records| Load {
            frames,
            records,
            ..Load::USUAL
        }));
    }
    loads
}

// ---------------------------------------------------------------- the curve

const SIZES: usize = 128;
const CURVE_RUNS: u32 = 12;

fn curve(bytes: &[u8]) -> [u32; SIZES] {
    let mut out = [0; 4 * SIZES];
    // SAFETY: two buffers that do not overlap, with their lengths.
    let refusal =
        unsafe { hitchyawl_curve(bytes.as_ptr(), bytes.len(), out.as_mut_ptr(), out.len()) };
    assert_eq!(refusal, 0);
    std::array::from_fn(|i| ORDER.number(&out[4 * i..4 * i + 4]))
}

/// Whose pages follow each other in a trace for timing a curve.
#[derive(Clone, Copy)]
enum Pages {
    /// Any of so many.
    Evenly(u32),
    /// Around and around so many.
    Around(u32),
    /// The low ones of 450 far more often.
    Skewed,
}

impl Pages {
    fn name(self) -> String {
        match self {
            Pages::Evenly(count) => format!("{count} evenly"),
            Pages::Around(count) => format!("{count} around"),
            Pages::Skewed => "450 skewed".to_string(),
        }
    }

    /// The trace of so many records, half of them writes.
    fn trace(self, records: u32) -> Vec<u8> {
        let random = &mut Random::new(2);
        let load = Load {
            records,
            ..Load::USUAL
        };
        let mut bytes = for_timing(&load, ORDER);
        for record in 0..records {
            let page = match self {
                Pages::Evenly(count) => random.between(0, count - 1),
                Pages::Around(count) => record % count,
                Pages::Skewed => break,
            };
            let at = HEADER + RECORD * record as usize;
            put(&mut bytes, ORDER, at, 4, page);
        }
        bytes
    }
}

/// The same trace by LRU with each number of frames.
fn at_each_size(bytes: &[u8]) -> Vec<Vec<u8>> {
    let with = |frames: usize| {
        let mut bytes = bytes.to_vec();
        put(&mut bytes, ORDER, 24, 2, 0);
        put(&mut bytes, ORDER, 26, 2, frames as u32);
        bytes
    };
    (1..=SIZES).map(with).collect()
}

fn misses(bytes: &[u8]) -> u32 {
    let [_hits, misses, ..] = proved(bytes);
    misses
}

/// How long something takes, the mean of so many times.
fn mean_time(times: u32, mut work: impl FnMut()) -> Duration {
    let start = Instant::now();
    for _ in 0..times {
        work();
    }
    start.elapsed() / times
}

/// Microseconds of the curve, of the replays with 1 to 128 frames, and of the one with
/// 128. They agree on every number.
fn measured_curve(bytes: &[u8]) -> [f64; 3] {
    let sizes = at_each_size(bytes);
    let largest = &sizes[SIZES - 1];
    let replayed: Vec<u32> = sizes.iter().map(|bytes| misses(bytes)).collect();
    assert_eq!(curve(bytes)[..], replayed);
    // By turns, so that a slow moment of the machine meets all.
    let mut least = [Duration::MAX; 3];
    for _ in 0..CURVE_RUNS {
        let times = [
            mean_time(10, || {
                black_box(curve(black_box(bytes)));
            }),
            mean_time(1, || {
                for bytes in &sizes {
                    black_box(misses(black_box(bytes)));
                }
            }),
            mean_time(10, || {
                black_box(misses(black_box(largest)));
            }),
        ];
        least = std::array::from_fn(|i| least[i].min(times[i]));
    }
    least.map(|time| time.as_nanos() as f64 / 1_000.0)
}

fn measure_curves() {
    println!(
        "microseconds, least of {CURVE_RUNS} runs: the proved curve, the proved replays to counts by LRU"
    );
    println!("with 1 to 128 frames, the one with 128, and the ratios of the curve to either; half of the");
    println!("records are writes, over so many pages");
    println!("records pages          curve   replays     one  to replays  to one");
    let mut greatest = [0.0_f64; 2];
    for records in [8_000, 500] {
        for pages in [
            Pages::Evenly(16),
            Pages::Evenly(100),
            Pages::Evenly(128),
            Pages::Evenly(1_000),
            Pages::Around(129),
            Pages::Skewed,
        ] {
            let [curve, replays, one] = measured_curve(&pages.trace(records));
            let ratios = [curve / replays, curve / one];
            print!("{records:>7} {:<11} {curve:>8.1} ", pages.name());
            println!(
                "{replays:>9.1} {one:>7.1} {:>11.4} {:>7.2}",
                ratios[0], ratios[1]
            );
            greatest = std::array::from_fn(|i| greatest[i].max(ratios[i]));
        }
    }
    let [to_replays, to_one] = greatest;
    println!("greatest ratio to the replays: {to_replays:.4}, to the one: {to_one:.2}");
}

fn main() {
    measure_replays();
    println!();
    measure_curves();
}

fn measure_replays() {
    println!(
        "nanoseconds a record (a call, where there is none), least of {RUNS} runs: the proved"
    );
    println!("replay, the independent one, the ratio; of a hundred records so many are writes");
    print!("{:34}", "");
    for (name, _) in RULES {
        print!("  {name:<21}");
    }
    println!();
    print!("frames records writes batch pages ");
    println!("{}", "   proved   indep ratio".repeat(RULES.len()));
    let mut greatest = [0.0_f64; 3];
    for load in loads() {
        let ratios = row(load);
        greatest = std::array::from_fn(|i| greatest[i].max(ratios[i]));
    }
    for ((name, _), ratio) in RULES.iter().zip(greatest) {
        println!("greatest ratio under {name}: {ratio:.2}");
    }
}
