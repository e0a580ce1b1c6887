//! Holds the answers of a program to calls against our own, batch by batch, and once
//! more with the pages renamed; and sees to it that all that should come up did.

use crate::batches::{self, Trial};
use crate::calls::{self, answer, Answer, Call, What};
use crate::image::{self, Held};
use crate::renaming::{rename_answer, some_renamed_call, Changed};
use crate::replay::Order;
use crate::seen_calls::Seen;
use crate::things::expect_none;
use crate::traces::Random;
use crate::{first_difference, run_on};
use std::error::Error;

// ------------------------------------------------------- our own side first

/// A sound image is what is written of the pool that is read from it, in either order.
fn there_and_back(bytes: &[u8]) -> Result<(), String> {
    let Ok(held) = image::read(bytes) else {
        return Ok(());
    };
    let told = |refusal: u32| format!("not written again: {refusal}");
    for order in [Order::HighFirst, Order::LowFirst] {
        let written = image::write(&held, order, bytes.len()).map_err(told)?;
        if image::read(&written).as_ref() != Ok(&held) {
            return Err("another pool came back".to_string());
        }
        let same = written == bytes;
        if same != (image::order_of_mark(bytes) == Some(order)) {
            return Err("other bytes came back".to_string());
        }
    }
    match held.pool().map(|pool| Held::of(&pool)) == Some(held) {
        true => Ok(()),
        false => Err("the pool to go on from is another".to_string()),
    }
}

/// Of two faults the lower number is given.
fn expect_lower_fault(trial: &Trial, answer: &Answer) -> Result<(), String> {
    let Some(faults) = trial.sort.strip_prefix("fault ") else {
        return Ok(());
    };
    match faults.split(' ').next() == Some(&answer.refusal.to_string()) {
        true => Ok(()),
        false => Err(format!("refused by {}", answer.refusal)),
    }
}

fn expect_within_limits(call: &Call) -> Result<(), String> {
    let most_room = match call.what {
        What::Write => calls::MOST_BYTES,
        _ => calls::MOST_PAGES,
    };
    let within = call.image.len() <= calls::LONGEST
        && call.trace.len() <= calls::LONGEST
        && call.rows <= calls::MOST_ROWS
        && call.room <= most_room
        && call.kind < 65_536;
    within.then_some(()).ok_or("beyond the limits".to_string())
}

fn own_side(trial: &Trial, answer: &Answer) -> Result<(), String> {
    expect_within_limits(&trial.call)?;
    expect_lower_fault(trial, answer)?;
    there_and_back(&trial.call.image)
}

/// A call with its pages renamed, and what must be answered to it: what was answered
/// before, renamed. Our own answer is held against that here.
pub fn renamed_alike(
    random: &mut Random,
    call: &Call,
    before: &Answer,
    changed: &mut Changed,
) -> Result<Option<(Call, Answer)>, String> {
    let Some((renamed, renaming)) = some_renamed_call(random, call) else {
        return Ok(None);
    };
    let expected = rename_answer(call, before, &renaming, changed);
    let ours = answer(&renamed);
    match first_difference(expected.to_string().as_bytes(), ours.to_string().as_bytes()) {
        None => Ok(Some((renamed, expected))),
        Some((line, expected, ours)) => Err(format!(
            "renamed, line {line}: renamed {expected}, answered {ours}"
        )),
    }
}

// ----------------------------------------------------------- the comparison

/// The answers of the program to these calls, against ours. A program that failed is told
/// of with the first answer that it lacks.
fn compare_answers(
    program: &str,
    calls: &[(&str, &Call)],
    answers: &[Answer],
) -> Result<(), Box<dyn Error>> {
    let input: Vec<u8> = calls.iter().flat_map(|(_, call)| call.to_bytes()).collect();
    let ours = calls::printed(answers);
    let output = run_on(program, &[], &input)?;
    if let Some((line, our_line, their_line)) = first_difference(ours.as_bytes(), &output.stdout) {
        let case = case_at(&ours, line, calls);
        let status = output.status;
        return Err(format!("{case}: ours {our_line}, theirs {their_line}, {status}").into());
    }
    match output.status.success() {
        true => Ok(()),
        false => Err(format!("{program}: {}", output.status).into()),
    }
}

/// The case of a line of the answers.
fn case_at(answers: &str, line: usize, calls: &[(&str, &Call)]) -> String {
    let cases = answers.lines().take(line);
    let cases = cases.filter(|line| line.starts_with("case "));
    let number = cases.count().saturating_sub(1);
    let about = calls
        .get(number)
        .map_or("no call".to_string(), |(sort, call)| {
            format!("{sort}, {}", call.what.name())
        });
    format!("case {number} ({about}), line {line}")
}

/// One call in so many is tried once more with its pages renamed.
const RENAMED: usize = 3;

fn compare_batch(program: &str, seed: u64, seen: &mut Seen) -> Result<(), Box<dyn Error>> {
    let batch = batches::batch(seed);
    let mut answers = Vec::new();
    for (number, trial) in batch.iter().enumerate() {
        let ours = answer(&trial.call);
        own_side(trial, &ours)
            .map_err(|fault| format!("case {number} ({}): {fault}", trial.sort))?;
        seen.note_call(trial, &ours);
        answers.push(ours);
    }
    let calls: Vec<(&str, &Call)> = batch
        .iter()
        .map(|trial| (&trial.sort[..], &trial.call))
        .collect();
    compare_answers(program, &calls, &answers)?;
    compare_renamed(program, seed, &calls, &answers, seen)
        .map_err(|error| format!("renamed, {error}").into())
}

/// Some of the calls with their pages renamed, each in a batch of its own.
fn compare_renamed(
    program: &str,
    seed: u64,
    calls: &[(&str, &Call)],
    answers: &[Answer],
    seen: &mut Seen,
) -> Result<(), Box<dyn Error>> {
    // Other numbers than those of which the calls were made.
    let random = &mut Random::new(seed ^ (1 << 60));
    let (mut renamed_calls, mut renamed_answers) = (Vec::new(), Vec::new());
    let first = seed as usize % RENAMED;
    for ((sort, call), ours) in calls.iter().zip(answers).skip(first).step_by(RENAMED) {
        if let Some((call, answer)) = renamed_alike(random, call, ours, &mut seen.changed)? {
            renamed_calls.push((*sort, call));
            renamed_answers.push(answer);
        }
    }
    seen.renamed += renamed_calls.len() as u64;
    let calls: Vec<(&str, &Call)> = renamed_calls
        .iter()
        .map(|(sort, call)| (*sort, call))
        .collect();
    compare_answers(program, &calls, &renamed_answers)
}

pub fn compare(program: &str, first: u64, count: u64) -> Result<(), Box<dyn Error>> {
    let mut seen = Seen::default();
    for seed in first..first + count {
        compare_batch(program, seed, &mut seen).map_err(|error| format!("seed {seed}, {error}"))?;
    }
    println!("{}", seen.line(count));
    expect_none(seen.missing())
}
