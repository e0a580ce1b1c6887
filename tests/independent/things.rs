//! How often each thing came up that a comparison must bring up to be worth its name.

use std::collections::BTreeMap;
use std::error::Error;

#[derive(Default)]
pub struct Things(BTreeMap<String, u64>);

impl Things {
    pub fn note(&mut self, thing: impl Into<String>) {
        *self.0.entry(thing.into()).or_default() += 1;
    }

    pub fn note_if(&mut self, occurred: bool, thing: &str) {
        if occurred {
            self.note(thing);
        }
    }

    pub fn times(&self, thing: &str) -> u64 {
        self.0.get(thing).copied().unwrap_or(0)
    }

    /// Those of what is needed that never came up.
    pub fn missing(&self, needed: Vec<String>) -> Vec<String> {
        let never = |thing: &String| self.times(thing) == 0;
        needed.into_iter().filter(never).collect()
    }

    /// Each number with how often the thing of this name and number came up.
    pub fn by_number(&self, what: &str, numbers: &[u32]) -> String {
        let times = numbers
            .iter()
            .map(|number| format!("{number}:{}", self.times(&format!("{what} {number}"))));
        times.collect::<Vec<_>>().join(" ")
    }

    /// Each thing with how often it came up.
    pub fn by_name(&self, things: &[&str]) -> String {
        let times = things
            .iter()
            .map(|thing| format!("{thing} {}", self.times(thing)));
        times.collect::<Vec<_>>().join(", ")
    }
}

/// Fails where something is missing.
pub fn expect_none(missing: Vec<String>) -> Result<(), Box<dyn Error>> {
    match missing.is_empty() {
        true => Ok(()),
        false => Err(format!("never occurred: {}", missing.join(", ")).into()),
    }
}
