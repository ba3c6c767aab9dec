//! How often each thing was met, and how many different ones of a sort.

use std::collections::{BTreeMap, HashMap, HashSet};

#[derive(Default)]
pub struct Tally {
    times: HashMap<String, u64>,
    different: HashMap<&'static str, HashSet<u64>>,
}

impl Tally {
    pub fn one(&mut self, what: &str) {
        self.add(what, 1);
    }

    pub fn add(&mut self, what: &str, times: u64) {
        match self.times.get_mut(what) {
            Some(sum) => *sum += times,
            None => {
                self.times.insert(what.to_string(), times);
            }
        }
    }

    /// Counts a thing only if no thing with this key was met before.
    pub fn different(&mut self, what: &'static str, key: u64) {
        self.different.entry(what).or_default().insert(key);
    }

    pub fn merge(&mut self, other: Tally) {
        for (what, times) in other.times {
            self.add(&what, times);
        }
        for (what, keys) in other.different {
            self.different.entry(what).or_default().extend(keys);
        }
    }

    /// Forgets all things but these.
    pub fn keep(&mut self, wanted: impl Fn(&str) -> bool) {
        self.times.retain(|what, _| wanted(what));
        self.different.retain(|what, _| wanted(what));
    }

    pub fn count(&self, what: &str) -> u64 {
        let different = self.different.get(what).map(|keys| keys.len() as u64);
        different.or(self.times.get(what).copied()).unwrap_or(0)
    }

    /// Each thing with its count.
    pub fn counts(&self) -> BTreeMap<&str, u64> {
        let times = self.times.iter().map(|(what, &times)| (&what[..], times));
        let different = self.different.iter();
        times
            .chain(different.map(|(&what, keys)| (what, keys.len() as u64)))
            .collect()
    }
}

/// 1234567 as 1,234,567.
pub fn grouped(number: u64) -> String {
    let digits = number.to_string();
    let mut grouped = String::new();
    for (i, digit) in digits.chars().enumerate() {
        if i > 0 && (digits.len() - i).is_multiple_of(3) {
            grouped.push(',');
        }
        grouped.push(digit);
    }
    grouped
}
