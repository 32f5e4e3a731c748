//! Counts cases and differences.
use std::collections::BTreeMap;

/// One group of cases: how many gave each number, and how many differed.
pub struct Tally {
    name: &'static str,
    numbers: BTreeMap<u32, u64>,
    differences: u64,
}

impl Tally {
    /// Runs a group and prints its counts; how many cases and differences.
    pub fn group(name: &'static str, run: impl FnOnce(&mut Self)) -> (u64, u64) {
        let mut tally = Self { name, numbers: BTreeMap::new(), differences: 0 };
        run(&mut tally);
        let cases = tally.numbers.values().sum();
        let numbers: Vec<_> = tally.numbers.iter().map(|(number, count)| format!("{number}: {count}")).collect();
        println!("{name:<28} {cases:>8} cases, {} differences   ({})", tally.differences, numbers.join(", "));
        (cases, tally.differences)
    }

    /// One case, with the number that the library gave; the first few that differ are told.
    pub fn case(&mut self, number: u32, same: bool, tell: impl FnOnce() -> String) {
        *self.numbers.entry(number).or_default() += 1;
        if !same {
            self.differences += 1;
            if self.differences <= 5 {
                eprintln!("DIFFERENCE in {}: {}", self.name, tell());
            }
        }
    }
}
