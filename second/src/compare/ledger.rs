//! What one comparison saw: cases, the refusals met, the differences.

use std::collections::BTreeMap;

const SHOWN: usize = 5;

#[derive(Debug, Default)]
pub struct Ledger {
    pub cases: u64,
    /// How many cases had each expected number; 0 is accepted.
    pub numbers: BTreeMap<u32, u64>,
    pub different: u64,
    pub first_differences: Vec<String>,
}

impl Ledger {
    /// Counts a case that expects the given number.
    pub fn count(&mut self, number: u32) {
        self.cases += 1;
        *self.numbers.entry(number).or_default() += 1;
    }

    pub fn differs(&mut self, what: impl FnOnce() -> String) {
        self.different += 1;
        if self.first_differences.len() < SHOWN {
            self.first_differences.push(what());
        }
    }

    pub fn summary(&self) -> String {
        let number = |(number, cases): (&u32, &u64)| match number {
            0 => format!("accepted {cases}"),
            _ => format!("refused {number}: {cases}"),
        };
        let numbers: Vec<String> = self.numbers.iter().map(number).collect();
        let (cases, different) = (self.cases, self.different);
        format!(
            "{cases} cases, {different} differences ({})",
            numbers.join(", ")
        )
    }
}
