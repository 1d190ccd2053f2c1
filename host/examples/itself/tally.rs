//! What was compared, what disagreed, and what was met on the way.

use std::collections::BTreeMap;

#[derive(Default)]
pub struct Tally {
    pub compared: u64,
    pub wrong: u64,
    met: BTreeMap<String, u64>,
}

impl Tally {
    pub fn same(&mut self, same: bool, what: impl FnOnce() -> String) {
        self.compared += 1;
        if !same {
            self.wrong += 1;
            println!("DISAGREES {}", what());
        }
    }

    /// Counts a kind of case and its refusal's number, 0 where it was answered.
    pub fn met(&mut self, what: &str, number: u8) {
        *self.met.entry(format!("{what}, {number}")).or_default() += 1;
    }

    pub fn print_met(&self) {
        println!("met, each with the number of its refusal (0: answered):");
        for (what, count) in &self.met {
            println!("  {what}: {count}");
        }
    }
}
