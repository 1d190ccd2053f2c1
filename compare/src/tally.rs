//! What was covered.
use std::collections::BTreeMap;

#[derive(Default)]
pub struct Tally(BTreeMap<(&'static str, String), u64>);

impl Tally {
    pub fn add(&mut self, group: &'static str, what: impl Into<String>) {
        *self.0.entry((group, what.into())).or_default() += 1;
    }

    pub fn print(&self) {
        let mut last = "";
        for ((group, what), count) in &self.0 {
            if *group != last {
                println!("\n{group}");
                last = group;
            }
            println!("  {what}: {count}");
        }
    }
}
