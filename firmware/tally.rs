//! How often things came up, by number of heads, and what must have come up.

use crate::calls::share_of;
use crate::model::{LEAST, MOST, STALLS};
use std::collections::BTreeMap;
use std::ops::RangeInclusive;
use std::process::exit;

/// How many items a long list has at least.
pub const LONG: usize = 200;

pub const LONG_LISTS: &str = "lists: long";

/// How often things came up, by kind and number of heads.
#[derive(Default)]
pub struct Tally(BTreeMap<&'static str, [u64; STALLS]>);

impl Tally {
    pub fn add(&mut self, kind: &'static str, n: usize, times: usize) {
        self.0.entry(kind).or_default()[n] += times as u64;
    }

    /// Counts a list of so many items.
    pub fn add_list(&mut self, n: usize, items: usize) {
        self.add("lists", n, 1);
        self.add("lists: items", n, items);
        self.add(LONG_LISTS, n, (items >= LONG) as usize);
    }

    pub fn of(&self, kind: &str, n: usize) -> u64 {
        self.0.get(kind).map_or(0, |by_size| by_size[n])
    }

    pub fn print(&self) {
        print!("  {:<46}{:>9}", "how often, by number of heads", "all");
        (LEAST..=MOST).for_each(|n| print!("{n:>8}"));
        println!();
        for (kind, by_size) in &self.0 {
            print!("  {kind:<46}{:>9}", by_size.iter().sum::<u64>());
            by_size[LEAST..].iter().for_each(|count| print!("{count:>8}"));
            println!();
        }
    }

    /// Ends the run if this never came up with one of these numbers of heads. In a run of few calls it
    /// must come up with some of them.
    pub fn require(&self, kind: &str, sizes: RangeInclusive<usize>) {
        let lacking: Vec<usize> = sizes.clone().filter(|&n| self.of(kind, n) == 0).collect();
        let most_lacking = if share_of(20) == 0 { sizes.count() - 1 } else { 0 };
        if lacking.len() > most_lacking {
            println!("{kind}: never came up with {lacking:?} heads");
            exit(1);
        }
    }

    /// Ends the run unless a part is more than half of all.
    pub fn require_most(&self, part: &str, all: &str) {
        let sum = |kind| (LEAST..=MOST).map(|n| self.of(kind, n)).sum::<u64>();
        if 2 * sum(part) <= sum(all) {
            println!("{part}: not more than half");
            exit(1);
        }
    }

    /// Ends the run if this came up with so many heads.
    pub fn require_never(&self, kind: &str, n: usize) {
        if self.of(kind, n) > 0 {
            println!("{kind}: came up with {n} heads");
            exit(1);
        }
    }
}
