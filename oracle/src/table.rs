//! What the cases came to.

use crate::compare::Agreed;
use crate::pack::Packed;
use std::collections::BTreeMap;

#[derive(Default)]
pub struct Table {
    cases: u64,
    numbers: BTreeMap<u32, u64>,
    differences: BTreeMap<&'static str, u64>,
    ffmpeg: u64,
    pub cookies: u64,
    pub disagreements: u64,
}

impl Table {
    pub fn add(&mut self, agreed: &Agreed) {
        self.cases += 1;
        *self.numbers.entry(agreed.number).or_default() += 1;
        if let Some(name) = agreed.difference {
            *self.differences.entry(name).or_default() += 1;
        }
    }

    pub fn add_packed(&mut self, packed: &Packed) {
        self.cases += 1;
        *self.numbers.entry(packed.number).or_default() += 1;
        self.ffmpeg += packed.ffmpeg as u64;
    }

    pub fn disagree(&mut self, what: &str) {
        self.cases += 1;
        self.disagreements += 1;
        println!("DISAGREE: {what}");
    }

    /// How often a number was reached.
    pub fn reached(&self, number: u32) -> u64 {
        self.numbers.get(&number).copied().unwrap_or(0)
    }

    /// `cases` and `accepted` name what was counted.
    pub fn print(&self, cases: &str, accepted: &str) {
        if self.cookies > 0 {
            println!("cookies               {:>9}", self.cookies);
        }
        println!("{cases:<21} {:>9}", self.cases);
        println!("{accepted:<21} {:>9}", self.reached(0));
        if self.ffmpeg > 0 {
            println!("read by FFmpeg too    {:>9}", self.ffmpeg);
        }
        for (number, count) in self.numbers.iter().filter(|(n, _)| **n != 0) {
            println!("refused with {number:<2}       {count:>9}");
        }
        for (name, count) in &self.differences {
            println!("differs: {name:<12} {count:>9}");
        }
        println!("disagreements         {:>9}", self.disagreements);
    }
}
