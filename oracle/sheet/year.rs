//! A garden's year: seeded rain and where the walk is cut. Whole numbers only, so that it is the same for everyone.

use crate::random::Random;
use std::ops::Range;

pub struct Month {
    pub name: &'static str,
    pub days: usize,
    /// chance of rain in 100, after a dry day and after a wet one
    after_dry: u64,
    after_wet: u64,
}

const fn month(name: &'static str, days: usize, after_dry: u64, after_wet: u64) -> Month {
    Month {
        name,
        days,
        after_dry,
        after_wet,
    }
}

/// A temperate garden in the north: wet winters, drier summers.
pub const MONTHS: [Month; 12] = [
    month("January", 31, 34, 64),
    month("February", 28, 31, 62),
    month("March", 31, 29, 58),
    month("April", 30, 26, 54),
    month("May", 31, 25, 52),
    month("June", 30, 24, 50),
    month("July", 31, 23, 50),
    month("August", 31, 25, 52),
    month("September", 30, 27, 55),
    month("October", 31, 32, 60),
    month("November", 30, 34, 63),
    month("December", 31, 35, 65),
];

pub const SEED: u64 = 365;

/// How many samples a cut takes out.
const CUT: (u64, u64) = (40, 260);

pub struct Day {
    /// tenths of a millimetre; any rain makes a wet day
    pub rain: u64,
    /// what is cut out of the walk on a wet day
    pub cut: Option<Range<usize>>,
    /// samples of the walk by the day's end
    pub left: usize,
}

/// The year's days, for a walk of so many samples in packets of `frame`.
pub fn year(samples: usize, frame: usize) -> Vec<Day> {
    let mut r = Random::new(SEED);
    let mut days: Vec<Day> = Vec::new();
    let (mut left, mut wet) = (samples, false);
    for month in &MONTHS {
        for _ in 0..month.days {
            let chance = if wet {
                month.after_wet
            } else {
                month.after_dry
            };
            wet = r.below(100) < chance;
            let rain = if wet { shower(&mut r) } else { 0 };
            let cut = wet.then(|| place(&mut r, left, frame));
            left -= cut.as_ref().map_or(0, |c| c.len());
            days.push(Day { rain, cut, left });
        }
    }
    days
}

/// Many small showers and few large ones, from 0.2 mm to 40.2 mm: three draws multiplied.
fn shower(r: &mut Random) -> u64 {
    2 + 400 * r.range(1, 100) * r.range(1, 100) * r.range(1, 100) / 1_000_000
}

/// A passage that neither starts nor ends on a packet's edge, so that every later packet is cut anew.
fn place(r: &mut Random, left: usize, frame: usize) -> Range<usize> {
    loop {
        let length = r.range(CUT.0, CUT.1) as usize;
        let start = r.below((left - length) as u64) as usize;
        if start % frame != 0 && (start + length) % frame != 0 {
            return start..start + length;
        }
    }
}
