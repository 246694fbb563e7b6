//! A fixed list of the original's answers, for the program `replay`, which needs no Rust: crates/replay/stdin.
//! The list: its number of cases (2 bytes), then the cases. A case: width (2 or 4), frame length, depth, pb, mb, kb, channels,
//! the packet's length, the number, the count, the checksum of the output places (4 bytes), then the packet. Big-endian.

use crate::cases;
use crate::original::{departed, original, Outcome};
use crate::ours::Width;
use crate::random::Random;
use crate::stream::Stream;
use std::collections::HashSet;
use std::io::Write;

/// What `replay` lends: places enough for 16 samples of 8 channels, each holding 7.
const PLACES: usize = 128;
const BEFORE: i64 = 7;

struct Recorded {
    number: u32,
    count: usize,
    sum: u32,
    /// Whether the original answers so as it stands, without document 01's departures.
    own: bool,
}

/// sum = sum x 31 + place, modulo 2^32, over the places' low 32 bits
fn checksum(places: &[i64]) -> u32 {
    places.iter().fold(0u32, |sum, x| sum.wrapping_mul(31).wrapping_add(*x as u32))
}

/// The samples, or silence where it is refused, as document 01 has it; later places stay.
fn places<S: Width + Into<i64>>(s: &Stream, outcome: &Outcome<S>) -> Vec<i64> {
    let mut all = match outcome {
        Outcome::Accepted(samples) => samples.iter().map(|x| (*x).into()).collect(),
        _ => vec![0; s.places()],
    };
    all.resize(PLACES, BEFORE);
    all
}

/// The answer of the original with the departures; none where it panics.
fn answer<S: Width + Into<i64>>(s: &Stream, packet: &[u8]) -> Option<Recorded> {
    let outcome = departed::<S>(&s.cookie(), packet, s.places());
    let (number, count) = match &outcome {
        Outcome::Accepted(samples) => (0, samples.len()),
        Outcome::Refused(number) => (*number, 0),
        Outcome::Panicked => return None,
    };
    let own = outcome == original::<S>(&s.cookie(), packet, s.places());
    Some(Recorded { number, count, sum: checksum(&places(s, &outcome)), own })
}

/// Every other case is accepted; the others are refused with 4 to 18 in turn.
fn wanted(i: u64) -> u32 {
    if i % 2 == 0 { 0 } else { 4 + (i / 2 % 15) as u32 }
}

/// The channels of the accepted cases, in turn.
fn channels(i: u64) -> u8 {
    [1, 2, 3, 1, 2, 4, 1, 2, 5, 1, 2, 6, 1, 2, 7, 1, 2, 8, 2, 2][(i / 2 % 20) as usize]
}

/// Where an accepted packet may have no sample.
fn empty(i: u64) -> bool {
    i / 2 % 10 == 1
}

/// Short packets, but one in eight may have a higher order or more samples in it.
fn longest(i: u64, channels: u8) -> usize {
    match (wanted(i), i / 2 % 8) {
        (_, 0) => 120,
        (0, _) => 16 + 12 * channels as usize,
        _ => 24,
    }
}

fn case(s: &Stream, wide: bool, packet: &[u8], told: &Recorded) -> Vec<u8> {
    let mut bytes = vec![if wide { 4 } else { 2 }, s.frame_length as u8, s.bit_depth, s.pb, s.mb, s.kb, s.num_channels];
    bytes.extend([packet.len() as u8, told.number as u8, told.count as u8]);
    bytes.extend(told.sum.to_be_bytes());
    bytes.extend(packet);
    bytes
}

/// A case that is wanted in place i, and whether the original answers it so as it stands; none where the draw is another.
fn draw(i: u64, r: &mut Random) -> Option<(Vec<u8>, bool)> {
    let mut s = Stream::random(r);
    s.frame_length = s.frame_length % 16 + 1;
    if wanted(i) == 0 {
        s.num_channels = channels(i);
    }
    let mut packet = cases::built(&s, r);
    if r.one_in(4) {
        packet = cases::damaged(packet, r);
    }
    let wide = s.bit_depth != 16 || r.one_in(2);
    if packet.len() > longest(i, s.num_channels) {
        return None;
    }
    let told = if wide { answer::<i32>(&s, &packet) } else { answer::<i16>(&s, &packet) }?;
    let fits = told.number == wanted(i) && (told.number != 0 || told.count > 0 || empty(i));
    fits.then(|| (case(&s, wide, &packet, &told), told.own))
}

pub fn record(n: u64) -> bool {
    std::panic::set_hook(Box::new(|_| {}));
    let mut r = Random::new(2024);
    let mut seen = HashSet::new();
    let mut list = u16::try_from(n).expect("at most 65535 answers").to_be_bytes().to_vec();
    let mut own = 0;
    while (seen.len() as u64) < n {
        let Some((case, as_it_stands)) = draw(seen.len() as u64, &mut r) else { continue };
        if seen.insert(case.clone()) {
            list.extend(case);
            own += as_it_stands as u64;
        }
    }
    eprintln!("{n} answers, {own} of them the original's as it stands");
    std::io::stdout().write_all(&list).is_ok()
}
