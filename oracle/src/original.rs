//! alac 0.5.0 as it stands (`alac`), and with document 01's departures (`departed`, made by departures.patch).

use crate::ours::Width;
use std::panic::{catch_unwind, AssertUnwindSafe};

/// What a reader came to: samples, a refusal's number, or a panic.
#[derive(Clone, Debug, PartialEq)]
pub enum Outcome<S> {
    Accepted(Vec<S>),
    Refused(u32),
    Panicked,
}

/// The number in document 01 of the original's message.
fn number(message: &str) -> u32 {
    match message {
        "magic cookie is not the correct length" => 1,
        "packet is not long enough" => 4,
        "packet contains more channels than expected" => 5,
        "unused channel header bits must be zero" => 6,
        "channel sample shift must not be greater than 16" => 7,
        "channel contains more samples than expected" => 8,
        "channel bit depth cannot be greater than 32" => 9,
        "departure 10" => 10,
        "departure 11" => 11,
        "invalid lpc mode" => 12,
        "zero block contains too many samples for channel" => 13,
        "packet cce and pce elements are unsupported" => 14,
        "all channels in a packet must contain the same number of samples" => 15,
        "sample shift cannot be greater than zero for uncompressed channels" => 16,
        "packet contains fewer channels than expected" => 17,
        "departure 18" => 18,
        other => panic!("a message that nobody knows: {other}"),
    }
}

macro_rules! reader {
    ($name:ident, $krate:ident) => {
        pub fn $name<S: Width>(cookie: &[u8], packet: &[u8], places: usize) -> Outcome<S> {
            let run = catch_unwind(AssertUnwindSafe(|| {
                let info = match $krate::StreamInfo::from_cookie(cookie) {
                    Ok(info) => info,
                    Err(e) => return Outcome::Refused(number(&e.to_string())),
                };
                let mut out = vec![S::default(); places];
                let answer = match $krate::Decoder::new(info).decode_packet(packet, &mut out) {
                    Ok(samples) => Outcome::Accepted(samples.to_vec()),
                    Err(e) => Outcome::Refused(number(&e.to_string())),
                };
                answer
            }));
            run.unwrap_or(Outcome::Panicked)
        }
    };
}

reader!(original, alac);
reader!(departed, departed);

/// The getters of a cookie, as the original reads it: sample rate, depth, channels, frame length, samples a packet.
pub fn getters(cookie: &[u8]) -> Result<[u64; 5], u32> {
    match alac::StreamInfo::from_cookie(cookie) {
        Ok(i) => Ok([
            i.sample_rate() as u64,
            i.bit_depth() as u64,
            i.channels() as u64,
            i.max_frames_per_packet() as u64,
            i.max_samples_per_packet() as u64,
        ]),
        Err(e) => Err(number(&e.to_string())),
    }
}
