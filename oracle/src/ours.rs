//! Our library's entries by the width of their samples.

use crate::library::{decode_i16, decode_i32};
pub use crate::library::{encode, stream_info};

/// A sample width: what differs between the two entries.
pub trait Width: Copy + PartialEq + std::fmt::Debug + Default + alac::Sample + departed::Sample {
    const WIDE: bool;
    const MARK: Self;
    /// What a 16-bit sample is in this width.
    fn of(sample: i16) -> Self;
    fn decode(cookie: &[u8], packet: &[u8], out: &mut [Self], scratch: &mut [i32], answer: &mut [u64; 4]) -> u32;
}

impl Width for i16 {
    const WIDE: bool = false;
    const MARK: i16 = 0x5A5A;
    fn of(sample: i16) -> i16 {
        sample
    }
    fn decode(cookie: &[u8], packet: &[u8], out: &mut [i16], scratch: &mut [i32], answer: &mut [u64; 4]) -> u32 {
        decode_i16(cookie, packet, out, scratch, answer)
    }
}

impl Width for i32 {
    const WIDE: bool = true;
    const MARK: i32 = 0x5A5A_5A5A;
    fn of(sample: i16) -> i32 {
        (sample as i32) << 16
    }
    fn decode(cookie: &[u8], packet: &[u8], out: &mut [i32], scratch: &mut [i32], answer: &mut [u64; 4]) -> u32 {
        decode_i32(cookie, packet, out, scratch, answer)
    }
}
