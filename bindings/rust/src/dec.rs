use crate::boundary;
use crate::{InvalidData, StreamInfo};

/// A type that can be used to represent audio samples.
pub trait Sample: Copy + private::Sealed {
    /// Constructs `Self` from a right-aligned sample with bit depth `bits`.
    fn from_decoder(sample: i32, bits: u8) -> Self;

    /// The bits of this type.
    fn bits() -> u8;
}

impl Sample for i16 {
    fn from_decoder(sample: i32, _: u8) -> Self {
        sample as i16
    }

    fn bits() -> u8 {
        16
    }
}

impl Sample for i32 {
    fn from_decoder(sample: i32, bits: u8) -> Self {
        sample.wrapping_shl(32u32.wrapping_sub(u32::from(bits)))
    }

    fn bits() -> u8 {
        32
    }
}

mod private {
    use crate::InvalidData;

    /// Keeps other crates from implementing `Sample`, and picks the library's entry for a width.
    pub trait Sealed: Sized {
        fn decode(cookie: &[u8], packet: &[u8], out: &mut [Self], scratch: &mut [i32]) -> Result<usize, InvalidData>;
    }
}

impl private::Sealed for i16 {
    fn decode(cookie: &[u8], packet: &[u8], out: &mut [i16], scratch: &mut [i32]) -> Result<usize, InvalidData> {
        boundary::decode_packet_i16(cookie, packet, out, scratch)
    }
}

impl private::Sealed for i32 {
    fn decode(cookie: &[u8], packet: &[u8], out: &mut [i32], scratch: &mut [i32]) -> Result<usize, InvalidData> {
        boundary::decode_packet_i32(cookie, packet, out, scratch)
    }
}

/// An ALAC packet decoder.
pub struct Decoder {
    config: StreamInfo,
    cookie: Vec<u8>,
    scratch: Box<[i32]>,
}

impl Decoder {
    /// Creates a `Decoder` for a stream described by the `StreamInfo`.
    pub fn new(config: StreamInfo) -> Decoder {
        Decoder { cookie: config.cookie(), scratch: config.scratch(), config }
    }

    /// Returns the `StreamInfo` used to create this decoder.
    pub fn stream_info(&self) -> &StreamInfo {
        &self.config
    }

    /// Decodes an ALAC packet into `out`.
    ///
    /// Channels are interleaved, e.g. for a stereo packet `out` would contains samples in the
    /// order `[left, right, left, right, ..]`. An `i32` has the sample in its upper bits.
    ///
    /// Error 3 if `out` is shorter than `StreamInfo::max_samples_per_packet`, and 2 if the stream is
    /// not supported, or its samples are wider than `S`; both leave `out` as it was. A packet that is
    /// refused for its own bits makes the first `max_samples_per_packet` places of `out` zero.
    pub fn decode_packet<'a, S: Sample>(&mut self, packet: &[u8], out: &'a mut [S]) -> Result<&'a [S], InvalidData> {
        let count = S::decode(&self.cookie, packet, out, &mut self.scratch)?;
        Ok(&out[..count])
    }
}
