use crate::boundary;
use crate::InvalidData;

/// The longest frame that the library takes.
const MAX_FRAME_LENGTH: u32 = 4096;

/// Codec initialisation parameters for an ALAC stream.
#[derive(Clone, Debug, Eq, PartialEq)]
pub struct StreamInfo {
    frame_length: u32,
    compatible_version: u8,
    bit_depth: u8,
    pb: u8,
    mb: u8,
    kb: u8,
    num_channels: u8,
    max_run: u16,
    max_frame_bytes: u32,
    avg_bit_rate: u32,
    sample_rate: u32,
}

impl StreamInfo {
    /// Creates a `StreamInfo` from a magic cookie. This is often stored in the header of a
    /// container format.
    ///
    /// No field is judged here: a stream that is not supported is refused when a packet is read or
    /// packed.
    pub fn from_cookie(cookie: &[u8]) -> Result<StreamInfo, InvalidData> {
        let fields = boundary::stream_info(cookie)?;
        Ok(StreamInfo {
            frame_length: fields[0] as u32,
            compatible_version: fields[1] as u8,
            bit_depth: fields[2] as u8,
            pb: fields[3] as u8,
            mb: fields[4] as u8,
            kb: fields[5] as u8,
            num_channels: fields[6] as u8,
            max_run: fields[7] as u16,
            max_frame_bytes: fields[8] as u32,
            avg_bit_rate: fields[9] as u32,
            sample_rate: fields[10] as u32,
        })
    }

    /// Frames in a second.
    pub fn sample_rate(&self) -> u32 {
        self.sample_rate
    }

    /// Bits in a sample.
    pub fn bit_depth(&self) -> u8 {
        self.bit_depth
    }

    /// Channels of the stream.
    pub fn channels(&self) -> u8 {
        self.num_channels
    }

    /// The most samples that a packet has for each channel.
    pub fn max_frames_per_packet(&self) -> u32 {
        self.frame_length
    }

    /// The most samples that a packet has, all channels together. The product wraps at 32 bits, but
    /// not for any stream that is supported.
    pub fn max_samples_per_packet(&self) -> u32 {
        self.frame_length.wrapping_mul(u32::from(self.num_channels))
    }

    /// The fields as a cookie again. Its `alac` atom keeps field values from being taken for an atom.
    pub(crate) fn cookie(&self) -> Vec<u8> {
        let bytes = [self.compatible_version, self.bit_depth, self.pb, self.mb, self.kb, self.num_channels];
        [
            &b"\0\0\0\x24alac\0\0\0\0"[..],
            &self.frame_length.to_be_bytes(),
            &bytes,
            &self.max_run.to_be_bytes(),
            &self.max_frame_bytes.to_be_bytes(),
            &self.avg_bit_rate.to_be_bytes(),
            &self.sample_rate.to_be_bytes(),
        ]
        .concat()
    }

    /// A longer frame is refused before any scratch is looked at, so none is made for it.
    pub(crate) fn supported_frame(&self) -> usize {
        self.frame_length.min(MAX_FRAME_LENGTH) as usize
    }

    /// What the library asks to be lent: two frames.
    pub(crate) fn scratch(&self) -> Box<[i32]> {
        vec![0; 2 * self.supported_frame()].into_boxed_slice()
    }
}

#[cfg(test)]
mod tests {
    use super::StreamInfo;

    #[test]
    fn a_stream_comes_back_from_its_cookie() {
        for atom in [b"frma", b"alac", b"\x05\x06\x07\x08"] {
            let mut cookie: Vec<u8> = (1..=36).collect();
            cookie[4..8].copy_from_slice(b"alac");
            cookie[16..20].copy_from_slice(atom);
            let info = StreamInfo::from_cookie(&cookie).expect("24 bytes after the atom");
            assert_eq!(info.compatible_version, atom[0]);
            assert_eq!(StreamInfo::from_cookie(&info.cookie()), Ok(info));
        }
    }
}
