use crate::boundary;
use crate::{InvalidData, StreamInfo};

/// How one channel is predicted and coded.
#[derive(Clone, Debug, Eq, PartialEq)]
pub struct ChannelSettings {
    /// 0 to 7; the stream's pb times this, over 4 and rounded down, is at most 127.
    pub pb_factor: u8,
    /// 1 to 15.
    pub quant: u8,
    /// 0 to 30.
    pub order: u8,
    /// What prediction starts from, the newest sample's first. Those past `order` are not used.
    pub coefs: [i16; 30],
}

/// The usual values to start from; which settings pack best is for the caller to find out.
impl Default for ChannelSettings {
    fn default() -> ChannelSettings {
        let mut coefs = [0; 30];
        coefs[..3].copy_from_slice(&[1216, -928, -64]);
        ChannelSettings { pb_factor: 4, quant: 9, order: 8, coefs }
    }
}

/// How a passage is packed. Any settings in range give back the same passage.
#[derive(Clone, Debug, Default, Eq, PartialEq)]
pub struct PackingSettings {
    /// 0 to 7; 0 for one channel.
    pub mix_bits: u8,
    /// At most 2 to the power of `mix_bits`, and at most 127; 0, which does not mix, for one channel.
    pub mix_res: u8,
    /// The first channel.
    pub first: ChannelSettings,
    /// The second channel; with one channel it is not looked at.
    pub second: ChannelSettings,
}

impl PackingSettings {
    fn used(&self, config: &StreamInfo) -> impl Iterator<Item = &ChannelSettings> {
        [&self.first, &self.second].into_iter().take(usize::from(config.channels()))
    }

    /// As the library takes them: both mix values, then 33 places for each channel.
    fn flat(&self, config: &StreamInfo) -> Vec<i16> {
        let mut flat = vec![i16::from(self.mix_bits), i16::from(self.mix_res)];
        for channel in self.used(config) {
            flat.extend([channel.pb_factor, channel.quant, channel.order].map(i16::from));
            flat.extend(channel.coefs);
        }
        flat
    }
}

/// An ALAC packet encoder, for 16-bit streams of one or two channels whose kb is 8 or more.
pub struct Encoder {
    config: StreamInfo,
    settings: PackingSettings,
    cookie: Vec<u8>,
    scratch: Box<[i32]>,
}

impl Encoder {
    /// Creates an `Encoder` for a stream described by the `StreamInfo`.
    pub fn new(config: StreamInfo, settings: PackingSettings) -> Encoder {
        Encoder { cookie: config.cookie(), scratch: config.scratch(), config, settings }
    }

    /// Returns the `StreamInfo` used to create this encoder.
    pub fn stream_info(&self) -> &StreamInfo {
        &self.config
    }

    /// Returns the settings that the next packet is packed with.
    pub fn settings(&self) -> &PackingSettings {
        &self.settings
    }

    /// Packs with other settings from now on: each packet carries its own.
    pub fn set_settings(&mut self, settings: PackingSettings) {
        self.settings = settings;
    }

    /// The most bytes that a packet of `samples` samples, all channels together, can have.
    ///
    /// It is the sum of `byte_limit` in crates/enc, of which it is proved that no packet has more. More
    /// than a frame counts as a frame, as it is never packed.
    pub fn max_packet_bytes(&self, samples: usize) -> usize {
        let channels = usize::from(self.config.channels().max(1));
        let n = samples.div_ceil(channels).min(self.config.supported_frame());
        let channel_bits = |c: &ChannelSettings| 16 + 16 * usize::from(c.order) + 51 * n;
        let bits = 74 + self.settings.used(&self.config).map(channel_bits).sum::<usize>();
        bits.div_ceil(8)
    }

    /// Encodes a passage of interleaved samples, at most a frame of each channel, into `bytes`, and
    /// returns the packet. [`Decoder::decode_packet`](crate::Decoder::decode_packet) gives back
    /// exactly the passage.
    ///
    /// With `max_packet_bytes` of bytes the passage is packed in one go, and 21 is never the error.
    /// With fewer it is measured first, so the work is done twice.
    ///
    /// Error 2 or 19 if the stream or the settings are outside what can be packed, 20 if the passage
    /// is longer than a frame or not a multiple of the channels, and 21 if the packet is longer than
    /// `bytes`. An error leaves `bytes` as it was; otherwise only the packet's own bytes change.
    pub fn encode_packet<'a>(&mut self, passage: &[i16], bytes: &'a mut [u8]) -> Result<&'a [u8], InvalidData> {
        let settings = self.settings.flat(&self.config);
        let count = boundary::encode_packet_i16(&self.cookie, &settings, passage, bytes, &mut self.scratch)?;
        Ok(&bytes[..count])
    }
}
