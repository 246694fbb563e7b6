//! Reads and packs ALAC packets, by a library whose every function is proved.
//!
//! The names and meanings are those of the crate `alac` 0.5.0, so a program that reads with it changes one line:
//! `use alac::..` becomes `use mosilapu::..`. What is different:
//!
//! - Where the original panics, here is an error: `out` too short, samples too wide for `S`, a stream or packet
//!   parameter that has no meaning.
//! - [`InvalidData`] also has a [number](InvalidData::number), that of the table in docs/01-scope.md.
//! - A packet that is refused for its own bits becomes silence in `out`.
//! - [`Encoder`] is added.
//!
//! Not here yet: `StreamInfo::from_sdp_format_parameters`, and what the features `caf` and `mp4` bring (`Reader`,
//! `Packets`, `Samples`, `Format`, `ReadError`). docs/DIFFERENCES.md has every difference.
//!
//! ```
//! use mosilapu::{Decoder, Encoder, InvalidData, PackingSettings, StreamInfo};
//!
//! # fn main() -> Result<(), InvalidData> {
//! // Frames of 4096 samples, 16 bits, pb 40, mb 10, kb 14, two channels, 44,100 a second.
//! let cookie = [
//!     0, 0, 16, 0, 0, 16, 40, 10, 14, 2, 0, 255, 0, 0, 0, 0, 0, 0, 0, 0, 0, 0, 172, 68,
//! ];
//! let info = StreamInfo::from_cookie(&cookie)?;
//! let passage = [100, -100, 200, -200, 300, -300];
//!
//! let mut encoder = Encoder::new(info.clone(), PackingSettings::default());
//! let mut bytes = vec![0; encoder.max_packet_bytes(passage.len())];
//! let packet = encoder.encode_packet(&passage, &mut bytes)?;
//!
//! let mut decoder = Decoder::new(info);
//! let mut out = vec![0i16; decoder.stream_info().max_samples_per_packet() as usize];
//! assert_eq!(decoder.decode_packet(packet, &mut out)?, passage);
//!
//! let refused = decoder.decode_packet(&packet[..5], &mut out).unwrap_err();
//! assert_eq!(refused.number(), 4);
//! assert_eq!(refused.to_string(), "packet is not long enough");
//! # Ok(())
//! # }
//! ```

#![deny(unsafe_code)]
#![warn(missing_docs)]

#[allow(unsafe_code)]
mod boundary;
mod dec;
mod enc;
mod invalid;
mod stream;

pub use dec::{Decoder, Sample};
pub use enc::{ChannelSettings, Encoder, PackingSettings};
pub use invalid::InvalidData;
pub use stream::StreamInfo;
