//! Packed and read back: 10,000 passages with settings from all over the writer's ranges.

mod common;

use common::bits::{Bits, CPE, PARTIAL};
use common::{Stream, MONO, PAIR};
use mosilapu::{ChannelSettings, Decoder, Encoder, PackingSettings};

const ROUNDS: u64 = 10_000;

/// splitmix64: the same numbers for everyone.
struct Random(u64);

impl Random {
    fn next(&mut self) -> u64 {
        self.0 = self.0.wrapping_add(0x9E37_79B9_7F4A_7C15);
        let z = (self.0 ^ self.0 >> 30).wrapping_mul(0xBF58_476D_1CE4_E5B9);
        let z = (z ^ z >> 27).wrapping_mul(0x94D0_49BB_1331_11EB);
        z ^ z >> 31
    }

    /// One of low..=high.
    fn range(&mut self, low: u64, high: u64) -> u64 {
        low + self.next() % (high - low + 1)
    }

    fn byte(&mut self, low: u64, high: u64) -> u8 {
        self.range(low, high) as u8
    }

    fn stream(&mut self) -> Stream {
        let longest = [1, 40, 600, 4096][self.range(0, 3) as usize];
        Stream {
            frame_length: self.range(1, longest) as u32,
            bit_depth: 16,
            pb: self.byte(0, 255),
            mb: self.byte(0, 255),
            kb: self.byte(8, 31),
            channels: self.byte(1, 2),
        }
    }

    /// The factor, pb x pb_factor / 4, is at most 127.
    fn channel(&mut self, pb: u8) -> ChannelSettings {
        let highest = (0..=7).rev().find(|factor| u64::from(pb) * factor / 4 <= 127);
        let mut coefs = ChannelSettings::default().coefs;
        if self.range(0, 1) == 0 {
            coefs = [0; 30].map(|_: i16| self.next() as i16);
        }
        ChannelSettings {
            pb_factor: self.byte(0, highest.unwrap_or(0)),
            quant: self.byte(1, 15),
            order: self.byte(0, 30),
            coefs,
        }
    }

    fn settings(&mut self, stream: &Stream) -> PackingSettings {
        let mix_bits = if stream.channels == 2 { self.byte(0, 7) } else { 0 };
        let mix_res = if stream.channels == 2 { self.byte(0, (1 << mix_bits).min(127)) } else { 0 };
        PackingSettings { mix_bits, mix_res, first: self.channel(stream.pb), second: self.channel(stream.pb) }
    }

    /// No sample, a whole frame, or anything between.
    fn passage(&mut self, stream: &Stream) -> Vec<i16> {
        let frames = match self.range(0, 9) {
            0 => 0,
            1 | 2 => u64::from(stream.frame_length),
            _ => self.range(0, u64::from(stream.frame_length)),
        };
        let (kind, step) = (self.range(0, 5), self.range(1, 900) as i64);
        let length = frames * u64::from(stream.channels);
        (0..length as i64).map(|i| self.sample(kind, step, i)).collect()
    }

    /// Silence, noise, extremes, a murmur, clicks in silence, or a slope that wraps.
    fn sample(&mut self, kind: u64, step: i64, i: i64) -> i16 {
        match kind {
            0 => 0,
            1 => self.next() as i16,
            2 => [i16::MIN, i16::MAX][self.range(0, 1) as usize],
            3 => self.range(0, 6) as i16 - 3,
            4 if self.range(0, 60) > 0 => 0,
            4 => self.next() as i16,
            _ => (i * step) as i16,
        }
    }
}

/// The packet, and that nothing else of the lent bytes changed.
fn packed(encoder: &mut Encoder, passage: &[i16], room: usize) -> Vec<u8> {
    let mut bytes = vec![0x5A; room];
    let packet = encoder.encode_packet(passage, &mut bytes).expect("settings in range, and room").to_vec();
    assert!(bytes[packet.len()..].iter().all(|byte| *byte == 0x5A));
    assert_eq!(bytes[..packet.len()], packet);
    packet
}

/// Room for the limit, for the packet alone, and for a byte less.
fn pack(encoder: &mut Encoder, passage: &[i16]) -> Vec<u8> {
    let limit = encoder.max_packet_bytes(passage.len());
    let packet = packed(encoder, passage, limit);
    assert_eq!(packed(encoder, passage, packet.len()), packet);
    let mut short = vec![0x5A; packet.len() - 1];
    assert_eq!(encoder.encode_packet(passage, &mut short).unwrap_err().number(), 21);
    assert!(short.iter().all(|byte| *byte == 0x5A));
    packet
}

/// Both widths give back the passage, and leave later places as they were.
fn read_back(stream: &Stream, packet: &[u8], passage: &[i16]) {
    let mut decoder = Decoder::new(stream.info());
    let mut narrow = vec![0x5A5Ai16; stream.places()];
    assert_eq!(decoder.decode_packet(packet, &mut narrow).expect("our packet"), passage);
    assert!(narrow[passage.len()..].iter().all(|x| *x == 0x5A5A));
    let mut wide = vec![0x5A5Ai32; stream.places()];
    let upper: Vec<i32> = passage.iter().map(|x| i32::from(*x) << 16).collect();
    assert_eq!(decoder.decode_packet(packet, &mut wide).expect("our packet"), upper);
    assert!(wide[passage.len()..].iter().all(|x| *x == 0x5A5A));
}

#[test]
fn ten_thousand_passages_come_back() {
    for seed in 0..ROUNDS {
        let mut random = Random(seed);
        let stream = random.stream();
        let mut encoder = Encoder::new(stream.info(), random.settings(&stream));
        let passage = random.passage(&stream);
        let packet = pack(&mut encoder, &passage);
        let behind = (0..random.range(0, 4)).map(|_| random.next() as u8);
        let longer: Vec<u8> = packet.iter().copied().chain(behind).collect();
        read_back(&stream, &longer, &passage);
    }
}

/// A decoder and an encoder are not swayed by what they did before.
#[test]
fn packets_of_one_stream_follow_each_other() {
    let stream = Stream { frame_length: 300, ..PAIR };
    let (mut decoder, mut out) = (Decoder::new(stream.info()), vec![0i16; stream.places()]);
    let mut encoder = Encoder::new(stream.info(), PackingSettings::default());
    let mut random = Random(7);
    for _ in 0..100 {
        encoder.set_settings(random.settings(&stream));
        let passage = random.passage(&stream);
        let packet = pack(&mut encoder, &passage);
        let settings = encoder.settings().clone();
        assert_eq!(pack(&mut Encoder::new(stream.info(), settings), &passage), packet);
        assert!(decoder.decode_packet(&packet[..packet.len() - 1], &mut out).is_err());
        assert_eq!(decoder.decode_packet(&packet, &mut out), Ok(&passage[..]));
    }
}

/// Every setting has its own place in the packet; coefficients past the order have none.
#[test]
fn a_packet_carries_the_settings_set_last() {
    let channel = |pb_factor, quant, order| {
        let coefs = [0; 30].map(|_: i16| -i16::from(quant));
        ChannelSettings { pb_factor, quant, order, coefs }
    };
    let settings = PackingSettings { mix_bits: 3, mix_res: 5, first: channel(4, 9, 2), second: channel(1, 7, 1) };
    let mut encoder = Encoder::new(PAIR.info(), PackingSettings::default());
    let usual = pack(&mut encoder, &[]);
    encoder.set_settings(settings.clone());
    assert_eq!(encoder.settings(), &settings);
    let head = Bits::default().element(CPE, PARTIAL).put(0, 32).mix(3, 5);
    let first = head.put(0, 4).put(9, 4).put(4, 3).put(2, 5).samples(&[-9, -9], 16);
    let second = first.put(0, 4).put(7, 4).put(1, 3).put(1, 5).samples(&[-7], 16);
    assert_eq!(pack(&mut encoder, &[]), second.end());
    encoder.set_settings(PackingSettings::default());
    assert_eq!(pack(&mut encoder, &[]), usual);
}

#[test]
fn default_settings_are_the_usual_ones() {
    let settings = PackingSettings::default();
    assert_eq!((settings.mix_bits, settings.mix_res), (0, 0));
    for channel in [settings.first, settings.second] {
        assert_eq!((channel.pb_factor, channel.quant, channel.order), (4, 9, 8));
        assert_eq!(channel.coefs[..4], [1216, -928, -64, 0]);
        assert_eq!(channel.coefs[3..], [0; 27]);
    }
}

/// Document 01's packets of the writer, to the byte.
#[test]
fn readings_are_packed_as_printed() {
    let first = ChannelSettings { order: 0, ..Default::default() };
    let mut encoder = Encoder::new(MONO.info(), PackingSettings { first, ..Default::default() });
    assert_eq!(pack(&mut encoder, &[1, 1]), [0, 0, 0, 0, 0, 0x13, 0x01, 0x97]);
    assert_eq!(pack(&mut encoder, &[1, 2]), [0, 0, 0, 0, 0, 0x13, 0x01, 0x8B, 0x80]);
    assert_eq!(encoder.stream_info(), &MONO.info());
}

/// 74 + c x (16 + 16 x order + 51 x n) bits, each channel with its own order, in bytes.
#[test]
fn the_limit_is_that_of_document_01() {
    let limit = |stream: Stream, orders: [u8; 2], samples| {
        let [first, second] = orders.map(|order| ChannelSettings { order, ..Default::default() });
        let settings = PackingSettings { first, second, ..Default::default() };
        Encoder::new(stream.info(), settings).max_packet_bytes(samples)
    };
    let mono = Stream { frame_length: 4096, ..MONO };
    let pair = Stream { channels: 2, ..mono };
    assert_eq!(limit(mono, [0, 30], 0), 12);
    assert_eq!(limit(mono, [8, 8], 0), 28);
    assert_eq!(limit(mono, [8, 8], 4096), 26_140);
    assert_eq!(limit(pair, [8, 0], 0), 30);
    assert_eq!(limit(pair, [3, 30], 20), 207);
    assert_eq!(limit(pair, [3, 30], 19), 207);
    assert_eq!(limit(pair, [0, 0], usize::MAX), limit(pair, [0, 0], 8192));
    assert_eq!(limit(Stream { frame_length: u32::MAX, channels: 0, ..mono }, [255, 255], usize::MAX), 10);
}
