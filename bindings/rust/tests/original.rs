//! What the original's documentation says, under its own names. The next line is the one that a dock changes.
use mosilapu as alac;

mod common;

use alac::{Decoder, InvalidData, Sample, StreamInfo};
use common::bits::*;
use common::{Stream, MONO, PAIR};

fn atom(name: &[u8; 4]) -> Vec<u8> {
    [&[0, 0, 0, 12], &name[..], &[0; 4]].concat()
}

fn number<T>(answer: Result<T, InvalidData>) -> u32 {
    answer.err().map_or(0, |refused| refused.number())
}

#[test]
fn a_cookie_has_24_bytes() {
    let cookie = MONO.cookie();
    assert_eq!(number(StreamInfo::from_cookie(&cookie[..23])), 1);
    assert_eq!(number(StreamInfo::from_cookie(&[])), 1);
    assert_eq!(number(StreamInfo::from_cookie(&cookie)), 0);
    let longer = [&cookie[..], &[9; 24]].concat();
    assert_eq!(StreamInfo::from_cookie(&longer).unwrap(), MONO.info());
}

#[test]
fn atoms_before_the_fields_are_skipped() {
    let (frma, alac, cookie) = (atom(b"frma"), atom(b"alac"), MONO.cookie());
    for atoms in [frma.clone(), alac.clone(), [frma.clone(), alac.clone()].concat()] {
        let whole = [&atoms[..], &cookie].concat();
        assert_eq!(StreamInfo::from_cookie(&whole).unwrap(), MONO.info());
        assert_eq!(number(StreamInfo::from_cookie(&whole[..whole.len() - 1])), 1);
    }
    let turned = [&alac[..], &frma, &cookie].concat();
    assert_ne!(StreamInfo::from_cookie(&turned).unwrap(), MONO.info());
}

#[test]
fn getters_give_the_fields() {
    let info = Stream { frame_length: 4096, bit_depth: 24, channels: 6, ..MONO }.info();
    assert_eq!(info.sample_rate(), 44_100);
    assert_eq!(info.bit_depth(), 24);
    assert_eq!(info.channels(), 6);
    assert_eq!(info.max_frames_per_packet(), 4096);
    assert_eq!(info.max_samples_per_packet(), 24_576);
    let wraps = Stream { frame_length: u32::MAX, channels: 2, ..MONO }.info();
    assert_eq!(wraps.max_samples_per_packet(), u32::MAX - 1);
}

/// All eleven fields are there, each in its own place.
#[test]
fn a_stream_can_be_copied_compared_and_shown() {
    let info = StreamInfo::from_cookie(&(1..=24).collect::<Vec<u8>>()).unwrap();
    let shown = "StreamInfo { frame_length: 16909060, compatible_version: 5, bit_depth: 6, pb: 7, mb: 8, kb: 9, \
                 num_channels: 10, max_run: 2828, max_frame_bytes: 219025168, avg_bit_rate: 286397204, \
                 sample_rate: 353769240 }";
    assert_eq!(format!("{:?}", info.clone()), shown);
    for place in 0..24 {
        let mut other: Vec<u8> = (1..=24).collect();
        other[place] = 0;
        assert_ne!(StreamInfo::from_cookie(&other).unwrap(), info);
    }
}

#[test]
fn a_decoder_keeps_its_stream() {
    assert_eq!(Decoder::new(PAIR.info()).stream_info(), &PAIR.info());
}

#[test]
fn channels_are_interleaved_and_later_places_stay() {
    let packet = Bits::default().element(CPE, RAW).samples(&[1, -1, 2, -2], 16).end();
    let mut decoder = Decoder::new(PAIR.info());
    let mut out = [9i16; 6];
    assert_eq!(decoder.decode_packet(&packet, &mut out).unwrap(), [1, -1, 2, -2]);
    assert_eq!(out, [1, -1, 2, -2, 9, 9]);
    let mut out = [9i32; 6];
    assert_eq!(decoder.decode_packet(&packet, &mut out).unwrap(), [1 << 16, -1 << 16, 2 << 16, -2 << 16]);
    assert_eq!(out[4..], [9, 9]);
}

#[test]
fn two_single_channels_are_a_pair_too() {
    let left = Bits::default().element(SCE, RAW).samples(&[1, 2], 16);
    let packet = left.element(SCE, RAW).samples(&[-1, -2], 16).end();
    let mut out = [0i16; 4];
    assert_eq!(Decoder::new(PAIR.info()).decode_packet(&packet, &mut out).unwrap(), [1, -1, 2, -2]);
}

/// Document 01's readings: a stored pair of samples, and two compressed ones.
#[test]
fn readings_come_out_as_printed() {
    let readings: [(&[u8], [i16; 2]); 3] = [
        (&[0, 0, 2, 0, 3, 0xFF, 0xFF, 0xC0], [1, -1]),
        (&[0, 0, 0, 0, 0, 0x13, 0x01, 0x97], [1, 1]),
        (&[0, 0, 0, 0, 0, 0x13, 0x01, 0x8B, 0x80], [1, 2]),
    ];
    let mut decoder = Decoder::new(MONO.info());
    for (packet, samples) in readings {
        let mut out = [0i16; 2];
        assert_eq!(decoder.decode_packet(packet, &mut out).unwrap(), samples);
    }
}

#[test]
fn a_packet_may_be_shorter_than_a_frame() {
    let packet = Bits::default().element(SCE, PARTIAL_RAW).put(1, 32).samples(&[77], 16).end();
    let mut out = [9i16; 2];
    assert_eq!(Decoder::new(MONO.info()).decode_packet(&packet, &mut out).unwrap(), [77]);
    assert_eq!(out, [77, 9]);
}

#[test]
fn a_data_element_is_skipped_and_so_is_what_follows_the_end() {
    let data = Bits::default().put(DSE, 3).put(0, 4).put(0, 1).put(2, 8).put(0xABCD, 16);
    let packet = data.element(SCE, RAW).samples(&[4, 5], 16).end();
    let behind = [&packet[..], &[1, 2, 3]].concat();
    let mut out = [0i16; 2];
    assert_eq!(Decoder::new(MONO.info()).decode_packet(&behind, &mut out).unwrap(), [4, 5]);
}

#[test]
fn a_packet_cut_anywhere_is_an_error() {
    let packet = Bits::default().element(CPE, RAW).samples(&[1, -1, 2, -2], 16).end();
    let mut decoder = Decoder::new(PAIR.info());
    for cut in 0..packet.len() {
        assert_eq!(number(decoder.decode_packet(&packet[..cut], &mut [0i16; 4])), 4);
    }
    assert_eq!(number(decoder.decode_packet(&packet, &mut [0i16; 4])), 0);
}

#[test]
fn where_the_original_panics_is_an_error() {
    let packet = Bits::default().element(SCE, RAW).samples(&[1, 2], 16).end();
    let mut decoder = Decoder::new(MONO.info());
    assert_eq!(number(decoder.decode_packet(&packet, &mut [0i16; 1])), 3);
    assert_eq!(number(decoder.decode_packet(&packet, &mut [0i32; 0])), 3);
    let mut wide = Decoder::new(Stream { bit_depth: 24, ..MONO }.info());
    assert_eq!(number(wide.decode_packet(&packet, &mut [0i16; 2])), 2);
    let order_31 = Bits::default().element(SCE, WHOLE).mix(0, 0).channel(0, 9, 4, 31).end();
    assert_eq!(number(decoder.decode_packet(&order_31, &mut [0i16; 2])), 11);
}

#[test]
fn samples_of_24_bits_fill_an_i32_from_above() {
    let packet = Bits::default().element(SCE, RAW).samples(&[-1, 0x40_0000], 24).end();
    let mut out = [0i32; 2];
    let mut decoder = Decoder::new(Stream { bit_depth: 24, ..MONO }.info());
    assert_eq!(decoder.decode_packet(&packet, &mut out).unwrap(), [-256, 0x4000_0000]);
}

#[test]
fn samples_are_made_as_the_decoder_makes_them() {
    assert_eq!((i16::bits(), i32::bits()), (16, 32));
    assert_eq!(i16::from_decoder(-3, 16), -3);
    assert_eq!(i16::from_decoder(0x1_8001, 16), -0x7FFF);
    assert_eq!(i32::from_decoder(-3, 16), -3 << 16);
    assert_eq!(i32::from_decoder(5, 32), 5);
}

/// No memory is taken for what a hostile cookie claims, and fields that spell an atom are fields.
#[test]
fn a_hostile_cookie_is_refused_when_a_packet_comes() {
    let endless = Stream { frame_length: u32::MAX, channels: 255, ..MONO };
    assert_eq!(number(Decoder::new(endless.info()).decode_packet(&[], &mut [0i16; 4])), 2);
    for name in [b"frma", b"alac"] {
        let mut cookie = [atom(b"alac"), MONO.cookie()].concat();
        cookie[16..20].copy_from_slice(name);
        let info = StreamInfo::from_cookie(&cookie).unwrap();
        assert_eq!(info.bit_depth(), name[1]);
        assert_eq!(number(Decoder::new(info).decode_packet(&[], &mut [0i32; 4])), 2);
    }
}

#[test]
fn an_error_is_an_error_of_std() {
    let refused: Box<dyn std::error::Error + Send + Sync> = StreamInfo::from_cookie(&[]).unwrap_err().into();
    assert_eq!(refused.to_string(), "magic cookie is not the correct length");
    assert!(format!("{refused:?}").contains("number: 1"));
}
