//! Every number of document 01's table, each by a real call.

mod common;

use common::bits::*;
use common::{Stream, MONO, PAIR};
use mosilapu::{ChannelSettings, Decoder, Encoder, InvalidData, PackingSettings, Sample, StreamInfo};

type Refused = InvalidData;
type Row = (u32, &'static str, &'static [fn() -> Refused]);

/// Number, message, and calls that are refused with them.
const TABLE: &[Row] = &[
    (
        1,
        "magic cookie is not the correct length",
        &[|| cookie(&MONO.cookie()[..23]), || cookie(&[&[0; 4], &b"frma"[..], &[0; 16]].concat())],
    ),
    (
        2,
        "stream is not supported",
        &[
            || both(Stream { frame_length: 4097, ..MONO }, vec![]),
            || both(Stream { kb: 0, ..MONO }, vec![]),
            || read(Stream { bit_depth: 24, ..MONO }, &[], 2, 0x55i16),
            || pack(Stream { channels: 0, ..MONO }, settings(), &[], 99),
        ],
    ),
    (3, "output or scratch is too short", &[|| read(MONO, &[], 1, 0x55i16), || read(PAIR, &[], 3, 0x55i32)]),
    (4, "packet is not long enough", &[|| both(MONO, vec![]), || both(MONO, start().element(SCE, WHOLE).bytes())]),
    (5, "packet contains more channels than expected", &[|| both(MONO, start().put(CPE, 3).bytes())]),
    (6, "unused channel header bits must be zero", &[|| both(MONO, start().element(SCE, [1, 0, 0, 0]).end())]),
    (7, "channel sample shift must not be greater than 16", &[|| both(MONO, start().element(SCE, [0, 0, 3, 0]).end())]),
    (
        8,
        "channel contains more samples than expected",
        &[|| both(MONO, start().element(SCE, PARTIAL).put(3, 32).end())],
    ),
    (
        9,
        "channel bit depth cannot be greater than 32",
        &[|| read(Stream { bit_depth: 32, ..PAIR }, &start().element(CPE, WHOLE).end(), 4, 0x55i32)],
    ),
    (10, "channel bit depth cannot be zero", &[|| both(MONO, start().element(SCE, [0, 0, 2, 0]).end())]),
    (
        11,
        "channel parameters are out of range",
        &[
            || both(MONO, start().element(SCE, WHOLE).mix(0, 0).channel(0, 0, 4, 0).end()),
            || both(MONO, start().element(SCE, WHOLE).mix(0, 0).channel(0, 9, 4, 31).end()),
            || both(Stream { pb: 255, ..MONO }, start().element(SCE, WHOLE).mix(0, 0).channel(0, 9, 3, 0).end()),
            || both(PAIR, start().element(CPE, WHOLE).mix(32, 1).channel(0, 9, 4, 0).channel(0, 9, 4, 0).end()),
        ],
    ),
    (
        12,
        "invalid lpc mode",
        &[|| both(MONO, start().element(SCE, PARTIAL).put(0, 32).mix(0, 0).channel(1, 9, 4, 0).end())],
    ),
    (13, "zero block contains too many samples for channel", &[|| both(MONO, vec![0, 0, 0, 0, 0, 0x13, 0x01, 0x9F])]),
    (
        14,
        "packet cce and pce elements are unsupported",
        &[|| both(MONO, start().put(CCE, 3).bytes()), || both(MONO, start().put(PCE, 3).bytes())],
    ),
    (
        15,
        "all channels in a packet must contain the same number of samples",
        &[|| {
            let none = start().element(SCE, PARTIAL_RAW).put(0, 32);
            both(PAIR, none.element(SCE, PARTIAL_RAW).put(1, 32).samples(&[7], 16).end())
        }],
    ),
    (
        16,
        "sample shift cannot be greater than zero for uncompressed channels",
        &[|| both(MONO, start().element(SCE, [0, 0, 1, 1]).samples(&[1, 2], 16).end())],
    ),
    (
        17,
        "packet contains fewer channels than expected",
        &[|| both(MONO, start().end()), || both(PAIR, start().element(SCE, RAW).samples(&[1, 2], 16).end())],
    ),
    (
        18,
        "packet fill elements with short count 15 are unsupported",
        &[|| both(MONO, start().put(FIL, 3).put(15, 4).bytes())],
    ),
    (
        19,
        "packing settings are out of range",
        &[
            || {
                let first = ChannelSettings { quant: 0, ..channel() };
                pack(MONO, PackingSettings { first, ..settings() }, &[1], 99)
            },
            || {
                let second = ChannelSettings { order: 31, ..channel() };
                pack(PAIR, PackingSettings { second, ..settings() }, &[], 99)
            },
            || pack(MONO, PackingSettings { mix_bits: 1, ..settings() }, &[1], 99),
            || pack(PAIR, PackingSettings { mix_res: 2, ..settings() }, &[1, 1], 99),
            || pack(Stream { channels: 3, ..MONO }, settings(), &[], 99),
            || pack(Stream { kb: 7, ..MONO }, settings(), &[], 99),
        ],
    ),
    (
        20,
        "passage is longer than a frame or not a multiple of the channels",
        &[|| pack(MONO, settings(), &[1, 2, 3], 99), || pack(PAIR, settings(), &[1, 2, 3], 99)],
    ),
    (21, "packet is longer than the bytes lent for it", &[|| pack(MONO, settings(), &[1, 2], 20)]),
];

fn start() -> Bits {
    Bits::default()
}

fn channel() -> ChannelSettings {
    ChannelSettings::default()
}

fn settings() -> PackingSettings {
    PackingSettings::default()
}

fn cookie(bytes: &[u8]) -> Refused {
    StreamInfo::from_cookie(bytes).expect_err("a cookie that is refused")
}

/// Read into either width, with one place more than a frame takes.
fn both(stream: Stream, packet: Vec<u8>) -> Refused {
    let narrow = read(stream, &packet, stream.places() + 1, 0x55i16);
    assert_eq!(narrow, read(stream, &packet, stream.places() + 1, 0x55i32));
    narrow
}

/// 2 and 3 leave the output as it was; the packet's own faults make a frame of silence.
fn read<S: Sample + Default + PartialEq>(stream: Stream, packet: &[u8], places: usize, mark: S) -> Refused {
    let mut out = vec![mark; places];
    let refused = Decoder::new(stream.info()).decode_packet(packet, &mut out);
    let refused = refused.err().expect("a packet that is refused");
    let silent = if refused.number() < 4 { 0 } else { stream.places() };
    assert!(out[..silent].iter().all(|x| *x == S::default()), "no silence");
    assert!(out[silent..].iter().all(|x| *x == mark), "a place that changed");
    refused
}

/// A refused writer touches no byte.
fn pack(stream: Stream, settings: PackingSettings, passage: &[i16], room: usize) -> Refused {
    let mut bytes = vec![0x55; room];
    let refused = Encoder::new(stream.info(), settings).encode_packet(passage, &mut bytes);
    let refused = refused.expect_err("a passage that is refused");
    assert!(bytes.iter().all(|x| *x == 0x55), "a byte that changed");
    refused
}

#[test]
fn each_call_is_refused_with_its_number_and_message() {
    for (number, message, calls) in TABLE {
        for call in *calls {
            let refused = call();
            assert_eq!((refused.number(), refused.message()), (*number, *message));
            assert_eq!(refused.to_string(), *message);
        }
    }
}

#[test]
fn the_table_has_every_number() {
    assert!(TABLE.iter().all(|(_, _, calls)| !calls.is_empty()));
    assert!(TABLE.iter().map(|(number, _, _)| *number).eq(1..=21));
}

/// Calls that keep just inside the edge of 8, 18 and 21.
#[test]
fn what_is_just_inside_is_taken() {
    let mut out = [0i16; 4];
    let mut mono = Decoder::new(MONO.info());
    let partial = start().element(SCE, PARTIAL_RAW).put(2, 32);
    assert_eq!(mono.decode_packet(&partial.samples(&[5, -5], 16).end(), &mut out), Ok(&[5, -5][..]));
    let fill = start().put(FIL, 3).put(14, 4).put(0, 64).put(0, 48);
    let filled = fill.element(SCE, RAW).samples(&[3, -3], 16).end();
    assert_eq!(mono.decode_packet(&filled, &mut out), Ok(&[3, -3][..]));
    let mut bytes = [0; 99];
    let mut encoder = Encoder::new(MONO.info(), settings());
    let length = encoder.encode_packet(&[1, 2], &mut bytes).expect("room").len();
    assert!(encoder.encode_packet(&[1, 2], &mut bytes[..length]).is_ok());
    assert_eq!(encoder.encode_packet(&[1, 2], &mut bytes[..length - 1]).unwrap_err().number(), 21);
}
