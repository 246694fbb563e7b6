//! Nanoseconds a sample for whole packets: reading, ours, the original and FFmpeg; packing, ours.

use crate::ffmpeg::Reader;
use crate::ours::{encode, Width};
use crate::passages::speech;
use crate::random::Random;
use crate::stack::stack;
use crate::stream::Stream;
use crate::writer::{packet, Channel, Settings};
use std::time::Instant;

const FRAME: usize = 4096;
const WARM: usize = 10;
const ROUNDS: usize = 150;

/// The best of several rounds of each, in turn, so that a busy moment is no one's alone.
fn best<const N: usize>(samples: usize, mut tasks: [&mut dyn FnMut(); N]) -> [f64; N] {
    let mut best = [f64::INFINITY; N];
    for round in 0..WARM + ROUNDS {
        for (task, least) in tasks.iter_mut().zip(&mut best) {
            let start = Instant::now();
            task();
            let each = start.elapsed().as_nanos() as f64 / samples as f64;
            if round >= WARM {
                *least = least.min(each);
            }
        }
    }
    best
}

/// The settings that a packer would begin with, at this order.
fn settings(channels: usize, order: u16) -> Settings {
    let mut coefs = [0; 30];
    coefs[..3].copy_from_slice(&[1216, -928, -64]);
    let channel = Channel { pb_factor: 4, quant: 9, order, coefs };
    let (mix_bits, mix_res) = if channels == 2 { (2, 1) } else { (0, 0) };
    Settings { mix_bits, mix_res, channels: vec![channel; channels] }
}

fn line(sound: &str, passage: &[i16], channels: usize, order: u16) {
    let s = Stream { frame_length: FRAME as u32, bit_depth: 16, pb: 40, mb: 10, kb: 14, num_channels: channels as u8 };
    let (cookie, settings) = (s.cookie(), settings(channels, order));
    let (packed, flat) = (packet(&s, &settings, passage), settings.flat());
    let [mut out, mut out2, mut out3] = [(); 3].map(|_| vec![0i16; s.places()]);
    let [mut scratch, mut scratch2, mut scratch3] = [(); 3].map(|_| vec![0; 2 * FRAME]);
    let [mut answer, mut answer2, mut answer3] = [[0; 4]; 3];
    let mut wide = vec![0; settings.limit(FRAME).div_ceil(8)];
    let mut fit = vec![0; packed.len()];
    let mut decoder = alac::Decoder::new(alac::StreamInfo::from_cookie(&cookie).expect("a cookie"));
    let mut ffmpeg = Reader::open(&s);
    let [ours, original, third, packs, fits] = best(s.places(), [
        &mut || assert!(i16::decode(&cookie, &packed, &mut out, &mut scratch, &mut answer) == 0),
        &mut || assert!(decoder.decode_packet(&packed, &mut out2).is_ok()),
        &mut || ffmpeg.iter_mut().for_each(|f| assert!(f.read(&packed, &mut out3) == Some(FRAME))),
        &mut || assert!(encode(&cookie, &flat, passage, &mut wide, &mut scratch2, &mut answer2) == 0),
        &mut || assert!(encode(&cookie, &flat, passage, &mut fit, &mut scratch3, &mut answer3) == 0),
    ]);
    assert!(out == passage && out2 == passage && (ffmpeg.is_none() || out3 == passage) && fit == packed && wide[..packed.len()] == packed);
    let kind = if channels == 1 { "mono" } else { "stereo" };
    let ratio = ours / original;
    let third = ffmpeg.map_or("-".to_string(), |_| format!("{third:.2}"));
    println!("{sound:<7} {kind:<7} {order:>5} {ours:>9.2} {original:>9.2} {ratio:>7.2} {third:>9} {packs:>9.2} {fits:>9.2}");
}

pub fn bench() -> bool {
    println!("nanoseconds a sample, packets of {FRAME} samples a channel, best of {ROUNDS} rounds; ratio: ours over the original");
    println!("ours: the cookie is read and scratch cleared in every call, and both are counted");
    println!("packs: ours, with bytes that cover the limit; fits: with bytes that the packet just fills");
    println!("FFmpeg: with its packet made and its planes interleaved; a dash where libavcodec is not here");
    println!("sound   kind    order      ours  original   ratio    FFmpeg     packs      fits");
    for sound in ["speech", "noise"] {
        for channels in [1, 2] {
            let mut r = Random::new(4);
            let passage = if sound == "speech" { speech(FRAME, channels, &mut r) } else { (0..FRAME * channels).map(|_| r.next() as i16).collect() };
            for order in [4, 8, 16, 30] {
                line(sound, &passage, channels, order);
            }
        }
    }
    stack();
    true
}
