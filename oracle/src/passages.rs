//! Passages to pack: sounds of every manner, settings over their ranges and just outside, streams at their edges.

use crate::pack::Pack;
use crate::random::Random;
use crate::stream::Stream;
use crate::writer::{write, Channel, Settings};

/// A stream that the writer takes.
fn stream(r: &mut Random) -> Stream {
    let frame_length = match r.below(100) {
        0 => 4096,
        1 => r.range(1, 4096) as u32,
        2..=9 => 1,
        10..=29 => r.range(1, 300) as u32,
        _ => r.range(1, 48) as u32,
    };
    let usual = r.one_in(2);
    let any = [r.next() as u8, r.next() as u8];
    Stream {
        frame_length,
        bit_depth: 16,
        pb: if usual { 40 } else { r.pick(&[any[0], any[0], 0, 73, 127, 128, 170, 171, 254, 255]) },
        mb: if usual { 10 } else { r.pick(&[any[1], any[1], 0, 127, 128, 255]) },
        kb: if usual { 14 } else { r.range(8, 31) as u8 },
        num_channels: r.range(1, 2) as u8,
    }
}

/// One that a reader accepts and the writer does not.
fn outside(mut s: Stream, r: &mut Random) -> Stream {
    match r.below(3) {
        0 => s.bit_depth = r.pick(&[20, 24, 32]),
        1 => s.num_channels = r.range(3, 8) as u8,
        _ => s.kb = r.range(1, 7) as u8,
    }
    s
}

fn channel(s: &Stream, r: &mut Random) -> Channel {
    let most = if s.pb == 0 { 7 } else { (511 / s.pb as u64).min(7) };
    let order = match r.below(4) {
        0 => r.range(0, 30),
        1 => r.pick(&[0, 1, 29, 30]),
        _ => r.range(0, 8),
    };
    let manner = r.below(5);
    let coefs = std::array::from_fn(|j| match manner {
        0 => r.next() as i16,
        1 => r.pick(&[i16::MIN, i16::MIN + 1, -1, 0, 1, i16::MAX - 1, i16::MAX]),
        2 => r.pick(&[0, 0, 0, 1, -1]),
        _ if j < order as usize => [1216, -928, -64, 40, -20, 9][j % 6] + r.below(60) as i16 - 30,
        _ => r.next() as i16,
    });
    let quant = if r.one_in(3) { 9 } else { r.range(1, 15) };
    Channel { pb_factor: if r.one_in(4) { most } else { r.range(0, most) } as u16, quant: quant as u16, order: order as u16, coefs }
}

/// Settings that the writer takes for the stream.
fn settings(s: &Stream, r: &mut Random) -> Settings {
    let (mut mix_bits, mut mix_res) = (0, 0);
    if s.num_channels == 2 {
        mix_bits = r.range(0, 7);
        let most = 127.min(1 << mix_bits);
        mix_res = match r.below(4) {
            0 => 0,
            1 => most,
            _ => r.range(0, most),
        };
    }
    Settings { mix_bits: mix_bits as u16, mix_res: mix_res as u16, channels: (0..s.num_channels).map(|_| channel(s, r)).collect() }
}

/// Settings just outside the ranges in one place, or a slice of another length.
fn spoiled(s: &Stream, mut x: Settings, r: &mut Random) -> Vec<i16> {
    let far = r.pick(&[-1i16, i16::MIN, i16::MAX, -256, 256]) as u16;
    let i = r.below(s.num_channels.max(1) as u64) as usize;
    let Some(c) = x.channels.get_mut(i) else { return x.flat() };
    match r.below(8) {
        0 => c.quant = r.pick(&[0, 16, 17, far]),
        1 => c.order = r.pick(&[31, 32, far]),
        2 => c.pb_factor = r.pick(&[8, 9, far]),
        3 => c.pb_factor = 512u16.div_ceil(s.pb.max(1) as u16).min(8),
        4 => x.mix_bits = r.pick(&[1, 8, 9, 16, far]),
        5 => x.mix_res = r.pick(&[1, 127.min(1 << x.mix_bits) + 1, 128, far]),
        _ => {
            let mut flat = x.flat();
            let length = r.pick(&[0, 1, 2, 34, 35, 36, 67, 68, 69, flat.len() - 1, flat.len() + 1]);
            flat.resize(length, 0);
            return flat;
        }
    }
    x.flat()
}

/// Low-passed noise that swells and falls silent, as speech does.
pub fn speech(n: usize, channels: usize, r: &mut Random) -> Vec<i16> {
    let mut out = Vec::with_capacity(n * channels);
    let (mut slow, mut slower, mut loud) = (0f64, 0f64, 0f64);
    for i in 0..n {
        let talking = (i / 700) % 4 != 3;
        loud += (if talking { 1.0 } else { 0.0 } - loud) * 0.01;
        slow += ((r.next() as i16 as f64) - slow) * 0.2;
        slower += (slow - slower) * 0.15;
        let x = if loud < 0.02 { 0.0 } else { slower * loud };
        for c in 0..channels {
            let aside = if c == 1 { r.below(9) as f64 - 4.0 } else { 0.0 };
            out.push((x + aside * loud) as i16);
        }
    }
    out
}

/// So many samples in the manner of some sound.
fn sound(n: usize, channels: usize, r: &mut Random) -> Vec<i16> {
    let manner = r.below(9);
    if manner == 0 {
        return speech(n, channels, r);
    }
    let width = r.range(1, 16);
    let mut level = 0;
    (0..n * channels)
        .map(|_| match manner {
            1 => 0,
            2 => r.next() as i16,
            3 => (r.below(1 << width) as i64 - (1 << (width - 1))) as i16,
            4 => {
                if r.one_in(9) {
                    level = r.pick(&[0, i16::MIN, i16::MAX]);
                }
                level
            }
            5 => r.pick(&[i16::MIN, i16::MAX, i16::MIN + 1, -1, 0, 1]),
            6 => if r.one_in(12) { r.next() as i16 } else { 0 },
            7 => if r.one_in(40) { r.pick(&[1, -1, 2, 300]) } else { 0 },
            _ => {
                level = level.wrapping_add(r.below(7) as i16 - 3);
                level
            }
        })
        .collect()
}

/// A passage for the stream, of a length that matters.
fn passage(s: &Stream, order: usize, r: &mut Random) -> Vec<i16> {
    let (frame, channels) = (s.frame_length.min(4097) as usize, s.num_channels.max(1) as usize);
    let n = match r.below(10) {
        0 => r.pick(&[0, 1, 2]),
        1 => r.pick(&[order, order + 1, order + 2]),
        2 | 3 => r.range(0, frame as u64) as usize,
        _ => frame,
    };
    sound(n.min(frame), channels, r)
}

/// A passage that is above one frame, or not a multiple of the channels.
fn misfit(s: &Stream, mut passage: Vec<i16>, r: &mut Random) -> Vec<i16> {
    let places = if s.accepted(true) { s.places() } else { 64 };
    let length = match r.below(3) {
        0 => places + s.num_channels as usize,
        1 => places + r.range(1, 9) as usize,
        _ => passage.len() + 1,
    };
    passage.resize(length, 1);
    passage
}

/// The bytes of the cookie: sometimes with atoms before them or more behind, seldom too few.
fn cookie(s: &Stream, r: &mut Random) -> Vec<u8> {
    let mut c = s.cookie();
    if r.one_in(20) {
        c = [&[0, 0, 0, 36], &b"alac"[..], &[0; 4], &c].concat();
    }
    if r.one_in(20) {
        c = [&[0, 0, 0, 12], &b"frmaalac"[..], &c].concat();
    }
    if r.one_in(20) {
        c.extend([7; 5]);
    }
    if r.one_in(60) {
        c.truncate(r.below(c.len() as u64 + 1) as usize);
    }
    c
}

/// Bytes to lend: what fits and what does not, and the limit's edges.
fn bytes(s: &Stream, flat: &[i16], passage: &[i16], r: &mut Random) -> usize {
    let Ok(packet) = write(s, flat, passage, usize::MAX, usize::MAX) else { return r.pick(&[0, 1, 40, 400]) };
    let need = packet.len();
    let limit = Settings::of(flat, s).map_or(0, |x| x.limit(passage.len() / s.num_channels as usize)).div_ceil(8);
    match r.below(12) {
        0 => need - 1,
        1 => r.below(need as u64) as usize,
        2 => need + r.range(1, 9) as usize,
        3 => limit - 1,
        4 => limit,
        5 => limit + r.range(1, 9) as usize,
        _ => need,
    }
}

pub fn random(r: &mut Random) -> Pack {
    let mut s = stream(r);
    if r.one_in(25) {
        s = outside(s, r);
    }
    if r.one_in(60) {
        s = s.spoil(r);
    }
    let x = settings(&s, r);
    let order = x.channels.first().map_or(0, |c| c.order as usize);
    let flat = if r.one_in(8) { spoiled(&s, x, r) } else { x.flat() };
    let mut sounds = passage(&s, order, r);
    if r.one_in(20) {
        sounds = misfit(&s, sounds, r);
    }
    let places = 2 * s.frame_length.min(5000) as usize;
    let scratch = match r.below(40) {
        0 => places.saturating_sub(1),
        1 => r.below(places as u64 + 1) as usize,
        2..=9 => places + r.range(1, 5) as usize,
        _ => places,
    };
    let bytes = bytes(&s, &flat, &sounds, r);
    Pack { cookie: cookie(&s, r), settings: flat, passage: sounds, bytes, scratch }
}
