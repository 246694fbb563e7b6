//! Packets: built from fields over every range, then flipped, cut and lengthened; random bytes; and short ones exhaustively.

use crate::bits::BitWriter;
use crate::random::Random;
use crate::stream::Stream;

/// Rice data as document 01 writes it, or with a needless escape now and then: whatever is read back, it is a packet.
pub struct Rice<'a> {
    pub factor: u32,
    pub stream: &'a Stream,
    pub bits: u32,
}

fn symbol(w: &mut BitWriter, v: u64, k: u32, m: u64, bits: u32, escape: bool) {
    if escape || v / m >= 9 {
        w.put(0x1FF, 9);
        w.put(v, bits as usize);
        return;
    }
    for _ in 0..v / m {
        w.bit(true);
    }
    w.bit(false);
    if k == 1 {
        return;
    }
    match v % m {
        0 => w.put(0, k as usize - 1),
        r => w.put(r + 1, k as usize),
    }
}

impl Rice<'_> {
    /// Values v (before the sign is unfolded), of which zeros become runs.
    pub fn write(&self, w: &mut BitWriter, values: &[u64], r: &mut Random) {
        let kb = self.stream.kb as u32;
        let mut h = self.stream.mb as u64;
        let mut plus = 0;
        let mut i = 0;
        while i < values.len() {
            let k = (31 - ((h >> 9) as u32 + 3).leading_zeros()).min(kb);
            let v = values[i].max(plus);
            symbol(w, v - plus, k, (1 << k) - 1, self.bits, r.one_in(200));
            plus = 0;
            h = if v > 65535 { 65535 } else { h + v * self.factor as u64 - (h * self.factor as u64 >> 9) };
            i += 1;
            if h < 128 && i < values.len() {
                let mut zeros = values[i..].iter().take_while(|v| **v == 0).count() as u64;
                if r.one_in(100) {
                    zeros = r.below(zeros + 1);
                }
                if r.one_in(400) {
                    zeros = (values.len() - i) as u64 + r.below(3);
                }
                let k = (h as u32).leading_zeros() - 24 + ((h as u32 + 16) >> 6);
                symbol(w, zeros, k, ((1 << k) - 1) & ((1 << kb) - 1), 16, r.one_in(200));
                i += zeros as usize;
                h = 0;
                plus = 1;
            }
        }
    }
}

/// The values of one channel, in the manner of some sound.
fn values(n: usize, bits: u32, r: &mut Random) -> Vec<u64> {
    let manner = r.below(6);
    let top = (1u64 << bits) - 1;
    (0..n)
        .map(|_| match manner {
            0 => 0,
            1 => r.below(3) / 2,
            2 => r.below(8),
            3 => {
                let width = r.range(1, bits.min(20) as u64);
                r.below(1 << width)
            }
            4 => r.next() & top,
            _ => r.pick(&[0, 0, 0, 0, 0, 0, 1, 2, top, top - top / 2]),
        })
        .map(|v| v.min(top))
        .collect()
}

struct Parameters {
    mode: u64,
    quant: u64,
    pb_factor: u64,
    order: u64,
}

fn parameters(s: &Stream, r: &mut Random) -> Parameters {
    let most = (s.pb as u64).checked_sub(1).map_or(7, |_| (511 / s.pb as u64).min(7));
    Parameters {
        mode: if r.one_in(30) { r.below(16) } else if r.one_in(6) { 15 } else { 0 },
        quant: if r.one_in(60) { 0 } else { r.range(1, 15) },
        pb_factor: if r.one_in(60) { r.below(8) } else { r.range(0, most) },
        order: if r.one_in(80) { 31 } else if r.one_in(3) { r.range(0, 30) } else { r.range(0, 8) },
    }
}

fn compressed(w: &mut BitWriter, s: &Stream, channels: u32, code: u32, n: usize, r: &mut Random) {
    let bits = (s.bit_depth as u32 + channels - 1).saturating_sub(8 * code).clamp(1, 32);
    let (mix_bits, mix_res) = if r.one_in(2) { (0, 0) } else { (if r.one_in(20) { r.below(256) } else { r.below(8) }, r.below(256)) };
    w.put(mix_bits, 8);
    w.put(mix_res, 8);
    let all: Vec<Parameters> = (0..channels).map(|_| parameters(s, r)).collect();
    for p in &all {
        w.put(p.mode, 4);
        w.put(p.quant, 4);
        w.put(p.pb_factor, 3);
        w.put(p.order, 5);
        for _ in 0..p.order {
            let c = if r.one_in(3) { r.next() } else { r.below(2000).wrapping_sub(1000) };
            w.put(c, 16);
        }
    }
    for _ in 0..n as u32 * channels {
        w.put(r.next(), 8 * code as usize);
    }
    for p in &all {
        let factor = (s.pb as u32 * p.pb_factor as u32 / 4).min(127);
        let rice = Rice { factor, stream: s, bits };
        let vs = values(n, bits, r);
        rice.write(w, &vs, r);
    }
}

fn audio(w: &mut BitWriter, s: &Stream, channels: u32, samples: Option<usize>, r: &mut Random) {
    w.put(r.below(16), 4);
    w.put(if r.one_in(60) { r.below(4096) } else { 0 }, 12);
    let n = match samples {
        Some(n) => n,
        None => r.range(0, s.frame_length as u64) as usize,
    };
    let n = if r.one_in(60) { r.range(0, s.frame_length as u64 + 3) as usize } else { n };
    let partial = n != s.frame_length as usize || r.one_in(20);
    w.bit(partial);
    let raw = r.one_in(6);
    let code = match (raw, r.below(40)) {
        (_, 0) => 3,
        (true, 1) => 1,
        (true, _) => 0,
        (false, 1..=10) => r.below(3) as u32,
        (false, _) => 0,
    };
    w.put(code as u64, 2);
    w.bit(raw);
    if partial {
        w.put(n as u64, 32);
    }
    let n = n.min(s.frame_length as usize);
    if raw {
        for _ in 0..n as u32 * channels {
            w.put(r.next(), s.bit_depth as usize);
        }
    } else {
        compressed(w, s, channels, code.min(2), n, r);
    }
}

fn aside(w: &mut BitWriter, r: &mut Random) {
    if r.one_in(2) {
        w.put(4, 3);
        w.put(r.below(16), 4);
        let align = r.one_in(2);
        w.bit(align);
        let count = if r.one_in(10) { r.range(250, 400) } else { r.below(12) };
        w.put(count.min(255), 8);
        if count >= 255 {
            w.put(count - 255, 8);
        }
        if align {
            w.align();
        }
        for _ in 0..count {
            w.put(r.next(), 8);
        }
    } else {
        w.put(6, 3);
        let count = if r.one_in(20) { 15 } else { r.below(15) };
        w.put(count, 4);
        for _ in 0..count {
            w.put(r.next(), 8);
        }
    }
}

/// A packet whose fields are mostly in order.
pub fn built(s: &Stream, r: &mut Random) -> Vec<u8> {
    let mut w = BitWriter::new();
    let samples = match r.below(4) {
        0 => r.range(0, s.frame_length as u64) as usize,
        _ => s.frame_length as usize,
    };
    let mut left = s.num_channels as u32;
    while left > 0 || r.one_in(40) {
        if r.one_in(8) {
            aside(&mut w, r);
        }
        if r.one_in(60) {
            w.put(r.pick(&[2, 5]), 3);
        }
        if r.one_in(40) {
            break;
        }
        let pair = left != 1 && r.one_in(2) || r.one_in(100);
        w.put(if pair { 1 } else { r.pick(&[0, 0, 0, 3]) }, 3);
        let agreed = if r.one_in(50) { None } else { Some(samples) };
        audio(&mut w, s, 1 + pair as u32, agreed, r);
        left = left.saturating_sub(1 + pair as u32);
    }
    if r.one_in(10) {
        aside(&mut w, r);
    }
    if !r.one_in(60) {
        w.put(7, 3);
    }
    w.bytes
}

/// The same with bits flipped, cut or lengthened.
pub fn damaged(mut packet: Vec<u8>, r: &mut Random) -> Vec<u8> {
    match r.below(4) {
        0 if !packet.is_empty() => {
            for _ in 0..r.range(1, 4) {
                let i = r.below(packet.len() as u64) as usize;
                packet[i] ^= 1 << r.below(8);
            }
        }
        1 => packet.truncate(r.below(packet.len() as u64 + 1) as usize),
        2 => {
            let keep = packet.len().saturating_sub(r.below(4) as usize);
            packet.truncate(keep);
        }
        _ => {
            for _ in 0..r.range(1, 8) {
                packet.push(r.next() as u8);
            }
        }
    }
    packet
}

pub fn noise(r: &mut Random) -> Vec<u8> {
    let n = r.below(40);
    let mut bytes: Vec<u8> = (0..n).map(|_| r.next() as u8).collect();
    // a sound element's front, so that noise gets past the tag and the unused bits
    if bytes.len() > 3 && r.one_in(2) {
        bytes[0] = r.pick(&[0, 0x20, 0x60]) | (bytes[0] & 0x1E);
        bytes[1] = 0;
        bytes[2] &= 0x1F;
    }
    bytes
}
