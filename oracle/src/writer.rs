//! A second writer, from document 01 alone: the one packet that it names for a passage, or the refusal's number.

use crate::bits::BitWriter;
use crate::stream::Stream;

/// Numbers of one channel in flat settings: pb_factor, quant, order and the coefficients.
const CHANNEL: usize = 3 + 30;

/// A channel's settings. A negative number is a large one.
#[derive(Clone)]
pub struct Channel {
    pub pb_factor: u16,
    pub quant: u16,
    pub order: u16,
    /// newest sample's first
    pub coefs: [i16; 30],
}

impl Channel {
    /// What the history is multiplied by.
    pub fn factor(&self, s: &Stream) -> u64 {
        s.pb as u64 * self.pb_factor as u64 / 4
    }
}

#[derive(Clone)]
pub struct Settings {
    pub mix_bits: u16,
    pub mix_res: u16,
    pub channels: Vec<Channel>,
}

impl Settings {
    /// The flat form's numbers; none where its length is not the stream's.
    pub fn of(flat: &[i16], s: &Stream) -> Option<Settings> {
        if flat.len() != 2 + CHANNEL * s.num_channels as usize {
            return None;
        }
        let channel = |c: &[i16]| Channel { pb_factor: c[0] as u16, quant: c[1] as u16, order: c[2] as u16, coefs: c[3..].try_into().unwrap() };
        Some(Settings { mix_bits: flat[0] as u16, mix_res: flat[1] as u16, channels: flat[2..].chunks(CHANNEL).map(channel).collect() })
    }

    pub fn flat(&self) -> Vec<i16> {
        let mut flat = vec![self.mix_bits as i16, self.mix_res as i16];
        for c in &self.channels {
            flat.extend([c.pb_factor as i16, c.quant as i16, c.order as i16]);
            flat.extend(c.coefs);
        }
        flat
    }

    /// Settings and stream are in the writer's ranges; the stream is one that a reader accepts.
    pub fn in_range(&self, s: &Stream) -> bool {
        let mix = match s.num_channels {
            1 => self.mix_bits == 0 && self.mix_res == 0,
            _ => self.mix_bits <= 7 && self.mix_res <= 127.min(1 << self.mix_bits),
        };
        let channel = |c: &Channel| c.pb_factor <= 7 && c.factor(s) <= 127 && (1..=15).contains(&c.quant) && c.order <= 30;
        s.bit_depth == 16 && s.num_channels <= 2 && s.kb >= 8 && mix && self.channels.iter().all(channel)
    }

    /// Document 01's limit, for n samples per channel, in bits before padding.
    pub fn limit(&self, n: usize) -> usize {
        74 + self.channels.iter().map(|c| 16 + 16 * c.order as usize + 51 * n).sum::<usize>()
    }
}

/// The past sample from which adaptation starts.
#[derive(Clone, Copy)]
pub enum Start {
    /// document 01's
    Oldest,
    /// one of document 01's slips, for the sheet alone: past samples are walked, and steps counted, from the newest
    #[allow(dead_code)]
    Newest,
}

/// The packet, or the refusal's number, with so many bytes and places of scratch lent.
pub fn write(s: &Stream, flat: &[i16], passage: &[i16], bytes: usize, scratch: usize) -> Result<Vec<u8>, u32> {
    if !s.accepted(true) {
        return Err(2);
    }
    if scratch < 2 * s.frame_length as usize {
        return Err(3);
    }
    let settings = Settings::of(flat, s).filter(|x| x.in_range(s)).ok_or(19u32)?;
    if passage.len() > s.places() || passage.len() % s.num_channels as usize != 0 {
        return Err(20);
    }
    let packet = packet(s, &settings, passage);
    if packet.len() > bytes {
        return Err(21);
    }
    Ok(packet)
}

/// The packet where nothing but its length can be refused.
pub fn packet(s: &Stream, settings: &Settings, passage: &[i16]) -> Vec<u8> {
    packet_from(s, settings, passage, Start::Oldest)
}

/// The packet of a writer whose adaptation starts there.
pub fn packet_from(s: &Stream, settings: &Settings, passage: &[i16], start: Start) -> Vec<u8> {
    let n = passage.len() / s.num_channels as usize;
    let partial = n < s.frame_length as usize;
    let mut w = BitWriter::new();
    w.put(s.num_channels as u64 - 1, 3); // SCE or CPE
    w.put(0, 4 + 12);
    w.bit(partial);
    w.put(0, 2 + 1);
    if partial {
        w.put(n as u64, 32);
    }
    w.put(settings.mix_bits as u64, 8);
    w.put(settings.mix_res as u64, 8);
    for c in &settings.channels {
        w.put(0, 4);
        w.put(c.quant as u64, 4);
        w.put(c.pb_factor as u64, 3);
        w.put(c.order as u64, 5);
        for coef in &c.coefs[..c.order as usize] {
            w.put(*coef as u16 as u64, 16);
        }
    }
    let bits = 16 + s.num_channels as u32 - 1;
    for (c, samples) in settings.channels.iter().zip(mixed(settings, passage)) {
        rice(&mut w, s, c.factor(s), bits, &residuals(c, bits, &samples, start));
    }
    w.put(7, 3); // END
    w.align();
    w.bytes
}

/// A passage's channels: one as it is, or u and v of a pair.
fn mixed(settings: &Settings, passage: &[i16]) -> Vec<Vec<i32>> {
    if settings.channels.len() == 1 {
        return vec![passage.iter().map(|x| *x as i32).collect()];
    }
    let pair = |p: &[i16]| {
        let (l, r) = (p[0] as i32, p[1] as i32);
        let v = l - r;
        if settings.mix_res == 0 { (l, r) } else { (r + (v * settings.mix_res as i32 >> settings.mix_bits), v) }
    };
    let (u, v) = passage.chunks(2).map(pair).unzip();
    vec![u, v]
}

fn sign_extended(x: i32, bits: u32) -> i32 {
    x << (32 - bits) >> (32 - bits)
}

/// What the reader's prediction turns back into the samples.
fn residuals(c: &Channel, bits: u32, samples: &[i32], start: Start) -> Vec<i32> {
    let order = c.order as usize;
    // oldest first, as prediction walks them
    let mut coefs: Vec<i16> = c.coefs[..order].iter().rev().copied().collect();
    let mut out = Vec::new();
    for i in 0..samples.len() {
        let predicted = if i == 0 {
            0
        } else if i <= order {
            samples[i - 1]
        } else {
            predict(&coefs, c.quant, &samples[i - order - 1..i])
        };
        let e = sign_extended(samples[i].wrapping_sub(predicted), bits);
        out.push(e);
        if i > order {
            adapt(&mut coefs, c.quant, &samples[i - order - 1..i], e, start);
        }
    }
    out
}

/// The next sample, from the mean and the samples after it.
fn predict(coefs: &[i16], quant: u16, past: &[i32]) -> i32 {
    let mean = past[0];
    let mut sum = 0i32;
    for (x, coef) in past[1..].iter().zip(coefs) {
        sum = sum.wrapping_add(x.wrapping_sub(mean).wrapping_mul(*coef as i32));
    }
    (sum.wrapping_add(1 << (quant - 1)) >> quant).wrapping_add(mean)
}

fn adapt(coefs: &mut [i16], quant: u16, past: &[i32], e: i32, start: Start) {
    let mut error = e.signum().wrapping_mul(e);
    for step in 0..coefs.len() {
        // a residual of 0 changes nothing
        if error <= 0 {
            break;
        }
        let j = match start {
            Start::Oldest => step,
            Start::Newest => coefs.len() - 1 - step,
        };
        let d = past[j + 1].wrapping_sub(past[0]);
        let t = d.signum() * e.signum();
        coefs[j] = coefs[j].wrapping_add(t as i16);
        let loss = (d.wrapping_mul(t) >> quant).wrapping_mul(step as i32 + 1);
        error = error.wrapping_sub(e.signum().wrapping_mul(loss));
    }
}

/// Rice data: a symbol for each residual, and runs as long as the zeros go.
fn rice(w: &mut BitWriter, s: &Stream, factor: u64, bits: u32, residuals: &[i32]) {
    let kb = s.kb as u32;
    let mut h = s.mb as u64;
    let mut after_run = 0;
    let mut i = 0;
    while i < residuals.len() {
        let v = folded(residuals[i]);
        let k = (31 - ((h >> 9) as u32 + 3).leading_zeros()).min(kb);
        symbol(w, v - after_run, k, (1 << k) - 1, bits);
        after_run = 0;
        i += 1;
        h = if v > 65535 { 65535 } else { h + v * factor - (h * factor >> 9) };
        if h < 128 && i < residuals.len() {
            let run = residuals[i..].iter().take_while(|e| **e == 0).count();
            let k = (h as u32).leading_zeros() - 24 + ((h as u32 + 16) >> 6);
            symbol(w, run as u64, k, ((1 << k) - 1) & ((1 << kb) - 1), 16);
            i += run;
            h = 0;
            after_run = 1;
        }
    }
}

/// Even for zero and above, odd below.
fn folded(e: i32) -> u64 {
    let e = e as i64;
    (if e < 0 { -2 * e - 1 } else { 2 * e }) as u64
}

/// One value: quotient in ones and a zero, then the rest; or nine ones and `bits` raw bits.
fn symbol(w: &mut BitWriter, value: u64, k: u32, m: u64, bits: u32) {
    let (q, r) = (value / m, value % m);
    if q >= 9 {
        w.put(0x1FF, 9);
        w.put(value, bits as usize);
        return;
    }
    w.put((1 << q) - 1, q as usize);
    w.bit(false);
    if k == 1 {
        return;
    }
    if r == 0 {
        w.put(0, k as usize - 1);
    } else {
        w.put(r + 1, k as usize);
    }
}
