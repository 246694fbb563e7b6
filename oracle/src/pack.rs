//! One passage: our packet beside the second writer's, to the last place of bytes and scratch, then read back by everyone.

use crate::compare::{case as read_case, expect};
use crate::ffmpeg;
use crate::original::{original, Outcome};
use crate::ours::{self, Width};
use crate::random::Random;
use crate::stream::Stream;
use crate::writer::{write, Channel, Settings};

pub struct Pack {
    pub cookie: Vec<u8>,
    pub settings: Vec<i16>,
    pub passage: Vec<i16>,
    /// how many bytes and places of scratch are lent
    pub bytes: usize,
    pub scratch: usize,
}

/// Document 01's readings that are the writer's: mono, frame 2, factor 4, quant 9, order 0.
const READINGS: [([i16; 2], &[u8]); 2] =
    [([1, 1], &[0, 0, 0, 0, 0, 0x13, 0x01, 0x97]), ([1, 2], &[0, 0, 0, 0, 0, 0x13, 0x01, 0x8B, 0x80])];

/// What a passage came to, where all is as it should be.
pub struct Packed {
    pub number: u32,
    /// FFmpeg read it back too
    pub ffmpeg: bool,
}

/// What lies in the lent bytes before, different from place to place; and in scratch.
fn marks(n: usize) -> Vec<u8> {
    (0..n).map(|i| 0xA5 ^ (i as u8).wrapping_mul(29)).collect()
}

fn scratch_marks(n: usize) -> Vec<i32> {
    (0..n).map(|i| 0x2B2B_2B2B ^ i as i32).collect()
}

/// The readings to pack, where the second writer gives their bytes.
pub fn readings() -> Result<Vec<Pack>, String> {
    let s = Stream { frame_length: 2, bit_depth: 16, pb: 40, mb: 10, kb: 14, num_channels: 1 };
    let settings = Settings { mix_bits: 0, mix_res: 0, channels: vec![Channel { pb_factor: 4, quant: 9, order: 0, coefs: [0; 30] }] };
    let one = |(passage, packet): &([i16; 2], &[u8])| {
        let p = Pack { cookie: s.cookie(), settings: settings.flat(), passage: passage.to_vec(), bytes: packet.len(), scratch: 4 };
        expect(write(&s, &p.settings, passage, p.bytes, p.scratch).as_deref() == Ok(*packet), "the second writer misses a reading")?;
        Ok(p)
    };
    READINGS.iter().map(one).collect()
}

/// Packs it with both writers and reads it back.
pub fn case(p: &Pack) -> Result<Packed, String> {
    let stream = Stream::of(&p.cookie);
    let wanted = match &stream {
        None => Err(1),
        Some(s) => write(s, &p.settings, &p.passage, p.bytes, p.scratch),
    };
    ours_is(p, stream.as_ref(), &wanted)?;
    match (stream, wanted) {
        (Some(s), Ok(packet)) => Ok(Packed { number: 0, ffmpeg: read_back(&s, p, &packet)? }),
        (_, wanted) => Ok(Packed { number: wanted.err().unwrap_or(0), ffmpeg: false }),
    }
}

/// Our number, length, bytes and scratch are those that are wanted.
fn ours_is(p: &Pack, stream: Option<&Stream>, wanted: &Result<Vec<u8>, u32>) -> Result<(), String> {
    let mut bytes = marks(p.bytes);
    let mut scratch = scratch_marks(p.scratch);
    let mut answer = [9u64; 4];
    let number = ours::encode(&p.cookie, &p.settings, &p.passage, &mut bytes, &mut scratch, &mut answer);
    let (due, length) = match wanted {
        Ok(packet) => (0, packet.len()),
        Err(number) => (*number, 0),
    };
    expect(number == due, &format!("number {number} where {due} is due"))?;
    expect(answer == [due as u64, length as u64, 0, 0], &format!("answer {answer:?} where the length is {length}"))?;
    let mut due_bytes = marks(p.bytes);
    if let Ok(packet) = wanted {
        due_bytes[..length].copy_from_slice(packet);
    }
    if let Some(i) = (0..p.bytes).find(|i| bytes[*i] != due_bytes[*i]) {
        return Err(format!("byte {i} of {length} is {:02x} where {:02x} is due", bytes[i], due_bytes[i]));
    }
    let cleared = match stream {
        Some(s) if due > 3 || due == 0 => 2 * s.frame_length as usize,
        _ => 0,
    };
    expect(scratch[..cleared].iter().all(|x| *x == 0), "scratch not cleared")?;
    expect(scratch[cleared..] == scratch_marks(p.scratch)[cleared..], "scratch changed past its places")
}

/// The packet keeps the limit, and is the passage to both our entries and to the original, whatever comes behind it.
/// Whether FFmpeg was asked too.
fn read_back(s: &Stream, p: &Pack, packet: &[u8]) -> Result<bool, String> {
    let settings = Settings::of(&p.settings, s).expect("settings that were packed");
    let n = p.passage.len() / s.num_channels as usize;
    expect(packet.len() <= settings.limit(n).div_ceil(8), "a packet above the limit")?;
    let mut r = Random::new(packet.len() as u64);
    let behind: Vec<u8> = (0..r.range(1, 9)).map(|_| r.next() as u8).collect();
    for packet in [packet.to_vec(), [packet, &behind].concat()] {
        is_passage::<i16>(s, &packet, &p.passage)?;
        is_passage::<i32>(s, &packet, &p.passage)?;
    }
    let ffmpeg = ffmpeg::HERE && ffmpeg::agrees(s, &settings, n);
    expect(!ffmpeg || ffmpeg::read(s, packet).as_ref() == Some(&p.passage), "FFmpeg reads another passage")?;
    Ok(ffmpeg)
}

fn is_passage<S: Width>(s: &Stream, packet: &[u8], passage: &[i16]) -> Result<(), String> {
    let read = read_case::<S>(s, packet, (0, 0))?;
    expect(read.number == 0, &format!("read back with {}", read.number))?;
    let samples = passage.iter().map(|x| S::of(*x)).collect();
    expect(original::<S>(&s.cookie(), packet, s.places()) == Outcome::Accepted(samples), "read back as another passage")
}
