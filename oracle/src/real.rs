//! Packets of FFmpeg's encoder, as oracle/real makes them. A folder DEPTH-CHANNELS-MATERIAL holds the samples, `source`
//! (little-endian, interleaved in FFmpeg's order), and for lengths N a file N.caf of its first N samples a channel.

use crate::original::{departed, getters, original, Outcome};
use crate::ours::{self, Width};
use std::collections::BTreeMap;
use std::path::Path;

/// Which of FFmpeg's channels each channel of a packet is. Apple's layouts for this format are, from 3 channels on, C L R;
/// C L R Cs; C L R Ls Rs; C L R Ls Rs LFE; C L R Ls Rs Cs LFE; C Lc Rc L R Ls Rs LFE. FFmpeg's (`ffmpeg -layouts`, named in
/// oracle/real) are FL FR FC; then BC; BL BR; LFE BL BR; LFE BL BR BC; LFE BL BR FLC FRC. The runs settle it: no two channels
/// of a source are alike, so in any other order samples differ.
const ORDER: [&[usize]; 8] =
    [&[0], &[0, 1], &[2, 0, 1], &[2, 0, 1, 3], &[2, 0, 1, 3, 4], &[2, 0, 1, 4, 5, 3], &[2, 0, 1, 4, 5, 6, 3], &[2, 6, 7, 0, 1, 4, 5, 3]];

/// Cookie and packets of a CAF file: 8 bytes, then chunks of a name (4), a length (8) and so many bytes. `data` holds the
/// packets after 4 bytes, `pakt` their lengths after 24, each in bytes of 7 bits, of which all but the last have the top bit set.
fn caf(file: &[u8]) -> (&[u8], Vec<&[u8]>) {
    let (mut cookie, mut data, mut lengths) = (&file[..0], &file[..0], &file[..0]);
    let mut rest = &file[8..];
    while rest.len() >= 12 {
        let end = 12 + u64::from_be_bytes(rest[4..12].try_into().unwrap()) as usize;
        match &rest[..4] {
            b"kuki" => cookie = &rest[12..end],
            b"data" => data = &rest[16..end],
            b"pakt" => lengths = &rest[36..end],
            _ => (),
        }
        rest = &rest[end..];
    }
    let (mut packets, mut length) = (Vec::new(), 0);
    for byte in lengths {
        length = length << 7 | (byte & 127) as usize;
        if byte & 128 == 0 {
            let (packet, behind) = data.split_at(length);
            packets.push(packet);
            (data, length) = (behind, 0);
        }
    }
    assert!(data.is_empty(), "bytes behind the last packet");
    (cookie, packets)
}

#[derive(Default)]
struct Sum {
    streams: usize,
    packets: usize,
    /// samples compared: at 16 bits each counts twice, once an entry
    samples: usize,
    differ: usize,
    /// answers of ours that are refusals, but for those of kb_0
    refused: usize,
    /// packets that ours refuses with 2 by the file's own cookie, which has kb 0
    kb_0: usize,
    /// packets that the original refuses, by number; how many of them are last ones; how many the departures alone set right
    original_refused: BTreeMap<u32, usize>,
    original_last: usize,
    original_departed: usize,
    /// packets that the original accepts with other samples, or panics at
    original_wrong: usize,
}

impl Sum {
    fn add(&mut self, other: Sum) {
        self.streams += other.streams;
        self.packets += other.packets;
        self.samples += other.samples;
        self.differ += other.differ;
        self.refused += other.refused;
        self.kb_0 += other.kb_0;
        other.original_refused.iter().for_each(|(number, n)| *self.original_refused.entry(*number).or_default() += n);
        self.original_last += other.original_last;
        self.original_departed += other.original_departed;
        self.original_wrong += other.original_wrong;
    }

    fn print(&self, name: &str) {
        let theirs: usize = self.original_refused.values().sum();
        println!(
            "{name:<12} {:4} streams {:5} packets {:9} samples; refused: ours {:3} for kb 0 and {} else, the original {theirs:2}; {} samples differ",
            self.streams, self.packets, self.samples, self.kb_0, self.refused, self.differ
        );
    }

    /// One packet through ours, beside the samples that went in.
    fn read<S: Width>(&mut self, cookie: &[u8], packet: &[u8], places: usize, wanted: &[S]) {
        let (number, got) = decode::<S>(cookie, packet, places);
        self.samples += wanted.len();
        self.differ += got.len().abs_diff(wanted.len()) + got.iter().zip(wanted).filter(|(a, b)| a != b).count();
        self.refused += (number != 0) as usize;
    }
}

fn decode<S: Width>(cookie: &[u8], packet: &[u8], places: usize) -> (u32, Vec<S>) {
    let (mut out, mut answer) = (vec![S::MARK; places], [0; 4]);
    let number = S::decode(cookie, packet, &mut out, &mut [0; 2 * FRAME], &mut answer);
    out.truncate(answer[1] as usize);
    (number, out)
}

/// FFmpeg's frame length.
const FRAME: usize = 4096;

fn stream(sum: &mut Sum, file: &[u8], depth: usize, channels: usize, samples: &[i32]) -> Result<(), String> {
    let (own, packets) = caf(file);
    let mut fields = [0; 11];
    let number = ours::stream_info(own, &mut fields);
    let places = FRAME * channels;
    let told = Ok([fields[10], depth as u64, channels as u64, FRAME as u64, places as u64]);
    if number != 0 || [fields[0], fields[2], fields[6]] != [FRAME as u64, depth as u64, channels as u64] || getters(own) != told {
        return Err(format!("cookie {number} {fields:?}"));
    }
    // FFmpeg writes kb 0 where it stores all uncompressed. The original reads that; document 01 refuses it with 2. Once that is
    // seen, ours reads the packets with kb 14, which no uncompressed element looks at, so that their samples are compared too.
    let mut cookie = own.to_vec();
    if fields[5] == 0 {
        if packets.iter().any(|p| decode::<i32>(own, p, places) != (2, vec![]) || decode::<i16>(own, p, places) != (2, vec![])) {
            return Err("kb 0 is not refused with 2".to_string());
        }
        sum.kb_0 += packets.len();
        let kb = cookie.len() - 24 + 8;
        cookie[kb] = 14;
    }
    let mut wanted = samples.chunks(places);
    sum.streams += 1;
    for (i, packet) in packets.iter().enumerate() {
        let wide = wanted.next().unwrap_or(&[]);
        sum.packets += 1;
        sum.read::<i32>(&cookie, packet, places, wide);
        if depth == 16 {
            let narrow: Vec<i16> = wide.iter().map(|x| (x >> 16) as i16).collect();
            sum.read::<i16>(&cookie, packet, places, &narrow);
        }
        match original::<i32>(own, packet, places) {
            Outcome::Accepted(got) if got == wide => (),
            Outcome::Refused(number) => {
                *sum.original_refused.entry(number).or_default() += 1;
                sum.original_last += (i + 1 == packets.len()) as usize;
                sum.original_departed += (departed::<i32>(own, packet, places) == Outcome::Accepted(wide.to_vec())) as usize;
            }
            _ => sum.original_wrong += 1,
        }
    }
    // samples that no packet held
    sum.differ += wanted.map(<[i32]>::len).sum::<usize>();
    Ok(())
}

/// The source's samples in the order of a packet's channels, as the `i32` entry gives them.
fn source(bytes: &[u8], depth: usize, channels: usize) -> Vec<i32> {
    let sample = |b: &[u8]| b.iter().rev().fold(0, |x, b| x << 8 | *b as i32) << (32 - depth);
    let frames = bytes.chunks(channels * depth / 8);
    frames.flat_map(|f| ORDER[channels - 1].iter().map(move |c| sample(&f[c * depth / 8..(c + 1) * depth / 8]))).collect()
}

fn folder(path: &Path, name: &str) -> Result<Sum, String> {
    let parts: Vec<&str> = name.split('-').collect();
    let number = |text: &str| text.parse::<usize>().expect("a number");
    let (depth, channels) = (number(parts[0]), number(parts[1]));
    let load = |file: &str| std::fs::read(path.join(file)).map_err(|e| format!("{file}: {e}"));
    let samples = source(&load("source")?, depth, channels);
    let files = std::fs::read_dir(path).map_err(|e| e.to_string())?.map(|f| f.unwrap().file_name().into_string().unwrap());
    let mut lengths: Vec<usize> = files.filter_map(|f| f.strip_suffix(".caf").map(number)).collect();
    lengths.sort();
    let mut sum = Sum::default();
    for n in lengths {
        stream(&mut sum, &load(&format!("{n}.caf"))?, depth, channels, &samples[..n * channels]).map_err(|e| format!("{n}.caf: {e}"))?;
    }
    Ok(sum)
}

pub fn real(folders: &[String]) -> bool {
    std::panic::set_hook(Box::new(|_| {}));
    let (mut total, mut ok) = (Sum::default(), true);
    for path in folders.iter().map(Path::new) {
        let name = path.file_name().unwrap().to_str().unwrap();
        match folder(path, name) {
            Ok(sum) => {
                sum.print(name);
                total.add(sum);
            }
            Err(what) => {
                println!("{name}: {what}");
                ok = false;
            }
        }
    }
    println!("kb 0: {} packets that ours refuses with 2 by their own cookie, as document 01 has it; compared with kb 14 in its place", total.kb_0);
    println!(
        "the original's refusals by number {:?}: last packets {}, read rightly with the departures {}; accepted with wrong samples {}",
        total.original_refused, total.original_last, total.original_departed, total.original_wrong
    );
    total.print("total");
    ok && total.streams > 0 && total.refused == 0 && total.differ == 0
}
