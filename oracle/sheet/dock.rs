//! The dock's work over a year: on every wet day the walk is unpacked, cut and packed again, and held against the master.

use crate::library::{decode_i16, encode};
use crate::walk::Walk;
use crate::writer::{packet_from, Start};
use crate::year::Day;
use std::ops::Range;

/// Who packs the walk on wet days.
#[derive(Clone, Copy)]
pub enum Packer {
    Ours,
    /// the test equipment's writer
    Second(Start),
}

/// What a year came to.
#[derive(Default)]
pub struct Line {
    /// samples that differ from the master by the end of each day
    pub differ: Vec<usize>,
    /// every packet packed, the studio's first; each was read back
    pub packets: Vec<Vec<u8>>,
    pub refused: usize,
    pub compared: usize,
    /// differing samples over all comparisons
    pub differed: usize,
}

/// A year from the studio's packets, which are ours in every case.
pub fn run(walk: &Walk, days: &[Day], packer: Packer) -> Result<Line, String> {
    let mut line = Line::default();
    let mut master = walk.master.clone();
    let mut heard = line.packed_and_read(walk, &master, Packer::Ours)?;
    let mut differ = line.hold(&heard, &master);
    for day in days {
        if let Some(cut) = &day.cut {
            cut_out(&mut heard, cut);
            cut_out(&mut master, cut);
            heard = line.packed_and_read(walk, &heard, packer)?;
            differ = line.hold(&heard, &master);
        }
        line.differ.push(differ);
    }
    Ok(line)
}

/// A walk that lost samples may end before the cut does.
fn cut_out(samples: &mut Vec<i16>, cut: &Range<usize>) {
    let end = samples.len();
    samples.drain(cut.start.min(end)..cut.end.min(end));
}

fn pack(walk: &Walk, passage: &[i16], packer: Packer) -> Result<Vec<u8>, String> {
    match packer {
        Packer::Ours => ours(walk, passage),
        Packer::Second(start) => Ok(packet_from(&walk.stream, &walk.settings, passage, start)),
    }
}

fn ours(walk: &Walk, passage: &[i16]) -> Result<Vec<u8>, String> {
    let mut bytes = vec![0; walk.settings.limit(passage.len()).div_ceil(8)];
    let mut scratch = vec![0; 2 * walk.frame()];
    let mut answer = [0; 4];
    match encode(
        &walk.cookie,
        &walk.flat,
        passage,
        &mut bytes,
        &mut scratch,
        &mut answer,
    ) {
        0 => bytes.truncate(answer[1] as usize),
        number => return Err(format!("our writer refused a passage with {number}")),
    }
    Ok(bytes)
}

/// A packet's samples by our library; none where it is refused.
fn unpack(walk: &Walk, packet: &[u8]) -> Option<Vec<i16>> {
    let mut out = vec![0; walk.frame()];
    let mut scratch = vec![0; 2 * walk.frame()];
    let mut answer = [0; 4];
    let number = decode_i16(&walk.cookie, packet, &mut out, &mut scratch, &mut answer);
    out.truncate(answer[1] as usize);
    (number == 0).then_some(out)
}

impl Line {
    /// What is heard once the samples are packed and every packet is unpacked by our library.
    fn packed_and_read(
        &mut self,
        walk: &Walk,
        samples: &[i16],
        packer: Packer,
    ) -> Result<Vec<i16>, String> {
        let mut heard = Vec::new();
        for passage in samples.chunks(walk.frame()) {
            let packet = pack(walk, passage, packer)?;
            heard.extend(unpack(walk, &packet).unwrap_or_else(|| {
                // a refused packet is a frame of silence
                self.refused += 1;
                vec![0; walk.frame()]
            }));
            self.packets.push(packet);
        }
        Ok(heard)
    }

    /// How many samples differ from the master, place by place; one too many or too few differs as well.
    fn hold(&mut self, heard: &[i16], master: &[i16]) -> usize {
        let unequal = heard.iter().zip(master).filter(|(a, b)| a != b).count();
        let differ = unequal + heard.len().abs_diff(master.len());
        self.compared += master.len();
        self.differed += differ;
        differ
    }
}
