//! One case: ours beside the original, to the last place of output and scratch.

use crate::original::{departed, original, Outcome};
use crate::ours::Width;
use crate::stream::Stream;

/// Places lent beyond what is needed, which must stay as they are.
const SPARE: usize = 3;
const SCRATCH_MARK: i32 = 0x2B2B_2B2B;

/// What a case came to, where all is as it should be.
pub struct Agreed {
    pub number: u32,
    /// the entry of docs/DIFFERENCES.md, where the original departs
    pub difference: Option<&'static str>,
}

pub fn expect(ok: bool, what: &str) -> Result<(), String> {
    if ok { Ok(()) } else { Err(what.to_string()) }
}

/// Runs one packet through all readers, with buffers that may be too short by `short` places.
pub fn case<S: Width>(s: &Stream, packet: &[u8], short: (usize, usize)) -> Result<Agreed, String> {
    let cookie = s.cookie();
    let sane = s.accepted(true) || s.frame_length < 5000;
    let (places, half) = if sane { (s.places(), s.frame_length as usize) } else { (64, 32) };
    let (spare_out, spare_scratch) = (if short.0 > 0 { 0 } else { SPARE }, if short.1 > 0 { 0 } else { SPARE });
    let mut out = vec![S::MARK; places.saturating_sub(short.0) + spare_out];
    let mut scratch = vec![SCRATCH_MARK; (2 * half).saturating_sub(short.1) + spare_scratch];
    let mut answer = [9u64; 4];
    let number = S::decode(&cookie, packet, &mut out, &mut scratch, &mut answer);
    expect(answer[0] == number as u64, "the number in answer")?;
    expect(answer[2] == 0 && answer[3] == 0, "the last two of answer")?;
    let count = answer[1] as usize;

    let wanted = if !s.accepted(S::WIDE) {
        2
    } else if out.len() < places || scratch.len() < 2 * half {
        3
    } else {
        0
    };
    if wanted != 0 {
        expect(number == wanted && count == 0, &format!("number {number} where {wanted} is due"))?;
        expect(out.iter().all(|x| *x == S::MARK), "output changed by 2 or 3")?;
        expect(scratch.iter().all(|x| *x == SCRATCH_MARK), "scratch changed by 2 or 3")?;
        return Ok(Agreed { number, difference: None });
    }

    expect(scratch[..2 * half].iter().all(|x| *x == 0), "scratch not cleared")?;
    expect(scratch[2 * half..].iter().all(|x| *x == SCRATCH_MARK), "scratch past its places changed")?;
    let ours = if number == 0 {
        expect(out[count..].iter().all(|x| *x == S::MARK), "output past the count changed")?;
        Outcome::Accepted(out[..count].to_vec())
    } else {
        expect(count == 0, "a refusal with a count")?;
        expect(out[..places].iter().all(|x| *x == S::default()), "no silence")?;
        expect(out[places..].iter().all(|x| *x == S::MARK), "output past silence changed")?;
        Outcome::Refused(number)
    };

    let by_the_paper = departed::<S>(&cookie, packet, places);
    if ours != by_the_paper {
        return Err(format!("ours {ours:?}, the original with the departures {by_the_paper:?}"));
    }
    let difference = match number {
        10 => Some("no-bits"),
        11 => Some("parameters"),
        18 => Some("fill-15"),
        _ if original::<S>(&cookie, packet, places) == ours => None,
        _ => Some("read-32"),
    };
    Ok(Agreed { number, difference })
}
