//! Streams as a dock hands them over: the fields, their cookie, and which of them document 01 accepts.

use crate::random::Random;

#[derive(Clone, Debug)]
pub struct Stream {
    pub frame_length: u32,
    pub bit_depth: u8,
    pub pb: u8,
    pub mb: u8,
    pub kb: u8,
    pub num_channels: u8,
}

impl Stream {
    /// The fields of a cookie, its atoms skipped; none where it is too short.
    pub fn of(mut cookie: &[u8]) -> Option<Stream> {
        for atom in [b"frma", b"alac"] {
            if cookie.len() >= 24 && cookie[4..8] == *atom {
                cookie = &cookie[12..];
            }
        }
        let c: &[u8; 24] = cookie.first_chunk()?;
        let frame_length = u32::from_be_bytes([c[0], c[1], c[2], c[3]]);
        Some(Stream { frame_length, bit_depth: c[5], pb: c[6], mb: c[7], kb: c[8], num_channels: c[9] })
    }

    pub fn cookie(&self) -> Vec<u8> {
        let mut c = self.frame_length.to_be_bytes().to_vec();
        c.extend([0, self.bit_depth, self.pb, self.mb, self.kb, self.num_channels, 0, 255]);
        c.extend([0; 8]);
        c.extend(44100u32.to_be_bytes());
        c
    }

    /// Document 01's accepted streams, for 16-bit or 32-bit output.
    pub fn accepted(&self, wide: bool) -> bool {
        let depth = if wide { matches!(self.bit_depth, 16 | 20 | 24 | 32) } else { self.bit_depth == 16 };
        (1..=4096).contains(&self.frame_length) && depth && (1..=8).contains(&self.num_channels) && (1..=31).contains(&self.kb)
    }

    pub fn places(&self) -> usize {
        self.frame_length as usize * self.num_channels as usize
    }

    pub fn random(r: &mut Random) -> Stream {
        let frame_length = match r.below(20) {
            0 => r.range(1, 4096) as u32,
            1..=3 => r.range(1, 300) as u32,
            _ => r.range(1, 24) as u32,
        };
        let usual = r.one_in(2);
        Stream {
            frame_length,
            bit_depth: r.pick(&[16, 16, 16, 20, 24, 32]),
            pb: if usual { 40 } else { r.below(256) as u8 },
            mb: if usual { 10 } else { r.below(256) as u8 },
            kb: if usual { 14 } else { r.range(1, 31) as u8 },
            num_channels: r.pick(&[1, 1, 1, 2, 2, 2, 2, 3, 4, 5, 6, 7, 8]),
        }
    }

    /// A stream that document 01 does not accept, for one reason or another.
    pub fn spoil(mut self, r: &mut Random) -> Stream {
        match r.below(6) {
            0 => self.frame_length = r.pick(&[0, 4097, 65536, u32::MAX]),
            1 => self.bit_depth = r.pick(&[0, 8, 15, 17, 18, 28, 33, 255]),
            2 => self.num_channels = r.pick(&[0, 9, 16, 255]),
            3 => self.kb = r.pick(&[0, 32, 33, 255]),
            4 => self.kb = 0,
            _ => self.num_channels = 0,
        }
        self
    }
}
