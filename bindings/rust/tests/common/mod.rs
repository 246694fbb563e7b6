//! Streams to test with.

// Each test file uses a part.
#![allow(dead_code)]

pub mod bits;

use mosilapu::StreamInfo;

#[derive(Clone, Copy)]
pub struct Stream {
    pub frame_length: u32,
    pub bit_depth: u8,
    pub pb: u8,
    pub mb: u8,
    pub kb: u8,
    pub channels: u8,
}

pub const MONO: Stream = Stream { frame_length: 2, bit_depth: 16, pb: 40, mb: 10, kb: 14, channels: 1 };

pub const PAIR: Stream = Stream { channels: 2, ..MONO };

impl Stream {
    /// The fields that no rule judges have values that differ from each other.
    pub fn cookie(&self) -> Vec<u8> {
        let mut cookie = self.frame_length.to_be_bytes().to_vec();
        cookie.extend([0, self.bit_depth, self.pb, self.mb, self.kb, self.channels]);
        cookie.extend([0, 255, 0, 0, 0x40, 8, 0, 10, 0xC4, 0x40, 0, 0, 0xAC, 0x44]);
        cookie
    }

    pub fn info(&self) -> StreamInfo {
        StreamInfo::from_cookie(&self.cookie()).expect("24 bytes are a cookie")
    }

    pub fn places(&self) -> usize {
        self.frame_length as usize * usize::from(self.channels)
    }
}
