//! FFmpeg's reader, where oracle/build found libavcodec.

use crate::stream::Stream;
use crate::writer::Settings;

/// Whether FFmpeg is here.
pub const HERE: bool = cfg!(ffmpeg);

/// Packets that FFmpeg was seen to read as document 01 does. It refuses 0 samples and an order that is not below the frame, and
/// reads many packets of order 0, factor 0 or mb 0 differently; docs/DIFFERENCES.md tells what we suppose of the causes.
pub fn agrees(s: &Stream, settings: &Settings, n: usize) -> bool {
    let channel = |order: u16, factor: u64| order > 0 && (order as u32) < s.frame_length && factor > 0;
    n > 0 && s.mb > 0 && settings.channels.iter().all(|c| channel(c.order, c.factor(s)))
}

/// None where FFmpeg refuses the packet.
pub fn read(s: &Stream, packet: &[u8]) -> Option<Vec<i16>> {
    let mut out = vec![0; s.places()];
    let n = Reader::open(s)?.read(packet, &mut out)?;
    out.truncate(n * s.num_channels as usize);
    Some(out)
}

pub use here::Reader;

#[cfg(ffmpeg)]
mod here {
    use crate::stream::Stream;
    use std::ffi::c_void;

    extern "C" {
        fn ffmpeg_open(cookie: *const u8) -> *mut c_void;
        fn ffmpeg_read(reader: *mut c_void, bytes: *const u8, length: usize, out: *mut i16, places: usize) -> i32;
        fn ffmpeg_close(reader: *mut c_void);
    }

    pub struct Reader(*mut c_void);

    impl Reader {
        pub fn open(s: &Stream) -> Option<Reader> {
            let reader = unsafe { ffmpeg_open(s.cookie().as_ptr()) };
            (!reader.is_null()).then_some(Reader(reader))
        }

        /// How many samples of each channel.
        pub fn read(&mut self, packet: &[u8], out: &mut [i16]) -> Option<usize> {
            let n = unsafe { ffmpeg_read(self.0, packet.as_ptr(), packet.len(), out.as_mut_ptr(), out.len()) };
            usize::try_from(n).ok()
        }
    }

    impl Drop for Reader {
        fn drop(&mut self) {
            unsafe { ffmpeg_close(self.0) }
        }
    }
}

#[cfg(not(ffmpeg))]
mod here {
    use crate::stream::Stream;

    pub struct Reader;

    impl Reader {
        pub fn open(_: &Stream) -> Option<Reader> {
            None
        }

        pub fn read(&mut self, _: &[u8], _: &mut [i16]) -> Option<usize> {
            None
        }
    }
}
