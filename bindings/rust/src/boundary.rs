//! The library's exported functions: the only unsafe code.
//!
//! Each declaration stands below the Rattle signature that it has to match (crates/alac_c/src/lib.rt): a slice is a
//! pointer and a length, an array a pointer. tests/boundary.rs holds both, and include/alac.h, against each other.

use crate::InvalidData;

extern "C" {
    // pub extern "C" fn alac_stream_info(cookie: &[u8], fields: &mut [u64; 11]) -> u32
    fn alac_stream_info(cookie: *const u8, cookie_len: usize, fields: *mut [u64; 11]) -> u32;

    // pub extern "C" fn alac_decode_packet_i16(
    //     cookie: &[u8],
    //     packet: &[u8],
    //     out: &mut [i16],
    //     scratch: &mut [i32],
    //     answer: &mut [u64; 4],
    // ) -> u32
    fn alac_decode_packet_i16(
        cookie: *const u8,
        cookie_len: usize,
        packet: *const u8,
        packet_len: usize,
        out: *mut i16,
        out_len: usize,
        scratch: *mut i32,
        scratch_len: usize,
        answer: *mut [u64; 4],
    ) -> u32;

    // pub extern "C" fn alac_decode_packet_i32(
    //     cookie: &[u8],
    //     packet: &[u8],
    //     out: &mut [i32],
    //     scratch: &mut [i32],
    //     answer: &mut [u64; 4],
    // ) -> u32
    fn alac_decode_packet_i32(
        cookie: *const u8,
        cookie_len: usize,
        packet: *const u8,
        packet_len: usize,
        out: *mut i32,
        out_len: usize,
        scratch: *mut i32,
        scratch_len: usize,
        answer: *mut [u64; 4],
    ) -> u32;

    // pub extern "C" fn alac_encode_packet_i16(
    //     cookie: &[u8],
    //     settings: &[i16],
    //     passage: &[i16],
    //     bytes: &mut [u8],
    //     scratch: &mut [i32],
    //     answer: &mut [u64; 4],
    // ) -> u32
    fn alac_encode_packet_i16(
        cookie: *const u8,
        cookie_len: usize,
        settings: *const i16,
        settings_len: usize,
        passage: *const i16,
        passage_len: usize,
        bytes: *mut u8,
        bytes_len: usize,
        scratch: *mut i32,
        scratch_len: usize,
        answer: *mut [u64; 4],
    ) -> u32;
}

// Of every call below: each pointer and length are those of one slice, which lives until the call ends; what is lent
// for writing is borrowed by it alone; the library keeps no pointer, and is proved to stay inside what it is lent.

pub fn stream_info(cookie: &[u8]) -> Result<[u64; 11], InvalidData> {
    let mut fields = [0; 11];
    // SAFETY: see above.
    let number = unsafe { alac_stream_info(cookie.as_ptr(), cookie.len(), &mut fields) };
    InvalidData::check(number).map(|()| fields)
}

pub fn decode_packet_i16(
    cookie: &[u8],
    packet: &[u8],
    out: &mut [i16],
    scratch: &mut [i32],
) -> Result<usize, InvalidData> {
    let mut answer = [0; 4];
    // SAFETY: see above.
    let number = unsafe {
        alac_decode_packet_i16(
            cookie.as_ptr(),
            cookie.len(),
            packet.as_ptr(),
            packet.len(),
            out.as_mut_ptr(),
            out.len(),
            scratch.as_mut_ptr(),
            scratch.len(),
            &mut answer,
        )
    };
    counted(number, answer)
}

pub fn decode_packet_i32(
    cookie: &[u8],
    packet: &[u8],
    out: &mut [i32],
    scratch: &mut [i32],
) -> Result<usize, InvalidData> {
    let mut answer = [0; 4];
    // SAFETY: see above.
    let number = unsafe {
        alac_decode_packet_i32(
            cookie.as_ptr(),
            cookie.len(),
            packet.as_ptr(),
            packet.len(),
            out.as_mut_ptr(),
            out.len(),
            scratch.as_mut_ptr(),
            scratch.len(),
            &mut answer,
        )
    };
    counted(number, answer)
}

pub fn encode_packet_i16(
    cookie: &[u8],
    settings: &[i16],
    passage: &[i16],
    bytes: &mut [u8],
    scratch: &mut [i32],
) -> Result<usize, InvalidData> {
    let mut answer = [0; 4];
    // SAFETY: see above.
    let number = unsafe {
        alac_encode_packet_i16(
            cookie.as_ptr(),
            cookie.len(),
            settings.as_ptr(),
            settings.len(),
            passage.as_ptr(),
            passage.len(),
            bytes.as_mut_ptr(),
            bytes.len(),
            scratch.as_mut_ptr(),
            scratch.len(),
            &mut answer,
        )
    };
    counted(number, answer)
}

/// An answer's words: number, count, and two that are zero.
fn counted(number: u32, answer: [u64; 4]) -> Result<usize, InvalidData> {
    InvalidData::check(number).map(|()| answer[1] as usize)
}
