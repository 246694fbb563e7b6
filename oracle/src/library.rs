//! Our library behind its C boundary. Each declaration stands as crates/alac_c/src/lib.rt has it: a slice is a pointer and a length.

extern "C" {
    fn alac_stream_info(cookie: *const u8, cookie_len: usize, fields: *mut u64) -> u32;
    fn alac_decode_packet_i16(
        cookie: *const u8, cookie_len: usize, packet: *const u8, packet_len: usize,
        out: *mut i16, out_len: usize, scratch: *mut i32, scratch_len: usize, answer: *mut u64,
    ) -> u32;
    fn alac_decode_packet_i32(
        cookie: *const u8, cookie_len: usize, packet: *const u8, packet_len: usize,
        out: *mut i32, out_len: usize, scratch: *mut i32, scratch_len: usize, answer: *mut u64,
    ) -> u32;
    fn alac_encode_packet_i16(
        cookie: *const u8, cookie_len: usize, settings: *const i16, settings_len: usize, passage: *const i16, passage_len: usize,
        bytes: *mut u8, bytes_len: usize, scratch: *mut i32, scratch_len: usize, answer: *mut u64,
    ) -> u32;
}

pub fn stream_info(cookie: &[u8], fields: &mut [u64; 11]) -> u32 {
    unsafe { alac_stream_info(cookie.as_ptr(), cookie.len(), fields.as_mut_ptr()) }
}

pub fn encode(cookie: &[u8], settings: &[i16], passage: &[i16], bytes: &mut [u8], scratch: &mut [i32], answer: &mut [u64; 4]) -> u32 {
    unsafe {
        alac_encode_packet_i16(
            cookie.as_ptr(), cookie.len(), settings.as_ptr(), settings.len(), passage.as_ptr(), passage.len(),
            bytes.as_mut_ptr(), bytes.len(), scratch.as_mut_ptr(), scratch.len(), answer.as_mut_ptr(),
        )
    }
}

pub fn decode_i16(cookie: &[u8], packet: &[u8], out: &mut [i16], scratch: &mut [i32], answer: &mut [u64; 4]) -> u32 {
    unsafe {
        alac_decode_packet_i16(
            cookie.as_ptr(), cookie.len(), packet.as_ptr(), packet.len(), out.as_mut_ptr(), out.len(),
            scratch.as_mut_ptr(), scratch.len(), answer.as_mut_ptr(),
        )
    }
}

pub fn decode_i32(cookie: &[u8], packet: &[u8], out: &mut [i32], scratch: &mut [i32], answer: &mut [u64; 4]) -> u32 {
    unsafe {
        alac_decode_packet_i32(
            cookie.as_ptr(), cookie.len(), packet.as_ptr(), packet.len(), out.as_mut_ptr(), out.len(),
            scratch.as_mut_ptr(), scratch.len(), answer.as_mut_ptr(),
        )
    }
}
