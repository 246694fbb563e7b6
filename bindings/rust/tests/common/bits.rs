//! Packets, put together bit by bit.

pub const SCE: u64 = 0;
pub const CPE: u64 = 1;
pub const CCE: u64 = 2;
pub const DSE: u64 = 4;
pub const PCE: u64 = 5;
pub const FIL: u64 = 6;
pub const END: u64 = 7;

/// Fields of an element's header, after the tag: unused bits, partial, shift code, uncompressed.
pub const WHOLE: [u64; 4] = [0, 0, 0, 0];
pub const PARTIAL: [u64; 4] = [0, 1, 0, 0];
pub const RAW: [u64; 4] = [0, 0, 0, 1];
pub const PARTIAL_RAW: [u64; 4] = [0, 1, 0, 1];

#[derive(Default)]
pub struct Bits(Vec<bool>);

impl Bits {
    /// Most significant bit first.
    pub fn put(mut self, value: u64, len: u32) -> Bits {
        self.0.extend((0..len).rev().map(|i| value >> i & 1 == 1));
        self
    }

    /// A tag, instance 0, and the header's fields.
    pub fn element(self, tag: u64, [unused, partial, shift, raw]: [u64; 4]) -> Bits {
        let tagged = self.put(tag, 3).put(0, 4).put(unused, 12);
        tagged.put(partial, 1).put(shift, 2).put(raw, 1)
    }

    /// A compressed element's mix values.
    pub fn mix(self, mix_bits: u64, mix_res: u64) -> Bits {
        self.put(mix_bits, 8).put(mix_res, 8)
    }

    /// A channel's parameters, with coefficients of zero.
    pub fn channel(self, mode: u64, quant: u64, pb_factor: u64, order: u32) -> Bits {
        let params = self.put(mode, 4).put(quant, 4).put(pb_factor, 3);
        (0..order).fold(params.put(u64::from(order), 5), |bits, _| bits.put(0, 16))
    }

    pub fn samples(self, samples: &[i64], depth: u32) -> Bits {
        samples.iter().fold(self, |bits, x| bits.put(*x as u64, depth))
    }

    /// The bits so far, filled up with zeros to the byte edge.
    pub fn bytes(&self) -> Vec<u8> {
        let byte = |eight: &[bool]| eight.iter().enumerate().map(|(i, bit)| u8::from(*bit) << (7 - i)).sum();
        self.0.chunks(8).map(byte).collect()
    }

    pub fn end(self) -> Vec<u8> {
        self.put(END, 3).bytes()
    }
}
