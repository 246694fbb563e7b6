//! Bits out, most significant first.

#[derive(Clone, Default)]
pub struct BitWriter {
    pub bytes: Vec<u8>,
    used: usize,
}

impl BitWriter {
    pub fn new() -> Self {
        Self::default()
    }

    pub fn bit(&mut self, bit: bool) {
        if self.used % 8 == 0 {
            self.bytes.push(0);
        }
        if bit {
            *self.bytes.last_mut().unwrap() |= 0x80 >> (self.used % 8);
        }
        self.used += 1;
    }

    /// The low `n` bits of `v`.
    pub fn put(&mut self, v: u64, n: usize) {
        for i in (0..n).rev() {
            self.bit(v >> i & 1 == 1);
        }
    }

    /// Zero bits to the byte edge.
    pub fn align(&mut self) {
        while self.used % 8 != 0 {
            self.bit(false);
        }
    }
}
