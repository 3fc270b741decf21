//! "Parts and paper authority".

#[derive(Clone, Copy, PartialEq, Eq, Debug)]
pub struct Part {
    pub number: u16,
    pub depth: u64,
    pub offset_bits: u32,
}

pub const PARTS: [Part; 2] =
    [Part { number: 255, depth: 8_192, offset_bits: 13 }, Part { number: 265, depth: 16_384, offset_bits: 14 }];

impl Part {
    /// Both offsets, one after the other.
    pub fn serial_bits(self) -> u32 {
        2 * self.offset_bits
    }

    pub fn offset(self, data: u32) -> u64 {
        u64::from(data) & ((1 << self.offset_bits) - 1)
    }

    pub fn place(self, count: u64) -> usize {
        (count % self.depth) as usize
    }
}
