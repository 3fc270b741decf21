//! A chain's record: the four bytes of a part's, and three more.

use crate::pins::Pins;

pub const BYTES: usize = 7;

/// The most parts in a row; a record has marks for all of them.
pub const MOST: usize = 8;

/// The bits that are to be zero, from the lowest up, and the first of them.
pub const SPARE: usize = 7;
const SPARE_FROM: u32 = 16;

const TRANSFER: u32 = 23;

#[derive(Clone, Copy, PartialEq, Eq, Debug)]
pub struct Record {
    /// The two skew marks among them have no effect.
    pub pins: Pins,
    /// The transfer clock.
    pub transfer: bool,
    pub spare: u32,
    /// Two for each part, the first part's in the bits of most weight, the write mark before the read mark.
    pub marks: u32,
}

impl Record {
    pub fn of(bytes: &[u8]) -> Record {
        let bits = bytes.iter().fold(0, |bits, &byte| bits << 8 | u64::from(byte));
        let (first, last) = ((bits >> 24) as u32, bits as u32);
        Record {
            pins: Pins::of(first),
            transfer: last >> TRANSFER & 1 == 1,
            spare: last >> SPARE_FROM & ((1 << SPARE) - 1),
            marks: last & 0xFFFF,
        }
    }

    pub fn bytes(self) -> [u8; BYTES] {
        let last = u32::from(self.transfer) << TRANSFER | self.spare << SPARE_FROM | self.marks;
        let bits = u64::from(self.pins.record()) << 24 | u64::from(last);
        bits.to_be_bytes()[1..].try_into().expect("seven bytes")
    }

    pub fn write_skew_met(self, place: usize) -> bool {
        self.marks >> (15 - 2 * place) & 1 == 1
    }

    pub fn read_skew_met(self, place: usize) -> bool {
        self.marks >> (14 - 2 * place) & 1 == 1
    }
}
