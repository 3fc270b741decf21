//! "Offsets".

use crate::part::Part;

#[derive(Clone, Copy, PartialEq, Eq, Debug)]
pub enum Method {
    Parallel,
    Serial,
}

/// The registers, and what was loaded and read of them since the Master Reset.
#[derive(Clone, Debug)]
pub struct Offsets {
    pub method: Method,
    pub n: u64,
    pub m: u64,
    /// Parallel loads and offset readings so far: the even ones are n's, the odd ones m's.
    pub loads: u64,
    pub readings: u64,
    pub serial: Vec<bool>,
    /// The value that Q shows in place of the output register.
    pub shown: Option<u64>,
}

impl Offsets {
    pub fn after_master_reset(ld: bool) -> Offsets {
        let (default, method) = if ld { (1_023, Method::Serial) } else { (127, Method::Parallel) };
        Offsets { method, n: default, m: default, loads: 0, readings: 0, serial: Vec::new(), shown: None }
    }

    pub fn load(&mut self, part: Part, data: u32) {
        let register = if self.loads.is_multiple_of(2) { &mut self.n } else { &mut self.m };
        *register = part.offset(data);
        self.loads += 1;
    }

    pub fn load_bit(&mut self, part: Part, bit: bool) {
        self.serial.push(bit);
        if self.serial.len() as u32 == part.serial_bits() {
            let (n, m) = self.serial.split_at(part.offset_bits as usize);
            (self.n, self.m) = (least_first(n), least_first(m));
            self.serial.clear();
        }
    }

    /// The value to show for the next reading, as the registers stand now.
    pub fn next_reading(&mut self) -> u64 {
        let value = if self.readings.is_multiple_of(2) { self.n } else { self.m };
        self.readings += 1;
        value
    }
}

fn least_first(bits: &[bool]) -> u64 {
    bits.iter().rev().fold(0, |value, &bit| value << 1 | u64::from(bit))
}
