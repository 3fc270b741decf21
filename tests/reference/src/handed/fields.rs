//! The bytes of the C call's state: a byte for each level and enum, then numbers with their byte of least weight first, then
//! a byte for each of what retransmits are judged by.

use crate::model::Mode;
use crate::offsets::Method;

pub const STATE_BYTES: usize = 52;

/// What one side keeps of itself and of the other.
#[derive(Clone, Copy, PartialEq, Eq, Debug)]
pub struct Side {
    pub clock: bool,
    pub count: u16,
    /// The other's count, as it comes through the two stages.
    pub first: u16,
    pub second: u16,
    /// The other's count from before its latest rise, if it has risen since this side's last one and since the reset.
    pub before: Option<u16>,
    /// The level of PAF or PAE.
    pub almost: bool,
}

/// The levels of the last accepted sample that a fall of RT is judged by, and whether the last fall was clean.
#[derive(Clone, Copy, PartialEq, Eq, Debug)]
pub struct Enables {
    pub rt: bool,
    pub ren: bool,
    pub wen: bool,
    pub clean: bool,
}

/// Everything that a state stores.
#[derive(Clone, Copy, PartialEq, Eq, Debug)]
pub struct Fields {
    pub started: bool,
    pub write: Side,
    pub read: Side,
    /// The write count has passed its width since the reset.
    pub passed: bool,
    /// Of the last retransmit the write side has taken no count yet (0), its first one (1), or has seen it (2).
    pub view: u8,
    /// RCLK rises that a retransmit's setup still lasts.
    pub setup: u8,
    pub mode: Mode,
    pub untaken: bool,
    pub output: u32,
    pub method: Method,
    pub n: u16,
    pub m: u16,
    pub load_m_next: bool,
    pub read_m_next: bool,
    pub serial: u32,
    pub serial_bits: u8,
    pub shown: Option<u16>,
    pub enables: Enables,
}

impl Fields {
    pub fn bytes(&self) -> [u8; STATE_BYTES] {
        let (write, read) = (&self.write, &self.read);
        let Enables { rt, ren, wen, clean } = self.enables;
        let levels = [
            self.started,
            write.clock,
            read.clock,
            self.passed,
            write.before.is_some(),
            read.before.is_some(),
            write.almost,
            read.almost,
            self.method == Method::Serial,
            self.load_m_next,
            self.read_m_next,
            self.shown.is_some(),
        ];
        let mode = u8::from(self.mode == Mode::FallThrough) + u8::from(self.untaken);
        let enums = [self.view, self.setup, mode, self.serial_bits];
        let halves = |numbers: &[u16]| numbers.iter().flat_map(|number| number.to_le_bytes()).collect::<Vec<u8>>();
        let counts = [write, read].map(|side| halves(&[side.count, side.first, side.second, side.before.unwrap_or(0)]));
        let all = [
            levels.map(u8::from).to_vec(),
            enums.to_vec(),
            counts.concat(),
            halves(&[self.n, self.m]),
            self.serial.to_le_bytes().to_vec(),
            halves(&[self.shown.unwrap_or(0), 0]),
            self.output.to_le_bytes().to_vec(),
            [rt, ren, wen, clean].map(u8::from).to_vec(),
        ];
        all.concat().try_into().expect("the bytes of a state")
    }

    /// The state that bytes spell, if they spell one: they are read for what they are worth, and each state has one
    /// spelling only.
    pub fn spelled(bytes: &[u8; STATE_BYTES]) -> Option<Fields> {
        let level = |at: usize| bytes[at] == 1;
        let half = |at: usize| u16::from_le_bytes([bytes[at], bytes[at + 1]]);
        let word = |at: usize| u32::from(half(at)) | u32::from(half(at + 2)) << 16;
        let side = |clock: usize, before: usize, almost: usize, counts: usize| Side {
            clock: level(clock),
            count: half(counts),
            first: half(counts + 2),
            second: half(counts + 4),
            before: level(before).then(|| half(counts + 6)),
            almost: level(almost),
        };
        let fields = Fields {
            started: level(0),
            write: side(1, 4, 6, 16),
            read: side(2, 5, 7, 24),
            passed: level(3),
            view: bytes[12].min(2),
            setup: bytes[13].min(2),
            mode: if bytes[14] == 0 { Mode::Standard } else { Mode::FallThrough },
            untaken: bytes[14] > 1,
            output: word(44),
            method: if level(8) { Method::Serial } else { Method::Parallel },
            n: half(32),
            m: half(34),
            load_m_next: level(9),
            read_m_next: level(10),
            serial: word(36),
            serial_bits: bytes[15],
            shown: level(11).then(|| half(40)),
            enables: Enables { rt: level(48), ren: level(49), wen: level(50), clean: level(51) },
        };
        (fields.bytes() == *bytes).then_some(fields)
    }
}
