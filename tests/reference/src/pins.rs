//! "Trace sample", with the mark of paper 02, order 2.

pub const WORD: u32 = (1 << 18) - 1;

/// The lowest bit of a pin that the two records of a pair have alike: above the skew marks, the mark on D and D.
pub const SHARED_FROM: u32 = 21;

/// Levels of the pins in one sample, true for HIGH.
#[derive(Clone, Copy, PartialEq, Eq, Debug)]
pub struct Pins {
    pub mrs: bool,
    pub prs: bool,
    pub wclk: bool,
    pub rclk: bool,
    pub wen: bool,
    pub ren: bool,
    pub ld: bool,
    pub sen: bool,
    pub rt: bool,
    pub fwft_si: bool,
    pub oe: bool,
    pub write_skew_met: bool,
    pub read_skew_met: bool,
    /// D was still moving.
    pub unsettled: bool,
    pub data: u32,
}

impl Pins {
    pub fn of(record: u32) -> Pins {
        let high = |bit: u32| record >> bit & 1 == 1;
        Pins {
            mrs: high(31),
            prs: high(30),
            wclk: high(29),
            rclk: high(28),
            wen: high(27),
            ren: high(26),
            ld: high(25),
            sen: high(24),
            rt: high(23),
            fwft_si: high(22),
            oe: high(21),
            write_skew_met: high(20),
            read_skew_met: high(19),
            unsettled: high(18),
            data: record & WORD,
        }
    }

    pub fn record(self) -> u32 {
        let levels = [
            self.mrs,
            self.prs,
            self.wclk,
            self.rclk,
            self.wen,
            self.ren,
            self.ld,
            self.sen,
            self.rt,
            self.fwft_si,
            self.oe,
            self.write_skew_met,
            self.read_skew_met,
            self.unsettled,
        ];
        joined(&levels) << 18 | self.data
    }

    /// The flags in their order, whether Q is driven, and what it shows.
    pub fn answer(self, flags: [bool; 5], shown: u32) -> u32 {
        joined(&flags) << 19 | if self.oe { 0 } else { 1 << 18 | shown }
    }

    /// Without what may differ between the two records of a pair.
    pub fn shared(self) -> Pins {
        Pins { write_skew_met: true, read_skew_met: true, unsettled: false, data: 0, ..self }
    }

    pub fn in_reset(self) -> bool {
        !self.mrs || !self.prs
    }

    /// How many of the pins that act under LD are LOW.
    pub fn enables_low(self) -> usize {
        [self.wen, self.ren, self.sen].iter().filter(|&&level| !level).count()
    }
}

/// The first level is the bit of most weight.
fn joined(levels: &[bool]) -> u32 {
    levels.iter().fold(0, |bits, &level| bits << 1 | u32::from(level))
}
