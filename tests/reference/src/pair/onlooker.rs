//! What can be told of a pair from its pins and its flags, with no eye on the counts inside.

use super::{composite, levels, Pair};
use crate::model::Mode;
use crate::part::Part;
use crate::pins::Pins;

/// Words of one half since the last reset.
#[derive(Clone, Copy, Default, PartialEq, Eq, Debug)]
pub struct Words {
    pub accepted: u64,
    pub taken: u64,
}

/// The same question on either side: whether its clock is HIGH or rises, whether it is asked, whether a flag allows it.
#[derive(Clone, Copy, Default, PartialEq, Eq, Debug)]
pub struct Each {
    pub write: bool,
    pub read: bool,
}

#[derive(Clone, Copy)]
pub struct Onlooker {
    clocks: Each,
    /// What each half showed in the last answers: room, and a word ready.
    pub shown: [Each; 2],
    composite: Each,
    pub words: [Words; 2],
}

/// A pair and its onlooker.
pub struct Watched {
    pub pair: Pair,
    pub onlooker: Onlooker,
    /// The last Master Reset changed the mode.
    pub mode_changed: bool,
    /// One to the other mode was refused since.
    pub mode_kept: bool,
}

fn shown(mode: Mode, [full, empty]: [bool; 2]) -> Each {
    let standard = mode == Mode::Standard;
    Each { write: full == standard, read: empty == standard }
}

impl Onlooker {
    /// Nothing is taken before a Master Reset, so that it does not matter what is shown until then.
    fn power_up() -> Onlooker {
        Onlooker {
            clocks: Each { write: true, read: true },
            shown: [Each::default(); 2],
            composite: Each::default(),
            words: [Words::default(); 2],
        }
    }

    /// Which clocks rise, outside reset.
    pub fn rises(&self, pins: Pins) -> Each {
        let running = !pins.in_reset();
        Each { write: running && !self.clocks.write && pins.wclk, read: running && !self.clocks.read && pins.rclk }
    }

    pub fn asked(&self, pins: Pins) -> Each {
        let rises = self.rises(pins);
        Each { write: rises.write && pins.ld && !pins.wen, read: rises.read && pins.ld && !pins.ren && pins.rt }
    }

    /// The pins of a user who asks for nothing that the composite flags do not allow.
    pub fn restrained(&self, pins: Pins) -> Pins {
        let asked = self.asked(pins);
        let wen = pins.wen || asked.write && !self.composite.write;
        let ren = pins.ren || asked.read && !self.composite.read;
        Pins { wen, ren, ..pins }
    }

    /// A sample that was taken; the pins are those of either record.
    fn see(&mut self, pins: Pins, mode: Mode, answers: [u32; 2]) {
        let asked = self.asked(pins);
        for (words, shown) in self.words.iter_mut().zip(self.shown) {
            words.accepted += u64::from(asked.write && shown.write);
            words.taken += u64::from(asked.read && shown.read);
        }
        if pins.in_reset() {
            self.words = [Words::default(); 2];
        }
        self.clocks = Each { write: pins.wclk, read: pins.rclk };
        self.shown = answers.map(|answer| shown(mode, levels(answer)));
        self.composite = shown(mode, composite(mode, answers));
    }
}

impl Watched {
    pub fn power_up(part: Part) -> Watched {
        let (pair, onlooker) = (Pair::power_up(part), Onlooker::power_up());
        Watched { pair, onlooker, mode_changed: false, mode_kept: false }
    }

    pub fn sample(&mut self, records: [u32; 2]) -> Result<[u32; 2], u32> {
        let pins = Pins::of(records[0]);
        let other_mode = self.pair.halves[0].started() && pins.fwft_si == (self.pair.mode() == Mode::Standard);
        let outcome = self.pair.sample(records);
        if let Ok(answers) = outcome {
            self.onlooker.see(pins, self.pair.mode(), answers);
        }
        match outcome {
            _ if pins.mrs => (),
            Ok(_) => (self.mode_changed, self.mode_kept) = (other_mode, false),
            Err(_) => self.mode_kept |= other_mode,
        }
        outcome
    }
}
