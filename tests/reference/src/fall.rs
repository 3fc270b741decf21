//! "Enables before retransmit": paper 02, order 3. A fall of RT lies between two accepted samples, and of both it is kept
//! whether REN and WEN were HIGH.

use crate::pins::Pins;

#[derive(Clone, Copy, Debug)]
pub struct Fall {
    /// In the last accepted sample with RT HIGH.
    before: bool,
    /// In the first accepted one with RT LOW after it; none where RT is still HIGH.
    at: Option<bool>,
}

fn both_high(pins: Pins) -> bool {
    pins.ren && pins.wen
}

impl Fall {
    /// RT, REN and WEN count as HIGH.
    pub fn power_up() -> Fall {
        Fall { before: true, at: None }
    }

    /// A sample that was taken, in a reset or not.
    pub fn see(&mut self, pins: Pins) {
        if pins.rt {
            *self = Fall { before: both_high(pins), at: None };
        } else {
            self.at.get_or_insert(both_high(pins));
        }
    }

    /// Whether RT was LOW in the last accepted sample.
    pub fn lasts(&self) -> bool {
        self.at.is_some()
    }

    /// Whether RT LOW in these pins goes back to a clean fall: to the one that lasts, or else to their own.
    pub fn clean(&self, pins: Pins) -> bool {
        self.before && self.at.unwrap_or(both_high(pins))
    }
}
