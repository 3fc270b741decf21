//! "What is turned away", from 5 on: what comes before is no matter of what a record says.

use crate::model::{Mode, Model};
use crate::offsets::Method;
use crate::part::Part;
use crate::pins::Pins;

/// What the table asks of a part, however it keeps it.
pub trait Judged {
    fn started(&self) -> bool;
    /// Of WCLK and of RCLK.
    fn rises(&self, pins: Pins) -> (bool, bool);
    fn method(&self) -> Method;
    /// Whether RT LOW in the sample goes back to a clean fall.
    fn fell_clean(&self, pins: Pins) -> bool;
    fn may_retransmit(&self) -> bool;
    fn retransmit_seen(&self) -> bool;
}

impl Judged for Model {
    fn started(&self) -> bool {
        Model::started(self)
    }

    fn rises(&self, pins: Pins) -> (bool, bool) {
        (self.write_clock_rises(pins), self.read_clock_rises(pins))
    }

    fn method(&self) -> Method {
        self.offsets.method
    }

    fn fell_clean(&self, pins: Pins) -> bool {
        self.fall.clean(pins)
    }

    fn may_retransmit(&self) -> bool {
        (1..=most_for_retransmit(self.part, self.mode)).contains(&self.written())
    }

    fn retransmit_seen(&self) -> bool {
        Model::retransmit_seen(self)
    }
}

/// Every number whose condition holds, in the order of the table, each looked at by itself.
pub fn conditions(judged: &impl Judged, pins: Pins) -> impl Iterator<Item = u32> {
    let running = !pins.in_reset();
    let (wclk, rclk) = judged.rises(pins);
    let (write_rise, read_rise) = (running && wclk, running && rclk);
    let retransmit = read_rise && !pins.rt;
    let held = [
        (5, !judged.started() && pins.mrs),
        (6, (write_rise || read_rise) && !pins.ld && pins.enables_low() > 1),
        (7, write_rise && !pins.ld && wrong_method(judged.method(), pins)),
        (8, retransmit && !(pins.ren && pins.wen && judged.fell_clean(pins))),
        (9, retransmit && !judged.may_retransmit()),
        (10, write_rise && pins.ld && !pins.wen && !judged.retransmit_seen()),
        (12, pins.unsettled && data_asked(judged, pins)),
    ];
    held.into_iter().filter(|&(_, holds)| holds).map(|(number, _)| number)
}

pub fn refusal(judged: &impl Judged, pins: Pins) -> Option<u32> {
    conditions(judged, pins).next()
}

/// Whether a write or a parallel load is asked, either of which takes D.
pub fn data_asked(judged: &impl Judged, pins: Pins) -> bool {
    let (wclk, _) = judged.rises(pins);
    !pins.in_reset() && wclk && !pins.wen
}

fn wrong_method(method: Method, pins: Pins) -> bool {
    match method {
        Method::Serial => !pins.wen,
        Method::Parallel => !pins.sen,
    }
}

/// The most words since the reset that a retransmit allows: the D - 2 of number 9.
pub fn most_for_retransmit(part: Part, mode: Mode) -> u64 {
    match mode {
        Mode::Standard => part.depth - 2,
        Mode::FallThrough => part.depth - 1,
    }
}
