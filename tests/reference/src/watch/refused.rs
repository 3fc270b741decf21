//! "What is turned away".

use crate::corners::{Corner, Corners};
use crate::history::first_stage;
use crate::model::Model;
use crate::offsets::Method;
use crate::pins::Pins;
use crate::refusals::{conditions, most_for_retransmit};

use super::WIDTH;

impl Corners {
    pub(super) fn refused(&mut self, model: &Model, pins: Pins, number: u32) {
        let write_rise = model.write_clock_rises(pins);
        let read_rise = model.read_clock_rises(pins);
        let words = model.written();
        self.reasons(model, pins);
        match number {
            5 => {
                self.note(model, Corner::RefusedBeforeReset, pins.prs);
                self.note(model, Corner::RefusedBeforePartial, !pins.prs);
                self.note(model, Corner::RefusedBeforeUnsettled, pins.unsettled);
            }
            6 => {
                self.note(model, Corner::RefusedWriteRise, write_rise && !read_rise);
                self.note(model, Corner::RefusedReadRise, read_rise && !write_rise);
                self.note(model, Corner::RefusedThree, pins.enables_low() == 3);
            }
            7 => {
                self.note(model, Corner::RefusedSerial, model.offsets.method == Method::Serial);
                self.note(model, Corner::RefusedParallel, model.offsets.method == Method::Parallel);
            }
            8 => {
                self.note(model, Corner::RefusedRetransmitRead, !pins.ren);
                self.note(model, Corner::RefusedRetransmitWrite, !pins.wen);
                self.note(model, Corner::RefusedRetransmitLoad, !pins.ld);
            }
            9 => {
                let allowed = 1..=most_for_retransmit(model.part, model.mode);
                self.note(model, Corner::RefusedNothing, words == 0);
                self.note(model, Corner::RefusedOneMore, words == allowed.end() + 1);
                self.note(model, Corner::RefusedPassed, words > WIDTH && allowed.contains(&(words % WIDTH)));
            }
            10 => {
                let crossed = first_stage(&model.writes, &model.reads).number >= model.retransmit;
                self.note(model, Corner::RefusedUnseenFirst, !crossed);
                self.note(model, Corner::RefusedUnseenSecond, crossed);
            }
            _ => {
                let n_next = model.offsets.loads.is_multiple_of(2);
                self.note(model, Corner::RefusedUnsettledWrite, pins.ld);
                self.note(model, Corner::RefusedUnsettledFull, pins.ld && model.full());
                self.note(model, Corner::RefusedUnsettledRead, pins.ld && read_rise && !pins.ren && model.ready());
                self.note(model, Corner::RefusedUnsettledFirst, !pins.ld && n_next);
                self.note(model, Corner::RefusedUnsettledSecond, !pins.ld && !n_next);
            }
        }
    }

    /// Samples for which two numbers hold, so that the order decides.
    fn reasons(&mut self, model: &Model, pins: Pins) {
        let held: Vec<u32> = conditions(model, pins).collect();
        let pairs = [
            (6, 7, Corner::ReasonsLoad),
            (6, 8, Corner::ReasonsLoadRetransmit),
            (7, 8, Corner::ReasonsMethodRetransmit),
            (7, 9, Corner::ReasonsMethodWords),
            (8, 9, Corner::ReasonsRetransmitWords),
            (8, 10, Corner::ReasonsRetransmitUnseen),
            (6, 12, Corner::ReasonsLoadUnsettled),
            (7, 12, Corner::ReasonsMethodUnsettled),
            (8, 12, Corner::ReasonsRetransmitUnsettled),
            (10, 12, Corner::ReasonsUnseenUnsettled),
        ];
        for (first, second, corner) in pairs {
            self.note(model, corner, held[0] == first && held[1..].contains(&second));
        }
        if pins.ren && pins.wen {
            self.note(model, Corner::ReasonsMethodFall, held[0] == 7 && held[1..].contains(&8));
            self.note(model, Corner::ReasonsFallWords, held[0] == 8 && held[1..].contains(&9));
        }
    }
}
