//! Unsettled data where it does not matter: paper 02, order 2.

use crate::corners::{Corner, Corners};
use crate::model::Model;
use crate::pins::Pins;

impl Corners {
    /// A sample that was taken.
    pub(super) fn unsettled(&mut self, before: &Model, pins: Pins, after: &Model) {
        let marked = Pins { unsettled: true, ..pins };
        self.note(after, Corner::RefusedThenSettled, self.refused_unsettled == Some(marked));
        self.refused_unsettled = None;
        if marked == pins {
            self.taken_unsettled(before, pins, after);
        }
    }

    fn taken_unsettled(&mut self, before: &Model, pins: Pins, after: &Model) {
        let (write_rise, read_rise) = (before.write_clock_rises(pins), before.read_clock_rises(pins));
        let would_write = write_rise && !pins.wen;
        self.note(after, Corner::UnsettledMasterReset, would_write && !pins.mrs);
        self.note(after, Corner::UnsettledPartialReset, would_write && pins.mrs && !pins.prs);
        if pins.in_reset() {
            return;
        }
        let delivered = after.read_count() > before.read_count();
        self.note(after, Corner::UnsettledSerial, write_rise && !pins.ld && !pins.sen);
        self.note(after, Corner::UnsettledUnasked, write_rise && pins.ld && pins.wen);
        self.note(after, Corner::UnsettledRead, !write_rise && !pins.wen && delivered);
        self.note(after, Corner::UnsettledStill, !write_rise && !read_rise && !pins.wen);
    }
}
