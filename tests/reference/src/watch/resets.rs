//! "Resets".

use crate::corners::{Corner, Corners};
use crate::model::Model;
use crate::pins::Pins;

impl Corners {
    pub(super) fn reset(&mut self, before: &Model, pins: Pins, after: &Model) {
        let serial = !before.offsets.serial.is_empty();
        let partial = pins.mrs;
        self.just_seen = false;
        self.note(after, Corner::ResetBoth, !pins.mrs && !pins.prs);
        self.note(after, Corner::ResetPartial, partial && before.held() > 0);
        self.note(after, Corner::ResetMaster, !partial && before.held() > 0);
        self.note(after, Corner::ResetOtherMode, before.started() && before.mode != after.mode);
        self.note(after, Corner::ResetClock, before.write_clock_rises(pins) || before.read_clock_rises(pins));
        self.note(after, Corner::ResetInSetup, before.rises_since_retransmit().is_some_and(|since| since < 2));
        self.note(after, Corner::ResetUnseen, partial && !before.retransmit_seen());
        self.note(after, Corner::SerialMasterReset, !partial && serial);
        self.note(after, Corner::SerialPartialReset, partial && serial);
        self.note(after, Corner::ParallelPartialReset, partial && before.offsets.loads % 2 == 1);
        self.note(after, Corner::ReadingPartialReset, partial && before.offsets.readings % 2 == 1);
        self.note(after, Corner::ShownReset, partial && before.offsets.shown.is_some());
    }
}
