//! "Retransmit".

use super::Event;
use crate::corners::{Corner, Corners};
use crate::refusals::most_for_retransmit;

impl Corners {
    pub(super) fn retransmit(&mut self, event: &Event) {
        let (before, pins, after) = (event.before, event.pins, event.after);
        self.note(after, Corner::Retransmit, true);
        self.note(after, Corner::RetransmitOneWord, before.written() == 1);
        self.note(
            after,
            Corner::RetransmitMostWords,
            before.written() == most_for_retransmit(before.part, before.mode),
        );
        self.note(after, Corner::RetransmitNothingRead, before.read_count() == 0);
        self.note(after, Corner::RetransmitUnseen, !before.retransmit_seen());
        self.note(after, Corner::RetransmitCoincident, event.write_rise);
        self.note(after, Corner::RetransmitUnderLoad, !pins.ld);
        let again = [
            Corner::RetransmitAtFirst,
            Corner::RetransmitAtSecond,
            Corner::RetransmitAtThird,
            Corner::RetransmitAtFourth,
        ];
        for (since, corner) in (0..).zip(again) {
            self.note(after, corner, before.rises_since_retransmit() == Some(since));
        }
    }

    pub(super) fn after_retransmit(&mut self, event: &Event) {
        let (before, pins, after) = (event.before, event.pins, event.after);
        let since = after.rises_since_retransmit();
        let asked = pins.ld && !pins.ren;
        let delivered = after.read_count() > before.read_count();
        self.note(after, Corner::ReadInSetup, asked && matches!(since, Some(1 | 2)));
        self.note(after, Corner::ReadySecond, since == Some(2) && after.ready());
        self.note(after, Corner::DeliveredThird, since == Some(3) && delivered);
        self.note(after, Corner::DeliveredHidden, delivered && after.offsets.shown.is_some());
    }
}
