//! "Offsets".

use super::Event;
use crate::corners::{Corner, Corners};

impl Corners {
    pub(super) fn loading(&mut self, event: &Event) {
        let (pins, after) = (event.pins, event.after);
        let loads = after.offsets.loads;
        let loaded = loads > event.before.offsets.loads;
        self.note(after, Corner::ParallelFirst, loaded && loads == 1);
        self.note(after, Corner::ParallelSecond, loaded && loads == 2);
        self.note(after, Corner::ParallelThird, loaded && loads == 3);
        self.note(after, Corner::ParallelHighBits, loaded && pins.data >> after.part.offset_bits > 0);
        let started = !event.before.offsets.serial.is_empty();
        self.note(after, Corner::SerialComplete, started && after.offsets.serial.is_empty());
        self.note(after, Corner::SerialBroken, started && pins.ld);
    }

    pub(super) fn showing(&mut self, event: &Event) {
        let (before, pins, after) = (event.before, event.pins, event.after);
        let readings = after.offsets.readings;
        let read = readings > before.offsets.readings;
        self.note(after, Corner::ShowsFirst, read && readings % 2 == 1);
        self.note(after, Corner::ShowsSecond, read && readings % 2 == 0);
        self.note(after, Corner::SerialRead, read && !after.offsets.serial.is_empty());
        self.note(after, Corner::ShownKept, before.offsets.shown.is_some() && !pins.ld && pins.ren);
        self.note(after, Corner::ShownEnded, before.offsets.shown.is_some() && pins.ld);
        let register = if readings % 2 == 1 { after.offsets.n } else { after.offsets.m };
        self.note(after, Corner::ShownStale, after.offsets.shown.is_some_and(|shown| shown != register));
    }
}
