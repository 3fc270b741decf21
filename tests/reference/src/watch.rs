//! Which corners a sample comes through, told from the model before and after it.

mod falls;
mod offsets;
mod refused;
mod resets;
mod retransmits;
mod unsettled;

pub use falls::Falls;

use crate::corners::{Corner, Corners};
use crate::history::{looks_past, taken_across, History};
use crate::model::{Model, Outcome};
use crate::pins::Pins;

const WIDTH: u64 = 65_536;

/// One accepted sample with both clocks free to act.
struct Event<'a> {
    before: &'a Model,
    pins: Pins,
    after: &'a Model,
    write_rise: bool,
    read_rise: bool,
}

impl Corners {
    /// Gives the sample to the model and notes the corners.
    pub fn watch(&mut self, model: &mut Model, record: u32, memory: &mut [u32]) -> Outcome {
        let before = model.clone();
        let pins = Pins::of(record);
        let outcome = model.sample(record, memory);
        self.samples += 1;
        let rises = before.write_clock_rises(pins) || before.read_clock_rises(pins);
        if let Outcome::Refused(number) = outcome {
            self.refused(&before, pins, number);
            self.refused_by_fall(&before, pins, number);
            self.refused_rise = rises;
            self.refused_unsettled = (number == 12).then_some(pins);
            return outcome;
        }
        self.note(model, Corner::RefusedThenTaken, self.refused_rise && rises && !pins.in_reset());
        self.refused_rise = false;
        self.unsettled(&before, pins, model);
        self.taken_by_fall(&before, pins, model);
        if pins.in_reset() {
            self.reset(&before, pins, model);
        } else {
            self.event(&before, pins, model);
        }
        outcome
    }

    fn event(&mut self, before: &Model, pins: Pins, after: &Model) {
        let (write_rise, read_rise) = (before.write_clock_rises(pins), before.read_clock_rises(pins));
        let event = Event { before, pins, after, write_rise, read_rise };
        self.note(after, Corner::Coincident, write_rise && read_rise);
        if write_rise {
            self.crossing(&event, &after.writes, &after.reads, [Corner::WriteSkewMissed, Corner::WriteMarkIgnored]);
            self.write_side(&event);
            self.loading(&event);
        }
        if read_rise {
            self.crossing(&event, &after.reads, &after.writes, [Corner::ReadSkewMissed, Corner::ReadMarkIgnored]);
            self.read_side(&event);
            self.showing(&event);
            self.after_retransmit(&event);
        }
        if read_rise && !pins.rt {
            self.retransmit(&event);
        }
        self.flags(&event);
    }

    fn crossing(&mut self, event: &Event, own: &History, other: &History, corners: [Corner; 2]) {
        let model = event.after;
        let latest = own.latest();
        let past = looks_past(own, latest.number, other);
        let together = event.write_rise && event.read_rise;
        let own_last = own.numbered(latest.number - 1);
        self.note(model, corners[0], past);
        self.note(model, corners[1], !latest.skew_met && !past);
        self.note(model, Corner::MissedInCoincident, together && past);
        let theirs = other.latest_before(latest.sample);
        self.note(model, Corner::MissedAfterCoincident, past && theirs.sample == own_last.sample);
    }

    fn write_side(&mut self, event: &Event) {
        let (before, pins, after) = (event.before, event.pins, event.after);
        let asked = pins.ld && !pins.wen;
        let accepted = after.written() > before.written();
        let read_asked = event.read_rise && !pins.ren;
        self.note(after, Corner::BothAct, accepted && after.read_count() > before.read_count());
        self.note(after, Corner::Full, after.full());
        self.note(after, Corner::WriteAtFull, before.full() && asked);
        self.note(after, Corner::BothAskedAtFull, before.full() && asked && read_asked);
        self.note(after, Corner::FullLeft, before.full() && !after.full());
        self.note(after, Corner::FullByMissedSkew, after.full() && missed_a_move(&after.writes, &after.reads));
        self.note(after, Corner::RoundMemory, accepted && after.written() > after.part.depth);
        self.note(after, Corner::WriteCountPassed, after.written() > WIDTH);
        self.note(after, Corner::WriteOnceSeen, self.just_seen && accepted);
        self.just_seen = !before.retransmit_seen() && after.retransmit_seen();
        let limit = after.part.depth - before.offsets.m;
        let half = after.part.depth / 2;
        self.note(after, Corner::AlmostFullAt, after.held_for_writer() == limit);
        self.note(after, Corner::AlmostFullToHalf, (limit..=half).contains(&after.held_for_writer()));
        self.note(after, Corner::AlmostFullBelow, after.held_for_writer() + 1 == limit);
        let past = looks_past(&after.writes, after.writes.latest().number, &after.reads);
        let passed = after.reads.latest_before(after.writes.latest().sample).number;
        let unseen = before.retransmit > 0 && !before.retransmit_seen();
        self.note(after, Corner::RetransmitLookedPast, past && unseen && passed == before.retransmit);
        self.note(after, Corner::RetransmitLookedAfter, past && unseen && passed > before.retransmit);
    }

    fn read_side(&mut self, event: &Event) {
        let (before, pins, after) = (event.before, event.pins, event.after);
        let asked = pins.ld && !pins.ren;
        let missed = after.held_for_reader() == 0 && missed_a_move(&after.reads, &after.writes);
        self.note(after, Corner::ReadAtEmpty, asked && !before.ready());
        self.note(after, Corner::EmptyByMissedSkew, missed);
        self.note(after, Corner::ReadAsReady, asked && !before.ready() && after.ready());
        self.note(after, Corner::ReadCountPassed, after.read_count() > WIDTH);
        if after.rises_since_retransmit().is_none_or(|since| since >= 2) {
            self.note(after, Corner::AlmostEmptyAt, after.held_for_reader() == before.offsets.n);
            self.note(after, Corner::AlmostEmptyAbove, after.held_for_reader() == before.offsets.n + 1);
        }
    }

    fn flags(&mut self, event: &Event) {
        let (before, after) = (event.before, event.after);
        let (pae, paf) = (after.reads.latest().almost, after.writes.latest().almost);
        let (n, m) = (after.offsets.n, after.offsets.m);
        let pae_now = after.held_for_reader() > n;
        let paf_now = after.held_for_writer() < after.part.depth - m;
        let half = after.part.depth / 2;
        self.note(after, Corner::HalfExactly, after.held() == half);
        self.note(after, Corner::HalfPassed, after.held() == half + 1);
        self.note(after, Corner::HalfPassedToEmptyOffset, (half + 1..=n).contains(&after.held()));
        self.note(after, Corner::AlmostBoth, !pae && !paf);
        self.note(after, Corner::Undriven, event.pins.oe && after.output != 0);
        let waits = after.rises_since_retransmit().is_some_and(|since| since < 2);
        self.note(after, Corner::RetransmitKeepsHigh, waits && pae && !pae_now);
        self.note(after, Corner::RetransmitKeepsLow, waits && !pae && pae_now);
        let settled = !waits && after.reads.latest().number > 0;
        self.note(after, Corner::AlmostEmptyKept, settled && !event.read_rise && pae != pae_now);
        self.note(after, Corner::AlmostFullKept, !event.write_rise && paf != paf_now);
        let replaced = settled && event.read_rise && before.offsets.n != n;
        self.note(after, Corner::AlmostEmptyOldOffset, replaced && pae != pae_now);
        self.note(after, Corner::AlmostFullOldOffset, before.offsets.m != m && paf != paf_now);
    }
}

/// Whether the second stage would stand elsewhere, had its skew been met.
fn missed_a_move(own: &History, other: &History) -> bool {
    let latest = own.latest().number;
    if latest < 2 {
        return false;
    }
    let met = other.latest_before(own.numbered(latest - 1).sample);
    met.count != taken_across(own, latest - 1, other).count
}
