//! What the rises of one sample do: "The two sides", "Retransmit", "Offsets".

use super::{Mode, Model};
use crate::history::Rise;
use crate::pins::{Pins, WORD};

impl Model {
    /// The read side goes first, so that it finds the memory and the offsets of before the sample; the write side takes
    /// nothing from the read side that is not looked up by its sample.
    pub(super) fn run_clocks(&mut self, pins: Pins, memory: &mut [u32]) {
        let (n, m) = (self.offsets.n, self.offsets.m);
        let (write_rise, read_rise) = (self.write_clock_rises(pins), self.read_clock_rises(pins));
        if read_rise {
            self.show_offset(pins);
            self.read_clock(pins, n, memory);
        }
        if write_rise {
            self.write_clock(pins, m, memory);
            self.load_offset(pins);
        }
    }

    fn load_offset(&mut self, pins: Pins) {
        if !pins.ld && !pins.wen {
            self.offsets.load(self.part, pins.data);
        }
        if !pins.ld && !pins.sen {
            self.offsets.load_bit(self.part, pins.fwft_si);
        }
    }

    fn show_offset(&mut self, pins: Pins) {
        if pins.ld {
            self.offsets.shown = None;
        } else if !pins.ren {
            self.offsets.shown = Some(self.offsets.next_reading());
        }
    }

    fn write_clock(&mut self, pins: Pins, m: u64, memory: &mut [u32]) {
        let before = self.writes.latest();
        let accepted = pins.ld && !pins.wen && !self.full();
        if accepted {
            memory[self.part.place(before.count)] = pins.data;
        }
        let rise = Rise {
            number: before.number + 1,
            sample: self.accepted_samples,
            skew_met: pins.write_skew_met,
            count: before.count + u64::from(accepted),
            almost: before.almost,
        };
        self.writes.push(rise, &self.reads);
        let almost_full = self.held_for_writer() >= self.part.depth - m;
        self.writes.set_almost(!almost_full);
    }

    fn read_clock(&mut self, pins: Pins, n: u64, memory: &[u32]) {
        let before = self.reads.latest();
        let delivered = self.delivers(pins);
        if delivered {
            self.output = memory[self.part.place(before.count)] & WORD;
        }
        let rise = Rise {
            number: before.number + 1,
            sample: self.accepted_samples,
            skew_met: pins.read_skew_met,
            count: if pins.rt { before.count + u64::from(delivered) } else { 0 },
            almost: before.almost,
        };
        self.untaken = delivered || self.untaken && pins.rt && !self.takes(pins);
        self.reads.push(rise, &self.writes);
        if !pins.rt {
            self.retransmit = rise.number;
        }
        if !self.waits(2) {
            self.reads.set_almost(self.held_for_reader() > n);
        }
    }

    fn takes(&self, pins: Pins) -> bool {
        pins.ld && !pins.ren && pins.rt && self.ready()
    }

    /// Whether the coming rise brings a word to the output register. In FWFT it is the third after a retransmit when two
    /// are behind.
    fn delivers(&self, pins: Pins) -> bool {
        match self.mode {
            Mode::Standard => self.takes(pins),
            Mode::FallThrough => {
                let room = !self.untaken || self.takes(pins);
                pins.rt && room && !self.waits(2) && self.held_for_reader() > 0
            }
        }
    }
}
