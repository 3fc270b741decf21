//! The scope paper on the fields of one state: numbers of 16 bits, and every difference taken round them.

use super::fields::{Enables, Fields, Side};
use crate::model::{Mode, Outcome};
use crate::offsets::Method;
use crate::part::Part;
use crate::pins::{Pins, WORD};
use crate::refusals::{most_for_retransmit, refusal, Judged};

/// A state in the hands of a part.
#[derive(Clone, Copy, Debug)]
pub struct Handed {
    pub part: Part,
    pub fields: Fields,
}

/// How far one count lies behind another.
fn behind(count: u16, earlier: u16) -> u64 {
    u64::from(count.wrapping_sub(earlier))
}

impl Side {
    fn cleared(clock: bool, almost: bool) -> Side {
        Side { clock, count: 0, first: 0, second: 0, before: None, almost }
    }

    /// Whether a rise with that mark looks past the other's latest rise.
    fn looks_past(&self, skew_met: bool) -> bool {
        !skew_met && self.before.is_some()
    }

    fn move_stages(&mut self, skew_met: bool, other: u16) {
        self.second = self.first;
        self.first = if skew_met { other } else { self.before.unwrap_or(other) };
    }

    fn remember(&mut self, own_rise: bool, other: Option<u16>) {
        self.before = other.or(self.before.filter(|_| !own_rise));
    }
}

impl Enables {
    /// Whether the last fall was clean, once these pins are accepted: one in them, or the one that is remembered.
    fn clean_with(&self, pins: Pins) -> bool {
        if self.rt && !pins.rt {
            self.ren && self.wen && pins.ren && pins.wen
        } else {
            self.clean
        }
    }
}

impl Judged for Handed {
    fn started(&self) -> bool {
        self.fields.started
    }

    fn rises(&self, pins: Pins) -> (bool, bool) {
        (!self.fields.write.clock && pins.wclk, !self.fields.read.clock && pins.rclk)
    }

    fn method(&self) -> Method {
        self.fields.method
    }

    fn fell_clean(&self, pins: Pins) -> bool {
        self.fields.enables.clean_with(pins)
    }

    fn may_retransmit(&self) -> bool {
        let most = most_for_retransmit(self.part, self.fields.mode);
        !self.fields.passed && (1..=most).contains(&u64::from(self.fields.write.count))
    }

    fn retransmit_seen(&self) -> bool {
        self.fields.view == 2
    }
}

impl Handed {
    /// Row 3 of the table, clause by clause.
    pub fn passes(&self) -> bool {
        let Fields { write, read, n, m, shown, output, serial, serial_bits, .. } = self.fields;
        let narrow = |offset: u16| u64::from(offset) < 1 << self.part.offset_bits;
        let near = |count: u16| behind(write.count, count) <= self.part.depth;
        narrow(n)
            && narrow(m)
            && shown.is_none_or(narrow)
            && output <= WORD
            && u32::from(serial_bits) < self.part.serial_bits()
            && serial >> serial_bits == 0
            && near(read.count)
            && [write.first, write.second, read.first, read.second].into_iter().all(near)
            && behind(write.count, read.second) <= behind(write.count, read.count)
    }

    pub fn sample(&mut self, record: u32, memory: &mut [u32]) -> Outcome {
        if self.passes() {
            self.step(record, memory)
        } else {
            Outcome::Refused(3)
        }
    }

    /// A record of a run, which tests 3 at its start and never again.
    pub fn step(&mut self, record: u32, memory: &mut [u32]) -> Outcome {
        let pins = Pins::of(record);
        if let Some(number) = refusal(self, pins) {
            return Outcome::Refused(number);
        }
        if pins.in_reset() {
            self.reset(pins);
        } else {
            self.run_clocks(pins, memory);
        }
        (self.fields.write.clock, self.fields.read.clock) = (pins.wclk, pins.rclk);
        let clean = self.fields.enables.clean_with(pins);
        self.fields.enables = Enables { rt: pins.rt, ren: pins.ren, wen: pins.wen, clean };
        Outcome::Taken(self.answer(pins))
    }

    fn reset(&mut self, pins: Pins) {
        let fields = &mut self.fields;
        if !pins.mrs {
            fields.started = true;
            fields.mode = if pins.fwft_si { Mode::FallThrough } else { Mode::Standard };
            (fields.method, fields.n) = if pins.ld { (Method::Serial, 1_023) } else { (Method::Parallel, 127) };
            fields.m = fields.n;
            (fields.load_m_next, fields.read_m_next) = (false, false);
            (fields.serial, fields.serial_bits) = (0, 0);
        }
        fields.write = Side::cleared(pins.wclk, true);
        fields.read = Side::cleared(pins.rclk, false);
        (fields.passed, fields.view, fields.setup) = (false, 2, 0);
        (fields.untaken, fields.output, fields.shown) = (false, 0, None);
    }

    fn run_clocks(&mut self, pins: Pins, memory: &mut [u32]) {
        let before = *self;
        let (write_rise, read_rise) = self.rises(pins);
        if read_rise {
            self.read_clock(&before.fields, pins, memory);
            self.show_offset(pins);
        }
        if write_rise {
            self.write_clock(&before.fields, pins, memory);
            self.load_offset(pins);
        }
        if read_rise && !pins.rt {
            self.fields.view = 0;
        }
        self.fields.write.remember(write_rise, read_rise.then_some(before.fields.read.count));
        self.fields.read.remember(read_rise, write_rise.then_some(before.fields.write.count));
    }

    fn write_clock(&mut self, before: &Fields, pins: Pins, memory: &mut [u32]) {
        let accepted = pins.ld && !pins.wen && !self.full();
        let fields = &mut self.fields;
        let side = &mut fields.write;
        if accepted {
            memory[self.part.place(u64::from(side.count))] = pins.data;
            fields.passed |= side.count == u16::MAX;
            side.count = side.count.wrapping_add(1);
        }
        // As long as no rise has been counted since the retransmit, the latest rise is the retransmit itself.
        let from_before = side.looks_past(pins.write_skew_met) && before.setup == 2;
        fields.view = if before.view == 0 { u8::from(!from_before) } else { 2 };
        side.move_stages(pins.write_skew_met, before.read.count);
        side.almost = behind(side.count, side.second) < self.part.depth - u64::from(before.m);
    }

    fn read_clock(&mut self, before: &Fields, pins: Pins, memory: &[u32]) {
        let takes = pins.ld && !pins.ren && pins.rt && self.ready();
        let delivers = match before.mode {
            Mode::Standard => takes,
            Mode::FallThrough => {
                let room = !before.untaken || takes;
                pins.rt && room && before.setup == 0 && before.read.second != before.read.count
            }
        };
        let fields = &mut self.fields;
        let side = &mut fields.read;
        if delivers {
            fields.output = memory[self.part.place(u64::from(side.count))] & WORD;
            side.count = side.count.wrapping_add(1);
        }
        fields.untaken = before.mode == Mode::FallThrough && (delivers || before.untaken && pins.rt && !takes);
        fields.setup = before.setup.saturating_sub(1);
        if !pins.rt {
            (side.count, fields.setup) = (0, 2);
        }
        side.move_stages(pins.read_skew_met, before.write.count);
        if fields.setup == 0 {
            side.almost = behind(side.second, side.count) > u64::from(before.n);
        }
    }

    fn load_offset(&mut self, pins: Pins) {
        let fields = &mut self.fields;
        if !pins.ld && !pins.wen {
            let register = if fields.load_m_next { &mut fields.m } else { &mut fields.n };
            *register = self.part.offset(pins.data) as u16;
            fields.load_m_next = !fields.load_m_next;
        }
        if !pins.ld && !pins.sen {
            fields.serial |= u32::from(pins.fwft_si) << fields.serial_bits;
            fields.serial_bits += 1;
            if u32::from(fields.serial_bits) == self.part.serial_bits() {
                fields.n = self.part.offset(fields.serial) as u16;
                fields.m = self.part.offset(fields.serial >> self.part.offset_bits) as u16;
                (fields.serial, fields.serial_bits) = (0, 0);
            }
        }
    }

    fn show_offset(&mut self, pins: Pins) {
        let fields = &mut self.fields;
        if pins.ld {
            fields.shown = None;
        } else if !pins.ren {
            fields.shown = Some(if fields.read_m_next { fields.m } else { fields.n });
            fields.read_m_next = !fields.read_m_next;
        }
    }

    pub fn held(&self) -> u64 {
        behind(self.fields.write.count, self.fields.read.count)
    }

    pub fn held_for_writer(&self) -> u64 {
        behind(self.fields.write.count, self.fields.write.second)
    }

    fn full(&self) -> bool {
        self.held_for_writer() == self.part.depth
    }

    /// EF HIGH, or OR LOW.
    fn ready(&self) -> bool {
        let Fields { mode, setup, untaken, read, .. } = self.fields;
        match mode {
            Mode::Standard => setup == 0 && read.second != read.count,
            Mode::FallThrough => untaken,
        }
    }

    fn answer(&self, pins: Pins) -> u32 {
        let fall_through = self.fields.mode == Mode::FallThrough;
        let flags = [
            self.full() == fall_through,
            self.ready() != fall_through,
            self.held() <= self.part.depth / 2,
            self.fields.read.almost,
            self.fields.write.almost,
        ];
        pins.answer(flags, self.fields.shown.map_or(self.fields.output, u32::from))
    }
}
