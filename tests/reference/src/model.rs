//! One part, sample by sample.

mod clocks;

use crate::fall::Fall;
use crate::history::{second_stage, History};
use crate::offsets::Offsets;
use crate::part::Part;
use crate::pins::Pins;
use crate::refusals::refusal;

#[derive(Clone, Copy, PartialEq, Eq, Debug)]
pub enum Mode {
    Standard,
    FallThrough,
}

#[derive(Clone, Copy, PartialEq, Eq, Debug)]
pub enum Outcome {
    Taken(u32),
    Refused(u32),
}

#[derive(Clone, Debug)]
pub struct Model {
    pub part: Part,
    pub mode: Mode,
    pub offsets: Offsets,
    pub writes: History,
    pub reads: History,
    /// The number of the RCLK rise with the last retransmit since the reset, 0 for none.
    pub retransmit: u64,
    pub output: u32,
    /// FWFT: the output register holds a word that no read has taken.
    pub untaken: bool,
    pub wclk: bool,
    pub rclk: bool,
    pub fall: Fall,
    started: bool,
    accepted_samples: u64,
}

impl Model {
    pub fn power_up(part: Part) -> Model {
        Model {
            part,
            mode: Mode::Standard,
            offsets: Offsets::after_master_reset(false),
            writes: History::new(true),
            reads: History::new(false),
            retransmit: 0,
            output: 0,
            untaken: false,
            wclk: true,
            rclk: true,
            fall: Fall::power_up(),
            started: false,
            accepted_samples: 0,
        }
    }

    pub fn sample(&mut self, record: u32, memory: &mut [u32]) -> Outcome {
        let pins = Pins::of(record);
        match refusal(self, pins) {
            Some(number) => Outcome::Refused(number),
            None => Outcome::Taken(self.take(pins, memory)),
        }
    }

    /// The answer to a sample that nothing turns away.
    pub fn take(&mut self, pins: Pins, memory: &mut [u32]) -> u32 {
        self.accepted_samples += 1;
        if pins.in_reset() {
            self.reset(pins);
        } else {
            self.run_clocks(pins, memory);
        }
        (self.wclk, self.rclk) = (pins.wclk, pins.rclk);
        self.fall.see(pins);
        self.answer(pins)
    }

    pub fn started(&self) -> bool {
        self.started
    }

    pub fn write_clock_rises(&self, pins: Pins) -> bool {
        !self.wclk && pins.wclk
    }

    pub fn read_clock_rises(&self, pins: Pins) -> bool {
        !self.rclk && pins.rclk
    }

    /// Words accepted since the reset, which is the write count.
    pub fn written(&self) -> u64 {
        self.writes.latest().count
    }

    pub fn read_count(&self) -> u64 {
        self.reads.latest().count
    }

    pub fn held(&self) -> u64 {
        self.written() - self.read_count()
    }

    /// The room taken, as the write side sees it.
    pub fn held_for_writer(&self) -> u64 {
        self.written() - second_stage(&self.writes, &self.reads).count
    }

    /// The words to be had, as the read side sees them.
    pub fn held_for_reader(&self) -> u64 {
        second_stage(&self.reads, &self.writes).count - self.read_count()
    }

    pub fn full(&self) -> bool {
        self.held_for_writer() == self.part.depth
    }

    /// RCLK rises after the last retransmit; none where there was no retransmit.
    pub fn rises_since_retransmit(&self) -> Option<u64> {
        (self.retransmit > 0).then(|| self.reads.latest().number - self.retransmit)
    }

    fn waits(&self, rises: u64) -> bool {
        self.rises_since_retransmit().is_some_and(|since| since < rises)
    }

    /// EF HIGH, or OR LOW.
    pub fn ready(&self) -> bool {
        match self.mode {
            Mode::Standard => !self.waits(2) && self.held_for_reader() > 0,
            Mode::FallThrough => self.untaken,
        }
    }

    /// What Q shows where it is driven: an offset, or the output register.
    pub fn shown(&self) -> u32 {
        self.offsets.shown.map_or(self.output, |offset| offset as u32)
    }

    /// The rise after the first that took a count from after the retransmit has come exactly when the second stage is
    /// from after it.
    pub fn retransmit_seen(&self) -> bool {
        second_stage(&self.writes, &self.reads).number >= self.retransmit
    }

    fn reset(&mut self, pins: Pins) {
        if !pins.mrs {
            self.started = true;
            self.mode = if pins.fwft_si { Mode::FallThrough } else { Mode::Standard };
            self.offsets = Offsets::after_master_reset(pins.ld);
        }
        self.offsets.shown = None;
        self.writes.clear();
        self.reads.clear();
        self.retransmit = 0;
        self.output = 0;
        self.untaken = false;
    }

    fn answer(&self, pins: Pins) -> u32 {
        let fall_through = self.mode == Mode::FallThrough;
        let flags = [
            self.full() == fall_through,
            self.ready() != fall_through,
            self.held() <= self.part.depth / 2,
            self.reads.latest().almost,
            self.writes.latest().almost,
        ];
        pins.answer(flags, self.shown())
    }
}
