//! Two to eight parts in a row in First Word Fall Through, data outputs to data inputs: paper 02, order 4.

pub mod onlooker;
pub mod record;
mod traced;
pub mod traffic;
mod watch;

use std::ops::RangeInclusive;

use crate::model::Model;
use crate::part::Part;
use crate::pins::{Pins, WORD};
use crate::refusals;

use record::{Record, MOST};

/// How many parts there may be.
pub const LENGTHS: RangeInclusive<usize> = 2..=MOST;

/// What the answer has of the first part: IR and PAF.
const OF_THE_FIRST: u32 = 1 << 23 | 1 << 19;

/// From the part that takes the record's D to the one whose Q is seen.
#[derive(Clone)]
pub struct Chain {
    pub parts: Vec<Model>,
    memories: Vec<Vec<u32>>,
}

impl Chain {
    pub fn power_up(part: Part, length: usize) -> Chain {
        Chain { parts: vec![Model::power_up(part); length], memories: vec![vec![0; part.depth as usize]; length] }
    }

    pub fn first(&self) -> &Model {
        &self.parts[0]
    }

    pub fn last(&self) -> &Model {
        &self.parts[self.parts.len() - 1]
    }

    /// Whether every part has had a Master Reset.
    pub fn started(&self) -> bool {
        self.parts.iter().all(Model::started)
    }

    /// The answer, or the number under which no part takes the sample.
    pub fn sample(&mut self, record: Record) -> Result<u32, u32> {
        let wired = self.wired(record);
        match self.conditions(record, &wired).first() {
            Some(&number) => Err(number),
            None => Ok(self.take(&wired)),
        }
    }

    fn take(&mut self, wired: &[Pins]) -> u32 {
        let parts = self.parts.iter_mut().zip(&mut self.memories).zip(wired);
        let answers: Vec<u32> = parts.map(|((part, memory), &pins)| part.take(pins, memory)).collect();
        answers[0] & OF_THE_FIRST | answers[answers.len() - 1] & !OF_THE_FIRST
    }

    /// The pins of each part, by what its neighbours show before the sample.
    pub fn wired(&self, record: Record) -> Vec<Pins> {
        (0..self.parts.len()).map(|place| self.wired_to(place, record)).collect()
    }

    fn wired_to(&self, place: usize, record: Record) -> Pins {
        let mut pins = record.pins;
        (pins.write_skew_met, pins.read_skew_met) = (record.write_skew_met(place), record.read_skew_met(place));
        if let Some(before) = place.checked_sub(1) {
            let earlier = &self.parts[before];
            (pins.wclk, pins.wen) = (record.transfer, !earlier.ready());
            (pins.data, pins.unsettled) = (earlier.shown(), false);
        }
        if let Some(later) = self.parts.get(place + 1) {
            (pins.rclk, pins.ren) = (record.transfer, later.full());
            pins.oe = false;
        }
        pins
    }

    /// Every number whose condition holds, in the order in which they are judged: on the chain as a whole, then those of all
    /// parts by number.
    pub fn conditions(&self, record: Record, wired: &[Pins]) -> Vec<u32> {
        let pins = record.pins;
        let whole = [(4, record.spare != 0), (5, pins.mrs && !self.started()), (14, beyond_chains(pins))];
        let parts = self.parts.iter().zip(wired);
        let mut own: Vec<u32> = parts.flat_map(|(part, &pins)| refusals::conditions(part, pins)).collect();
        own.retain(|&number| number > 5);
        own.sort();
        let whole = whole.into_iter().filter(|&(_, holds)| holds).map(|(number, _)| number);
        whole.chain(own).collect()
    }

    /// The words that the first part has accepted and none has taken from the last one, the oldest first: of each part the
    /// untaken output word, if there is one, and the memory from the read place on.
    pub fn under_way(&self) -> impl Iterator<Item = u32> + '_ {
        let parts = self.parts.iter().zip(&self.memories).rev();
        parts.flat_map(|(part, memory)| {
            let held = (part.read_count()..part.written()).map(|count| memory[part.part.place(count)] & WORD);
            part.untaken.then_some(part.output).into_iter().chain(held)
        })
    }
}

/// Whether the pins want what parts in a row do not do: a retransmit or offsets outside reset, Standard mode by a Master Reset.
fn beyond_chains(pins: Pins) -> bool {
    if pins.in_reset() {
        !pins.mrs && !pins.fwft_si
    } else {
        !pins.rt || !pins.ld
    }
}
