//! Wrong parts and wrong lengths, at states that were reached, so that the number is known.

use std::io::Result;

use super::Hostile;
use crate::generator::Generator;
use crate::handed::STATE_BYTES;
use crate::library::{Call, Reply};
use crate::model::{Model, Outcome};
use crate::part::PARTS;
use crate::random::Random;

impl Hostile<'_> {
    pub(super) fn lengths_of_power_up(&mut self) -> Result<()> {
        let length = self.wrong_length(STATE_BYTES as u64);
        let told = self.library.power_up_of(length)?;
        self.judge((2, 0) == told, || format!("power-up of {length} bytes gave {told:?}"));
        Ok(())
    }

    pub(super) fn part_numbers(&mut self) -> Result<()> {
        let part = wrong_part(&mut self.random);
        let bytes = self.library.memory_bytes(part)?;
        self.judge(bytes == 0, || format!("memory of part {part} is said to have {bytes} bytes"));
        for part in PARTS {
            let bytes = self.library.memory_bytes(u32::from(part.number))?;
            self.judge(u64::from(bytes) == 4 * part.depth, || format!("{part:?} is said to have {bytes} bytes"));
        }
        Ok(())
    }

    pub(super) fn calls_between(
        &mut self,
        generator: &mut Generator,
        model: &mut Model,
        memory: &mut [u32],
    ) -> Result<()> {
        let mut calls = Vec::new();
        for _ in 0..self.random.below(300) {
            let mut call = Call::right(model.part, generator.next(model));
            let spoiled = self.random.flip().then(|| self.spoil(&mut call));
            let outcome = spoiled.map_or_else(|| model.sample(call.record, memory), Outcome::Refused);
            calls.push((call, Reply::told(outcome)));
        }
        self.expect(&calls, "between right calls")
    }

    /// Makes one or more things wrong, and gives the number that comes of it: the first in the order of the table.
    fn spoil(&mut self, call: &mut Call) -> u32 {
        let wrongs = 1 + self.random.below(31);
        let mut number = 4;
        if wrongs & 1 != 0 {
            call.record_length = self.wrong_length(4);
        }
        for (bit, right) in [(2, call.state_length), (4, call.memory_length), (8, 3)] {
            if wrongs & bit != 0 {
                let wrong = self.wrong_length(right);
                match bit {
                    2 => call.state_length = wrong,
                    4 => call.memory_length = wrong,
                    _ => call.answer_length = wrong,
                }
                number = 2;
            }
        }
        if wrongs & 16 != 0 {
            call.part = wrong_part(&mut self.random);
            number = 1;
        }
        number
    }

    /// Near the right length, far from it, and right but for bits that a narrower number would not hold.
    pub(super) fn wrong_length(&mut self, right: u64) -> u64 {
        let other = PARTS.map(|part| 4 * part.depth);
        let thrown = self.random.below(2 * right);
        let near = [right - 1, right + 1, right / 2, 2 * right, 0, thrown, other[0], other[1]];
        let wide = [right + (1 << 32), right + (1 << 16), right + (1 << 8), right | 1 << 63];
        let from = if self.random.one_in(4) { &wide[..] } else { &near[..] };
        let length = self.random.pick(from);
        if length == right {
            right + 1
        } else {
            length
        }
    }
}

/// Near a part's number, and right but for bits that a narrower number would not hold.
pub fn wrong_part(random: &mut Random) -> u32 {
    let right = u32::from(random.pick(&PARTS).number);
    let high = right | 1 << (9 + random.below(23));
    let thrown = random.bits() | 1 << 10;
    random.pick(&[0, 1, 254, 256, 264, 266, right.swap_bytes(), high, thrown])
}
