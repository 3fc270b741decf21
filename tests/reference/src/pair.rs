//! Two parts side by side on shared clocks: paper 02, order 1.

pub mod onlooker;
mod traced;
pub mod traffic;
mod watch;

use crate::model::{Mode, Model};
use crate::part::Part;
use crate::pins::Pins;
use crate::refusals;

/// The left part, then the right one.
pub struct Pair {
    pub halves: [Model; 2],
    memories: [Vec<u32>; 2],
}

impl Pair {
    pub fn power_up(part: Part) -> Pair {
        Pair {
            halves: [(); 2].map(|()| Model::power_up(part)),
            memories: [(); 2].map(|()| vec![0; part.depth as usize]),
        }
    }

    /// Both parts were reset by the same pins.
    pub fn mode(&self) -> Mode {
        self.halves[0].mode
    }

    /// Both answers, or the number under which neither part takes the sample.
    pub fn sample(&mut self, records: [u32; 2]) -> Result<[u32; 2], u32> {
        let pins = records.map(Pins::of);
        match self.refusal(pins) {
            Some(number) => Err(number),
            None => Ok([0, 1].map(|half| self.halves[half].take(pins[half], &mut self.memories[half]))),
        }
    }

    /// Every number whose condition holds, in the order in which they are judged: on the pair as a whole, then on the left
    /// part, then on the right one.
    pub fn conditions(&self, pins: [Pins; 2]) -> impl Iterator<Item = u32> + '_ {
        let [left, right] = pins.map(Pins::shared);
        let apart = (left != right).then_some(11);
        let own = self.halves.iter().zip(pins).flat_map(|(half, pins)| refusals::conditions(half, pins));
        apart.into_iter().chain(own)
    }

    pub fn refusal(&self, pins: [Pins; 2]) -> Option<u32> {
        self.conditions(pins).next()
    }
}

/// The levels of FF/IR and EF/OR in an answer.
pub fn levels(answer: u32) -> [bool; 2] {
    [23, 22].map(|bit| answer >> bit & 1 == 1)
}

/// The levels of both flags for the pair: in Standard HIGH only if both are, in FWFT LOW only if both are.
pub fn composite(mode: Mode, answers: [u32; 2]) -> [bool; 2] {
    let [left, right] = answers.map(levels);
    [0, 1].map(|flag| match mode {
        Mode::Standard => left[flag] && right[flag],
        Mode::FallThrough => left[flag] || right[flag],
    })
}
