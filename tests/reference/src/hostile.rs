//! Calls that no bench simulator should make: wrong parts, wrong lengths, bytes that spell no state.

mod damaged;
mod handed_over;
mod wrong_calls;

pub use wrong_calls::wrong_part;

use std::io::Result;

use crate::corners::Corners;
use crate::generator::{Generator, Plan};
use crate::handed::STATE_BYTES;
use crate::library::{Call, Library, Numbers, Reply};
use crate::model::{Mode, Model};
use crate::part::{Part, PARTS};
use crate::random::Random;
use crate::scenes::Scene;
use crate::trace::refill;

/// What came of the calls, told at the end.
#[derive(Default)]
pub struct Tally {
    pub calls: u64,
    pub numbers: Numbers,
    /// Damaged states that pass 3, and those that do not.
    pub spelled: u64,
    pub unspelled: u64,
}

pub struct Hostile<'a> {
    library: &'a mut Library,
    random: Random,
    pub tally: Tally,
    pub corners: Corners,
    /// The first wrong reply, in words.
    pub wrong: Option<String>,
}

impl<'a> Hostile<'a> {
    pub fn new(library: &'a mut Library, seed: u64) -> Result<Hostile<'a>> {
        let bytes = library.state_bytes()?;
        let wrong = (bytes as usize != STATE_BYTES).then(|| format!("a state is said to have {bytes} bytes"));
        Ok(Hostile { library, random: Random::new(seed), tally: Tally::default(), corners: Corners::default(), wrong })
    }

    /// At least so many calls.
    pub fn run(&mut self, calls: u64) -> Result<()> {
        for round in 0.. {
            if self.tally.calls >= calls || self.wrong.is_some() {
                break;
            }
            self.lengths_of_power_up()?;
            self.part_numbers()?;
            self.life()?;
            if round % 50 == 0 {
                self.brinks()?;
            }
        }
        Ok(())
    }

    fn judge(&mut self, right: bool, words: impl Fn() -> String) {
        if !right && self.wrong.is_none() {
            self.wrong = Some(words());
        }
    }

    /// A trace from power-up with wrong calls in between, then what becomes of its last state in other hands and when
    /// bytes are changed.
    fn life(&mut self) -> Result<()> {
        let (part, other) = self.random.pick(&[(PARTS[0], PARTS[1]), (PARTS[1], PARTS[0])]);
        let mode = self.random.pick(&[Mode::Standard, Mode::FallThrough]);
        let plan = Plan { mode, spoiled: 4, far: false, first: Scene::Verge { written: 1 } };
        let mut generator = Generator::new(plan, Random::new(self.random.draw()));
        let mut model = Model::power_up(part);
        let mut other_memory = self.fresh(other)?;
        let mut memory = self.fresh(part)?;
        self.calls_between(&mut generator, &mut model, &mut memory)?;
        self.library.save_state()?;
        for _ in 0..8 {
            self.hand_over(&model, other, generator.next(&model), &mut other_memory)?;
        }
        for _ in 0..24 {
            self.damaged_state(&mut generator, &model, &mut memory)?;
            self.library.restore_state()?;
        }
        Ok(())
    }

    /// A part at power-up, and the memory it is given.
    fn fresh(&mut self, part: Part) -> Result<Vec<u32>> {
        let seed = self.random.bits();
        let mut memory = vec![0; part.depth as usize];
        refill(&mut memory, seed);
        self.library.power_up(part, self.random.flip())?;
        self.library.refill(seed)?;
        Ok(memory)
    }

    /// Makes the calls and holds the replies to what is expected.
    fn expect(&mut self, calls: &[(Call, Reply)], words: &str) -> Result<()> {
        let made: Vec<Call> = calls.iter().map(|&(call, _)| call).collect();
        let replies = self.library.watched(&made)?;
        for ((call, expected), reply) in calls.iter().zip(&replies) {
            self.count(reply);
            self.judge(expected == reply, || format!("{words}, {call:X?}: expected {expected:X?}, got {reply:X?}"));
        }
        Ok(())
    }

    fn count(&mut self, reply: &Reply) {
        self.tally.calls += 1;
        *self.tally.numbers.entry(reply.number).or_default() += 1;
    }
}
