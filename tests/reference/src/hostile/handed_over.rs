//! Number 3 on states that one part has reached and that are handed in as the other part's: what is wanted is told from the
//! history that led there.

use std::io::Result;

use super::Hostile;
use crate::corners::Corner;
use crate::generator::{Generator, Plan};
use crate::history::{first_stage, second_stage};
use crate::library::{Call, Reply};
use crate::model::{Mode, Model, Outcome};
use crate::part::{Part, PARTS};
use crate::random::Random;
use crate::scenes::Scene;
use crate::trace::Step;

impl Hostile<'_> {
    /// The deeper part where its states begin to be too much for the other.
    fn life_at_brink(&mut self, first: Scene, stride: usize, at_brink: fn(&Model, Part) -> bool) -> Result<()> {
        let [other, part] = PARTS;
        let plan = Plan { mode: Mode::Standard, spoiled: 0, far: true, first };
        let mut generator = Generator::new(plan, Random::new(self.random.draw()));
        let mut model = Model::power_up(part);
        let mut other_memory = self.fresh(other)?;
        let mut memory = self.fresh(part)?;
        for _ in 0..300 {
            let near = at_brink(&model, other);
            if near {
                self.library.save_state()?;
                self.hand_over(&model, other, generator.next(&model), &mut other_memory)?;
            }
            self.right_calls(if near { 1 } else { stride }, &mut generator, &mut model, &mut memory)?;
        }
        Ok(())
    }

    pub(super) fn brinks(&mut self) -> Result<()> {
        let depth = PARTS[0].depth;
        self.life_at_brink(Scene::Hover { held: depth }, 1_000, |model, other| model.held() + 2 >= other.depth)?;
        self.life_at_brink(Scene::Loading { n: 3, m: 5 }, 1, |model, other| {
            model.offsets.serial.len() as u32 + 1 >= other.serial_bits()
        })?;
        self.life_at_brink(Scene::Loading { n: depth, m: depth - 1 }, 1, |model, _| model.offsets.shown.is_some())
    }

    fn right_calls(
        &mut self,
        calls: usize,
        generator: &mut Generator,
        model: &mut Model,
        memory: &mut [u32],
    ) -> Result<()> {
        let (mut steps, mut outcomes) = (Vec::new(), Vec::new());
        for _ in 0..calls {
            let record = generator.next(model);
            steps.push(Step::Record(record));
            outcomes.push(model.sample(record, memory));
        }
        let difference = self.library.compare_piece(&steps, &outcomes)?;
        self.judge(difference.is_none(), || format!("on the way to a brink: {difference:X?}"));
        Ok(())
    }

    /// The saved state given to the other part, and put back.
    pub(super) fn hand_over(&mut self, model: &Model, other: Part, record: u32, memory: &mut [u32]) -> Result<()> {
        let expected = Reply::told(sampled(model, other, record, memory));
        self.expect(&[(Call::right(other, record), expected)], "as the other part")?;
        self.library.restore_state()?;
        match reasons(model, other).as_slice() {
            [] if expected.number == 0 => self.corners.note_input(Corner::OtherPartTaken),
            [reason] => self.corners.note_input(*reason),
            several if several.contains(&Corner::OtherShown) => self.corners.note_input(Corner::OtherShown),
            several if several.contains(&Corner::OtherReadCount) => self.corners.note_input(Corner::OtherReadCount),
            _ => (),
        }
        Ok(())
    }
}

/// Every reason for which the state is none of that part's.
fn reasons(model: &Model, part: Part) -> Vec<Corner> {
    let offsets = &model.offsets;
    let too_wide = |offset: u64| offset >> part.offset_bits > 0;
    let stages = [
        first_stage(&model.writes, &model.reads),
        second_stage(&model.writes, &model.reads),
        first_stage(&model.reads, &model.writes),
        second_stage(&model.reads, &model.writes),
    ];
    let held = [
        (Corner::OtherOffset, too_wide(offsets.n) || too_wide(offsets.m)),
        (Corner::OtherShown, offsets.shown.is_some_and(too_wide)),
        (Corner::OtherSerial, offsets.serial.len() as u32 >= part.serial_bits()),
        (Corner::OtherReadCount, model.held() > part.depth),
        (Corner::OtherStage, stages.iter().any(|stage| model.written() - stage.count > part.depth)),
    ];
    held.into_iter().filter(|&(_, holds)| holds).map(|(reason, _)| reason).collect()
}

/// What the other part says to a record; its memory moves, the model does not.
fn sampled(model: &Model, part: Part, record: u32, memory: &mut [u32]) -> Outcome {
    if !reasons(model, part).is_empty() {
        return Outcome::Refused(3);
    }
    let mut other = model.clone();
    other.part = part;
    other.sample(record, memory)
}
