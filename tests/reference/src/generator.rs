//! Makes the records of a trace one by one, with an eye on the model that takes them.

use std::collections::VecDeque;

use crate::model::{Mode, Model};
use crate::pins::Pins;
use crate::random::Random;
use crate::refusals::{data_asked, refusal};
use crate::scenes::{calm, clocks, Pace, Scene, PACES, WRITING};
use crate::steering::{places_held, places_written, spoil};

#[derive(Clone, Copy, Debug)]
pub struct Plan {
    pub mode: Mode,
    /// One in so many samples is meant to be refused; never, where it is 0.
    pub spoiled: u64,
    /// Whether the trace is long enough to fill the part.
    pub far: bool,
    /// What the trace goes for at once.
    pub first: Scene,
}

pub struct Generator {
    random: Random,
    plan: Plan,
    scene: Scene,
    pace: Pace,
    missed: u64,
    left: u64,
    /// Samples that are to come next, one after another.
    coming: VecDeque<Pins>,
}

impl Generator {
    pub fn new(plan: Plan, random: Random) -> Generator {
        let (scene, left) = (plan.first, if plan.far { 600 } else { 20 });
        // No word is written under RT LOW where both clocks rise together.
        let pace = if matches!(scene, Scene::Falls) { Pace::Loose } else { Pace::Together };
        Generator { random, plan, scene, pace, missed: 4, left, coming: VecDeque::new() }
    }

    pub fn next(&mut self, model: &Model) -> u32 {
        self.propose(model, |pins| refusal(model, pins).is_none()).record()
    }

    /// A sample that is legal, where none is meant to be refused.
    pub fn propose(&mut self, model: &Model, legal: impl Fn(Pins) -> bool) -> Pins {
        if !model.started() {
            self.first(model)
        } else if self.plan.spoiled > 0 {
            self.proposal(model)
        } else {
            let proposed = (0..8).map(|_| self.proposal(model)).find(|&pins| legal(pins));
            proposed.unwrap_or_else(|| calm(model))
        }
    }

    /// Nothing but a Master Reset is taken at first.
    fn first(&mut self, model: &Model) -> Pins {
        if self.plan.spoiled > 0 && self.random.one_in(self.plan.spoiled) {
            Pins { mrs: true, prs: self.random.flip(), ..Pins::of(self.random.bits()) }
        } else {
            self.master_reset(model)
        }
    }

    fn master_reset(&mut self, model: &Model) -> Pins {
        let fwft_si = self.plan.mode == Mode::FallThrough;
        let (ld, wclk, rclk) = (self.random.flip(), self.random.flip(), self.random.flip());
        let (unsettled, rt) = (self.random.flip(), self.random.flip());
        let (wen, ren) = (!self.random.one_in(4), !self.random.one_in(4));
        Pins { mrs: false, prs: self.random.flip(), fwft_si, ld, wclk, rclk, unsettled, rt, wen, ren, ..calm(model) }
    }

    fn proposal(&mut self, model: &Model) -> Pins {
        if let Some(pins) = self.coming.pop_front() {
            return pins;
        }
        let arrived = self.scene.arrived(model);
        if arrived {
            self.turn_over(model);
        }
        let mut pins = self.idle(model, arrived);
        self.scene.play(&mut pins, model, &mut self.random);
        pins.unsettled = self.random.one_in(3) && self.loses_no_word(model, pins);
        if arrived && self.plan.spoiled > 0 && self.random.one_in(self.plan.spoiled) {
            self.spoil(&mut pins, model);
        }
        self.led_up_to(pins, model)
    }

    /// The first of the samples by which it comes to this one. Where RT falls in it, both enables are mostly HIGH in a sample
    /// before, and now and then RT falls in one of its own. A scene about falls sees to that itself.
    fn led_up_to(&mut self, pins: Pins, model: &Model) -> Pins {
        let falls = !pins.rt && !model.fall.lasts();
        if !falls || matches!(self.scene, Scene::Falls) || self.random.one_in(6) {
            return pins;
        }
        let still = Pins { oe: self.random.one_in(8), fwft_si: self.random.flip(), ..calm(model) };
        if !model.fall.clean(still) {
            self.coming.push_back(still);
        }
        if self.random.one_in(3) {
            self.coming.push_back(Pins { rt: false, ..still });
        }
        self.coming.push_back(pins);
        self.coming.pop_front().expect("the last of them at least")
    }

    /// Whether D may be unsettled and no word is lost by it: none is asked for, or the part is full and refusals are wanted.
    fn loses_no_word(&self, model: &Model, pins: Pins) -> bool {
        !data_asked(model, pins) || self.plan.spoiled > 0 && model.full()
    }

    fn spoil(&mut self, pins: &mut Pins, model: &Model) {
        let often = match self.scene {
            Scene::Falls => 7,
            _ if model.retransmit_seen() => 9,
            _ => 10,
        };
        let number = self.random.pick(&[6, 7, 8, 9, 10, 12, often, often]);
        spoil(number, pins, model, &mut self.random);
        if number == 12 && self.random.flip() {
            self.coming.push_back(Pins { unsettled: false, ..*pins });
        }
        if matches!(self.scene, Scene::Falls) {
            // Often with nothing LOW that a fall is judged by.
            pins.ren |= number == 7;
            self.retransmit_after(*pins, model);
        }
    }

    /// A rise with RT LOW shows whether anything of a refused sample was remembered: RT and both enables HIGH as if before a
    /// fall, or a fall as if it were the last one.
    fn retransmit_after(&mut self, refused: Pins, model: &Model) {
        let fall = Pins { rt: false, rclk: false, ..calm(model) };
        let before = refused.rt && refused.wen && refused.ren;
        let low = if before { 0 } else { self.random.below(4) };
        let (wen, ren) = (low != 1, low != 2);
        if model.rclk || !wen || !ren {
            self.coming.push_back(Pins { wen, ren, ..fall });
        }
        self.coming.push_back(Pins { rclk: true, ..fall });
    }

    /// A sample in which the clocks move and nothing is asked for. On the way to a place the clocks take the short way.
    fn idle(&mut self, model: &Model, arrived: bool) -> Pins {
        let pace = if arrived { self.pace } else { self.scene.way_there(model) };
        let (wclk, rclk) = clocks(pace, model, &mut self.random);
        Pins {
            wclk,
            rclk,
            oe: self.random.one_in(8),
            fwft_si: self.random.flip(),
            write_skew_met: !self.random.one_in(self.missed),
            read_skew_met: !self.random.one_in(self.missed),
            data: self.random.bits() >> 14,
            ..calm(model)
        }
    }

    fn turn_over(&mut self, model: &Model) {
        if self.left > 0 {
            self.left -= 1;
            return;
        }
        self.scene = self.next_scene(model);
        self.pace = match self.scene {
            Scene::Loading { .. } => self.random.pick(&WRITING),
            _ => self.random.pick(&PACES),
        };
        self.missed = self.random.pick(&[1, 2, 2, 4, 1_000]);
        self.left = match self.scene {
            Scene::Resets => self.random.below(4),
            Scene::Loading { .. } => 60 + self.random.below(160),
            _ => 4 + self.random.below(if self.plan.far { 400 } else { 60 }),
        };
    }

    /// A reset loses the words that a long trace was at pains to write, so it is rarer there.
    fn next_scene(&mut self, model: &Model) -> Scene {
        let reset_odds = if self.plan.far { 60 } else { 8 };
        if self.random.one_in(reset_odds) {
            return Scene::Resets;
        }
        match self.random.below(10) {
            0..=2 => Scene::Hover { held: self.random.pick(&places_held(model, self.plan.far)) },
            3 => Scene::Verge { written: self.random.pick(&places_written(model, self.plan.far)) },
            4 | 5 => Scene::Retransmits,
            6 => self.next_loading(model),
            7 => Scene::OffsetReadings,
            8 => Scene::Falls,
            _ => Scene::Noise,
        }
    }

    /// One offset at which the words now held are more, and one at which they are not, make the almost-flags move.
    fn next_loading(&mut self, model: &Model) -> Scene {
        let (depth, held) = (model.part.depth, model.held());
        let low = self.random.pick(&[0, 1, held.saturating_sub(1), (depth - held) % depth]);
        let high = self.random.pick(&[held % depth, depth / 2, depth - 4, depth - 1]);
        let (n, m) = if self.random.flip() { (low, high) } else { (high, low) };
        Scene::Loading { n, m }
    }
}
