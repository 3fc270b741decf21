//! Which traces a run is made of.

use crate::generator::Plan;
use crate::model::Mode;
use crate::part::{Part, PARTS};
use crate::random::Random;
use crate::refusals::most_for_retransmit;
use crate::scenes::Scene;

/// A trace to be generated.
#[derive(Clone, Copy, Debug)]
pub struct Job {
    pub part: Part,
    pub plan: Plan,
    pub records: usize,
}

/// How many traces of each length there are for a part in a mode.
#[derive(Clone, Copy)]
pub struct Amount {
    pub wide: usize,
    pub long: usize,
    pub full: usize,
    pub short: usize,
}

const MOST_IN_SHORT: u64 = 400;
const BEYOND_WIDTH: u64 = 65_536 + 64;

fn each_part_and_mode() -> impl Iterator<Item = (Part, Mode)> {
    PARTS.into_iter().flat_map(|part| [(part, Mode::Standard), (part, Mode::FallThrough)])
}

/// In each part and mode: short traces, traces that fill the part and some that go on from there, and traces that pass the
/// width of the counts. The short ones come first, so that a difference is found in a short one if it can be.
pub fn jobs(amount: Amount, random: &mut Random) -> Vec<Job> {
    let mut jobs = Vec::new();
    for (part, mode) in each_part_and_mode() {
        jobs.extend((0..amount.short).map(|index| short(part, mode, spoiled(index, random), random)));
        jobs.extend((0..amount.full).map(|index| full(part, mode, spoiled(index, random))));
        jobs.extend((0..amount.long).map(|index| long(part, mode, index, spoiled(index, random))));
        jobs.extend((0..amount.wide).map(|_| wide(part, mode)));
    }
    jobs.sort_by_key(|job| job.records);
    jobs
}

/// One in how many samples is meant to be refused. Every third trace is legal throughout.
pub fn spoiled(index: usize, random: &mut Random) -> u64 {
    if index.is_multiple_of(3) {
        0
    } else {
        random.pick(&[2, 10, 40, 200])
    }
}

fn wide(part: Part, mode: Mode) -> Job {
    let plan = Plan { mode, spoiled: 200, far: true, first: Scene::Verge { written: BEYOND_WIDTH } };
    Job { part, plan, records: 2 * BEYOND_WIDTH as usize + 4_000 }
}

fn long(part: Part, mode: Mode, index: usize, spoiled: u64) -> Job {
    let written = most_for_retransmit(part, mode);
    let (full, half) = (Scene::Hover { held: part.depth }, Scene::Hover { held: part.depth / 2 });
    let first = [full, Scene::Verge { written }, half, Scene::Verge { written }][index % 4];
    Job { part, plan: Plan { mode, spoiled, far: true, first }, records: 5 * part.depth as usize }
}

/// Not much longer than it takes to fill the part.
fn full(part: Part, mode: Mode, spoiled: u64) -> Job {
    let plan = Plan { mode, spoiled, far: true, first: Scene::Hover { held: part.depth } };
    Job { part, plan, records: 3 * part.depth as usize + 3_000 }
}

fn short(part: Part, mode: Mode, spoiled: u64, random: &mut Random) -> Job {
    let first = random.pick(&[Scene::Verge { written: 1 }, Scene::Falls]);
    let records = 1 + random.below(MOST_IN_SHORT) as usize;
    Job { part, plan: Plan { mode, spoiled, far: false, first }, records }
}
