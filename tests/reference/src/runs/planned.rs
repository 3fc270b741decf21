//! The runs to be made.

use super::Run;
use crate::corners::Corners;
use crate::generator::Plan;
use crate::handed::states::{self, failing, passing, CLAUSES};
use crate::handed::{Handed, STATE_BYTES};
use crate::hostile::wrong_part;
use crate::model::Mode;
use crate::part::{Part, PARTS};
use crate::plans::Job;
use crate::random::Random;
use crate::scenes::Scene;
use crate::trace::{first_memory, generated};

/// A run with room for just its records.
fn right(handed: &Handed, trace: Vec<u8>, lenient: bool, random: &mut Random) -> Run {
    let whole = trace.len() / 4;
    Run {
        lenient,
        against_front: random.flip(),
        part: u32::from(handed.part.number),
        seed: random.bits(),
        words: handed.part.depth as usize,
        answers: 3 * whole,
        marks: if lenient { whole } else { 0 },
        state: handed.fields.bytes(),
        trace,
    }
}

/// From a state that was never reached.
fn unreached(part: Part, lenient: bool, random: &mut Random) -> Run {
    let handed = passing(part, random);
    let (mut after, mut memory) = (handed, vec![0; part.depth as usize]);
    let mut trace = Vec::new();
    for _ in 0..=random.below(60) {
        let record = states::record(&after.fields, random);
        after.step(record, &mut memory);
        trace.extend(record.to_be_bytes());
    }
    right(&handed, trace, lenient, random)
}

/// From a state with no Master Reset so far, whatever else it holds: a trace that was made with the other model in view.
fn from_power_up(part: Part, lenient: bool, spoiled: u64, records: usize, random: &mut Random) -> Run {
    let mut handed = passing(part, random);
    handed.fields.started = false;
    (handed.fields.write.clock, handed.fields.read.clock) = (true, true);
    let enables = &mut handed.fields.enables;
    (enables.rt, enables.ren, enables.wen) = (true, true, true);
    let mode = random.pick(&[Mode::Standard, Mode::FallThrough]);
    let plan = Plan { mode, spoiled, far: records > 1_000, first: Scene::Verge { written: records as u64 / 3 } };
    let (trace, told) = generated(Job { part, plan, records }, false, random.draw(), &mut Corners::default());
    let (mut after, mut memory) = (handed, first_memory(part));
    for (record, outcome) in trace.records().zip(told.outcomes) {
        assert_eq!(after.step(record, &mut memory), outcome, "the two models of the reference agree");
    }
    right(&handed, trace.input().split_off(2), lenient, random)
}

type Change = fn(&mut Run, &mut Random);

/// What is made wrong in a run that is right; the first that applies in the table's order gives the number.
const WRONG: [Change; 7] = [
    |run, random| run.part = wrong_part(random),
    |run, _| run.words -= 1,
    |run, _| run.words += 1,
    |run, _| run.answers -= 1,
    |run, _| run.marks = run.marks.saturating_sub(1),
    |run, random| run.state = failing(random.pick(&PARTS), random.below(CLAUSES), random).fields.bytes(),
    |run, random| run.trace.extend(&[0x4D, 0x98, 0][..1 + random.below(3) as usize]),
];

/// What is made other: no record settled, no record at all, more room than is needed.
const OTHER: [Change; 3] = [
    |run, _| run.trace.chunks_exact_mut(4).for_each(|record| record[1] |= 4),
    |run, _| run.trace.clear(),
    |run, random| {
        run.answers += 1 + random.below(7) as usize;
        run.marks += usize::from(run.lenient) * (1 + random.below(3) as usize);
    },
];

/// Bytes that spell no state: one of the first, which are levels and enums, or one of the last, which are levels.
fn misspell(run: &mut Run, random: &mut Random) {
    if random.flip() {
        run.state[random.below(15) as usize] = 3 + random.below(250) as u8;
    } else {
        run.state[STATE_BYTES - 1 - random.below(4) as usize] = 2 + random.below(250) as u8;
    }
}

fn changed(part: Part, lenient: bool, changes: &[Change], random: &mut Random) -> Run {
    let mut run = unreached(part, lenient, random);
    changes.iter().for_each(|change| change(&mut run, random));
    run
}

/// Each change by itself, and after one that is wrong, so that the order of the numbers shows.
fn short_runs(part: Part, lenient: bool, random: &mut Random) -> Vec<Run> {
    let mut runs = vec![from_power_up(part, lenient, 20, 200, random), changed(part, lenient, &[misspell], random)];
    for change in [&WRONG[..], &OTHER[..]].concat() {
        let first = random.pick(&WRONG);
        runs.extend([&[change][..], &[first, change]].map(|changes| changed(part, lenient, changes, random)));
    }
    runs
}

/// Legal throughout, and with refusals: all along where the run goes on, seldom where the first ends it.
fn long_runs(part: Part, lenient: bool, random: &mut Random) -> Vec<Run> {
    let mut runs = Vec::new();
    for records in [5_000, 70_000] {
        let spoiled = if lenient { 100 } else { records as u64 / 3 };
        runs.extend([0, spoiled].map(|spoiled| from_power_up(part, lenient, spoiled, records, random)));
    }
    runs
}

/// For each part and manner: short runs, one on a state for each clause of 3, and long ones.
pub fn planned(rounds: u64, random: &mut Random) -> Vec<Run> {
    let mut runs = Vec::new();
    for (part, lenient) in PARTS.into_iter().flat_map(|part| [(part, false), (part, true)]) {
        runs.extend((0..rounds).flat_map(|_| short_runs(part, lenient, random)));
        for clause in 0..CLAUSES {
            let state = failing(part, clause, random).fields.bytes();
            runs.push(Run { state, ..unreached(part, lenient, random) });
        }
        runs.extend(long_runs(part, lenient, random));
    }
    runs
}
