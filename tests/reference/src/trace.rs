//! A trace, and what the reference says to it.

use crate::corners::Corners;
use crate::generator::Generator;
use crate::model::{Model, Outcome};
use crate::part::Part;
use crate::plans::Job;
use crate::random::Random;

#[derive(Clone, Copy, PartialEq, Eq, Debug)]
pub enum Step {
    Record(u32),
    /// The caller puts other words into the memory, which is its own: all 32 bits of each.
    Refill(u32),
}

#[derive(Clone, Debug)]
pub struct Trace {
    pub part: Part,
    pub steps: Vec<Step>,
}

/// What the reference says to a trace: an outcome for each record, and the memory left.
pub struct Told {
    pub outcomes: Vec<Outcome>,
    pub memory: Vec<u32>,
}

pub const FIRST_REFILL: u32 = 1;

/// The words a refill puts, by the xorshift sequence of its seed; the driver has the same.
pub fn refill(memory: &mut [u32], seed: u32) {
    let mut state = seed | 1;
    for word in memory {
        state ^= state << 13;
        state ^= state >> 17;
        state ^= state << 5;
        *word = state;
    }
}

/// The memory that every trace starts with.
pub fn first_memory(part: Part) -> Vec<u32> {
    let mut memory = vec![0; part.depth as usize];
    refill(&mut memory, FIRST_REFILL);
    memory
}

impl Trace {
    pub fn told(&self) -> Told {
        let mut model = Model::power_up(self.part);
        let mut memory = first_memory(self.part);
        let mut outcomes = Vec::with_capacity(self.steps.len());
        for &step in &self.steps {
            match step {
                Step::Record(record) => outcomes.push(model.sample(record, &mut memory)),
                Step::Refill(seed) => refill(&mut memory, seed),
            }
        }
        Told { outcomes, memory }
    }

    /// The trace as the trace program reads it.
    pub fn input(&self) -> Vec<u8> {
        let mut input = self.part.number.to_be_bytes().to_vec();
        input.extend(self.records().flat_map(u32::to_be_bytes));
        input
    }

    pub fn records(&self) -> impl Iterator<Item = u32> + '_ {
        self.steps.iter().filter_map(|&step| match step {
            Step::Record(record) => Some(record),
            Step::Refill(_) => None,
        })
    }
}

/// A generated trace, noting the corners it comes through. With refills the memory is changed about twice on the way.
pub fn generated(job: Job, refills: bool, seed: u64, corners: &mut Corners) -> (Trace, Told) {
    let mut random = Random::new(seed);
    let mut generator = Generator::new(job.plan, Random::new(random.draw()));
    let mut model = Model::power_up(job.part);
    let mut memory = first_memory(job.part);
    corners.begin_trace();
    let mut steps = Vec::with_capacity(job.records + 2);
    let mut outcomes = Vec::with_capacity(job.records);
    for _ in 0..job.records {
        if refills && random.one_in(job.records as u64 / 2 + 1) {
            let seed = random.bits();
            steps.push(Step::Refill(seed));
            refill(&mut memory, seed);
        }
        let record = generator.next(&model);
        steps.push(Step::Record(record));
        outcomes.push(corners.watch(&mut model, record, &mut memory));
    }
    (Trace { part: job.part, steps }, Told { outcomes, memory })
}
