//! Traces for the pair, by the generator of the single part.

use std::collections::BTreeSet;

use super::onlooker::Watched;
use super::Pair;
use crate::corners::Corners;
use crate::generator::Generator;
use crate::pins::{Pins, SHARED_FROM};
use crate::plans::{self, Amount, Job};
use crate::random::Random;
use crate::refusals::data_asked;
use crate::steering;

/// Whether the user asks for a write or a read only while the flag for it (the composite one, of a pair) allows it, the closed
/// loop, or whatever it shows, the open one.
#[derive(Clone, Copy, PartialEq, Eq, Debug)]
pub enum User {
    Waiting,
    Heedless,
}

struct Traffic {
    generator: Generator,
    random: Random,
    user: User,
    /// The half that the generator has in view, and whose D and marks it chooses.
    lead: usize,
    spoiled: u64,
}

impl Traffic {
    fn next(&mut self, watched: &Watched, corners: &mut Corners) -> [u32; 2] {
        let mut pins = self.wanted(&watched.pair);
        if self.user == User::Waiting {
            let restrained = watched.onlooker.restrained(pins);
            corners.withheld(watched, pins, restrained);
            pins = restrained;
        }
        let mut sample = [pins; 2];
        sample[1 - self.lead] = self.beside(pins, data_asked(&watched.pair.halves[self.lead], pins));
        let rare = pins.in_reset() || !watched.pair.halves[0].started();
        if self.spoiled > 0 && self.random.one_in(if rare { 2 } else { self.spoiled }) {
            self.spoil(sample)
        } else {
            sample.map(Pins::record)
        }
    }

    /// Often a write where one half alone has seen a retransmit, and a sample before any Master Reset.
    fn wanted(&mut self, pair: &Pair) -> Pins {
        let [lead, other] = [self.lead, 1 - self.lead].map(|half| &pair.halves[half]);
        let mut pins = self.generator.propose(lead, |pins| pair.refusal([pins; 2]).is_none());
        let number = if lead.started() { self.random.pick(&[10, 12]) } else { 5 };
        let there = number == 5 || lead.retransmit_seen() != other.retransmit_seen();
        if self.spoiled > 0 && there && !self.random.one_in(4) {
            steering::spoil(number, &mut pins, lead, &mut self.random);
        }
        pins
    }

    /// The same sample with skew marks and D of its own. Where D is asked for it is unsettled only if the other is.
    fn beside(&mut self, pins: Pins, asked: bool) -> Pins {
        Pins {
            write_skew_met: pins.write_skew_met != self.random.flip(),
            read_skew_met: pins.read_skew_met != self.random.flip(),
            unsettled: (pins.unsettled || !asked) && self.random.flip(),
            data: if self.random.flip() { pins.data } else { self.random.bits() >> 14 },
            ..pins
        }
    }

    /// D unsettled in either record or in both, or another pin apart, or both of it; in a reset only a pin apart is refused.
    fn spoil(&mut self, mut sample: [Pins; 2]) -> [u32; 2] {
        let kind = self.random.below(10);
        sample[0].unsettled |= matches!(kind, 0 | 2 | 3);
        sample[1].unsettled |= matches!(kind, 1..=3);
        let mut records = sample.map(Pins::record);
        if kind > 2 || sample[0].in_reset() {
            records[self.random.below(2) as usize] ^= 1 << (u64::from(SHARED_FROM) + self.random.below(11));
        }
        records
    }
}

/// A program takes longer to start than to work a short trace, so that the pair's are longer.
const LONGER: usize = 8;

/// Each kind of trace for both users.
pub fn jobs(amount: Amount, random: &mut Random) -> Vec<(Job, User)> {
    let mut jobs = Vec::new();
    for user in [User::Waiting, User::Heedless] {
        jobs.extend(plans::jobs(amount, random).into_iter().map(|job| (job, user)));
    }
    jobs.iter_mut().filter(|(job, _)| !job.plan.far).for_each(|(job, _)| job.records *= LONGER);
    jobs.sort_by_key(|(job, _)| job.records);
    jobs
}

/// A sample, and the number under which it is refused.
pub type Told<T> = (T, Option<u32>);

/// A waiting user never has the halves apart, which is seen to after each sample.
fn played(job: Job, mut traffic: Traffic, corners: &mut Corners) -> Vec<Told<[u32; 2]>> {
    let mut watched = Watched::power_up(job.part);
    let mut told = Vec::with_capacity(job.records);
    for _ in 0..job.records {
        let records = traffic.next(&watched, corners);
        told.push((records, watched.sample(records).err()));
        let [left, right] = watched.onlooker.words;
        assert!(traffic.user == User::Heedless || left == right, "the halves are apart: {left:?} and {right:?}");
        assert_eq!([left.accepted, right.accepted], watched.pair.halves.each_ref().map(|half| half.written()));
    }
    told
}

/// For a strict run, which is to end at a number of any kind and not at once: the samples refused before the first of
/// that number are left out.
pub fn for_strict_run<T: Copy>(told: Vec<Told<T>>, random: &mut Random) -> Vec<Told<T>> {
    let numbers: BTreeSet<u32> = told.iter().filter_map(|&(_, number)| number).collect();
    if numbers.is_empty() {
        return told;
    }
    let last = random.pick(&Vec::from_iter(numbers));
    let end = told.iter().position(|&(_, number)| number == Some(last)).expect("it was met");
    let before = told[..end].iter().filter(|(_, number)| number.is_none());
    before.chain(&told[end..]).copied().collect()
}

/// A trace as the pair's program reads it, and whether it is for a lenient run.
pub fn generated(job: Job, user: User, seed: u64, corners: &mut Corners) -> (Vec<u8>, bool) {
    let mut random = Random::new(seed);
    let generator = Generator::new(job.plan, Random::new(random.draw()));
    let (lead, spoiled) = (random.below(2) as usize, job.plan.spoiled);
    // A strict run would end before the part is full.
    let lenient = job.plan.far && spoiled > 0 || random.one_in(3);
    let traffic = Traffic { generator, random: Random::new(random.draw()), user, lead, spoiled };
    let mut told = played(job, traffic, corners);
    if !lenient {
        told = for_strict_run(told, &mut random);
    }
    let records = told.into_iter().flat_map(|(records, _)| records);
    let mut input = job.part.number.to_be_bytes().to_vec();
    input.extend(records.flat_map(u32::to_be_bytes));
    (input, lenient)
}
