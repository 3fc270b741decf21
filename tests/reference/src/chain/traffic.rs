//! Traces for the chain.

use std::collections::VecDeque;

use super::onlooker::WatchedChain;
use super::record::{Record, SPARE};
use super::{Chain, LENGTHS};
use crate::pair::traffic::{for_strict_run, Told, User};
use crate::part::{Part, PARTS};
use crate::pins::Pins;
use crate::plans::spoiled;
use crate::random::Random;
use crate::scenes::calm;

/// A trace to be generated.
pub struct Job {
    pub part: Part,
    pub length: usize,
    pub user: User,
    /// One in so many samples is meant to be refused; never, where it is 0.
    pub spoiled: u64,
    /// Numbers of words under way that the trace goes for at first, one after the other.
    pub goals: Vec<u64>,
    pub records: usize,
}

impl Job {
    /// Whether the trace is one that fills the parts.
    pub fn far(&self) -> bool {
        !self.goals.is_empty()
    }
}

/// In how many samples WCLK, the transfer clock and RCLK move: one in so many; in none, where it is 0.
type Pace = [u64; 3];

const TOGETHER: Pace = [1, 1, 1];
const PACES: [Pace; 11] = [
    TOGETHER,
    TOGETHER,
    [2, 2, 2],
    [1, 1, 6],
    [6, 1, 1],
    [1, 6, 1],
    [6, 1, 6],
    [0, 1, 0],
    [1, 0, 1],
    [1, 1, 0],
    [0, 1, 1],
];

/// Scenes about a goal of the trace, and more records than they take.
const STAYS: u64 = 12;
const ABOUT_A_GOAL: usize = 2_500;

#[derive(Clone, Copy)]
enum Scene {
    /// Go to the number of words under way and stay about it.
    Words,
    Resets,
    Noise,
}

struct Traffic {
    random: Random,
    spoiled: u64,
    goals: VecDeque<u64>,
    stays: u64,
    scene: Scene,
    goal: u64,
    arrived: bool,
    pace: Pace,
    /// Whether clocks that always move rise together.
    in_step: bool,
    missed: u64,
    /// A write and a read are asked in one of so many samples.
    asked: [u64; 2],
    left: u64,
}

impl Traffic {
    fn new(job: &Job, random: Random) -> Traffic {
        Traffic {
            random,
            spoiled: job.spoiled,
            goals: job.goals.iter().copied().collect(),
            stays: 0,
            scene: Scene::Words,
            goal: 0,
            arrived: true,
            pace: TOGETHER,
            in_step: true,
            missed: 2,
            asked: [1, 1],
            left: 0,
        }
    }

    /// A sample that is legal, where none is meant to be refused.
    fn next(&mut self, watched: &WatchedChain, user: User) -> Record {
        let chain = &watched.chain;
        let mut record = if chain.started() { self.proposal(watched) } else { self.first(chain) };
        if user == User::Waiting {
            record.pins = watched.restrained(record.pins);
        }
        if self.spoiled == 0 && !chain.conditions(record, &chain.wired(record)).is_empty() {
            record = still(chain);
        }
        record
    }

    /// Nothing but a Master Reset to First Word Fall Through is taken at first.
    fn first(&mut self, chain: &Chain) -> Record {
        let mut record = self.idle(chain);
        record.pins = Pins { mrs: false, fwft_si: true, ..self.reset(record.pins) };
        if self.spoiled > 0 && !self.random.one_in(3) {
            match self.random.below(4) {
                0 => record.pins.fwft_si = false,
                kind => {
                    (record.pins.mrs, record.pins.prs) = (true, self.random.flip());
                    record.spare = u32::from(kind == 1) << self.random.below(SPARE as u64);
                }
            }
        }
        record
    }

    fn proposal(&mut self, watched: &WatchedChain) -> Record {
        self.arrived |= watched.under_way.len() as u64 == self.goal;
        if self.arrived {
            self.turn_over();
        }
        let mut record = self.idle(&watched.chain);
        match self.scene {
            Scene::Words => self.words(&mut record.pins, watched),
            Scene::Resets => record.pins = self.reset(record.pins),
            Scene::Noise => record.pins = self.noise(),
        }
        if self.arrived && self.spoiled > 0 && self.random.one_in(self.spoiled) {
            self.spoil(&mut record);
        }
        record
    }

    fn turn_over(&mut self) {
        if self.left > 0 {
            self.left -= 1;
            return;
        }
        (self.pace, self.in_step) = (self.random.pick(&PACES), self.random.flip());
        self.missed = self.random.pick(&[1, 2, 2, 4, 1_000]);
        self.asked = [(); 2].map(|()| self.random.pick(&[1, 1, 2, 8, 40]));
        self.left = 4 + self.random.below(160);
        if self.stays > 0 {
            self.stays -= 1;
        } else if let Some(goal) = self.goals.pop_front() {
            (self.scene, self.goal, self.arrived, self.stays) = (Scene::Words, goal, false, STAYS);
        } else {
            self.next_scene();
        }
    }

    fn next_scene(&mut self) {
        self.scene = match self.random.below(8) {
            0 => Scene::Resets,
            1 | 2 => Scene::Noise,
            _ => Scene::Words,
        };
        match self.scene {
            Scene::Words => (self.goal, self.arrived) = (self.random.pick(&[0, 0, 1, 3, 12, 40, 40]), false),
            Scene::Resets => self.left = self.random.below(3),
            Scene::Noise => (),
        }
    }

    /// A sample in which the clocks move and nothing is asked for. On the way to a number of words all clocks run. What has no
    /// effect is thrown: SEN, FWFT/SI, the skew marks of the first four bytes and those of absent parts.
    fn idle(&mut self, chain: &Chain) -> Record {
        let still = still(chain);
        let [wclk, transfer, rclk] = self.clocks([still.pins.wclk, still.transfer, still.pins.rclk]);
        let thrown = Pins::of(self.random.bits());
        let pins = Pins {
            wclk,
            rclk,
            oe: self.random.one_in(8),
            sen: thrown.sen,
            fwft_si: thrown.fwft_si,
            write_skew_met: thrown.write_skew_met,
            read_skew_met: thrown.read_skew_met,
            data: thrown.data,
            ..still.pins
        };
        let marks = (0..16).fold(0, |marks, _| marks << 1 | u32::from(!self.random.one_in(self.missed)));
        Record { pins, transfer, spare: 0, marks }
    }

    /// The levels of the next sample.
    fn clocks(&mut self, levels: [bool; 3]) -> [bool; 3] {
        let pace = if self.arrived { self.pace } else { TOGETHER };
        if pace == TOGETHER && self.in_step {
            return [!levels.contains(&true); 3];
        }
        let moves = pace.map(|odds| odds > 0 && self.random.one_in(odds));
        [0, 1, 2].map(|clock| levels[clock] != moves[clock])
    }

    fn words(&mut self, pins: &mut Pins, watched: &WatchedChain) {
        let words = watched.under_way.len() as u64;
        if !self.arrived {
            let both = self.random.one_in(64);
            (pins.wen, pins.ren) = (words > self.goal && !both, words < self.goal && !both);
            return;
        }
        let (low, high) = (words < self.goal + 3, words + 3 > self.goal);
        let [write, read] = self.asked.map(|odds| self.random.one_in(odds));
        pins.wen = !(if low { write } else { self.random.one_in(8) });
        pins.ren = !(if high { read } else { self.random.one_in(8) });
        pins.unsettled = self.random.one_in(3) && self.loses_no_word(*pins, watched);
    }

    /// Whether D may be unsettled and no word is lost by it: none is asked for, or there is no room and refusals are wanted.
    fn loses_no_word(&self, pins: Pins, watched: &WatchedChain) -> bool {
        let asked = !pins.wen && watched.chain.first().write_clock_rises(pins);
        !asked || self.spoiled > 0 && !watched.room
    }

    /// The resets LOW, or one of them, or none.
    fn reset(&mut self, pins: Pins) -> Pins {
        let thrown = Pins::of(self.random.bits());
        let [mrs, prs] = [(); 2].map(|()| self.random.flip());
        let fwft_si = !mrs || thrown.fwft_si;
        if mrs && prs {
            return pins;
        }
        Pins { mrs, prs, fwft_si, ..thrown }
    }

    fn noise(&mut self) -> Pins {
        let thrown = Pins::of(self.random.bits());
        let [mrs, prs] = [(); 2].map(|()| !self.random.one_in(96));
        let [rt, ld] = [(); 2].map(|()| !self.random.one_in(24));
        Pins { mrs, prs, rt, ld, unsettled: thrown.unsettled && self.random.one_in(4), ..thrown }
    }

    /// Made to be refused, now and then for more than one reason.
    fn spoil(&mut self, record: &mut Record) {
        let pins = &mut record.pins;
        match self.random.below(6) {
            0 => record.spare |= 1 << self.random.below(SPARE as u64),
            1 => record.spare = self.random.bits() >> (32 - SPARE),
            2 => pins.rt = false,
            3 => pins.ld = false,
            4 => (pins.mrs, pins.prs, pins.fwft_si) = (false, self.random.flip(), false),
            _ => (pins.wen, pins.ren, pins.unsettled) = (false, pins.ren && self.random.flip(), true),
        }
        if self.random.one_in(3) {
            self.spoil(record);
        }
    }
}

/// A sample in which nothing moves and nothing is asked for.
pub fn still(chain: &Chain) -> Record {
    let pins = Pins { rclk: chain.last().rclk, ..calm(chain.first()) };
    Record { pins, transfer: chain.first().rclk, spare: 0, marks: 0xFFFF }
}

fn short(part: Part, length: usize, user: User, spoiled: u64, random: &mut Random) -> Job {
    Job { part, length, user, spoiled, goals: Vec::new(), records: 600 + random.below(2_400) as usize }
}

/// From empty to full, and back where the trace is to go on. Two records bring a word, and now and then one goes the other way.
fn far(part: Part, length: usize, user: User, spoiled: u64, back: bool) -> Job {
    let capacity = length as u64 * (part.depth + 1);
    let goals = if back { vec![capacity, 0] } else { vec![capacity] };
    let records = goals.len() * (2 * capacity as usize + capacity as usize / 16 + ABOUT_A_GOAL);
    Job { part, length, user, spoiled, goals, records }
}

/// Short traces of each number of parts for both users, and long ones that fill every part.
pub fn jobs(amount: usize, random: &mut Random) -> Vec<Job> {
    let mut jobs = vec![far(PARTS[0], *LENGTHS.end(), User::Waiting, 200, false)];
    for part in PARTS {
        for (length, user) in LENGTHS.flat_map(|length| [(length, User::Waiting), (length, User::Heedless)]) {
            jobs.extend((0..amount).map(|index| short(part, length, user, spoiled(index, random), random)));
        }
        jobs.push(far(part, 2, User::Waiting, 0, true));
        jobs.extend([2, 3].map(|length| far(part, length, User::Heedless, 40, false)));
    }
    jobs.sort_by_key(|job| job.records);
    jobs
}

/// A waiting user never asks in vain, which is seen to in each sample.
fn played(job: &Job, mut traffic: Traffic) -> Vec<Told<Record>> {
    let mut watched = WatchedChain::power_up(job.part, job.length);
    let mut told = Vec::with_capacity(job.records);
    for _ in 0..job.records {
        let record = traffic.next(&watched, job.user);
        let (before, outcome) = watched.sample(record);
        let (first, last) = (before.first(), before.last());
        let in_vain = first.write_asked() && !first.accepts() || last.read_asked() && !last.gives();
        assert!(job.user == User::Heedless || !in_vain, "asked in vain: {record:?}");
        told.push((record, outcome.err()));
    }
    told
}

/// A trace as the chain's program reads it, and whether it is for a lenient run.
pub fn generated(job: &Job, seed: u64) -> (Vec<u8>, bool) {
    let mut random = Random::new(seed);
    let mut told = played(job, Traffic::new(job, Random::new(random.draw())));
    // A strict run would end before the parts are full.
    let lenient = job.far() && job.spoiled > 0 || random.one_in(3);
    if !lenient {
        told = for_strict_run(told, &mut random);
    }
    let mut input = job.part.number.to_be_bytes().to_vec();
    input.push(job.length as u8);
    input.extend(told.into_iter().flat_map(|(record, _)| record.bytes()));
    (input, lenient)
}
