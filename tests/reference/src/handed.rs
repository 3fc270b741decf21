//! States that were never reached. The history of rises cannot tell what comes of them, so here the rules work on the
//! fields that a state stores; and what the library gives, leaves as its state and writes to its memory is compared in full.

mod fields;
mod rules;
pub mod states;

use std::io::Result;

pub use fields::{Fields, STATE_BYTES};
pub use rules::Handed;

use crate::corners::{Corner, Corners};
use crate::library::{Aftermath, Call, Library, Numbers, Reply};
use crate::model::Outcome;
use crate::part::{Part, PARTS};
use crate::pins::Pins;
use crate::random::Random;
use crate::trace::refill;

const MOST_CALLS: u64 = 6;

/// What one call is to give and to leave behind.
type Expected = (Reply, Aftermath);

pub struct Trial<'a> {
    library: &'a mut Library,
    random: Random,
    memories: [Vec<u32>; 2],
    pub corners: Corners,
    pub numbers: Numbers,
}

impl<'a> Trial<'a> {
    pub fn new(library: &'a mut Library, seed: u64) -> Result<Trial<'a>> {
        let mut random = Random::new(seed);
        let mut memories = PARTS.map(|part| vec![0; part.depth as usize]);
        for (part, memory) in PARTS.into_iter().zip(&mut memories) {
            let seed = random.bits();
            library.power_up(part, random.flip())?;
            library.refill(seed)?;
            refill(memory, seed);
        }
        Ok(Trial { library, random, memories, corners: Corners::default(), numbers: Numbers::new() })
    }

    /// The first difference in so many states, in words.
    pub fn run(&mut self, states: u64) -> Result<Option<String>> {
        for index in 0..states {
            let part = self.random.pick(&PARTS);
            let handed = match index % 4 {
                0 => states::failing(part, index / 4 % states::CLAUSES, &mut self.random),
                _ => states::passing(part, &mut self.random),
            };
            assert_eq!(handed.passes(), index % 4 > 0, "a state passes 3 as it was meant to: {handed:?}");
            let difference = self.compare(handed)?;
            if difference.is_some() {
                return Ok(difference);
            }
        }
        Ok(None)
    }

    fn compare(&mut self, mut handed: Handed) -> Result<Option<String>> {
        let first = handed.fields;
        let (mut calls, mut told) = (Vec::new(), Vec::new());
        for _ in 0..=self.random.below(MOST_CALLS) {
            let record = states::record(&handed.fields, &mut self.random);
            calls.push(Call::right(handed.part, record));
            told.push(self.expected(&mut handed, record));
        }
        let replies = self.library.handed_in(&first.bytes(), &calls)?;
        replies.iter().for_each(|(reply, _)| *self.numbers.entry(reply.number).or_default() += 1);
        let place = (0..told.len()).find(|&place| told[place] != replies[place]);
        Ok(place.map(|place| {
            let (call, told, reply) = (&calls[..=place], &told[place], &replies[place]);
            format!("from {first:X?}\n{call:X?}:\nexpected {told:X?},\ngot      {reply:X?}")
        }))
    }

    fn expected(&mut self, handed: &mut Handed, record: u32) -> Expected {
        let memory = &mut self.memories[usize::from(handed.part != PARTS[0])];
        let place = handed.part.place(u64::from(handed.fields.write.count));
        let (word, before) = (memory[place], handed.fields);
        let outcome = handed.sample(record, memory);
        let written = (memory[place] != word).then_some((place, memory[place]));
        note_corners(handed, outcome, &mut self.corners);
        note_falls(&before, Pins::of(record), outcome, &mut self.corners);
        (Reply::told(outcome), Aftermath { state: handed.fields.bytes(), written })
    }
}

/// Places to which no history leads.
fn note_corners(after: &Handed, outcome: Outcome, corners: &mut Corners) {
    let Handed { part: Part { depth, .. }, fields: Fields { write, read, setup, .. } } = *after;
    let taken = matches!(outcome, Outcome::Taken(_));
    let places = [
        (Corner::NeverOverDepth, after.held_for_writer() > depth),
        (Corner::NeverBehind, setup == 0 && read.second.wrapping_sub(read.count) > u16::MAX / 2),
        (Corner::NeverRound, read.count > write.count),
    ];
    places.into_iter().filter(|&(_, there)| taken && there).for_each(|(corner, _)| corners.note_input(corner));
}

/// What comes of RT LOW in a state, and of what it remembers of a fall that is over.
fn note_falls(before: &Fields, pins: Pins, outcome: Outcome, corners: &mut Corners) {
    let (started, enables) = (before.started, before.enables);
    let rise = !pins.in_reset() && !before.read.clock && pins.rclk && !pins.rt && pins.ren && pins.wen;
    let (taken, refused) = (matches!(outcome, Outcome::Taken(_)), outcome == Outcome::Refused(8));
    let places = [
        (Corner::HandedClean, rise && taken && !enables.rt),
        (Corner::HandedUnclean, rise && refused && !enables.rt),
        (Corner::HandedHighClean, rise && taken && enables.rt && !enables.clean),
        (Corner::HandedHighUnclean, rise && refused && enables.rt && enables.clean),
        (Corner::HandedUnstarted, taken && !started && !pins.rt && !enables.rt && !enables.clean),
    ];
    places.into_iter().filter(|&(_, there)| there).for_each(|(corner, _)| corners.note_input(corner));
}
