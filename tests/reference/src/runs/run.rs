//! One run, and what is to come of it.

use std::fmt;

use crate::handed::{Fields, Handed, STATE_BYTES};
use crate::model::Outcome;
use crate::part::PARTS;
use crate::trace::refill;

/// What a room holds that was not written to.
const FILLED: u8 = 0xA5;
const UNTOUCHED: u64 = u64::from_le_bytes([FILLED; 8]);

pub struct Run {
    pub lenient: bool,
    pub against_front: bool,
    pub part: u32,
    /// For the words of the memory.
    pub seed: u32,
    pub words: usize,
    pub answers: usize,
    pub marks: usize,
    pub state: [u8; STATE_BYTES],
    pub trace: Vec<u8>,
}

/// All that is left after a run.
#[derive(PartialEq, Eq)]
pub struct Told {
    pub number: u32,
    pub moved: u8,
    pub index: u64,
    pub accepted: u64,
    pub state: Vec<u8>,
    pub memory: Vec<u32>,
    pub answers: Vec<u8>,
    pub marks: Vec<u8>,
}

impl fmt::Display for Run {
    fn fmt(&self, to: &mut fmt::Formatter) -> fmt::Result {
        let Run { lenient, part, words, answers, marks, state, trace, .. } = self;
        let shown = &trace[..trace.len().min(160)];
        let (fields, bytes) = (Fields::spelled(state), trace.len());
        write!(to, "lenient {lenient}, part {part}, {words} words, {answers} and {marks} bytes of room, ")?;
        write!(to, "from {fields:X?}, {bytes} bytes {shown:02X?}")
    }
}

impl Told {
    /// The first thing that is not as expected.
    pub fn difference(&self, other: &Told) -> Option<String> {
        let end = |told: &Told| [u64::from(told.number), told.index, told.accepted];
        let place = |ours: &[u8], theirs: &[u8]| (0..ours.len()).find(|&at| ours[at] != theirs[at]);
        if end(self) != end(other) || other.moved != 0 {
            let (ours, theirs, moved) = (end(self), end(other), other.moved);
            return Some(format!("expected number, index, accepted {ours:?}, got {theirs:?}, strayed {moved:b}"));
        }
        let word = (0..self.memory.len()).find(|&at| self.memory[at] != other.memory[at]);
        let byte = |name, ours: &[u8], theirs: &[u8]| {
            place(ours, theirs).map(|at| format!("{name} {at}: expected {:02X}, got {:02X}", ours[at], theirs[at]))
        };
        word.map(|at| format!("word {at}: expected {:08X}, got {:08X}", self.memory[at], other.memory[at]))
            .or_else(|| byte("byte of the answers", &self.answers, &other.answers))
            .or_else(|| byte("mark", &self.marks, &other.marks))
            .or_else(|| byte("byte of the state", &self.state, &other.state))
    }
}

impl Run {
    pub fn whole_records(&self) -> usize {
        self.trace.len() / 4
    }

    /// A run begins only where the bytes spell a state.
    pub fn expected(&self) -> Told {
        let mut memory = vec![0; self.words];
        refill(&mut memory, self.seed);
        let untouched = |room: usize| vec![FILLED; room];
        let mut told = Told {
            number: 3,
            moved: 0,
            index: UNTOUCHED,
            accepted: UNTOUCHED,
            state: self.state.to_vec(),
            memory,
            answers: untouched(self.answers),
            marks: untouched(self.marks),
        };
        if let Some(fields) = Fields::spelled(&self.state) {
            (told.index, told.accepted) = (0, 0);
            match self.judged_at_start(fields) {
                Ok(handed) => self.work(handed, &mut told),
                Err(number) => told.number = number,
            }
        }
        told
    }

    fn judged_at_start(&self, fields: Fields) -> Result<Handed, u32> {
        let part = PARTS.into_iter().find(|part| u32::from(part.number) == self.part).ok_or(1u32)?;
        let whole = self.whole_records();
        if self.words as u64 != part.depth || self.answers < 3 * whole || self.lenient && self.marks < whole {
            return Err(2);
        }
        Some(Handed { part, fields }).filter(Handed::passes).ok_or(3)
    }

    fn work(&self, mut handed: Handed, told: &mut Told) {
        let records = self.trace.chunks_exact(4);
        told.number = if records.remainder().is_empty() { 0 } else { 4 };
        for (index, bytes) in records.enumerate() {
            let record = u32::from_be_bytes(bytes.try_into().expect("four bytes"));
            let number = match handed.step(record, &mut told.memory) {
                Outcome::Taken(answer) => {
                    told.answers[3 * index..][..3].copy_from_slice(&answer.to_be_bytes()[1..]);
                    told.accepted += 1;
                    0
                }
                Outcome::Refused(number) if !self.lenient => {
                    told.number = number;
                    break;
                }
                Outcome::Refused(number) => number,
            };
            if self.lenient {
                told.marks[index] = number as u8;
            }
            told.index += 1;
        }
        told.state = handed.fields.bytes().to_vec();
    }
}
