//! A whole trace through the library.

use std::io::Result;

use super::{Library, Reply};
use crate::model::Outcome;
use crate::trace::{Step, Told, Trace, FIRST_REFILL};

/// Samples sent in one piece: its replies fit into the smallest pipe, so that neither process waits for ever.
const PIECE: usize = 512;

/// The first difference: the records up to it, and what it is.
pub struct Difference {
    pub records: usize,
    pub words: String,
}

impl Library {
    /// Where the library and the reference part ways on a trace, in words.
    pub fn difference(&mut self, trace: &Trace, told: &Told) -> Option<Difference> {
        self.compare(trace, told).unwrap_or_else(|_| {
            self.restart();
            Some(Difference { records: told.outcomes.len(), words: "the library's process ended".to_string() })
        })
    }

    fn compare(&mut self, trace: &Trace, told: &Told) -> Result<Option<Difference>> {
        self.power_up(trace.part, trace.steps.len() % 2 == 1)?;
        self.refill(FIRST_REFILL)?;
        let mut compared = 0;
        for piece in trace.steps.split_inclusive(|step| matches!(step, Step::Refill(_))) {
            let outcomes = &told.outcomes[compared..];
            if let Some((index, reply)) = self.compare_piece(piece, outcomes)? {
                let words = format!("expected {:X?}, got {reply:X?}", Reply::told(outcomes[index]));
                return Ok(Some(Difference { records: compared + index + 1, words }));
            }
            compared += piece.iter().filter(|step| matches!(step, Step::Record(_))).count();
        }
        let memory = self.memory(trace.part)?;
        let place = (0..memory.len()).find(|&place| memory[place] != told.memory[place]);
        Ok(place.map(|place| {
            let words = format!("word {place}: expected {:08X}, got {:08X}", told.memory[place], memory[place]);
            Difference { records: told.outcomes.len(), words }
        }))
    }

    /// Records up to a refill, and the first that comes out otherwise.
    pub fn compare_piece(&mut self, steps: &[Step], outcomes: &[Outcome]) -> Result<Option<(usize, Reply)>> {
        let mut compared = 0;
        for steps in steps.chunks(PIECE) {
            let mut piece = Vec::with_capacity(steps.len());
            let mut seed = None;
            for &step in steps {
                match step {
                    Step::Record(record) => {
                        let refused = matches!(outcomes[compared + piece.len()], Outcome::Refused(_));
                        piece.push((record, refused));
                    }
                    Step::Refill(with) => seed = Some(with),
                }
            }
            let replies = self.samples(&piece)?;
            for reply in replies {
                if reply != Reply::told(outcomes[compared]) {
                    return Ok(Some((compared, reply)));
                }
                compared += 1;
            }
            if let Some(seed) = seed {
                self.refill(seed)?;
            }
        }
        Ok(None)
    }
}
