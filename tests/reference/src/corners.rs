//! The corners that the traces have to come through, and how often they did.

mod list;

pub use list::Corner;

use crate::model::{Mode, Model};
use crate::part::PARTS;
use crate::pins::Pins;
use crate::watch::Falls;

use list::{Scope, LIST};

const COLUMNS: usize = 4;

#[derive(Clone)]
pub struct Corners {
    counts: Vec<[u64; COLUMNS]>,
    pub samples: u64,
    pub pair_samples: u64,
    pub chain_samples: u64,
    /// The last sample was a refused one in which a clock would have risen.
    pub refused_rise: bool,
    /// The last sample, if it was refused 12.
    pub refused_unsettled: Option<Pins>,
    /// The last WCLK rise was the one at which a retransmit was seen.
    pub just_seen: bool,
    pub falls: Falls,
}

fn column(model: &Model) -> usize {
    let part = usize::from(model.part != PARTS[0]);
    2 * part + usize::from(model.mode == Mode::FallThrough)
}

impl Scope {
    fn reached(self, counts: &[u64; COLUMNS]) -> bool {
        match self {
            Scope::Both => counts.iter().all(|&count| count > 0),
            Scope::Standard => counts[0] > 0 && counts[2] > 0,
            Scope::FallThrough => counts[1] > 0 && counts[3] > 0,
            Scope::Anywhere => counts.iter().any(|&count| count > 0),
        }
    }
}

impl Default for Corners {
    fn default() -> Corners {
        let counts = vec![[0; COLUMNS]; LIST.len()];
        Corners {
            counts,
            samples: 0,
            pair_samples: 0,
            chain_samples: 0,
            refused_rise: false,
            refused_unsettled: None,
            just_seen: false,
            falls: Falls::default(),
        }
    }
}

impl Corners {
    /// What was seen last belongs to the trace before.
    pub fn begin_trace(&mut self) {
        (self.refused_rise, self.refused_unsettled, self.just_seen) = (false, None, false);
        self.falls = Falls::default();
    }

    pub fn note(&mut self, model: &Model, corner: Corner, reached: bool) {
        self.counts[corner as usize][column(model)] += u64::from(reached);
    }

    /// A corner that belongs to no part and no mode.
    pub fn note_input(&mut self, corner: Corner) {
        self.counts[corner as usize][0] += 1;
    }

    pub fn add(&mut self, others: &Corners) {
        self.samples += others.samples;
        self.pair_samples += others.pair_samples;
        self.chain_samples += others.chain_samples;
        for (counts, theirs) in self.counts.iter_mut().zip(&others.counts) {
            for (count, more) in counts.iter_mut().zip(theirs) {
                *count += more;
            }
        }
    }

    pub fn unreached(&self) -> usize {
        LIST.iter().zip(&self.counts).filter(|((scope, _), counts)| !scope.reached(counts)).count()
    }

    pub fn print(&self) {
        println!("{:58}{:>10}{:>10}{:>10}{:>10}", "corner", "255 Std", "255 FWFT", "265 Std", "265 FWFT");
        for ((scope, words), counts) in LIST.iter().zip(&self.counts) {
            let cells: String = match scope {
                Scope::Anywhere => format!("{:>10}", counts.iter().sum::<u64>()),
                _ => counts.iter().map(|count| format!("{count:>10}")).collect(),
            };
            let mark = if scope.reached(counts) { "" } else { "  NOT REACHED" };
            println!("{words:58}{cells}{mark}");
        }
    }
}
