//! What can be told of a chain from the pins and the flags of its parts. It is seen to, in every sample taken, that a transfer
//! happens in both neighbours or in neither, and that no word is lost, doubled or out of order.

use std::collections::VecDeque;

use super::record::Record;
use super::Chain;
use crate::model::Model;
use crate::pair::levels;
use crate::part::Part;
use crate::pins::Pins;

/// One part before a sample: its pins in it, what its flags and Q show, and its count of words accepted.
#[derive(Clone, Copy)]
pub struct Glance {
    pub pins: Pins,
    /// In a reset too, where a rise has no effect.
    pub write_rise: bool,
    pub read_rise: bool,
    pub room: bool,
    pub ready: bool,
    pub shown: u32,
    written: u64,
}

impl Glance {
    fn at(part: &Model, pins: Pins) -> Glance {
        Glance {
            pins,
            write_rise: part.write_clock_rises(pins),
            read_rise: part.read_clock_rises(pins),
            room: !part.full(),
            ready: part.ready(),
            shown: part.shown(),
            written: part.written(),
        }
    }

    pub fn rises(self) -> bool {
        self.write_rise || self.read_rise
    }

    pub fn write_asked(self) -> bool {
        !self.pins.in_reset() && self.write_rise && self.pins.ld && !self.pins.wen
    }

    pub fn read_asked(self) -> bool {
        !self.pins.in_reset() && self.read_rise && self.pins.ld && !self.pins.ren && self.pins.rt
    }

    pub fn accepts(self) -> bool {
        self.write_asked() && self.room
    }

    /// Whether the output word is taken.
    pub fn gives(self) -> bool {
        self.read_asked() && self.ready
    }
}

/// A chain before a sample.
pub struct Before {
    pub parts: Vec<Glance>,
    pub words: usize,
    /// The sample before was refused, and a clock would have risen in it.
    pub refused_rise: bool,
}

impl Before {
    pub fn first(&self) -> Glance {
        self.parts[0]
    }

    pub fn last(&self) -> Glance {
        self.parts[self.parts.len() - 1]
    }

    /// Each part and the next one.
    pub fn neighbours(&self) -> impl Iterator<Item = (Glance, Glance)> + '_ {
        self.parts.windows(2).map(|parts| (parts[0], parts[1]))
    }

    pub fn rises(&self) -> bool {
        self.parts.iter().any(|part| part.rises())
    }
}

/// A chain and its onlooker.
#[derive(Clone)]
pub struct WatchedChain {
    pub chain: Chain,
    /// The words that the first part has accepted since the last reset and that were not taken from the last part.
    pub under_way: VecDeque<u32>,
    /// What the last answer showed: room in the first part, a word ready at the last.
    pub room: bool,
    pub ready: bool,
    refused_rise: bool,
    taken_samples: u64,
}

/// Up to so many words under way are compared with those in the parts after every sample, more only now and then.
const FEW: usize = 24;
const NOW_AND_THEN: u64 = 2_048;

impl WatchedChain {
    /// Nothing is taken before a Master Reset, so that it does not matter what is shown until then.
    pub fn power_up(part: Part, length: usize) -> WatchedChain {
        WatchedChain {
            chain: Chain::power_up(part, length),
            under_way: VecDeque::new(),
            room: false,
            ready: false,
            refused_rise: false,
            taken_samples: 0,
        }
    }

    fn before(&self, record: Record) -> Before {
        let parts = self.chain.parts.iter().zip(self.chain.wired(record));
        let parts = parts.map(|(part, pins)| Glance::at(part, pins)).collect();
        Before { parts, words: self.under_way.len(), refused_rise: self.refused_rise }
    }

    /// The chain before the sample, and what comes of it.
    pub fn sample(&mut self, record: Record) -> (Before, Result<u32, u32>) {
        let before = self.before(record);
        let outcome = self.chain.sample(record);
        self.refused_rise = outcome.is_err() && before.rises();
        if let Ok(answer) = outcome {
            [self.room, self.ready] = levels(answer).map(|high| !high);
            self.see(record, &before);
        }
        (before, outcome)
    }

    /// A sample that was taken.
    fn see(&mut self, record: Record, before: &Before) {
        self.taken_samples += 1;
        if record.pins.in_reset() {
            self.under_way.clear();
        } else {
            self.see_words(record, before);
        }
        if self.under_way.len() <= FEW || self.taken_samples.is_multiple_of(NOW_AND_THEN) {
            assert!(self.chain.under_way().eq(self.under_way.iter().copied()), "the words are not those in the parts");
        }
    }

    fn see_words(&mut self, record: Record, before: &Before) {
        for (earlier, later) in before.neighbours() {
            assert_eq!(earlier.gives(), later.accepts(), "a transfer in one part alone");
        }
        for (part, glance) in self.chain.parts.iter().zip(&before.parts) {
            assert_eq!(part.written(), glance.written + u64::from(glance.accepts()), "a word too many or too few");
        }
        if before.last().gives() {
            assert_eq!(self.under_way.pop_front(), Some(before.last().shown), "the word taken is not the next one");
        }
        if before.first().accepts() {
            self.under_way.push_back(record.pins.data);
        }
    }

    /// The words that fill every part: its memory, and one more in its output register.
    pub fn capacity(&self) -> u64 {
        self.chain.parts.iter().map(|part| part.part.depth + 1).sum()
    }

    /// The pins of a user who writes only while IR is LOW and reads only while OR is LOW.
    pub fn restrained(&self, pins: Pins) -> Pins {
        Pins { wen: pins.wen || !self.room, ren: pins.ren || !self.ready, ..pins }
    }
}
