//! The lines of the chain's trace program.

use super::onlooker::WatchedChain;
use super::record::{self, Record};
use super::LENGTHS;
use crate::corners::{Corner, Corners};
use crate::part::Part;
use crate::program::{Ends, Traced};

impl Traced for WatchedChain {
    const HEAD: usize = 3;
    const BYTES: usize = record::BYTES;
    const ENDS: Ends = Ends {
        no_part: Corner::ChainNoPart,
        unknown_part: Corner::ChainUnknownPart,
        no_samples: Corner::ChainNoRecords,
        lenient: Corner::ChainLenientRun,
        whole: Corner::ChainStrictWhole,
        stops: &[
            (4, Corner::ChainStopFour),
            (5, Corner::ChainStopFive),
            (12, Corner::ChainStopTwelve),
            (14, Corner::ChainStopFourteen),
        ],
        left_over: &[
            Corner::ChainLeftOverOne,
            Corner::ChainLeftOverTwo,
            Corner::ChainLeftOverThree,
            Corner::ChainLeftOverFour,
            Corner::ChainLeftOverFive,
            Corner::ChainLeftOverSix,
        ],
    };

    /// The byte after the part number says how many parts there are.
    fn power_up(part: Part, rest: &[u8], corners: &mut Corners) -> Result<WatchedChain, u32> {
        let length = rest.first().map(|&length| usize::from(length));
        match length {
            Some(length) if LENGTHS.contains(&length) => Ok(WatchedChain::power_up(part, length)),
            _ => {
                corners.chain_length_refused(length);
                Err(13)
            }
        }
    }

    fn line(&mut self, sample: &[u8], corners: &mut Corners) -> Result<String, u32> {
        let record = Record::of(sample);
        let (before, outcome) = self.sample(record);
        corners.chain_samples += 1;
        match outcome {
            Ok(answer) => {
                corners.chain_taken(record, &before, self);
                Ok(format!("{answer:06X}"))
            }
            Err(number) => {
                corners.chain_refused(record, &before, &self.chain, number);
                Err(number)
            }
        }
    }
}
