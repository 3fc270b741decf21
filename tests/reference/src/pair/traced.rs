//! The lines of the pair's trace program.

use super::composite;
use super::onlooker::Watched;
use crate::corners::{Corner, Corners};
use crate::part::Part;
use crate::pins::Pins;
use crate::program::{Ends, Traced};

impl Traced for Watched {
    const BYTES: usize = 8;
    const ENDS: Ends = Ends {
        no_part: Corner::PairNoPart,
        unknown_part: Corner::PairUnknownPart,
        no_samples: Corner::PairNoSamples,
        lenient: Corner::PairLenientRun,
        whole: Corner::PairStrictWhole,
        stops: &[
            (4, Corner::PairStopFour),
            (5, Corner::PairStopFive),
            (6, Corner::PairStopSix),
            (7, Corner::PairStopSeven),
            (8, Corner::PairStopEight),
            (9, Corner::PairStopNine),
            (10, Corner::PairStopTen),
            (11, Corner::PairStopEleven),
            (12, Corner::PairStopTwelve),
        ],
        left_over: &[
            Corner::PairLeftOverOne,
            Corner::PairLeftOverTwo,
            Corner::PairLeftOverThree,
            Corner::PairLeftOverFour,
            Corner::PairLeftOverFive,
            Corner::PairLeftOverSix,
            Corner::PairLeftOverSeven,
        ],
    };

    fn power_up(part: Part, _: &[u8], _: &mut Corners) -> Result<Watched, u32> {
        Ok(Watched::power_up(part))
    }

    fn line(&mut self, sample: &[u8], corners: &mut Corners) -> Result<String, u32> {
        let record = |at: usize| u32::from_be_bytes(sample[at..at + 4].try_into().expect("four bytes"));
        let records = [record(0), record(4)];
        let before = self.onlooker;
        let outcome = self.sample(records);
        corners.pair_samples += 1;
        let pins = records.map(Pins::of);
        match outcome {
            Ok(answers) => {
                corners.pair_taken(&before, pins, answers, self);
                let [full, empty] = composite(self.pair.mode(), answers).map(u32::from);
                let [left, right] = answers;
                Ok(format!("{full}{empty} {left:06X} {right:06X}"))
            }
            Err(number) => {
                corners.pair_refused(&self.pair, pins, number);
                Err(number)
            }
        }
    }
}
