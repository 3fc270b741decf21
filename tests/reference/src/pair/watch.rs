//! Which of the pair's corners a sample comes through.

use super::onlooker::{Onlooker, Watched};
use super::{levels, Pair};
use crate::corners::{Corner, Corners};
use crate::pins::{Pins, SHARED_FROM};
use crate::refusals::refusal;

/// For each pin that both records must have alike, from the lowest bit up.
const APART: [Corner; 11] = [
    Corner::PairApartOutputEnable,
    Corner::PairApartModeOrBit,
    Corner::PairApartRetransmit,
    Corner::PairApartSerialEnable,
    Corner::PairApartLoad,
    Corner::PairApartReadEnable,
    Corner::PairApartWriteEnable,
    Corner::PairApartReadClock,
    Corner::PairApartWriteClock,
    Corner::PairApartPartialReset,
    Corner::PairApartMasterReset,
];

/// By the number that each part by itself gives.
const OWN: [(Corner, [Option<u32>; 2]); 8] = [
    (Corner::PairTenLeft, [Some(10), None]),
    (Corner::PairTenRight, [None, Some(10)]),
    (Corner::PairTenBoth, [Some(10), Some(10)]),
    (Corner::PairTwelveLeft, [Some(12), None]),
    (Corner::PairTwelveRight, [None, Some(12)]),
    (Corner::PairTwelveBoth, [Some(12), Some(12)]),
    (Corner::PairTwelveFirst, [Some(12), Some(10)]),
    (Corner::PairTenFirst, [Some(10), Some(12)]),
];

impl Corners {
    pub(super) fn pair_taken(&mut self, before: &Onlooker, pins: [Pins; 2], answers: [u32; 2], after: &Watched) {
        let mut note = |corner, reached| self.note(&after.pair.halves[0], corner, reached);
        let [left, right] = answers.map(levels);
        note(Corner::PairFullLeft, left[0] && !right[0]);
        note(Corner::PairFullRight, right[0] && !left[0]);
        note(Corner::PairEmptyLeft, left[1] && !right[1]);
        note(Corner::PairEmptyRight, right[1] && !left[1]);
        note(Corner::PairModeChanged, left != right && after.mode_changed);
        note(Corner::PairModeKept, left != right && after.mode_kept);
        let [left, right] = after.onlooker.words;
        note(Corner::PairAcceptedLeft, left.accepted > right.accepted);
        note(Corner::PairAcceptedRight, right.accepted > left.accepted);
        note(Corner::PairTakenLeft, left.taken > right.taken);
        note(Corner::PairTakenRight, right.taken > left.taken);
        let ([left, right], rises) = (pins, before.rises(pins[0]));
        let accepted = before.asked(left).write && before.shown.iter().all(|shown| shown.write);
        note(Corner::PairDataApart, accepted && left.data != right.data);
        note(Corner::PairWriteMarkApart, rises.write && left.write_skew_met != right.write_skew_met);
        note(Corner::PairReadMarkApart, rises.read && left.read_skew_met != right.read_skew_met);
        note(Corner::PairUnsettledApart, rises.write && left.unsettled != right.unsettled);
    }

    pub(super) fn pair_refused(&mut self, pair: &Pair, pins: [Pins; 2], number: u32) {
        let mut note = |corner, reached| self.note(&pair.halves[0], corner, reached);
        let held: Vec<u32> = pair.conditions(pins).collect();
        match number {
            11 => {
                let [left, right] = pins.map(Pins::record);
                let apart = (left ^ right) >> SHARED_FROM;
                note(APART[apart.ilog2() as usize], apart.is_power_of_two());
                note(Corner::PairApartInReset, pair.halves[0].started() && pins.iter().all(|pins| pins.in_reset()));
                note(Corner::PairApartUnstarted, held[1..].contains(&5));
                note(Corner::PairApartFirst, held[1..].iter().any(|number| (6..=10).contains(number)));
                note(Corner::PairApartUnsettled, held[1..].contains(&12));
            }
            5 => note(Corner::PairFive, true),
            6 => note(Corner::PairSix, true),
            7 => note(Corner::PairSeven, true),
            8 => {
                note(Corner::PairEight, true);
                note(Corner::PairEightFall, pins[0].ren && pins[0].wen);
            }
            9 => note(Corner::PairNine, true),
            _ => {
                let own = [0, 1].map(|half| refusal(&pair.halves[half], pins[half]));
                OWN.into_iter().for_each(|(corner, expected)| note(corner, own == expected));
            }
        }
    }

    /// What a user takes back though one half alone would allow it.
    pub(super) fn withheld(&mut self, watched: &Watched, wanted: Pins, asked: Pins) {
        let mut note = |corner, reached| self.note(&watched.pair.halves[0], corner, reached);
        let shown = watched.onlooker.shown;
        note(Corner::PairWriteWithheld, wanted.wen != asked.wen && shown.iter().any(|shown| shown.write));
        note(Corner::PairReadWithheld, wanted.ren != asked.ren && shown.iter().any(|shown| shown.read));
    }
}
