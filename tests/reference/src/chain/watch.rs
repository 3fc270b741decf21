//! Which of the chain's corners a sample comes through.

use super::onlooker::{Before, WatchedChain};
use super::record::{Record, MOST, SPARE};
use super::Chain;
use crate::corners::{Corner, Corners};
use crate::history::History;
use crate::model::Model;

/// For each bit that is to be zero, from the lowest up.
const SPARES: [Corner; SPARE] = [
    Corner::ChainSpareSixteen,
    Corner::ChainSpareSeventeen,
    Corner::ChainSpareEighteen,
    Corner::ChainSpareNineteen,
    Corner::ChainSpareTwenty,
    Corner::ChainSpareTwentyOne,
    Corner::ChainSpareTwentyTwo,
];

/// The write mark and the read mark of each part.
const MISSED: [[Corner; 2]; MOST] = [
    [Corner::ChainMissedWriteOne, Corner::ChainMissedReadOne],
    [Corner::ChainMissedWriteTwo, Corner::ChainMissedReadTwo],
    [Corner::ChainMissedWriteThree, Corner::ChainMissedReadThree],
    [Corner::ChainMissedWriteFour, Corner::ChainMissedReadFour],
    [Corner::ChainMissedWriteFive, Corner::ChainMissedReadFive],
    [Corner::ChainMissedWriteSix, Corner::ChainMissedReadSix],
    [Corner::ChainMissedWriteSeven, Corner::ChainMissedReadSeven],
    [Corner::ChainMissedWriteEight, Corner::ChainMissedReadEight],
];

/// By the number of parts.
const DRAINED: [(usize, Corner); 7] = [
    (2, Corner::ChainDrainedTwo),
    (3, Corner::ChainDrainedThree),
    (4, Corner::ChainDrainedFour),
    (5, Corner::ChainDrainedFive),
    (6, Corner::ChainDrainedSix),
    (7, Corner::ChainDrainedSeven),
    (8, Corner::ChainDrainedEight),
];
const BRIM: [(usize, Corner); 3] =
    [(2, Corner::ChainBrimTwo), (3, Corner::ChainBrimThree), (8, Corner::ChainBrimEight)];

impl Corners {
    pub(super) fn chain_length_refused(&mut self, length: Option<usize>) {
        self.note_input(match length {
            None => Corner::ChainNoLength,
            Some(0) => Corner::ChainNoParts,
            Some(1) => Corner::ChainOnePart,
            Some(9) => Corner::ChainNineParts,
            Some(_) => Corner::ChainManyParts,
        });
    }

    pub(super) fn chain_taken(&mut self, record: Record, before: &Before, after: &WatchedChain) {
        let chain = &after.chain;
        let in_reset = record.pins.in_reset();
        self.note(chain.first(), Corner::ChainRefusedThenTaken, before.refused_rise && before.rises() && !in_reset);
        if in_reset {
            self.chain_reset(record, before, chain);
        } else {
            self.chain_transfers(before, chain);
            self.chain_marks(record, before, chain);
            self.chain_unsettled(before, chain);
            self.chain_ends(before, chain);
        }
        self.chain_filling(after);
        self.chain_flags(chain);
    }

    fn chain_reset(&mut self, record: Record, before: &Before, chain: &Chain) {
        let mut note = |corner, reached| self.note(chain.first(), corner, reached);
        let pins = record.pins;
        let transfer_ready =
            before.neighbours().any(|(earlier, later)| later.write_rise && earlier.ready && later.room);
        note(Corner::ChainMasterReset, !pins.mrs && before.words > 0);
        note(Corner::ChainPartialReset, pins.mrs && before.words > 0);
        note(Corner::ChainResetTransfer, transfer_ready);
        note(Corner::ChainResetRetransmit, !pins.rt);
        note(Corner::ChainResetLoad, pins.mrs && !pins.ld);
        note(Corner::ChainResetMode, pins.mrs && !pins.fwft_si);
        note(Corner::ChainResetUnsettled, pins.unsettled && before.first().write_rise && !pins.wen);
    }

    fn chain_transfers(&mut self, before: &Before, chain: &Chain) {
        let mut note = |corner, reached| self.note(chain.first(), corner, reached);
        let last_link = before.parts.len() - 2;
        for (link, (earlier, later)) in before.neighbours().enumerate() {
            let (at_full, at_empty) = (later.write_asked() && !later.room, earlier.read_asked() && !earlier.ready);
            note(Corner::ChainTransfer, earlier.gives());
            note(Corner::ChainFullInnerAsked, at_full && link < last_link);
            note(Corner::ChainFullLastAsked, at_full && link == last_link);
            note(Corner::ChainEmptyFirstAsked, at_empty && link == 0);
            note(Corner::ChainEmptyInnerAsked, at_empty && link > 0);
        }
        let every = before.neighbours().all(|(earlier, _)| earlier.gives());
        let any = before.neighbours().any(|(earlier, _)| earlier.gives());
        note(Corner::ChainTransferEvery, every && before.parts.len() == MOST);
        note(Corner::ChainAllMove, every && before.first().accepts() && before.last().gives());
        note(Corner::ChainTransferUndriven, any && before.last().pins.oe);
        note(Corner::ChainTransferUnsettled, any && before.first().pins.unsettled);
    }

    fn chain_marks(&mut self, record: Record, before: &Before, chain: &Chain) {
        for (place, (part, glance)) in chain.parts.iter().zip(&before.parts).enumerate() {
            let write = glance.write_rise && mark_matters(&part.writes, &part.reads);
            let read = glance.read_rise && mark_matters(&part.reads, &part.writes);
            self.note(part, MISSED[place][0], write && !glance.pins.write_skew_met);
            self.note(part, MISSED[place][1], read && !glance.pins.read_skew_met);
            let write_ignored = place == 0 && write && glance.pins.write_skew_met && !record.pins.write_skew_met;
            let read_ignored =
                place + 1 == chain.parts.len() && read && glance.pins.read_skew_met && !record.pins.read_skew_met;
            self.note(part, Corner::ChainWriteMarkIgnored, write_ignored);
            self.note(part, Corner::ChainReadMarkIgnored, read_ignored);
        }
    }

    fn chain_unsettled(&mut self, before: &Before, chain: &Chain) {
        let mut note = |corner, reached| self.note(chain.first(), corner, reached);
        let first = before.first();
        note(Corner::ChainUnsettledUnasked, first.pins.unsettled && first.write_rise && first.pins.wen);
        note(Corner::ChainUnsettledStill, first.pins.unsettled && !first.write_rise && !first.pins.wen);
    }

    /// What the user asks for at either end.
    fn chain_ends(&mut self, before: &Before, chain: &Chain) {
        let mut note = |corner, reached| self.note(chain.first(), corner, reached);
        let (first, last) = (before.first(), before.last());
        note(Corner::ChainWriteAtFull, first.write_asked() && !first.room);
        note(Corner::ChainReadAtEmpty, last.read_asked() && !last.ready);
        note(Corner::ChainUndriven, last.pins.oe && last.ready);
    }

    fn chain_filling(&mut self, after: &WatchedChain) {
        let (chain, length) = (&after.chain, after.chain.parts.len());
        let mut note = |corner, reached| self.note(chain.first(), corner, reached);
        let inner = &chain.parts[1..length - 1];
        note(Corner::ChainFullFirst, chain.first().full());
        note(Corner::ChainFullInner, inner.iter().any(Model::full));
        note(Corner::ChainFullLast, chain.last().full());
        note(Corner::ChainEmptyFirst, empty_again(chain.first()));
        note(Corner::ChainEmptyInner, inner.iter().any(empty_again));
        note(Corner::ChainEmptyLast, empty_again(chain.last()));
        let brim = after.under_way.len() as u64 == after.capacity() && chain.parts.iter().all(Model::full);
        BRIM.into_iter().for_each(|(parts, corner)| note(corner, brim && length == parts));
        let drained = chain.parts.iter().all(empty_again);
        DRAINED.into_iter().for_each(|(parts, corner)| note(corner, drained && length == parts));
    }

    /// Where it matters which part an answer is taken from.
    fn chain_flags(&mut self, chain: &Chain) {
        let mut note = |corner, reached| self.note(chain.first(), corner, reached);
        let (first, last) = (chain.first(), chain.last());
        let half = |part: &Model| part.held() > part.part.depth / 2;
        note(Corner::ChainApartRoom, first.full() != last.full());
        note(Corner::ChainApartReady, first.ready() != last.ready());
        note(Corner::ChainApartHalf, half(first) != half(last));
        note(Corner::ChainApartAlmostEmpty, first.reads.latest().almost != last.reads.latest().almost);
        note(Corner::ChainApartAlmostFull, first.writes.latest().almost != last.writes.latest().almost);
        note(Corner::ChainApartData, first.shown() != last.shown());
    }

    pub(super) fn chain_refused(&mut self, record: Record, before: &Before, chain: &Chain, number: u32) {
        let mut note = |corner, reached| self.note(chain.first(), corner, reached);
        let held = chain.conditions(record, &chain.wired(record));
        let also = |number| held[1..].contains(&number);
        match number {
            4 => {
                note(SPARES[record.spare.ilog2() as usize], record.spare.is_power_of_two());
                note(Corner::ChainSpareReset, record.pins.in_reset() && chain.started());
                note(Corner::ChainSpareUnstarted, also(5));
                note(Corner::ChainSpareFourteen, also(14));
                note(Corner::ChainSpareUnsettled, also(12));
            }
            5 => {
                note(Corner::ChainFive, true);
                note(Corner::ChainFivePartial, !record.pins.prs);
                note(Corner::ChainFiveFourteen, also(14));
            }
            14 => {
                note(Corner::ChainFourteenPart, (6..=9).any(also));
                note(Corner::ChainFourteenUnsettled, also(12));
                self.chain_fourteen(record, before, chain);
            }
            _ => {
                note(Corner::ChainTwelve, true);
                note(Corner::ChainTwelveFull, !before.first().room);
                note(Corner::ChainTwelveTransfer, before.neighbours().any(|(earlier, _)| earlier.gives()));
                note(Corner::ChainTwelveRead, before.last().gives());
            }
        }
    }

    fn chain_fourteen(&mut self, record: Record, before: &Before, chain: &Chain) {
        let mut note = |corner, reached| self.note(chain.first(), corner, reached);
        let (pins, rises) = (record.pins, before.rises());
        if pins.in_reset() {
            note(Corner::ChainStandard, chain.started() && pins.prs);
            note(Corner::ChainStandardBoth, chain.started() && !pins.prs);
            note(Corner::ChainStandardFirst, !chain.started());
        } else {
            let (retransmit, load) = (!pins.rt && pins.ld, !pins.ld && pins.rt);
            note(Corner::ChainRetransmitStill, retransmit && !rises);
            note(Corner::ChainRetransmitRise, retransmit && rises);
            note(Corner::ChainLoadStill, load && !rises);
            note(Corner::ChainLoadRise, load && rises);
        }
    }
}

/// Whether the latest rise takes another count across where its mark is missed than where it is met.
fn mark_matters(own: &History, other: &History) -> bool {
    let latest = own.latest();
    let theirs = other.latest_before(latest.sample);
    let passed = theirs.number > 0 && theirs.sample >= own.numbered(latest.number - 1).sample;
    passed && other.numbered(theirs.number - 1).count != theirs.count
}

/// Whether words have gone through a part and none is left in it.
fn empty_again(part: &Model) -> bool {
    part.written() > 0 && part.held() == 0 && !part.untaken
}
