//! "Enables before retransmit": paper 02, order 3. By which fall of RT a retransmit was taken or refused, and what lay about
//! it, of which the model keeps no more than it judges by.

mod fall;

pub use fall::Falls;

use crate::corners::{Corner, Corners};
use crate::model::Model;
use crate::pins::Pins;

use fall::{Fall, Kind, Seen};

/// By where RT fell: the corner of a retransmit that was taken, and of one that was refused.
const PLACES: [(Kind, Corner, Corner); 4] = [
    (Kind::Still, Corner::CleanStill, Corner::UncleanStill),
    (Kind::WriteRise, Corner::CleanWriteRise, Corner::UncleanWriteRise),
    (Kind::MasterReset, Corner::CleanMasterReset, Corner::UncleanMasterReset),
    (Kind::PartialReset, Corner::CleanPartialReset, Corner::UncleanPartialReset),
];

/// By the only level that was LOW: REN and WEN as RT fell, then before it.
const EARLIER: [Corner; 4] =
    [Corner::UncleanReadAt, Corner::UncleanWriteAt, Corner::UncleanReadBefore, Corner::UncleanWriteBefore];

/// The same where RT falls with the rise, which is refused for its own enables in any case.
const NOW: [Option<Corner>; 4] = [None, None, Some(Corner::UncleanReadNow), Some(Corner::UncleanWriteNow)];

impl Corners {
    pub(super) fn taken_by_fall(&mut self, before: &Model, pins: Pins, after: &Model) {
        let now = Seen::of(before, pins);
        if !pins.rt {
            let fall = self.falls.belonging(now);
            if now.kind == Kind::ReadRise {
                self.clean(after, &fall);
            }
            if after.written() > before.written() {
                self.written_under(after, &fall);
            }
        }
        self.falls.accept(now, pins.rt);
    }

    pub(super) fn refused_by_fall(&mut self, model: &Model, pins: Pins, number: u32) {
        let now = Seen::of(model, pins);
        let by_fall = number == 8 && pins.ren && pins.wen;
        if by_fall {
            let fall = self.falls.belonging(now);
            self.unclean(model, &fall);
        }
        self.falls.refuse(now, pins.rt, by_fall);
    }

    fn clean(&mut self, model: &Model, fall: &Fall) {
        let Fall { before, since, refused, .. } = *fall;
        self.note(model, Corner::CleanNow, !self.falls.lasts());
        for (kind, clean, _) in PLACES {
            self.note(model, clean, fall.at.kind == kind);
        }
        let first = before.kind == Kind::PowerUp;
        self.note(model, Corner::CleanFirst, first);
        self.note(model, Corner::CleanFirstRefused, first && refused.unclean_fall);
        self.note(model, Corner::CleanAfterRefused, refused.unclean_fall);
        self.note(model, Corner::CleanOverMaster, since.master_reset);
        self.note(model, Corner::CleanOverPartial, since.partial_reset);
        self.note(model, Corner::CleanReadSince, since.ren_low);
        self.note(model, Corner::CleanWriteSince, since.wen_low);
        let (still, reset) = (before.kind == Kind::Still, before.kind.is_reset());
        self.note(model, Corner::CleanByStill, fall.low_earlier && still);
        self.note(model, Corner::CleanByReset, fall.low_earlier && reset);
        let ended = fall.follows_unclean;
        self.note(model, Corner::CleanEndedStill, ended && still);
        self.note(model, Corner::CleanEndedReset, ended && reset);
        self.note(model, Corner::CleanEndedRise, ended && !still && !reset);
    }

    fn written_under(&mut self, model: &Model, fall: &Fall) {
        let lasts = self.falls.lasts();
        self.note(model, Corner::WriteAsFalls, !lasts);
        self.note(model, Corner::WriteUnderClean, lasts && fall.clean());
        self.note(model, Corner::WriteUnderUnclean, lasts && !fall.clean());
    }

    fn unclean(&mut self, model: &Model, fall: &Fall) {
        let Fall { before, at, since, refused, .. } = *fall;
        let (lasts, falls) = (self.falls.lasts(), self.falls);
        if let Some(alone) = fall.only_low() {
            let corner = if lasts { Some(EARLIER[alone]) } else { NOW[alone] };
            corner.into_iter().for_each(|corner| self.note(model, corner, true));
        }
        for (kind, _, unclean) in PLACES {
            self.note(model, unclean, at.kind == kind);
        }
        let by_before = !at.low();
        self.note(model, Corner::UncleanBeforeStill, by_before && before.kind == Kind::Still);
        self.note(model, Corner::UncleanBeforeReset, by_before && before.kind.is_reset());
        self.note(model, Corner::UncleanFirst, before.kind == Kind::PowerUp);
        self.note(model, Corner::UncleanOverMaster, since.master_reset);
        self.note(model, Corner::UncleanOverPartial, since.partial_reset);
        self.note(model, Corner::UncleanTwice, since.refused);
        self.note(model, Corner::UncleanLater, since.taken_after_refused);
        self.note(model, Corner::UncleanRefusedBetween, by_before && refused.all_high);
        self.note(model, Corner::UncleanAfterRefused, refused.clean_fall);
        let latest = falls.refused;
        self.note(model, Corner::UncleanNowTwice, !lasts && latest.unclean_fall);
        self.note(model, Corner::UncleanHighRefused, lasts && latest.rt_high && !falls.last.low());
        self.note(model, Corner::UncleanIdleRefused, lasts && latest.all_high);
    }
}
