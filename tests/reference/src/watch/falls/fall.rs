//! The falls of RT in one trace.

use crate::model::Model;
use crate::pins::Pins;

#[derive(Clone, Copy, PartialEq, Eq)]
pub(super) enum Kind {
    /// No sample, but what counts as the one before the first.
    PowerUp,
    MasterReset,
    PartialReset,
    Still,
    /// Of WCLK alone.
    WriteRise,
    ReadRise,
}

impl Kind {
    pub(super) fn is_reset(self) -> bool {
        matches!(self, Kind::MasterReset | Kind::PartialReset)
    }
}

/// A sample, as far as a fall is judged by it.
#[derive(Clone, Copy)]
pub(super) struct Seen {
    pub(super) kind: Kind,
    ren: bool,
    wen: bool,
}

impl Seen {
    pub(super) fn of(model: &Model, pins: Pins) -> Seen {
        let kind = match pins {
            Pins { mrs: false, .. } => Kind::MasterReset,
            Pins { prs: false, .. } => Kind::PartialReset,
            _ if model.read_clock_rises(pins) => Kind::ReadRise,
            _ if model.write_clock_rises(pins) => Kind::WriteRise,
            _ => Kind::Still,
        };
        Seen { kind, ren: pins.ren, wen: pins.wen }
    }

    pub(super) fn low(self) -> bool {
        !self.ren || !self.wen
    }
}

/// What was refused since the last accepted sample, and would be taken for one by a model that remembers it.
#[derive(Clone, Copy, Default)]
pub(super) struct Refused {
    pub(super) rt_high: bool,
    /// RT and both enables.
    pub(super) all_high: bool,
    pub(super) clean_fall: bool,
    pub(super) unclean_fall: bool,
}

/// What came after a fall, with RT LOW.
#[derive(Clone, Copy, Default)]
pub(super) struct Since {
    pub(super) master_reset: bool,
    pub(super) partial_reset: bool,
    pub(super) ren_low: bool,
    pub(super) wen_low: bool,
    /// A rise for this fall.
    pub(super) refused: bool,
    pub(super) taken_after_refused: bool,
}

#[derive(Clone, Copy)]
pub(super) struct Fall {
    /// The accepted sample before RT fell, and the one in which it did.
    pub(super) before: Seen,
    pub(super) at: Seen,
    /// An enable was LOW in the accepted sample before those.
    pub(super) low_earlier: bool,
    /// RT was HIGH in the sample before alone, after an unclean fall.
    pub(super) follows_unclean: bool,
    /// Between the two samples.
    pub(super) refused: Refused,
    pub(super) since: Since,
}

impl Fall {
    pub(super) fn clean(&self) -> bool {
        !self.before.low() && !self.at.low()
    }

    /// The place of the only level that was LOW: REN and WEN as RT fell, then before it.
    pub(super) fn only_low(&self) -> Option<usize> {
        let levels = [self.at.ren, self.at.wen, self.before.ren, self.before.wen];
        let mut low = (0..levels.len()).filter(|&place| !levels[place]);
        low.next().filter(|_| low.next().is_none())
    }

    fn then(mut self, now: Seen) -> Fall {
        let since = &mut self.since;
        since.master_reset |= now.kind == Kind::MasterReset;
        since.partial_reset |= now.kind == Kind::PartialReset;
        since.ren_low |= !now.ren;
        since.wen_low |= !now.wen;
        since.taken_after_refused |= since.refused;
        self
    }
}

#[derive(Clone, Copy)]
pub struct Falls {
    pub(super) last: Seen,
    low_earlier: bool,
    ended_unclean: bool,
    pub(super) refused: Refused,
    lasting: Option<Fall>,
}

impl Default for Falls {
    fn default() -> Falls {
        let last = Seen { kind: Kind::PowerUp, ren: true, wen: true };
        Falls { last, low_earlier: false, ended_unclean: false, refused: Refused::default(), lasting: None }
    }
}

impl Falls {
    pub(super) fn lasts(&self) -> bool {
        self.lasting.is_some()
    }

    /// The fall that RT LOW in a sample belongs to.
    pub(super) fn belonging(&self, now: Seen) -> Fall {
        self.lasting.unwrap_or(Fall {
            before: self.last,
            at: now,
            low_earlier: self.low_earlier,
            follows_unclean: self.ended_unclean,
            refused: self.refused,
            since: Since::default(),
        })
    }

    pub(super) fn accept(&mut self, now: Seen, rt: bool) {
        let ended_unclean = rt && self.lasting.is_some_and(|fall| !fall.clean());
        let low_earlier = self.last.low();
        let lasting = match self.lasting {
            _ if rt => None,
            Some(fall) => Some(fall.then(now)),
            None => Some(self.belonging(now)),
        };
        *self = Falls { last: now, low_earlier, ended_unclean, refused: Refused::default(), lasting };
    }

    pub(super) fn refuse(&mut self, now: Seen, rt: bool, by_fall: bool) {
        let falls = !rt && !self.lasts();
        let clean = self.belonging(now).clean();
        let refused = &mut self.refused;
        refused.rt_high |= rt;
        refused.all_high |= rt && !now.low();
        refused.clean_fall |= falls && clean;
        refused.unclean_fall |= falls && !clean;
        if let Some(fall) = &mut self.lasting {
            fall.since.refused |= by_fall;
        }
    }
}
