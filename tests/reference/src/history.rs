//! "The two sides": what a side sees of the other, looked up in the rises of both clocks since the last reset.

/// One rise of a clock, as it left its side.
#[derive(Clone, Copy, Debug)]
pub struct Rise {
    /// The first after the reset is 1; 0 is the reset itself.
    pub number: u64,
    pub sample: u64,
    pub skew_met: bool,
    /// The side's own count after the rise.
    pub count: u64,
    /// The level of the side's almost-flag (PAF or PAE) after the rise.
    pub almost: bool,
}

#[derive(Clone, Debug)]
pub struct History {
    reset: Rise,
    rises: Vec<Rise>,
}

const KEPT: usize = 24;

impl History {
    pub fn new(almost_after_reset: bool) -> History {
        let reset = Rise { number: 0, sample: 0, skew_met: true, count: 0, almost: almost_after_reset };
        History { reset, rises: Vec::with_capacity(KEPT + 1) }
    }

    pub fn clear(&mut self) {
        self.rises.clear();
    }

    pub fn latest(&self) -> Rise {
        *self.rises.last().unwrap_or(&self.reset)
    }

    pub fn numbered(&self, number: u64) -> Rise {
        if number == 0 {
            return self.reset;
        }
        *self.rises.iter().rev().find(|rise| rise.number == number).expect("a rise that matters is kept")
    }

    pub fn latest_before(&self, sample: u64) -> Rise {
        *self.rises.iter().rev().find(|rise| rise.sample < sample).unwrap_or(&self.reset)
    }

    /// Settles the almost-flag of the latest rise, which is judged by what the side holds after it.
    pub fn set_almost(&mut self, level: bool) {
        if let Some(rise) = self.rises.last_mut() {
            rise.almost = level;
        }
    }

    /// Puts a rise at the end, and now and then drops those that nothing asks for any more. Asked for are the last three
    /// of a clock (to place its latest two rises), and for each of the other clock's latest two rises the latest rise
    /// before it with its predecessor; every later question is about later rises.
    pub fn push(&mut self, rise: Rise, other: &History) {
        self.rises.push(rise);
        if self.rises.len() > KEPT {
            let seen: Vec<u64> =
                other.rises.iter().rev().take(2).map(|theirs| self.latest_before(theirs.sample).number).collect();
            self.rises.retain(|ours| {
                ours.number + 3 > rise.number
                    || seen.iter().any(|&number| ours.number == number || ours.number + 1 == number)
            });
        }
    }
}

/// Whether the rise of that number has its mark at 0 and a rise of the other clock to look past: one before its sample,
/// and not before this side's previous rise. Rises in one sample count as later than each other.
pub fn looks_past(own: &History, number: u64, other: &History) -> bool {
    let rise = own.numbered(number);
    let theirs = other.latest_before(rise.sample);
    !rise.skew_met && theirs.number > 0 && theirs.sample >= own.numbered(number - 1).sample
}

/// The other side's rise after which the count stood that the rise of that number took across.
pub fn taken_across(own: &History, number: u64, other: &History) -> Rise {
    let theirs = other.latest_before(own.numbered(number).sample);
    if looks_past(own, number, other) {
        other.numbered(theirs.number - 1)
    } else {
        theirs
    }
}

pub fn first_stage(own: &History, other: &History) -> Rise {
    match own.latest().number {
        0 => other.reset,
        latest => taken_across(own, latest, other),
    }
}

/// The second stage holds what the rise before the latest took.
pub fn second_stage(own: &History, other: &History) -> Rise {
    match own.latest().number {
        0 | 1 => other.reset,
        latest => taken_across(own, latest - 1, other),
    }
}
