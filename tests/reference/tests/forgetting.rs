//! A history drops rises; nothing that is asked of it may change for that.

use reference::history::{first_stage, second_stage, History, Rise};
use reference::random::Random;

/// Both clocks' rises, all of them, next to the histories that forget.
struct Clocks {
    all: [Vec<Rise>; 2],
    kept: [History; 2],
}

impl Clocks {
    fn rise(&mut self, side: usize, sample: u64, skew_met: bool) {
        let number = self.all[side].len() as u64 + 1;
        let rise = Rise { number, sample, skew_met, count: number, almost: false };
        let other = self.kept[1 - side].clone();
        self.kept[side].push(rise, &other);
        self.all[side].push(rise);
    }

    /// How many rises of the other clock the rise of that number took across, counted out from the beginning.
    fn counted(&self, side: usize, number: usize) -> u64 {
        let Some(place) = number.checked_sub(1) else {
            return 0;
        };
        let (own, other) = (&self.all[side], &self.all[1 - side]);
        let earlier = other.iter().filter(|rise| rise.sample < own[place].sample).count();
        let last_own = place.checked_sub(1).map_or(0, |last| own[last].sample);
        let past = !own[place].skew_met && earlier > 0 && other[earlier - 1].sample >= last_own;
        (earlier - usize::from(past)) as u64
    }

    fn compare(&self, side: usize) {
        let rises = self.all[side].len();
        let (own, other) = (&self.kept[side], &self.kept[1 - side]);
        assert_eq!(first_stage(own, other).number, self.counted(side, rises));
        assert_eq!(second_stage(own, other).number, self.counted(side, rises.saturating_sub(1)));
    }
}

/// Each clock stands still for long stretches, so that the other's rises have to be dropped from the middle.
#[test]
fn stages_do_not_change() {
    let mut random = Random::new(1);
    let mut clocks = Clocks { all: [Vec::new(), Vec::new()], kept: [History::new(true), History::new(false)] };
    let mut sample = 0;
    for _ in 0..60 {
        let moving = random.pick(&[[true, true], [true, false], [false, true]]);
        for _ in 0..random.below(120) {
            sample += 1;
            for (side, moves) in moving.into_iter().enumerate() {
                if moves && random.flip() {
                    clocks.rise(side, sample, random.flip());
                }
            }
            clocks.compare(0);
            clocks.compare(1);
        }
    }
}
