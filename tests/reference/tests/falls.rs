//! "Enables before retransmit", paper 02, order 3: figures on the reference itself.

use reference::model::{Model, Outcome};
use reference::part::PARTS;
use reference::pins::Pins;
use reference::scenes::calm;

/// A change of a sample in which no clock rises and every other pin is HIGH.
type Change = fn(Pins) -> Pins;

const REN_LOW: Change = |pins| Pins { ren: false, ..pins };
const WEN_LOW: Change = |pins| Pins { wen: false, ..pins };
const IDLE: Change = |pins| pins;
const FALL: Change = |pins| Pins { rt: false, ..pins };
const FALL_REN_LOW: Change = |pins| Pins { rt: false, ren: false, ..pins };
const FALL_WEN_LOW: Change = |pins| Pins { rt: false, wen: false, ..pins };
const RETRANSMIT: Change = |pins| Pins { rt: false, rclk: true, ..pins };
const MASTER_RESET: Change = |pins| Pins { mrs: false, wclk: false, rclk: false, ..pins };
const PARTIAL_RESET: Change = |pins| Pins { prs: false, ..pins };
/// Refused 7 under parallel loading, 12 and 8.
const WRONG_METHOD: Change = |pins| Pins { wclk: true, ld: false, sen: false, ..pins };
const UNSETTLED: Change = |pins| Pins { wclk: true, wen: false, unsettled: true, ..pins };
const RETRANSMIT_REN_LOW: Change = |pins| Pins { ren: false, ..RETRANSMIT(pins) };

struct Bench {
    model: Model,
    memory: Vec<u32>,
}

impl Bench {
    fn power_up() -> Bench {
        Bench { model: Model::power_up(PARTS[0]), memory: vec![0; PARTS[0].depth as usize] }
    }

    fn sample(&mut self, change: impl Fn(Pins) -> Pins) -> u32 {
        match self.model.sample(change(calm(&self.model)).record(), &mut self.memory) {
            Outcome::Taken(_) => 0,
            Outcome::Refused(number) => number,
        }
    }

    /// A word, and WCLK back to LOW, with RT as it is said.
    fn write(&mut self, rt: bool) {
        for wclk in [true, false] {
            assert_eq!(self.sample(|pins| Pins { rt, wclk, wen: false, ..pins }), 0);
        }
    }

    /// What each sample comes to.
    fn numbers(&mut self, changes: &[Change]) -> Vec<u32> {
        changes.iter().map(|change| self.sample(change)).collect()
    }
}

/// One word written, both enables HIGH in the last sample.
fn after_a_word() -> Bench {
    let mut bench = Bench::power_up();
    assert_eq!(bench.sample(|pins| Pins { ld: false, ..MASTER_RESET(pins) }), 0);
    bench.write(true);
    assert_eq!(bench.sample(IDLE), 0);
    bench
}

fn numbers(changes: &[Change]) -> Vec<u32> {
    after_a_word().numbers(changes)
}

#[test]
fn enables_before_and_as_rt_falls() {
    assert_eq!(numbers(&[RETRANSMIT]), [0]);
    assert_eq!(numbers(&[FALL, RETRANSMIT]), [0, 0]);
    for low in [REN_LOW, WEN_LOW] {
        assert_eq!(numbers(&[low, RETRANSMIT]), [0, 8]);
        assert_eq!(numbers(&[low, FALL, RETRANSMIT]), [0, 0, 8]);
        assert_eq!(numbers(&[low, IDLE, RETRANSMIT]), [0, 0, 0]);
    }
    for fall in [FALL_REN_LOW, FALL_WEN_LOW] {
        assert_eq!(numbers(&[fall, RETRANSMIT]), [0, 8]);
    }
}

#[test]
fn enables_after_a_clean_fall() {
    for low in [FALL_REN_LOW, FALL_WEN_LOW] {
        assert_eq!(numbers(&[FALL, low, RETRANSMIT]), [0, 0, 0]);
    }
    assert_eq!(numbers(&[FALL, RETRANSMIT_REN_LOW, RETRANSMIT]), [0, 8, 0]);
}

#[test]
fn until_rt_has_been_high() {
    let unclean = [FALL_REN_LOW, RETRANSMIT, RETRANSMIT, FALL, RETRANSMIT];
    assert_eq!(numbers(&unclean), [0, 8, 8, 0, 8]);
    assert_eq!(numbers(&[FALL_REN_LOW, IDLE, RETRANSMIT]), [0, 0, 0]);
    assert_eq!(numbers(&[FALL_REN_LOW, MASTER_RESET, RETRANSMIT]), [0, 0, 9]);
    for refused in [WRONG_METHOD, UNSETTLED] {
        let numbers = numbers(&[FALL_REN_LOW, FALL, refused, RETRANSMIT]);
        assert_eq!([numbers[0], numbers[1], numbers[3]], [0, 0, 8]);
    }
}

#[test]
fn a_fall_in_a_refused_sample_is_none() {
    assert_eq!(numbers(&[RETRANSMIT_REN_LOW, RETRANSMIT]), [8, 0]);
    assert_eq!(numbers(&[|pins| FALL(WRONG_METHOD(pins)), FALL_WEN_LOW, RETRANSMIT]), [7, 0, 8]);
    assert_eq!(numbers(&[REN_LOW, WRONG_METHOD, RETRANSMIT]), [0, 7, 8]);
    assert_eq!(numbers(&[REN_LOW, RETRANSMIT, RETRANSMIT, IDLE, RETRANSMIT]), [0, 8, 8, 0, 0]);
}

#[test]
fn falls_in_resets_and_before_them() {
    let in_reset: [Change; 2] = [|pins| FALL(MASTER_RESET(pins)), |pins| FALL(PARTIAL_RESET(pins))];
    for reset in in_reset {
        for (fall, number) in [(FALL, 0), (FALL_REN_LOW, 8), (FALL_WEN_LOW, 8)] {
            let mut within = after_a_word();
            assert_eq!(within.sample(|pins| fall(reset(pins))), 0);
            let mut before = after_a_word();
            assert_eq!(before.sample(fall), 0);
            assert_eq!(before.sample(|pins| FALL_REN_LOW(reset(pins))), 0);
            for mut bench in [within, before] {
                bench.write(false);
                assert_eq!(bench.model.written(), 1);
                assert_eq!(bench.sample(RETRANSMIT), number);
            }
        }
        let numbers = numbers(&[reset, RETRANSMIT]);
        assert_eq!(numbers, [0, 9]);
    }
}

#[test]
fn power_up_counts_as_high() {
    for (fall, number) in [(FALL, 0), (FALL_REN_LOW, 8), (FALL_WEN_LOW, 8)] {
        for refused in [None, Some(FALL_REN_LOW), Some(WEN_LOW)] {
            let mut bench = Bench::power_up();
            assert!(refused.is_none_or(|refused| bench.sample(refused) == 5));
            assert_eq!(bench.sample(|pins| fall(MASTER_RESET(pins))), 0);
            bench.write(false);
            assert_eq!(bench.sample(RETRANSMIT), number);
        }
    }
}

#[test]
fn eight_keeps_its_place() {
    let both_clocks: Change = |pins| RETRANSMIT(WRONG_METHOD(pins));
    assert_eq!(numbers(&[REN_LOW, both_clocks]), [0, 7]);
    let mut bench = after_a_word();
    assert_eq!(bench.numbers(&[MASTER_RESET, REN_LOW, RETRANSMIT, IDLE, RETRANSMIT]), [0, 0, 8, 0, 9]);
}
