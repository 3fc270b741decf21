//! Two parts side by side: figures on the reference itself, and what comes of waiting for the composite flags.

use reference::corners::Corners;
use reference::pair::onlooker::{Watched, Words};
use reference::pair::traffic::{generated, jobs};
use reference::pair::Pair;
use reference::part::PARTS;
use reference::pins::Pins;
use reference::plans::Amount;
use reference::program::expected;
use reference::random::Random;
use reference::refusals::refusal;

/// Resets with n = m = 127 and both clocks LOW; then samples with nothing asked, or a read, a write or a retransmit.
const STANDARD: u32 = 0x4D980000;
const FALL_THROUGH: u32 = 0x4DD80000;
const STILL: u32 = 0xCF980000;
const READ_CLOCK: u32 = 0xDF980000;
const READ: u32 = 0xDB980000;
const WRITE_CLOCK: u32 = 0xEF980000;
const WRITE: u32 = 0xE7980041;
const RETRANSMIT: u32 = 0xDF180000;
const FALL: u32 = 0xCF180000;
const FALL_REN_LOW: u32 = 0xCB180000;

/// Both marks met, unless turned over.
const READ_SKEW: u32 = 1 << 19;
const WRITE_SKEW: u32 = 1 << 20;
const UNSETTLED: u32 = 1 << 18;

fn input(samples: &[[u32; 2]]) -> Vec<u8> {
    let records = samples.iter().flatten().flat_map(|record| record.to_be_bytes());
    [0, 0xFF].into_iter().chain(records).collect()
}

fn strict(input: &[u8]) -> String {
    expected::<Watched>(input, false, &mut Corners::default())
}

fn lenient(samples: &[[u32; 2]]) -> String {
    expected::<Watched>(&input(samples), true, &mut Corners::default())
}

fn words(samples: &[[u32; 2]]) -> [Words; 2] {
    let mut watched = Watched::power_up(PARTS[0]);
    for &sample in samples {
        watched.sample(sample).ok();
    }
    watched.onlooker.words
}

#[test]
fn resets() {
    assert_eq!(strict(&input(&[[STANDARD; 2]])), "0 10 AC0000 AC0000\nend 1 0\n");
    assert_eq!(strict(&input(&[[FALL_THROUGH; 2]])), "0 01 6C0000 6C0000\nend 1 0\n");
}

/// One word written, and RCLK rises until the left half alone shows it, for the right half's skew was missed; then a read.
#[test]
fn ready_apart() {
    let standard = (STANDARD, 2, "4 10 EC0000 AC0000\nend 5 0\n", "6 10 AC0041 EC0000\nend 7 0\n");
    let fall_through = (FALL_THROUGH, 3, "6 01 2C0041 6C0000\nend 7 0\n", "8 01 6C0041 2C0042\nend 9 0\n");
    for (reset, rises, shown, read) in [standard, fall_through] {
        let mut samples = vec![[reset; 2], [WRITE, WRITE ^ 3], [READ_CLOCK, READ_CLOCK ^ READ_SKEW]];
        for _ in 1..rises {
            samples.extend([[STILL; 2], [READ_CLOCK; 2]]);
        }
        assert!(lenient(&samples).ends_with(shown));
        samples.extend([[STILL; 2], [READ; 2]]);
        assert!(lenient(&samples).ends_with(read));
        assert_eq!(words(&samples).map(|half| half.taken), [1, 0]);
    }
}

/// Filled, a word gone out, and WCLK rises until the left half alone shows room; then a write.
#[test]
fn room_apart() {
    for (reset, shown) in [(STANDARD, "01 D40041 540041"), (FALL_THROUGH, "10 140041 940041")] {
        let mut samples = vec![[reset; 2]];
        samples.extend([[WRITE; 2], [STILL; 2]].repeat(8_192));
        samples.extend([[READ; 2], [STILL; 2]].repeat(3));
        samples.extend([[WRITE_CLOCK, WRITE_CLOCK ^ WRITE_SKEW], [STILL; 2], [WRITE_CLOCK; 2]]);
        assert!(lenient(&samples).ends_with(&format!(" {shown}\nend {} 0\n", samples.len())));
        samples.extend([[STILL; 2], [WRITE; 2]]);
        assert_eq!(words(&samples).map(|half| half.accepted), [8_193, 8_192]);
    }
}

#[test]
fn pins_apart() {
    for bit in 21..32 {
        for reset in [STANDARD, 0x8D980000] {
            let apart = [reset, reset ^ 1 << bit];
            assert_eq!(
                lenient(&[apart, [STANDARD; 2], apart]),
                "0 refused 11\n1 10 AC0000 AC0000\n2 refused 11\nend 1 0\n"
            );
        }
    }
}

#[test]
fn numbers_in_order() {
    let refused = |sample| lenient(&[sample, [STANDARD; 2]]);
    let then_reset = |number| format!("0 refused {number}\n1 10 AC0000 AC0000\nend 1 0\n");
    for sample in [[STILL, READ], [STILL | UNSETTLED, READ], [STILL, READ | UNSETTLED]] {
        assert_eq!(refused(sample), then_reset(11));
    }
    for sample in [[STILL | UNSETTLED, STILL], [STILL, STILL ^ UNSETTLED ^ READ_SKEW ^ WRITE_SKEW ^ 1]] {
        assert_eq!(refused(sample), then_reset(5));
    }
}

#[test]
fn unsettled_in_either_half() {
    let after_reset = |sample| lenient(&[[STANDARD; 2], sample]);
    let refused = |number| format!("0 10 AC0000 AC0000\n1 refused {number}\nend 1 0\n");
    for sample in [[WRITE | UNSETTLED, WRITE], [WRITE, WRITE | UNSETTLED], [WRITE | UNSETTLED; 2]] {
        assert_eq!(after_reset(sample), refused(12));
    }
    assert_eq!(after_reset([WRITE | UNSETTLED, READ]), refused(11));
    for pins in [STILL, STANDARD, READ, WRITE_CLOCK] {
        for sample in [[pins | UNSETTLED, pins], [pins, pins | UNSETTLED]] {
            assert_eq!(after_reset(sample), "0 10 AC0000 AC0000\n1 10 AC0000 AC0000\nend 2 0\n");
        }
    }
}

/// A write after a retransmit that one half has not seen, for its mark at one rise before: both words settled, the left
/// one unsettled, the right one unsettled.
#[test]
fn one_half_refuses() {
    let by_left = ([WRITE_CLOCK ^ WRITE_SKEW, WRITE_CLOCK], ["refused 10", "refused 10", "refused 10"]);
    let by_right = ([WRITE_CLOCK, WRITE_CLOCK ^ WRITE_SKEW], ["refused 10", "refused 12", "refused 10"]);
    for (apart, numbers) in [by_left, by_right] {
        let before = [[STANDARD; 2], [WRITE; 2], [STILL; 2], [RETRANSMIT; 2], [STILL; 2], apart, [STILL; 2]];
        let before = [&before[..], &[[WRITE_CLOCK; 2], [STILL; 2]]].concat();
        let after = [[WRITE_CLOCK; 2], [STILL; 2], [WRITE; 2], [READ_CLOCK; 2]];
        let writes = [[WRITE; 2], [WRITE | UNSETTLED, WRITE], [WRITE, WRITE | UNSETTLED]];
        let refused = lenient(&[&before[..], &writes, &after].concat());
        let without = lenient(&[&before[..], &after].concat());
        let answers =
            |lines: &str| lines.lines().map(|line| line.split_once(' ').expect("an index").1.to_string()).collect();
        let (mut refused, without): (Vec<String>, Vec<String>) = (answers(&refused), answers(&without));
        assert_eq!(Vec::from_iter(refused.drain(before.len()..before.len() + writes.len())), numbers);
        assert_eq!(refused, without);
    }
}

/// RT falls in a write, or with REN LOW, or cleanly.
#[test]
fn falls_of_both_halves() {
    let refused = |fall: &[u32]| {
        let samples: Vec<u32> = [&[STANDARD], fall, &[RETRANSMIT]].concat();
        let samples: Vec<[u32; 2]> = samples.into_iter().map(|record| [record; 2]).collect();
        lenient(&samples).lines().rev().nth(1).is_some_and(|line| line.ends_with(" refused 8"))
    };
    assert!(refused(&[WRITE]));
    assert!(refused(&[WRITE, STILL, FALL_REN_LOW]));
    assert!(refused(&[WRITE, STILL, FALL_REN_LOW, FALL]));
    assert!(!refused(&[WRITE, STILL]));
    assert!(!refused(&[WRITE, STILL, FALL, FALL_REN_LOW]));
    assert!(!refused(&[WRITE, STILL, FALL_REN_LOW, STILL]));
}

/// Halves that remember different falls, which only states handed in can do.
#[test]
fn falls_of_one_half() {
    let (left, right) = ([Some(8), None], [None, Some(8)]);
    for (falls, numbers) in [([FALL; 2], [None; 2]), ([FALL_REN_LOW, FALL], left), ([FALL, FALL_REN_LOW], right)] {
        let mut pair = Pair::power_up(PARTS[0]);
        for record in [STANDARD, WRITE, STILL] {
            pair.sample([record; 2]).expect("it is taken");
        }
        for (half, fall) in pair.halves.iter_mut().zip(falls) {
            half.take(Pins::of(fall), &mut [0; 8_192]);
        }
        assert_eq!(pair.halves.each_ref().map(|half| refusal(half, Pins::of(RETRANSMIT))), numbers);
        let either = numbers.into_iter().flatten().next();
        assert_eq!(pair.sample([RETRANSMIT; 2]).err(), either);
        pair.sample([STILL; 2]).expect("it is taken");
        pair.sample([RETRANSMIT; 2]).expect("a clean fall of both");
    }
}

#[test]
fn bytes_left_over() {
    let whole = input(&[[STANDARD; 2]; 2]);
    for left_over in 1..8 {
        assert_eq!(strict(&whole[..2 + left_over]), "end 0 4\n");
        assert_eq!(strict(&whole[..10 + left_over]), "0 10 AC0000 AC0000\nend 1 4\n");
    }
}

/// It is seen to where the traces are made.
#[test]
fn waiting_keeps_the_halves_together() {
    let mut random = Random::new(1);
    for (job, user) in jobs(Amount { wide: 0, long: 2, full: 0, short: 100 }, &mut random) {
        generated(job, user, random.draw(), &mut Corners::default());
    }
}
