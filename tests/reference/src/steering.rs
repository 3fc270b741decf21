//! Where a trace is steered to: numbers of words that matter, and samples that are refused.

use crate::model::Model;
use crate::offsets::Method;
use crate::pins::Pins;
use crate::random::Random;
use crate::refusals::most_for_retransmit;

/// Moves the pins so that the sample is refused by that number, if the clocks and the past allow it.
pub fn spoil(number: u32, pins: &mut Pins, model: &Model, random: &mut Random) {
    let both = random.flip();
    pins.wclk |= both || matches!(number, 7 | 10 | 12);
    pins.rclk |= both || matches!(number, 8 | 9);
    (pins.mrs, pins.prs) = (true, true);
    pins.unsettled = number == 12 || random.one_in(3);
    match number {
        5 => (),
        6 => {
            let kept = random.below(4);
            (pins.ld, pins.wen, pins.ren, pins.sen) = (false, kept == 0, kept == 1, kept == 2);
            pins.rt = !random.one_in(4);
        }
        7 => {
            let serial = model.offsets.method == Method::Serial;
            (pins.ld, pins.wen, pins.sen) = (false, !serial, serial);
            pins.ren = !random.one_in(4);
            pins.rt = !random.one_in(4);
        }
        8 => {
            // With both HIGH an unclean fall is left to be the reason, where there is one.
            let kept = random.below(4);
            (pins.rt, pins.wen, pins.ren) = (false, kept == 0 || kept == 3, kept == 1 || kept == 3);
        }
        9 => (pins.rt, pins.wen, pins.ren) = (false, true, true),
        10 => (pins.ld, pins.wen) = (true, false),
        _ => {
            let load = model.offsets.method == Method::Parallel && random.one_in(3);
            (pins.ld, pins.wen, pins.rt) = (!load, false, true);
            (pins.ren, pins.sen) = (pins.ren || load, true);
        }
    }
}

/// The numbers of words held about which something happens; only the near ones where the trace is short.
pub fn places_held(model: &Model, far: bool) -> Vec<u64> {
    let depth = model.part.depth;
    let offsets = &model.offsets;
    let mut places = vec![0, 0, 1, 3, offsets.n, depth - offsets.m];
    if far {
        places.extend([depth / 2, depth, depth, depth - 1]);
    } else {
        places.retain(|&place| place < 40);
    }
    places
}

/// The numbers of words written since the reset about which a retransmit is judged.
pub fn places_written(model: &Model, far: bool) -> Vec<u64> {
    if far {
        vec![1, most_for_retransmit(model.part, model.mode)]
    } else {
        vec![1, 2]
    }
}
