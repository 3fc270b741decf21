//! Readings of "Enables before retransmit", paper 02, order 3, that are wrong: the generated traces tell each from the right one.

use reference::corners::Corners;
use reference::model::Outcome;
use reference::pins::Pins;
use reference::plans::{jobs, Amount};
use reference::random::Random;
use reference::trace::generated;

/// What a reading has come to remember.
#[derive(Clone, Copy)]
struct Reading {
    rt: bool,
    idle: bool,
    clean: bool,
}

const POWER_UP: Reading = Reading { rt: true, idle: true, clean: true };

impl Reading {
    fn fell_clean(self, pins: Pins) -> bool {
        if self.rt && !pins.rt {
            self.idle && pins.ren && pins.wen
        } else {
            self.clean
        }
    }

    fn seen(self, pins: Pins) -> Reading {
        Reading { rt: pins.rt, idle: pins.ren && pins.wen, clean: self.fell_clean(pins) }
    }

    fn seen_if(self, remembered: bool, pins: Pins) -> Reading {
        if remembered {
            self.seen(pins)
        } else {
            self
        }
    }

    fn right(self, sample: Sample) -> Reading {
        self.seen_if(sample.taken, sample.pins)
    }
}

/// A sample, and what came of it.
#[derive(Clone, Copy)]
struct Sample {
    pins: Pins,
    rises: bool,
    taken: bool,
}

/// What a reading remembers after a sample.
type Remember = fn(Reading, Sample) -> Reading;

fn cleared(reading: Reading, sample: Sample, clears: bool) -> Reading {
    if sample.taken && clears {
        POWER_UP
    } else {
        reading.right(sample)
    }
}

const WRONG: [(&str, Remember); 14] = [
    ("a reset clears it", |reading, sample| cleared(reading, sample, sample.pins.in_reset())),
    ("a Master Reset clears it", |reading, sample| cleared(reading, sample, !sample.pins.mrs)),
    ("a Partial Reset clears it", |reading, sample| cleared(reading, sample, sample.pins.mrs && !sample.pins.prs)),
    ("a reset ends an unclean fall", |reading, sample| {
        let after = reading.right(sample);
        Reading { clean: after.clean || sample.taken && sample.pins.in_reset(), ..after }
    }),
    ("a reset is not remembered", |reading, sample| {
        reading.seen_if(sample.taken && !sample.pins.in_reset(), sample.pins)
    }),
    ("a sample with no rise is not remembered", |reading, sample| {
        reading.seen_if(sample.taken && (sample.rises || sample.pins.in_reset()), sample.pins)
    }),
    ("a refused sample is remembered", |reading, sample| reading.seen(sample.pins)),
    ("a refused RT LOW is remembered", |reading, sample| reading.seen_if(sample.taken || !sample.pins.rt, sample.pins)),
    ("a refused RT HIGH is remembered", |reading, sample| reading.seen_if(sample.taken || sample.pins.rt, sample.pins)),
    ("the sample before is not judged", |reading, sample| Reading { idle: true, ..reading.right(sample) }),
    ("the fall's own sample is not judged", |reading, sample| {
        let after = reading.right(sample);
        let falls = sample.taken && reading.rt && !sample.pins.rt;
        Reading { clean: if falls { reading.idle } else { after.clean }, ..after }
    }),
    ("REN is not judged", |reading, sample| {
        reading.right(Sample { pins: Pins { ren: true, ..sample.pins }, ..sample })
    }),
    ("WEN is not judged", |reading, sample| {
        reading.right(Sample { pins: Pins { wen: true, ..sample.pins }, ..sample })
    }),
    ("an enable LOW after the fall counts", |reading, sample| {
        let after = reading.right(sample);
        Reading { clean: after.clean && (after.rt || after.idle), ..after }
    }),
];

/// A reading is wrong where it says another thing of a rise that nothing but the fall can make an 8.
#[test]
fn wrong_readings_are_told_apart() {
    let mut random = Random::new(1);
    let mut differences = [0; WRONG.len()];
    for job in jobs(Amount { wide: 0, long: 0, full: 0, short: 60 }, &mut random) {
        let (trace, told) = generated(job, false, random.draw(), &mut Corners::default());
        let (mut right, mut wrong, mut clocks) = (POWER_UP, [POWER_UP; WRONG.len()], (true, true));
        for (pins, outcome) in trace.records().map(Pins::of).zip(told.outcomes) {
            let (wclk, rclk) = (!clocks.0 && pins.wclk, !clocks.1 && pins.rclk);
            let sample = Sample { pins, rises: wclk || rclk, taken: matches!(outcome, Outcome::Taken(_)) };
            let judged = rclk && !pins.rt && pins.ren && pins.wen && !pins.in_reset();
            for ((reading, (_, remember)), count) in wrong.iter_mut().zip(WRONG).zip(&mut differences) {
                *count += u32::from(judged && reading.fell_clean(pins) != right.fell_clean(pins));
                *reading = remember(*reading, sample);
            }
            right = right.right(sample);
            clocks = if sample.taken { (pins.wclk, pins.rclk) } else { clocks };
        }
    }
    for ((words, _), count) in WRONG.iter().zip(differences) {
        assert!(count > 10, "{words}: {count} differences");
    }
}
