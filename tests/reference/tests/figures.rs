//! "Bench figures" of the scope paper, and figures on unsettled data, on the reference itself.

use reference::model::{Model, Outcome};
use reference::part::PARTS;
use reference::pins::Pins;
use reference::scenes::calm;

/// Part 255 after a Master Reset with n = m = 127, both clocks LOW.
struct Bench {
    model: Model,
    memory: Vec<u32>,
    answer: u32,
}

impl Bench {
    fn reset(fwft_si: bool) -> Bench {
        let model = Model::power_up(PARTS[0]);
        let mut bench = Bench { memory: vec![0; PARTS[0].depth as usize], model, answer: 0 };
        bench.taken(|pins| Pins { mrs: false, ld: false, fwft_si, wclk: false, rclk: false, ..pins });
        bench
    }

    fn sample(&mut self, change: impl Fn(Pins) -> Pins) -> Outcome {
        let record = change(calm(&self.model)).record();
        self.model.sample(record, &mut self.memory)
    }

    fn taken(&mut self, change: impl Fn(Pins) -> Pins) {
        match self.sample(change) {
            Outcome::Taken(answer) => self.answer = answer,
            Outcome::Refused(number) => panic!("refused {number}"),
        }
    }

    fn refused(&mut self, number: u32, change: impl Fn(Pins) -> Pins) {
        assert_eq!(self.sample(change), Outcome::Refused(number));
    }

    fn write(&mut self, words: u32) {
        for data in 0..words {
            self.taken(|pins| Pins { wclk: true, wen: false, data, ..pins });
            self.taken(|pins| Pins { wclk: false, ..pins });
        }
    }

    fn idle_reads(&mut self, rises: u32) {
        for _ in 0..rises {
            self.taken(|pins| Pins { rclk: true, ..pins });
            self.taken(|pins| Pins { rclk: false, ..pins });
        }
    }

    fn retransmit(&mut self) -> Option<u32> {
        match self.sample(|pins| Pins { rclk: true, rt: false, ..pins }) {
            Outcome::Taken(_) => None,
            Outcome::Refused(number) => Some(number),
        }
    }

    fn half_full(&self) -> bool {
        self.answer >> 21 & 1 == 0
    }

    fn almost_empty(&self) -> bool {
        self.answer >> 20 & 1 == 0
    }

    fn almost_full(&self) -> bool {
        self.answer >> 19 & 1 == 0
    }
}

fn after(words: u32) -> Bench {
    let mut bench = Bench::reset(false);
    bench.write(words);
    bench
}

#[test]
fn listing() {
    let records: [u32; 9] =
        [0x4D980000, 0xC7980041, 0xE7980041, 0xCF980000, 0xDF980000, 0xCF980000, 0xDF980000, 0xCB980000, 0xDB980000];
    let answers: [u32; 9] = [0xAC0000, 0xAC0000, 0xAC0000, 0xAC0000, 0xAC0000, 0xAC0000, 0xEC0000, 0xEC0000, 0xAC0041];
    let mut model = Model::power_up(PARTS[0]);
    let mut memory = vec![0; 8_192];
    for (record, answer) in records.into_iter().zip(answers) {
        assert_eq!(model.sample(record, &mut memory), Outcome::Taken(answer));
    }
}

#[test]
fn fall_through_reset() {
    assert_eq!(Bench::reset(true).answer, 0x6C0000);
}

#[test]
fn full_with_rclk_still_and_running() {
    let mut bench = after(8_192);
    assert_eq!(bench.answer, 0x040000);
    bench.idle_reads(4);
    assert_eq!(bench.answer, 0x540000);
}

#[test]
fn half_full_limit() {
    assert!(!after(4_096).half_full());
    assert!(after(4_097).half_full());
}

#[test]
fn almost_full_limit() {
    assert!(!after(8_064).almost_full());
    assert!(after(8_065).almost_full());
}

#[test]
fn almost_empty_limit() {
    for (words, almost_empty) in [(127, true), (128, false)] {
        let mut bench = after(words);
        bench.idle_reads(4);
        assert_eq!(bench.almost_empty(), almost_empty);
    }
}

#[test]
fn retransmit_limits() {
    let standard = [(0, Some(9)), (1, None), (8_190, None), (8_191, Some(9))];
    let fall_through = [(0, Some(9)), (1, None), (8_191, None), (8_192, Some(9))];
    for (fwft_si, limits) in [(false, standard), (true, fall_through)] {
        for (words, refused) in limits {
            let mut bench = Bench::reset(fwft_si);
            bench.write(words);
            assert_eq!(bench.retransmit(), refused, "after {words} words");
        }
    }
}

/// A write asked, with D unsettled.
fn unsettled(pins: Pins) -> Pins {
    Pins { wclk: true, wen: false, unsettled: true, data: 0x55, ..pins }
}

#[test]
fn unsettled_write() {
    for fwft_si in [false, true] {
        let mut bench = Bench::reset(fwft_si);
        bench.refused(12, unsettled);
        bench.refused(12, unsettled);
        assert_eq!((bench.model.written(), bench.memory[0]), (0, 0));
        bench.taken(|pins| Pins { unsettled: false, ..unsettled(pins) });
        assert_eq!((bench.model.written(), bench.memory[0]), (1, 0x55));
    }
}

#[test]
fn unsettled_write_while_full() {
    let mut bench = after(8_192);
    bench.refused(12, unsettled);
    bench.taken(|pins| Pins { unsettled: false, ..unsettled(pins) });
    assert_eq!((bench.answer, bench.memory[0]), (0x040000, 0));
}

#[test]
fn unsettled_write_with_a_read() {
    let mut bench = after(3);
    bench.idle_reads(2);
    let read = |pins: Pins| Pins { rclk: true, ren: false, ..pins };
    bench.refused(12, |pins| read(unsettled(pins)));
    bench.taken(|pins| read(Pins { wen: false, unsettled: true, ..pins }));
    assert_eq!((bench.model.read_count(), bench.model.written()), (1, 3));
}

#[test]
fn unsettled_parallel_load() {
    let mut bench = Bench::reset(false);
    let load = |pins: Pins| Pins { ld: false, ..unsettled(pins) };
    bench.refused(12, load);
    bench.taken(|pins| Pins { unsettled: false, data: 3, ..load(pins) });
    bench.taken(|pins| Pins { wclk: false, ..pins });
    bench.refused(12, load);
    assert_eq!((bench.model.offsets.n, bench.model.offsets.m), (3, 127));
}

#[test]
fn unsettled_serial_bit() {
    let mut bench = Bench::reset(false);
    bench.taken(|pins| Pins { mrs: false, ..pins });
    let bit = |pins: Pins| Pins { ld: false, wen: true, sen: false, ..unsettled(pins) };
    bench.refused(7, |pins| Pins { wen: false, sen: true, ..bit(pins) });
    for _ in 0..26 {
        bench.taken(|pins| Pins { fwft_si: true, ..bit(pins) });
        bench.taken(|pins| Pins { wclk: false, ..bit(pins) });
    }
    assert_eq!((bench.model.offsets.n, bench.model.offsets.m), (8_191, 8_191));
}

#[test]
fn unsettled_in_resets() {
    for (mrs, prs) in [(false, true), (true, false)] {
        let mut bench = after(3);
        bench.taken(|pins| Pins { mrs, prs, ..unsettled(pins) });
        assert_eq!((bench.answer, bench.model.written()), (0xAC0000, 0));
    }
    let mut power_up = Model::power_up(PARTS[0]);
    let record = unsettled(calm(&power_up)).record();
    assert_eq!(power_up.sample(record, &mut [0; 8_192]), Outcome::Refused(5));
}

#[test]
fn unsettled_with_nothing_asked() {
    let mut bench = after(1);
    let idle: [fn(Pins) -> Pins; 3] = [
        |pins| Pins { wclk: false, ..pins },
        |pins| Pins { wclk: false, rclk: true, ..pins },
        |pins| Pins { wen: true, ..pins },
    ];
    for change in idle {
        bench.taken(|pins| change(unsettled(pins)));
    }
    assert_eq!(bench.model.written(), 1);
}

#[test]
fn unsettled_comes_last() {
    let mut bench = after(1);
    bench.refused(6, |pins| Pins { ld: false, ren: false, ..unsettled(pins) });
    bench.refused(8, |pins| Pins { rclk: true, rt: false, ..unsettled(pins) });
    assert_eq!(bench.retransmit(), None);
    for _ in 0..2 {
        bench.refused(10, unsettled);
        bench.taken(|pins| Pins { wclk: true, ..pins });
        bench.taken(|pins| Pins { wclk: false, ..pins });
    }
    bench.refused(12, unsettled);
}
