//! Parts in a row: figures on the reference itself, and what its onlooker sees to.

use reference::chain::onlooker::WatchedChain;
use reference::chain::record::{Record, MOST};
use reference::chain::traffic::{generated, jobs, still};
use reference::chain::LENGTHS;
use reference::corners::Corners;
use reference::part::{Part, PARTS};
use reference::pins::Pins;
use reference::program::expected;
use reference::random::Random;

const ALL_MET: u32 = 0xFFFF;

/// A chain after a Master Reset with n = m = 127, all clocks LOW.
#[derive(Clone)]
struct Bench {
    watched: WatchedChain,
    marks: u32,
    answer: u32,
}

impl Bench {
    fn reset(part: Part, length: usize) -> Bench {
        let mut bench = Bench { watched: WatchedChain::power_up(part, length), marks: ALL_MET, answer: 0 };
        bench.taken(|record| Record {
            pins: Pins { mrs: false, fwft_si: true, ld: false, wclk: false, rclk: false, ..record.pins },
            transfer: false,
            ..record
        });
        bench
    }

    fn sample(&mut self, change: impl Fn(Record) -> Record) -> Result<u32, u32> {
        let record = change(Record { marks: self.marks, ..still(&self.watched.chain) });
        self.watched.sample(record).1
    }

    fn taken(&mut self, change: impl Fn(Record) -> Record) {
        self.answer = self.sample(change).expect("it is taken");
    }

    /// Rises, each with its fall, of some of the clocks, with some enables LOW.
    fn clock(&mut self, rises: usize, [write, over, read]: [bool; 3], change: impl Fn(Pins) -> Pins) {
        for level in [true, false].repeat(rises) {
            let clocked = |pins: Pins| Pins { wclk: write && level, rclk: read && level, ..pins };
            self.taken(|record| Record { pins: change(clocked(record.pins)), transfer: over && level, ..record });
        }
    }

    fn write_rises(&mut self, rises: usize) {
        self.clock(rises, [true, false, false], |pins| pins);
    }

    fn transfer_rises(&mut self, rises: usize) {
        self.clock(rises, [false, true, false], |pins| pins);
    }

    fn read_rises(&mut self, rises: usize) {
        self.clock(rises, [false, false, true], |pins| pins);
    }

    fn write(&mut self, data: u32) {
        self.clock(1, [true, false, false], |pins| Pins { wen: false, data, ..pins });
    }

    fn read(&mut self) {
        self.clock(1, [false, false, true], |pins| Pins { ren: false, ..pins });
    }

    fn room(&self) -> bool {
        self.answer >> 23 & 1 == 0
    }

    fn ready(&self) -> bool {
        self.answer >> 22 & 1 == 0
    }
}

/// Written to, each word its own number, until there is no room and nothing moves any more.
fn full(part: Part, length: usize) -> Bench {
    let mut bench = Bench::reset(part, length);
    let mut still_full = 0;
    while still_full < 4 * length {
        let data = bench.watched.under_way.len() as u32;
        bench.clock(1, [true; 3], |pins| Pins { wen: false, data, ..pins });
        still_full = if bench.room() { 0 } else { still_full + 1 };
    }
    bench
}

/// The fewest rises of the transfer clock, and then of a clock at one end, after which a chain shows what it is to show.
fn fewest(before: &Bench, end: fn(&mut Bench, usize), shown: fn(&Bench) -> bool) -> [usize; 2] {
    let enough = 5 * MOST;
    let shows = |over, rises| {
        let mut bench = before.clone();
        bench.transfer_rises(over);
        end(&mut bench, rises);
        shown(&bench)
    };
    let over = (0..enough).find(|&over| shows(over, enough)).expect("it comes");
    let rises = (0..enough).find(|&rises| shows(over, rises)).expect("it comes");
    [over, rises]
}

/// Until a word is ready that was written to an empty chain: rises of the transfer clock, then of RCLK.
fn way_through(length: usize, marks: u32) -> [usize; 2] {
    let mut bench = Bench::reset(PARTS[0], length);
    bench.write(0x41);
    fewest(&Bench { marks, ..bench }, Bench::read_rises, |bench| bench.answer == 0x2C0041)
}

/// Until a full chain that was read from shows room: rises of the transfer clock, then of WCLK.
fn way_back(length: usize, marks: u32) -> [usize; 2] {
    let mut bench = full(PARTS[0], length);
    bench.read();
    fewest(&Bench { marks, ..bench }, Bench::write_rises, Bench::room)
}

fn missed(bit: usize) -> u32 {
    ALL_MET ^ 1 << bit
}

#[test]
fn a_word_comes_through() {
    for length in LENGTHS {
        assert_eq!(way_through(length, ALL_MET), [4 * (length - 1), 3]);
    }
}

#[test]
fn a_place_comes_back() {
    for length in [2, 3, MOST] {
        assert_eq!(way_back(length, ALL_MET), [3 * (length - 1), 2]);
    }
}

/// Only read marks of parts that are there make a word late, by one rise of the clock that the part is read by.
#[test]
fn missed_marks_on_the_way_through() {
    for length in [2, 3, MOST] {
        for bit in 0..2 * MOST {
            let (place, of_read) = ((15 - bit) / 2, bit.is_multiple_of(2));
            let late = of_read && place < length;
            let (over, read) = (late && place + 1 < length, late && place + 1 == length);
            let expected = [4 * (length - 1) + usize::from(over), 3 + usize::from(read)];
            assert_eq!(way_through(length, missed(bit)), expected, "{length} parts, bit {bit}");
        }
    }
}

/// Only write marks of parts that are there make a place late.
#[test]
fn missed_marks_on_the_way_back() {
    for (bit, [over, write]) in [(15, [0, 1]), (14, [0, 0]), (13, [1, 0]), (12, [0, 0]), (11, [1, 0]), (9, [0, 0])] {
        assert_eq!(way_back(3, missed(bit)), [6 + over, 2 + write], "bit {bit}");
    }
}

#[test]
fn a_full_chain() {
    for (part, length) in [(PARTS[0], 2), (PARTS[1], 2), (PARTS[0], 3)] {
        let mut bench = full(part, length);
        let words = length as u64 * (part.depth + 1);
        assert_eq!(bench.watched.under_way.len() as u64, words);
        for word in 0..words as u32 {
            assert_eq!((bench.ready(), bench.answer & 0x3FFFF), (true, word));
            bench.clock(1, [true; 3], |pins| Pins { ren: false, ..pins });
        }
        assert!(!bench.ready() && bench.room());
    }
}

/// After a reset in the middle the words under way never come, and the next one does as at first.
#[test]
fn resets_in_the_middle() {
    for master in [true, false] {
        for over in 0..16 {
            let mut bench = Bench::reset(PARTS[0], 4);
            (0..3).for_each(|word| bench.write(word));
            bench.transfer_rises(over);
            let reset = |pins: Pins| Pins { mrs: !master, prs: master, fwft_si: master, ld: false, rt: false, ..pins };
            bench.taken(|record| Record { pins: reset(record.pins), ..record });
            assert_eq!(bench.answer, 0x6C0000);
            bench.transfer_rises(12);
            bench.read_rises(5);
            assert_eq!(bench.answer, 0x6C0000);
            bench.write(0x55);
            bench.transfer_rises(12);
            bench.read_rises(3);
            assert_eq!(bench.answer, 0x2C0055);
        }
    }
}

/// A reset, a sample with nothing asked, and a write.
const RESET: &str = "4DD8000000FFFF";
const STILL: &str = "CF98000000FFFF";
const WRITE: &str = "E798004100FFFF";

fn bytes(digits: &str) -> Vec<u8> {
    let digit = |at: usize| u8::from_str_radix(&digits[at..at + 2], 16).expect("two digits");
    (0..digits.len()).step_by(2).map(digit).collect()
}

fn strict(digits: &str) -> String {
    expected::<WatchedChain>(&bytes(digits), false, &mut Corners::default())
}

fn lenient(digits: &str) -> String {
    expected::<WatchedChain>(&bytes(digits), true, &mut Corners::default())
}

#[test]
fn headers() {
    for input in ["", "00", "FF", "0100", "010002"] {
        assert_eq!(strict(input), "end 0 1\n");
    }
    for length in ["", "00", "01", "09", "80", "FF"] {
        assert_eq!(strict(&format!("00FF{length}")), "end 0 13\n");
        assert_eq!(strict(&format!("0100{length}{RESET}")), "end 0 1\n");
    }
    for length in LENGTHS {
        assert_eq!(strict(&format!("00FF{length:02X}")), "end 0 0\n");
        assert_eq!(strict(&format!("0109{length:02X}{RESET}")), "0 6C0000\nend 1 0\n");
    }
}

#[test]
fn bytes_left_over() {
    for left_over in 1..7 {
        let left_over = &WRITE[..2 * left_over];
        assert_eq!(lenient(&format!("00FF02{left_over}")), "end 0 4\n");
        assert_eq!(strict(&format!("00FF02{RESET}{left_over}")), "0 6C0000\nend 1 4\n");
    }
}

/// Each sample before any reset, and after one in which all clocks were LOW.
#[test]
fn numbers() {
    let refused = [
        ("CF980000 01FFFF", 4),
        ("CF980000 40FFFF", 4),
        ("4DD80000 7FFFFF", 4),
        ("CF180000 00FFFF", 14),
        ("EF180000 00FFFF", 14),
        ("CF180000 80FFFF", 14),
        ("CD980000 00FFFF", 14),
        ("DD980000 00FFFF", 14),
        ("4D980000 00FFFF", 14),
        ("0D980000 00FFFF", 14),
        ("E79C0041 00FFFF", 12),
        ("E79C0041 04FFFF", 4),
        ("E71C0041 04FFFF", 4),
        ("E71C0041 00FFFF", 14),
        ("E19C0041 80FFFF", 14),
    ];
    for (sample, number) in refused {
        let sample = sample.replace(' ', "");
        let before_any_reset = match number {
            4 => 4,
            _ if sample.starts_with(['0', '4']) => 14,
            _ => 5,
        };
        assert_eq!(
            lenient(&format!("00FF02{sample}{RESET}{sample}{STILL}")),
            format!("0 refused {before_any_reset}\n1 6C0000\n2 refused {number}\n3 6C0000\nend 2 0\n"),
            "{sample}"
        );
    }
}

/// D unsettled where the first part takes no word; RT and LD LOW in resets, FWFT/SI LOW in a Partial one; SEN LOW.
#[test]
fn taken() {
    for sample in ["EF9C0000 00FFFF", "C79C0041 80FFFF", "A51C0000 00FFFF", "655C0000 80FFFF", "FA9C0000 80FFFF"] {
        let sample = sample.replace(' ', "");
        assert_eq!(strict(&format!("00FF08{RESET}{sample}")), "0 6C0000\n1 6C0000\nend 2 0\n", "{sample}");
    }
}

/// It is seen to where the traces are made.
#[test]
fn words_stay_in_order() {
    let mut random = Random::new(1);
    for job in jobs(3, &mut random) {
        generated(&job, random.draw());
    }
}
