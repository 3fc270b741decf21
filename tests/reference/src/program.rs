//! A trace program from outside: whole inputs in, lines out.

use std::fmt::Write as _;
use std::io::{Read, Write};
use std::process::{Command, Stdio};
use std::thread;

use crate::corners::{Corner, Corners};
use crate::model::{Model, Outcome};
use crate::part::{Part, PARTS};

/// How to start a program that was built for x86-64.
#[derive(Clone)]
pub struct Launch {
    pub native: String,
    pub program: String,
}

impl Launch {
    pub fn command(&self) -> Command {
        let mut command = Command::new(&self.native);
        command.arg(&self.program).stdin(Stdio::piped()).stdout(Stdio::piped());
        command
    }
}

/// The lines that the program prints to an input.
pub fn printed(launch: &Launch, input: &[u8], lenient: bool) -> String {
    let mut command = launch.command();
    if lenient {
        command.arg("lenient");
    }
    let mut child = command.spawn().expect("the trace program starts");
    let mut to = child.stdin.take().expect("its input is a pipe");
    let mut from = child.stdout.take().expect("its output is a pipe");
    let mut lines = String::new();
    thread::scope(|scope| {
        // A strict run may end before it has read everything, so that the rest is not wanted.
        scope.spawn(move || to.write_all(input).ok());
        from.read_to_string(&mut lines).expect("lines are text");
    });
    let status = child.wait().expect("the trace program ends");
    assert!(status.success(), "the trace program ended with {status}");
    lines
}

/// What a trace program runs, by the reference.
pub trait Traced: Sized {
    /// The bytes before the first sample.
    const HEAD: usize = PART_NUMBER;
    /// The bytes of a sample.
    const BYTES: usize;
    const ENDS: Ends;
    /// By what there is between the part number and the first sample, or the number under which that is refused.
    fn power_up(part: Part, rest: &[u8], corners: &mut Corners) -> Result<Self, u32>;
    /// What the line of a sample says after its index, or the number under which the sample is refused.
    fn line(&mut self, sample: &[u8], corners: &mut Corners) -> Result<String, u32>;
}

/// The corners of how a trace begins and ends.
pub struct Ends {
    pub no_part: Corner,
    pub unknown_part: Corner,
    pub no_samples: Corner,
    pub lenient: Corner,
    pub whole: Corner,
    /// By the number that ended a strict run.
    pub stops: &'static [(u32, Corner)],
    /// By the number of bytes, from one on.
    pub left_over: &'static [Corner],
}

/// The bytes of a part number.
const PART_NUMBER: usize = 2;

fn part_of(input: &[u8]) -> Option<Part> {
    let number = u16::from_be_bytes(input.get(..PART_NUMBER)?.try_into().ok()?);
    PARTS.into_iter().find(|part| part.number == number)
}

/// What is to be run on the rest of an input, or the number under which the input is refused.
fn begun<'a, T: Traced>(input: &'a [u8], corners: &mut Corners) -> Result<(T, &'a [u8]), u32> {
    let Some(part) = part_of(input) else {
        corners.note_input(if input.len() < PART_NUMBER { T::ENDS.no_part } else { T::ENDS.unknown_part });
        return Err(1);
    };
    let (head, samples) = input.split_at(input.len().min(T::HEAD));
    Ok((T::power_up(part, &head[PART_NUMBER..], corners)?, samples))
}

/// The lines that "Bench figures" asks for, by the reference.
pub fn expected<T: Traced>(input: &[u8], lenient: bool, corners: &mut Corners) -> String {
    let (mut traced, samples): (T, _) = match begun(input, corners) {
        Ok(begun) => begun,
        Err(number) => return format!("end 0 {number}\n"),
    };
    let samples = samples.chunks_exact(T::BYTES);
    let left_over = samples.remainder().len();
    corners.begin_trace();
    let (mut lines, mut taken, mut end) = (String::new(), 0, 0);
    for (index, sample) in samples.clone().enumerate() {
        match traced.line(sample, corners) {
            Ok(line) => {
                writeln!(lines, "{index} {line}").expect("a string takes all");
                taken += 1;
            }
            Err(number) if lenient => {
                writeln!(lines, "{index} refused {number}").expect("a string takes all");
            }
            Err(number) => {
                end = number;
                break;
            }
        }
    }
    if end == 0 && left_over > 0 {
        corners.note_input(T::ENDS.left_over[left_over - 1]);
        end = 4;
    }
    T::ENDS.note(lenient, end, samples.len(), corners);
    writeln!(lines, "end {taken} {end}").expect("a string takes all");
    lines
}

impl Ends {
    fn note(&self, lenient: bool, end: u32, samples: usize, corners: &mut Corners) {
        if samples == 0 {
            corners.note_input(self.no_samples);
        }
        let stop = self.stops.iter().find(|&&(number, _)| number == end).map(|&(_, corner)| corner);
        corners.note_input(if lenient { self.lenient } else { stop.unwrap_or(self.whole) });
    }
}

/// One part and its memory.
pub struct Single {
    model: Model,
    memory: Vec<u32>,
}

impl Traced for Single {
    const BYTES: usize = 4;
    const ENDS: Ends = Ends {
        no_part: Corner::NoPart,
        unknown_part: Corner::UnknownPart,
        no_samples: Corner::NoRecords,
        lenient: Corner::LenientRun,
        whole: Corner::StrictWhole,
        stops: &[
            (4, Corner::StrictStopFour),
            (5, Corner::StrictStopFive),
            (6, Corner::StrictStopSix),
            (7, Corner::StrictStopSeven),
            (8, Corner::StrictStopEight),
            (9, Corner::StrictStopNine),
            (10, Corner::StrictStopTen),
            (12, Corner::StrictStopTwelve),
        ],
        left_over: &[Corner::LeftOver; 3],
    };

    fn power_up(part: Part, _: &[u8], _: &mut Corners) -> Result<Single, u32> {
        Ok(Single { model: Model::power_up(part), memory: vec![0; part.depth as usize] })
    }

    fn line(&mut self, sample: &[u8], corners: &mut Corners) -> Result<String, u32> {
        let record = u32::from_be_bytes(sample.try_into().expect("four bytes"));
        match corners.watch(&mut self.model, record, &mut self.memory) {
            Outcome::Taken(answer) => Ok(format!("{answer:06X}")),
            Outcome::Refused(number) => Err(number),
        }
    }
}
