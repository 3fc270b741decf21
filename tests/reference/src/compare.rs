//! The reference against the library and against the trace programs, on many traces.

use std::time::Duration;

use crate::chain::onlooker::WatchedChain;
use crate::chain::{self, LENGTHS};
use crate::corners::Corners;
use crate::library::{Difference, Library};
use crate::pair::onlooker::Watched;
use crate::pair::traffic;
use crate::plans::{jobs, Amount};
use crate::program::{expected, printed, Launch, Single, Traced};
use crate::random::Random;
use crate::shrink::shrunk;
use crate::trace::{generated, Step, Trace};

const FOR_SHRINKING: Duration = Duration::from_secs(20);

/// More steps than this are not printed.
const READABLE: usize = 64;

/// A trace on which the two differ, made small: as an input of its trace program, and in words.
pub struct Counterexample {
    pub input: Vec<u8>,
    pub words: String,
}

impl Counterexample {
    /// One that is no input of a trace program.
    pub fn told(kind: &str, words: String) -> Counterexample {
        Counterexample { input: Vec::new(), words: format!("{kind}: {words}") }
    }
}

pub fn library(library: &mut Library, amount: Amount, seed: u64, corners: &mut Corners) -> Option<Counterexample> {
    let mut random = Random::new(seed);
    for job in jobs(amount, &mut random) {
        let (trace, told) = generated(job, true, random.draw(), corners);
        if let Some(difference) = library.difference(&trace, &told) {
            return Some(smallest_trace(library, trace, difference));
        }
    }
    None
}

fn smallest_trace(library: &mut Library, trace: Trace, difference: Difference) -> Counterexample {
    let part = trace.part;
    let last = trace.steps.iter().enumerate().filter(|(_, step)| matches!(step, Step::Record(_)));
    let end = last.map(|(place, _)| place + 1).nth(difference.records - 1).unwrap_or(trace.steps.len());
    let mut words = difference.words;
    let steps = shrunk(trace.steps[..end].to_vec(), FOR_SHRINKING, |steps| {
        let trace = Trace { part, steps: steps.to_vec() };
        match library.difference(&trace, &trace.told()) {
            Some(difference) => {
                words = difference.words;
                true
            }
            None => false,
        }
    });
    let listed: Vec<String> = steps.iter().take(READABLE).map(|step| format!("{step:08X?}")).collect();
    let trace = Trace { part, steps };
    let words = format!("C call, part {}, {} steps: {}\n{words}", part.number, trace.steps.len(), listed.join(" "));
    Counterexample { input: trace.input(), words }
}

pub fn program(launch: &Launch, amount: Amount, seed: u64, corners: &mut Corners) -> Option<Counterexample> {
    let mut random = Random::new(seed);
    let mut manner = Random::new(random.draw());
    let jobs = jobs(amount, &mut random).into_iter();
    let traces = jobs.map(|job| {
        let (trace, _) = generated(job, false, random.draw(), &mut Corners::default());
        damaged(trace.input(), &mut random)
    });
    let traces = traces.map(|input| (input, manner.one_in(3)));
    differing::<Single>(launch, odd_inputs::<Single>().chain(traces), corners)
}

pub fn pair(launch: &Launch, amount: Amount, seed: u64, corners: &mut Corners) -> Option<Counterexample> {
    let mut random = Random::new(seed);
    let mut on_the_way = Corners::default();
    let traces = traffic::jobs(amount, &mut random).into_iter().map(|(job, user)| {
        let (input, lenient) = traffic::generated(job, user, random.draw(), &mut on_the_way);
        (if job.plan.far { input } else { damaged(input, &mut random) }, lenient)
    });
    let counterexample = differing::<Watched>(launch, odd_inputs::<Watched>().chain(traces), corners);
    corners.add(&on_the_way);
    counterexample
}

pub fn chain(launch: &Launch, amount: usize, seed: u64, corners: &mut Corners) -> Option<Counterexample> {
    let mut random = Random::new(seed);
    let traces = chain::traffic::jobs(amount, &mut random).into_iter().map(|job| {
        let (input, lenient) = chain::traffic::generated(&job, random.draw());
        (if job.far() { input } else { damaged(input, &mut random) }, lenient)
    });
    differing::<WatchedChain>(launch, odd_chains().chain(traces), corners)
}

/// The first input on which the program prints other lines than the reference does. Some inputs are for a lenient run.
fn differing<T: Traced>(
    launch: &Launch,
    mut inputs: impl Iterator<Item = (Vec<u8>, bool)>,
    corners: &mut Corners,
) -> Option<Counterexample> {
    let differing =
        inputs.find(|(input, lenient)| expected::<T>(input, *lenient, corners) != printed(launch, input, *lenient));
    differing.map(|(input, lenient)| smallest_input::<T>(launch, input, lenient))
}

/// Inputs with no part, or none that there is.
const NO_PART: [&[u8]; 6] = [&[], &[0], &[0xFF], &[0, 0], &[0xFF, 0], &[1, 0xFF, 0, 0, 0, 0]];

/// Inputs that hold no trace, or none to its end, strict and lenient by turns. They are odd in number for each part, so that
/// what is strict for the one part is lenient for the other.
fn odd_inputs<T: Traced>() -> impl Iterator<Item = (Vec<u8>, bool)> {
    let mut inputs = NO_PART.map(<[u8]>::to_vec).to_vec();
    for part in [[0, 0xFF], [1, 9]] {
        let [reset, still] = [[0x4D, 0x98, 0, 0], [0xCF, 0x98, 0, 0]].map(|record| record.repeat(T::BYTES / 4));
        inputs.extend(cut_short(&part, &reset, &still));
    }
    inputs.into_iter().zip([false, true].into_iter().cycle())
}

/// The same for the chain, also with no number of parts, or one out of bounds.
fn odd_chains() -> impl Iterator<Item = (Vec<u8>, bool)> {
    let mut inputs = NO_PART.map(<[u8]>::to_vec).to_vec();
    let reset = [0x4D, 0xD8, 0, 0, 0, 0xFF, 0xFF];
    let still = [0xCF, 0x98, 0, 0, 0, 0xFF, 0xFF];
    for (part, length) in [([0, 0xFF], *LENGTHS.start()), ([1, 9], *LENGTHS.end())] {
        inputs.push(part.to_vec());
        inputs.extend([0, 1, 9, 16, 0xFF].map(|length| [&part[..], &[length], &reset].concat()));
        inputs.extend(cut_short(&[&part[..], &[length as u8]].concat(), &reset, &still));
    }
    inputs.into_iter().zip([false, true].into_iter().cycle())
}

/// A sample before the reset, and every number of bytes too few for a sample, after a reset and after nothing.
fn cut_short(head: &[u8], reset: &[u8], still: &[u8]) -> Vec<Vec<u8>> {
    let mut inputs = vec![[head, still, reset].concat()];
    for left_over in 0..reset.len() {
        inputs.push([head, &reset[..left_over]].concat());
        inputs.push([head, reset, &reset[..left_over]].concat());
    }
    inputs
}

/// Every third input with one bit turned over, one byte too few or too many, or the end lost.
fn damaged(mut input: Vec<u8>, random: &mut Random) -> Vec<u8> {
    if !random.one_in(3) {
        return input;
    }
    let place = random.below(input.len() as u64) as usize;
    match random.below(4) {
        0 => input[place] ^= 1 << random.below(8),
        1 => drop(input.remove(place)),
        2 => input.insert(place, random.bits() as u8),
        _ => input.truncate(place),
    }
    input
}

fn smallest_input<T: Traced>(launch: &Launch, input: Vec<u8>, lenient: bool) -> Counterexample {
    let told = |input: &[u8]| expected::<T>(input, lenient, &mut Corners::default());
    let (head, samples) = input.split_at(input.len().min(T::HEAD));
    let samples: Vec<&[u8]> = samples.chunks(T::BYTES).collect();
    let whole = |samples: &[&[u8]]| [head, &samples.concat()].concat();
    let first = first_difference(&told(&input), &printed(launch, &input, lenient));
    let cut = samples[..samples.len().min(first + 1)].to_vec();
    let differs = |samples: &[&[u8]]| told(&whole(samples)) != printed(launch, &whole(samples), lenient);
    let samples = if differs(&cut) { shrunk(cut, FOR_SHRINKING, differs) } else { samples };
    let input = whole(&samples);
    let hex: String = input.iter().take(4 * READABLE).map(|byte| format!("{byte:02X}")).collect();
    let (ours, theirs) = (told(&input), printed(launch, &input, lenient));
    let line = first_difference(&ours, &theirs);
    let (our, their) = (ours.lines().nth(line), theirs.lines().nth(line));
    let words = format!("{}, lenient {lenient}: {hex}\nline {line}: expected {our:?}, got {their:?}", launch.program);
    Counterexample { input, words }
}

fn first_difference(ours: &str, theirs: &str) -> usize {
    ours.lines().zip(theirs.lines()).take_while(|(our, their)| our == their).count()
}
