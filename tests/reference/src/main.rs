//! Tries the built libraries and the trace programs against the reference:
//! reference SEED AMOUNT NATIVE TRACE TRACE-PAIR TRACE-CHAIN DRIVER RUN-DRIVER.
//! A counterexample is also left next to the driver, as an input of its trace program.

use std::env;
use std::fs;
use std::path::Path;
use std::process::ExitCode;
use std::thread;
use std::time::Instant;

use reference::compare::{self, Counterexample};
use reference::corners::Corners;
use reference::handed::Trial;
use reference::hostile::{Hostile, Tally};
use reference::library::{Library, Numbers};
use reference::plans::Amount;
use reference::program::Launch;
use reference::random::Random;
use reference::runs;

struct Settings {
    seed: u64,
    amount: usize,
    trace: Launch,
    trace_pair: Launch,
    trace_chain: Launch,
    driver: Launch,
    run_driver: Launch,
}

/// What one of the comparisons came to.
#[derive(Default)]
struct Finding {
    corners: Corners,
    wrong: Option<Counterexample>,
}

fn settings() -> Option<Settings> {
    let arguments: Vec<String> = env::args().skip(1).collect();
    let [seed, amount, native, programs @ ..] = arguments.as_slice() else {
        return None;
    };
    let launch = |program: &String| Launch { native: native.clone(), program: program.clone() };
    let programs: Vec<Launch> = programs.iter().map(launch).collect();
    let [trace, trace_pair, trace_chain, driver, run_driver] = programs.try_into().ok()?;
    let (seed, amount) = (seed.parse().ok()?, amount.parse().ok()?);
    Some(Settings { seed, amount, trace, trace_pair, trace_chain, driver, run_driver })
}

fn try_library(settings: &Settings, seed: u64) -> (Finding, Tally) {
    let mut library = Library::new(settings.driver.clone());
    let mut finding = Finding::default();
    let amount = Amount { wide: 1, long: 2 * settings.amount, full: 0, short: 100 * settings.amount };
    finding.wrong = compare::library(&mut library, amount, seed, &mut finding.corners);
    let mut tally = Tally::default();
    if finding.wrong.is_none() {
        (tally, finding.wrong) = try_hostile(&mut library, 40_000 * settings.amount as u64, seed, &mut finding.corners);
    }
    (finding, tally)
}

fn try_hostile(library: &mut Library, calls: u64, seed: u64, corners: &mut Corners) -> (Tally, Option<Counterexample>) {
    let mut hostile = Hostile::new(library, seed).expect("the driver answers");
    let ended = hostile.run(calls).err().map(|_| "the library's process ended".to_string());
    corners.add(&hostile.corners);
    let wrong = hostile.wrong.or(ended);
    (hostile.tally, wrong.map(|words| Counterexample::told("hostile call", words)))
}

/// Calls on states that were never reached, by the number that came of them.
fn try_handed(settings: &Settings, seed: u64) -> (Finding, Numbers) {
    let mut library = Library::new(settings.driver.clone());
    let mut trial = Trial::new(&mut library, seed).expect("the driver answers");
    let ended = |_| Some("the library's process ended".to_string());
    let wrong = trial.run(2_000 * settings.amount as u64).unwrap_or_else(ended);
    let wrong = wrong.map(|words| Counterexample::told("state never reached", words));
    (Finding { corners: trial.corners, wrong }, trial.numbers)
}

/// How many runs were made.
fn try_runs(settings: &Settings, seed: u64) -> (Finding, u64) {
    let tried = runs::compare(&settings.run_driver, settings.amount as u64, seed);
    let (runs, wrong) = match tried {
        Ok(runs) => (runs, None),
        Err(words) => (0, Some(Counterexample::told("run", words))),
    };
    (Finding { wrong, ..Finding::default() }, runs)
}

fn try_program(settings: &Settings, seed: u64) -> Finding {
    let mut finding = Finding::default();
    let amount = Amount { wide: 1, long: settings.amount, full: 0, short: 14 * settings.amount };
    finding.wrong = compare::program(&settings.trace, amount, seed, &mut finding.corners);
    finding
}

fn try_pair(settings: &Settings, seed: u64) -> Finding {
    let mut finding = Finding::default();
    let amount = Amount { wide: 0, long: 0, full: settings.amount.div_ceil(3), short: 4 * settings.amount };
    finding.wrong = compare::pair(&settings.trace_pair, amount, seed, &mut finding.corners);
    finding
}

fn try_chain(settings: &Settings, seed: u64) -> Finding {
    let mut finding = Finding::default();
    finding.wrong = compare::chain(&settings.trace_chain, settings.amount, seed, &mut finding.corners);
    finding
}

/// What was tried beside whole traces.
struct Tried {
    hostile: Tally,
    handed: Numbers,
    runs: u64,
}

impl Tried {
    /// Damage that never spells a state, or always does, tries nothing; and each number that can come is to be met.
    fn enough(&self) -> bool {
        let Tally { spelled, unspelled, numbers, .. } = &self.hostile;
        let all_met = |numbers: &Numbers, wanted: &[u32]| wanted.iter().all(|number| numbers.contains_key(number));
        let (wrong_calls, by_pins) = ([0, 1, 2, 3, 4], [5, 6, 7, 8, 9, 10, 12]);
        let hostile = all_met(numbers, &wrong_calls) && all_met(numbers, &by_pins);
        let handed = all_met(&self.handed, &[0, 3]) && all_met(&self.handed, &by_pins);
        *spelled > 0 && *unspelled > 0 && hostile && handed
    }
}

fn try_all(settings: &Settings) -> ([Finding; 6], Tried) {
    let mut random = Random::new(settings.seed);
    let [library_seed, program_seed, handed_seed, runs_seed, pair_seed, chain_seed] = [(); 6].map(|()| random.draw());
    thread::scope(|scope| {
        let library = scope.spawn(|| try_library(settings, library_seed));
        let program = try_program(settings, program_seed);
        let pair = try_pair(settings, pair_seed);
        let chain = try_chain(settings, chain_seed);
        let (by_handed, handed) = try_handed(settings, handed_seed);
        let (by_runs, runs) = try_runs(settings, runs_seed);
        let (by_library, hostile) = library.join().expect("the comparison with the library ends");
        ([by_library, program, pair, chain, by_handed, by_runs], Tried { hostile, handed, runs })
    })
}

fn report(corners: &Corners, tried: &Tried, wrong: &[Counterexample], seconds: u64) -> bool {
    let hostile = &tried.hostile;
    corners.print();
    println!("hostile calls by number: {:?}", hostile.numbers);
    println!("damaged states: {} pass 3, {} do not", hostile.spelled, hostile.unspelled);
    println!("calls on states never reached, by number: {:?}", tried.handed);
    println!("pair: {} samples, chain: {} samples", corners.pair_samples, corners.chain_samples);
    for counterexample in wrong {
        println!("DIFFERENCE {}", counterexample.words);
    }
    let (samples, unreached) = (corners.samples, corners.unreached());
    let (calls, runs, differences) = (hostile.calls, tried.runs, wrong.len());
    print!("outside: {samples} samples, {calls} hostile calls, {runs} runs, ");
    println!("{differences} differences, {unreached} corners not reached, {seconds} s");
    wrong.is_empty() && unreached == 0 && tried.enough()
}

fn main() -> ExitCode {
    let Some(settings) = settings() else {
        eprintln!("usage: reference SEED AMOUNT NATIVE TRACE TRACE-PAIR TRACE-CHAIN DRIVER RUN-DRIVER");
        return ExitCode::FAILURE;
    };
    let start = Instant::now();
    let left = Path::new(&settings.driver.program).with_file_name("counterexample.trace");
    // One from an earlier run would be taken for this run's.
    fs::remove_file(&left).ok();
    let (findings, tried) = try_all(&settings);
    let (mut corners, mut wrong) = (Corners::default(), Vec::new());
    for finding in findings {
        corners.add(&finding.corners);
        wrong.extend(finding.wrong);
    }
    let passed = report(&corners, &tried, &wrong, start.elapsed().as_secs());
    if let Some(counterexample) = wrong.iter().find(|counterexample| !counterexample.input.is_empty()) {
        fs::write(&left, &counterexample.input).expect("the counterexample can be left");
        println!("the counterexample, as an input of its trace program: {}", left.display());
    }
    match passed {
        true => ExitCode::SUCCESS,
        false => ExitCode::FAILURE,
    }
}
