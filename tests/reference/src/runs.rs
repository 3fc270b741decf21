//! Whole runs in one call, strict and lenient: on states of every kind, with rooms and memories of every length.

mod planned;
mod run;
mod runner;

use crate::program::Launch;
use crate::random::Random;

pub use run::{Run, Told};
pub use runner::Runner;

/// Runs tried, or the first that came out otherwise, in words.
pub fn compare(launch: &Launch, rounds: u64, seed: u64) -> Result<u64, String> {
    let mut runner = Runner::new(launch);
    let mut random = Random::new(seed);
    let runs = planned::planned(rounds, &mut random);
    for run in &runs {
        let told = runner.run(run).map_err(|_| format!("the library's process ended in {run}"))?;
        if let Some(difference) = run.expected().difference(&told) {
            return Err(format!("{run}: {difference}"));
        }
    }
    Ok(runs.len() as u64)
}
