//! What the reference takes for a record of the trace on standard input, in nanoseconds.

use std::ffi::c_long;
use std::process::ExitCode;

use reference::model::{Model, Outcome};
use reference::part::Part;

/// As many as the other contestants get for a long trace.
const REPEATS: usize = 3;

/// What `clock` counts in a second, by POSIX.
const CLOCKS_PER_SECOND: f64 = 1e6;

extern "C" {
    fn clock() -> c_long;
}

/// The processor's time so far, as the other contestants are timed.
fn processor_seconds() -> f64 {
    // SAFETY: it takes nothing and only reads.
    unsafe { clock() as f64 / CLOCKS_PER_SECOND }
}

fn seconds(part: Part, records: &[u32]) -> f64 {
    let mut model = Model::power_up(part);
    let mut memory = vec![0; part.depth as usize];
    let start = processor_seconds();
    let taken = |&record: &u32| matches!(model.sample(record, &mut memory), Outcome::Taken(_));
    assert!(records.iter().all(taken), "the traffic is legal");
    processor_seconds() - start
}

fn main() -> ExitCode {
    let Some((part, records)) = bench::read() else {
        eprintln!("time: a trace of a known part comes on standard input");
        return ExitCode::FAILURE;
    };
    let smallest = (0..REPEATS).map(|_| seconds(part, &records)).fold(f64::INFINITY, f64::min);
    println!("{:.2}", 1e9 * smallest / records.len() as f64);
    ExitCode::SUCCESS
}
