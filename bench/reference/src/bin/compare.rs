//! The plain C model's trace program against the reference, on generated traces: compare SEED NATIVE PROGRAM.

use std::env;
use std::process::ExitCode;

use reference::compare;
use reference::corners::Corners;
use reference::plans::Amount;
use reference::program::Launch;

const AMOUNT: Amount = Amount { wide: 1, long: 2, full: 2, short: 50 };

fn asked() -> Option<(u64, Launch)> {
    let arguments: Vec<String> = env::args().skip(1).collect();
    let [seed, native, program] = arguments.as_slice() else {
        return None;
    };
    Some((seed.parse().ok()?, Launch { native: native.clone(), program: program.clone() }))
}

fn main() -> ExitCode {
    let Some((seed, launch)) = asked() else {
        eprintln!("usage: compare SEED NATIVE PROGRAM");
        return ExitCode::FAILURE;
    };
    let mut corners = Corners::default();
    if let Some(counterexample) = compare::program(&launch, AMOUNT, seed, &mut corners) {
        eprintln!("DIFFERENCE {}", counterexample.words);
        return ExitCode::FAILURE;
    }
    println!("plain C model: seed {seed}, {} samples, as the Rust reference says", corners.samples);
    ExitCode::SUCCESS
}
