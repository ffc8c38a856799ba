//! Outside tests: the library through its C interface, and the fitter's programs, beside what was written separately from the rules.
//!
//! `cargo run --release` runs every case; `--seed S` takes another seed, `--case N` runs one case again.

mod cases;
mod choices;
mod engine;
mod ffi;
mod gen;
mod pixel;
mod rank;
mod rng;
mod same;
mod table;
mod tally;
mod text;
mod world;

use std::env;
use std::panic::{catch_unwind, AssertUnwindSafe};
use std::process::ExitCode;

use cases::{Kind, KINDS};
use rng::Rng;
use tally::{Outcome, Tally};

const SEED: u64 = 20_261_115;

/// After so many failures the rest is left.
const ENOUGH: u64 = 10;

struct Wanted {
    seed: u64,
    case: Option<u64>,
    /// Says each case before it runs, for a library that does not come back.
    trace: bool,
}

fn wanted() -> Result<Wanted, String> {
    let mut wanted = Wanted {
        seed: SEED,
        case: None,
        trace: false,
    };
    let mut args = env::args().skip(1);
    while let Some(arg) = args.next() {
        let mut number = || {
            let value = args.next().and_then(|text| text.parse().ok());
            value.ok_or(format!("{arg} needs a number"))
        };
        match arg.as_str() {
            "--seed" => wanted.seed = number()?,
            "--case" => wanted.case = Some(number()?),
            "--trace" => wanted.trace = true,
            _ => return Err(format!("unknown argument {arg}")),
        }
    }
    Ok(wanted)
}

/// One case; a panic of the side of the rules counts as a failure of the case.
fn run_case(kind: &Kind, seed: u64, case: u64, index: u64, tally: &mut Tally) -> Outcome {
    let mut rng = Rng::new(seed, case);
    let run = AssertUnwindSafe(|| (kind.run)(&mut rng, tally, index));
    catch_unwind(run).unwrap_or_else(|_| Err("the case panicked, see above".to_string()))
}

fn report(kind: &Kind, seed: u64, case: u64, wrong: &str) {
    println!("FAILED case {case} ({}), seed {seed}: {wrong}", kind.name);
    println!("  replay: cargo run --release --offline --manifest-path tests/Cargo.toml -- --seed {seed} --case {case}");
}

/// Runs what is wanted; answers the cases run of each kind, and those failed of all.
fn run_all(wanted: &Wanted, tally: &mut Tally) -> (Vec<u64>, u64) {
    let (mut ran, mut failed) = (Vec::new(), 0);
    let mut first = 0;
    for kind in &KINDS {
        let mut of_kind = 0;
        for index in 0..kind.count {
            let case = first + index;
            if failed >= ENOUGH || wanted.case.is_some_and(|one| one != case) {
                continue;
            }
            if wanted.trace {
                println!("case {case}");
            }
            of_kind += 1;
            if let Err(wrong) = run_case(kind, wanted.seed, case, index, tally) {
                report(kind, wanted.seed, case, &wrong);
                failed += 1;
            }
        }
        first += kind.count;
        ran.push(of_kind);
    }
    (ran, failed)
}

fn main() -> ExitCode {
    let wanted = match wanted() {
        Ok(wanted) => wanted,
        Err(wrong) => {
            eprintln!("{wrong}; known are --seed S, --case N, --trace");
            return ExitCode::from(2);
        }
    };
    println!("outside tests, seed {}", wanted.seed);
    let mut tally = Tally::default();
    let (ran, mut failed) = run_all(&wanted, &mut tally);
    if wanted.case.is_none() && failed == 0 {
        tally.print();
        for what in tally.missing() {
            println!("FAILED {what}");
            failed += 1;
        }
    }
    for (kind, times) in KINDS.iter().zip(&ran) {
        println!("{:<37} {times} cases", kind.name);
    }
    let ran: u64 = ran.iter().sum();
    println!("outside tests: {ran} cases, {failed} failed");
    if failed == 0 && ran > 0 {
        ExitCode::SUCCESS
    } else {
        ExitCode::FAILURE
    }
}
