//! Holds an engine against the simulator: return values and every byte of
//! every buffer, the guard bytes around them included.
//!
//! `differential [--engine library|twin|OBJECT] [--seed N] [--count N]
//! [--seconds N] [--by simulator|pairs]`. The fixed parts come first, those at the limits of the paper
//! before all, then `count` random calls, or as many as fit in the seconds. It
//! ends with 1 at the first difference, and also if a long enough run left a
//! rule or a limit untried. `--by pairs` holds nothing against the simulator,
//! only pairs of calls against each other.

mod batch;
mod call;
mod engine;
mod explain;
mod limits;
mod pair;
mod shrink;
mod tally;
mod test;
mod tiny;

use std::process::ExitCode;
use std::time::{Duration, Instant};

use simulator::generate::{Batches, Scenarios};

use engine::Engine;
use explain::explain;
use test::{Failure, Test};

/// From so many random calls on, no row of the tally may be zero.
const TELLING: u64 = 3_000;

/// Among so many random calls one of several plans comes as well.
const CALLS_TO_A_BATCH: u64 = 20;

struct Options {
    engine: String,
    seed: u64,
    count: u64,
    seconds: Option<u64>,
    pairs_alone: bool,
}

fn main() -> ExitCode {
    let options = match options(std::env::args().skip(1)) {
        Ok(options) => options,
        Err(complaint) => return usage(&complaint),
    };
    let engine = match Engine::named(&options.engine) {
        Ok(engine) => engine,
        Err(complaint) => return usage(&complaint),
    };
    let mut test = Test::new(engine, options.seed, options.pairs_alone);
    match play(&mut test, &options) {
        Ok(random) => conclude(&test, &options, random),
        Err(failure) => {
            explain(&test, &failure);
            ExitCode::FAILURE
        }
    }
}

fn usage(complaint: &str) -> ExitCode {
    eprintln!("{complaint}");
    eprintln!(
        "differential [--engine library|twin|OBJECT] [--seed N] [--count N] [--seconds N] \
         [--by simulator|pairs]"
    );
    ExitCode::from(2)
}

fn options(mut words: impl Iterator<Item = String>) -> Result<Options, String> {
    let mut options = Options {
        engine: "twin".to_string(),
        seed: 1,
        count: 20_000,
        seconds: None,
        pairs_alone: false,
    };
    while let Some(word) = words.next() {
        let value = words.next().ok_or(format!("{word} needs a value"))?;
        let number = || {
            value
                .parse::<u64>()
                .map_err(|_| format!("no number: {value}"))
        };
        match word.as_str() {
            "--engine" => options.engine = value,
            "--seed" => options.seed = number()?,
            "--count" => options.count = number()?,
            "--seconds" => options.seconds = Some(number()?),
            "--by" => options.pairs_alone = pairs_alone(&value)?,
            _ => return Err(format!("unknown: {word}")),
        }
    }
    Ok(options)
}

fn pairs_alone(value: &str) -> Result<bool, String> {
    match value {
        "simulator" => Ok(false),
        "pairs" => Ok(true),
        _ => Err(format!("neither simulator nor pairs: {value}")),
    }
}

/// Plays all parts and gives the count of random calls.
fn play(test: &mut Test, options: &Options) -> Result<u64, Box<Failure>> {
    test.limits()?;
    test.batches()?;
    test.pairs()?;
    test.damaged()?;
    test.lengths()?;
    test.vast()?;
    test.tiny()?;
    let (source, batches) = (Scenarios::new(), Batches::new());
    let start = Instant::now();
    let mut told = start;
    let mut done = 0;
    // Seeds of two runs lie far apart, so that their calls differ.
    let first = options.seed.wrapping_mul(1 << 40);
    while more(options, done, start) {
        let seed = first.wrapping_add(done);
        test.random(&source, seed)?;
        if done % CALLS_TO_A_BATCH == 0 {
            test.random_batch(&batches, seed)?;
        }
        done += 1;
        if told.elapsed() > Duration::from_secs(20) {
            told = Instant::now();
            println!("{done} random calls after {} s", start.elapsed().as_secs());
        }
    }
    Ok(done)
}

fn more(options: &Options, done: u64, start: Instant) -> bool {
    match options.seconds {
        Some(seconds) => start.elapsed() < Duration::from_secs(seconds),
        None => done < options.count,
    }
}

fn conclude(test: &Test, options: &Options, random: u64) -> ExitCode {
    let zero = test.tally.print(test.engine.can_run());
    println!(
        "no difference: engine {}, seed {}, {random} random calls, \
         {} runs, {} checks, {} batches and {} pairs in all",
        options.engine,
        options.seed,
        test.tally.runs,
        test.tally.checks,
        test.tally.batches,
        test.tally.pairs
    );
    if random >= TELLING && !zero.is_empty() {
        println!("never came up: {}", zero.join("; "));
        return ExitCode::FAILURE;
    }
    ExitCode::SUCCESS
}
