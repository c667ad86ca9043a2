//! Says what failed: the call, cut down to a small one.

use simulator::batch::{cut, total};
use simulator::generate::Batch;

use crate::batch::compare_batch;
use crate::call::{compare_check, compare_run, Call, Difference};
use crate::engine::Engine;
use crate::pair::{compare_batch_pair, compare_pair, Pair};
use crate::shrink::{shrink, shrink_batch};
use crate::test::{Failure, Test, Tried};

/// Prints the failing call, cut down to a small one.
pub fn explain(test: &Test, failure: &Failure) {
    let engine = &test.engine;
    println!("difference ({}): {:?}", failure.label, failure.difference);
    match &failure.tried {
        Tried::Check(call) => {
            explain_call("check", call, &|call| {
                compare_check(engine, &call.file, 0).1
            });
        }
        Tried::Run(call) => {
            explain_call("run", call, &|call| compare_run(engine, call, 0).1);
        }
        Tried::Batch(batch) => explain_batch("run of all", batch, &|batch| {
            compare_batch(engine, batch, 0).1
        }),
        Tried::Pair(pair) => explain_pair(engine, pair),
        Tried::BatchPair(pair) => explain_batch("pair", &pair.first, &|batch| {
            let mut pairs = pair.on(batch).into_iter();
            pairs.find_map(|pair| compare_batch_pair(engine, &pair))
        }),
    }
}

/// Prints a small call with a difference, and gives it.
fn explain_call(
    by: &str,
    call: &Call,
    differs: &dyn Fn(&Call) -> Option<Difference>,
) -> Option<Call> {
    if differs(call).is_none() {
        println!("it does not show again without its lengths or its alignment");
        print_call(call);
        return None;
    }
    let small = shrink(call, &|call| differs(call).is_some());
    println!("a small call with a difference:");
    print_call(&small);
    println!("{by}: {:?}", differs(&small));
    Some(small)
}

/// A small first call that parts from a second one by some kind of change, and
/// the memory of that one, where it is least changed.
fn explain_pair(engine: &Engine, pair: &Pair<Call>) {
    let differs = |pair: &Pair<Call>| compare_pair(engine, pair);
    let by_any = |call: &Call| pair.on(call).iter().find_map(differs);
    let Some(small) = explain_call("pair", &pair.first, &by_any) else {
        return;
    };
    let parting = pair.on(&small).into_iter();
    let parting = parting.filter(|pair| differs(pair).is_some());
    let changes = parting.map(|pair| changed_bytes(&small.lent[0], &pair.second().lent[0]));
    let least = changes.min_by_key(Vec::len).unwrap_or_default();
    for (address, byte) in least.into_iter().take(32) {
        println!("second memory at {address}: {byte:02x}");
    }
}

/// The bytes of a second memory that differ from the first, with their places.
fn changed_bytes(first: &[u8], second: &[u8]) -> Vec<(usize, u8)> {
    let pairs = first.iter().zip(second).enumerate();
    let changed = pairs.filter(|(_, (one, other))| one != other);
    changed.map(|(place, (_, &byte))| (place, byte)).collect()
}

fn explain_batch(by: &str, batch: &Batch, differs: &dyn Fn(&Batch) -> Option<Difference>) {
    if differs(batch).is_none() {
        println!("it does not show again without its lengths or its alignment");
        return print_batch(batch);
    }
    let small = shrink_batch(batch, &|batch| differs(batch).is_some());
    println!("a small call with a difference:");
    print_batch(&small);
    println!("{by}: {:?}", differs(&small));
}

/// Prints the plans of a call whose lengths add up, and else all files as one.
fn print_batch(batch: &Batch) {
    println!("count {}", batch.count);
    let lent = batch.lent.each_ref().map(Vec::len);
    println!("lengths of memories, logs, reports, answers, work: {lent:?}");
    println!("lengths of the files: {}", hex(&batch.lengths));
    let whole = total(&batch.lengths) == batch.files.len() as u64;
    let files = match whole {
        true => cut(&batch.files, &batch.lengths),
        false => vec![&batch.files[..]],
    };
    for file in files {
        println!("file, {} bytes:", file.len());
        for record in file.chunks(7).take(40) {
            println!("  {}", hex(record));
        }
    }
}

fn print_call(call: &Call) {
    println!("file, {} bytes:", call.file.len());
    for record in call.file.chunks(7) {
        println!("  {}", hex(record));
    }
    println!("turns, {}: {}", call.turns.len(), runs(&call.turns));
    let lengths = call.lent.each_ref().map(Vec::len);
    println!("lengths of memory, log, report, work: {lengths:?}");
    let memory = call.lent[0].iter().enumerate();
    for (address, byte) in memory.filter(|(_, byte)| **byte != 0).take(32) {
        println!("memory at {address}: {byte:02x}");
    }
}

/// Each turn, and how often it comes on end where it does so.
fn runs(turns: &[u8]) -> String {
    let each = |run: &[u8]| match run.len() {
        1 => run[0].to_string(),
        length => format!("{}*{length}", run[0]),
    };
    let runs: Vec<String> = turns.chunk_by(|a, b| a == b).map(each).collect();
    runs.join(" ")
}

fn hex(bytes: &[u8]) -> String {
    let two: Vec<String> = bytes.iter().map(|byte| format!("{byte:02x}")).collect();
    two.join(" ")
}
