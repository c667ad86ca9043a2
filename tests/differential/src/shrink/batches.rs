//! Cutting a failing call of several plans down.

use simulator::batch::{cut, UNITS};
use simulator::format::RECORD_LENGTH;
use simulator::generate::batches::lengths_of;
use simulator::generate::Batch;

use crate::batch::fits;

/// Shrinking ends after so many tries.
const MOST_TRIES: usize = 4_000;

/// A smaller call for which `fails` still holds: fewer plans, fewer records,
/// zeros in place of old contents. One whose buffers do not fit its count
/// keeps its plans.
pub fn shrink_batch(batch: &Batch, fails: &dyn Fn(&Batch) -> bool) -> Batch {
    let mut best = batch.clone();
    let mut tries = 0;
    loop {
        let better = |candidate: &Batch| {
            tries += 1;
            tries <= MOST_TRIES && *candidate != best && fails(candidate)
        };
        let found = smaller(&best).find(better);
        match found {
            Some(candidate) => best = candidate,
            None => return best,
        }
    }
}

/// Calls that are a little smaller, the smallest first.
fn smaller(batch: &Batch) -> impl Iterator<Item = Batch> + '_ {
    let plans = if fits(batch) { batch.count } else { 0 };
    let fewer = (0..plans).map(|place| without_plan(batch, place));
    let shorter = (0..plans).flat_map(|place| without_records(batch, place));
    let still = (0..batch.lent.len()).map(|which| {
        let mut candidate = batch.clone();
        candidate.lent[which].fill(0);
        candidate
    });
    fewer.chain(still).chain(shorter)
}

fn files_of(batch: &Batch) -> Vec<Vec<u8>> {
    let files = cut(&batch.files, &batch.lengths);
    files.into_iter().map(<[u8]>::to_vec).collect()
}

fn with_files(batch: &Batch, files: &[Vec<u8>]) -> Batch {
    let mut candidate = batch.clone();
    candidate.files = files.concat();
    candidate.lengths = lengths_of(files);
    candidate
}

fn without_plan(batch: &Batch, place: usize) -> Batch {
    let mut files = files_of(batch);
    files.remove(place);
    let mut candidate = with_files(batch, &files);
    candidate.count -= 1;
    for (which, unit) in UNITS.into_iter().enumerate() {
        candidate.lent[which].drain(place * unit..(place + 1) * unit);
    }
    candidate
}

/// The call without each one record behind the first of a file; a long file
/// would take a try for each.
fn without_records(batch: &Batch, place: usize) -> impl Iterator<Item = Batch> + '_ {
    let files = files_of(batch);
    let starts = (RECORD_LENGTH..files[place].len()).step_by(RECORD_LENGTH);
    starts.take(64).map(move |at| {
        let mut files = files.clone();
        let end = files[place].len().min(at + RECORD_LENGTH);
        files[place].drain(at..end);
        with_files(batch, &files)
    })
}
