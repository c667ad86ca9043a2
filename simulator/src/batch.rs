//! The call that runs several plans, one behind the other.
//!
//! Each plan is run with whole cycles to its end. The end does not depend on
//! turns, so the round-by-round run gives it here, and what separate calls
//! leave by turns is held against it.

use crate::calls::{leave, run};
use crate::check::{check, Refusal};
use crate::format::{
    LENGTH_BYTES, LOG_LENGTH, MEMORY_LENGTH, MOST_PLANS, REPORT_LENGTH, WORK_LENGTH,
};
use crate::listing::listing_turns;
use crate::round_run::play_rounds;

/// Bytes for one plan in memories, logs, reports and answers.
pub const UNITS: [usize; 4] = [MEMORY_LENGTH, LOG_LENGTH, REPORT_LENGTH, 1];

/// Runs so many plans: 0, or the refusal of the whole call, 11 or 15, after
/// which no lent byte has changed.
///
/// Lent are memories, logs, reports, answers and work. An answer is 0, or the
/// number of the plan's refusal, and then its memory, log and report have not
/// changed. Work is all zero once a plan was accepted, and as it was if none is.
pub fn run_all(count: usize, files: &[u8], lengths: &[u8], lent: [&mut [u8]; 5]) -> u32 {
    let lent_bytes = [0, 1, 2, 3, 4].map(|which: usize| lent[which].len());
    if let Err(refusal) = accept(count, files, lengths, lent_bytes) {
        return refusal.code();
    }
    let [memories, logs, reports, answers, work] = lent;
    for (place, file) in cut(files, lengths).into_iter().enumerate() {
        let parts = [
            part(memories, place, MEMORY_LENGTH),
            part(logs, place, LOG_LENGTH),
            part(reports, place, REPORT_LENGTH),
            &mut *work,
        ];
        answers[place] = run_one(file, parts);
    }
    0
}

/// One separate call a plan, in order, over the turns of its listing: what an
/// accepted call must leave, whose lengths are these.
pub fn run_separately(files: &[u8], lengths: &[u8], lent: [&mut [u8]; 5]) {
    let [memories, logs, reports, answers, work] = lent;
    for (place, file) in cut(files, lengths).into_iter().enumerate() {
        let turns = check(file).map_or_else(|_| Vec::new(), |plan| listing_turns(&plan));
        let code = run(
            file,
            &turns,
            part(memories, place, MEMORY_LENGTH),
            part(logs, place, LOG_LENGTH),
            part(reports, place, REPORT_LENGTH),
            work,
        );
        answers[place] = (code % 256) as u8;
    }
}

/// The bytes of a plan among those of all plans.
fn part(bytes: &mut [u8], place: usize, unit: usize) -> &mut [u8] {
    &mut bytes[place * unit..][..unit]
}

/// Tests 11, then all that is 15. The count comes first among these, so that
/// no product overflows.
fn accept(count: usize, files: &[u8], lengths: &[u8], lent: [usize; 5]) -> Result<(), Refusal> {
    let [memories, logs, reports, answers, work] = lent;
    if work != WORK_LENGTH {
        return Err(Refusal::whole(11));
    }
    if !(1..=MOST_PLANS).contains(&count)
        || lengths.len() != count * LENGTH_BYTES
        || [memories, logs, reports, answers] != UNITS.map(|unit| count * unit)
        || total(lengths) != files.len() as u64
    {
        return Err(Refusal::whole(15));
    }
    Ok(())
}

/// The numbers of four bytes, low byte first.
fn numbers(lengths: &[u8]) -> impl Iterator<Item = u32> + '_ {
    let four = lengths.chunks_exact(LENGTH_BYTES);
    four.map(|bytes| u32::from_le_bytes([bytes[0], bytes[1], bytes[2], bytes[3]]))
}

/// The sum of all lengths, which can be above 32 bits.
pub fn total(lengths: &[u8]) -> u64 {
    numbers(lengths).map(u64::from).sum()
}

/// The files that stand back to back, by lengths that add up to their bytes.
pub fn cut<'a>(files: &'a [u8], lengths: &[u8]) -> Vec<&'a [u8]> {
    let mut rest = files;
    let next = |length: u32| {
        let (file, behind) = rest.split_at(length as usize);
        rest = behind;
        file
    };
    numbers(lengths).map(next).collect()
}

/// Runs one plan on its memory, log and report and on work: 0, or the number
/// of its refusal without an index.
fn run_one(file: &[u8], lent: [&mut [u8]; 4]) -> u8 {
    match check(file) {
        Ok(plan) => {
            leave(&play_rounds(&plan, lent[0]), lent);
            0
        }
        Err(refusal) => refusal.number,
    }
}
