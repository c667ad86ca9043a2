//! The calls on byte buffers that take one plan.

use crate::check::{check, Plan, Refusal};
use crate::counts::Counts;
use crate::format::{LOG_LENGTH, MEMORY_LENGTH, MOST_TURNS, REPORT_LENGTH, WORK_LENGTH};
use crate::outcome::Outcome;
use crate::turn_machine::play_counted;

/// Checks a file: 0, or refusal + 256 × index.
pub fn check_code(file: &[u8]) -> u32 {
    match check(file) {
        Ok(_) => 0,
        Err(refusal) => refusal.code(),
    }
}

/// Runs a file over a list of turns: 0, or refusal + 256 × index.
///
/// After an accepted run memory is the shared memory, the log holds the
/// records and then zeros, the report is filled in and work is all zero.
/// After a refusal no lent byte has changed, those of work included.
pub fn run(
    file: &[u8],
    turns: &[u8],
    memory: &mut [u8],
    log: &mut [u8],
    report: &mut [u8],
    work: &mut [u8],
) -> u32 {
    run_counted(file, turns, [memory, log, report, work]).0
}

/// As `run`, on memory, log, report and work, and says what was tried.
pub fn run_counted(file: &[u8], turns: &[u8], lent: [&mut [u8]; 4]) -> (u32, Counts) {
    let lengths = [0, 1, 2, 3].map(|which: usize| lent[which].len());
    let plan = match accept(file, turns, lengths) {
        Ok(plan) => plan,
        Err(refusal) => return (refusal.code(), Counts::default()),
    };
    let (outcome, counts) = play_counted(&plan, lent[0], turns);
    leave(&outcome, lent);
    (0, counts)
}

/// Fills memory, log, report and work after an accepted run.
pub(crate) fn leave(outcome: &Outcome, lent: [&mut [u8]; 4]) {
    let [memory, log, report, work] = lent;
    let (records, rest) = log.split_at_mut(outcome.log.len());
    memory.copy_from_slice(&outcome.memory);
    records.copy_from_slice(&outcome.log);
    rest.fill(0);
    report.copy_from_slice(&outcome.report);
    work.fill(0);
}

/// Tests 11, 12, the file and 13, in this order. Every turn of the list is
/// tested for 13, also one behind the end of the plan; no record belongs to
/// it, so its index is 0.
fn accept(file: &[u8], turns: &[u8], lengths: [usize; 4]) -> Result<Plan, Refusal> {
    if lengths != [MEMORY_LENGTH, LOG_LENGTH, REPORT_LENGTH, WORK_LENGTH] {
        return Err(Refusal::whole(11));
    }
    if turns.len() > MOST_TURNS {
        return Err(Refusal::whole(12));
    }
    let plan = check(file)?;
    if turns
        .iter()
        .any(|&turn| usize::from(turn) >= plan.workers())
    {
        return Err(Refusal::whole(13));
    }
    Ok(plan)
}
