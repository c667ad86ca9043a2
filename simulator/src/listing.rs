//! The listing of a plan: its log in words and how it ended.

use crate::check::{check, Plan, Refusal};
use crate::format::{LOG_RECORD_LENGTH, MEMORY_LENGTH};
use crate::outcome::Outcome;
use crate::turn_machine::play_turns;

/// The turns of a listing: 2 × (steps + n) cycles 0 .. n−1.
pub fn listing_turns(plan: &Plan) -> Vec<u8> {
    let workers = plan.workers();
    let cycles = 2 * (plan.step_count() + workers);
    let cycle: Vec<u8> = (0..workers as u8).collect();
    cycle.repeat(cycles)
}

/// What a file leaves, from zero memory, over the turns of its listing.
pub fn play_listed(file: &[u8]) -> Result<Outcome, Refusal> {
    let plan = check(file)?;
    let turns = listing_turns(&plan);
    Ok(play_turns(&plan, &[0; MEMORY_LENGTH], &turns))
}

/// The listing of a file, a line for each log record and one for the end, or
/// one line for a refusal. Each line ends with a line feed.
///
/// So many cycles always reach the end; should one not, the paper has no word
/// for it and `going` is printed here.
pub fn listing(file: &[u8]) -> String {
    let outcome = match play_listed(file) {
        Ok(outcome) => outcome,
        Err(refusal) => return format!("refused {} {}\n", refusal.number, refusal.index),
    };
    let mut text = log_lines(&outcome.log);
    let word = ["going", "finished", "stuck"][usize::from(outcome.end())];
    text.push_str(&format!("{word} {}\n", outcome.moving_turns()));
    text
}

/// Round, worker, op, number and outcome of each record, a line each.
pub fn log_lines(log: &[u8]) -> String {
    log.chunks_exact(LOG_RECORD_LENGTH)
        .map(|record| {
            let round = u16::from_le_bytes([record[2], record[3]]);
            let [worker, op, number, outcome] = [record[4], record[5], record[6], record[7]];
            format!("{round} {worker} {op} {number} {outcome}\n")
        })
        .collect()
}
