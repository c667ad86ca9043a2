//! How often each rule came up. A rule that never did was not tested.

mod answers;
mod batches;
mod limits;
mod logs;
mod operands;
mod pairs;
mod queues;
mod records;
mod reports;
mod sleepers;

use simulator::format::{LOG_RECORD_LENGTH, REPORT_FATES, REPORT_SUM};
use simulator::generate::{Batch, BatchKind, ListKind, PlanKind, TurnKind};
use simulator::Counts;

use crate::batch::BatchVerdict;
use crate::call::{Call, Verdict};
use crate::pair::Pair;
pub use batches::Beyond;
use limits::Limits;
pub use reports::SUMS;
use sleepers::Share;

const OUTCOMES: [&str; 29] = [
    "lock, count 1",
    "lock, count above 1",
    "unlock, count 0",
    "unlock, count above 0",
    "wait",
    "signal, one woken",
    "signal, nobody",
    "barrier, queued",
    "barrier, full at size 1",
    "barrier, full above size 1",
    "exit",
    "unlock failed, none held",
    "wait failed",
    "barrier failed",
    "exit failed",
    "start of a sleeper, count 0",
    "start of a sleeper, count above 0",
    "start of no sleeper, count 0",
    "start of no sleeper, count above 0",
    "broadcast, nobody, count 0",
    "broadcast, nobody, count above 0",
    "broadcast, one woken, count 0",
    "broadcast, one woken, count above 0",
    "broadcast, several woken, count 0",
    "broadcast, several woken, count above 0",
    "broadcast, seven woken, count 0",
    "broadcast, seven woken, count above 0",
    "lock failed, being held",
    "unlock failed, others held",
];

const ENDS: [&str; 3] = ["going", "finished", "stuck"];
const FATES: [&str; 6] = [
    "going",
    "exited",
    "failed",
    "on a condition",
    "at a barrier",
    "asleep",
];

/// Counts over all calls.
#[derive(Default)]
pub struct Tally {
    pub runs: u64,
    pub checks: u64,
    pub batches: u64,
    pub pairs: u64,
    tried: Counts,
    outcomes: [u64; OUTCOMES.len()],
    ends: [u64; ENDS.len()],
    fates: [u64; FATES.len()],
    run_answers: [u64; 15],
    check_answers: [u64; 15],
    lists: [u64; TurnKind::ALL.len() + 4],
    plans: [u64; PlanKind::ALL.len()],
    batch_kinds: [u64; BatchKind::ALL.len()],
    separate: u64,
    late_rounds: u64,
    rounds: u64,
    vast: u64,
    tiny: u64,
    share: Share,
    limits: Limits,
}

impl Tally {
    /// An answer of a check.
    pub fn check(&mut self, file: &[u8], answer: u32) {
        self.limits.check(file, answer);
        self.checks += 1;
        self.check_answers[(answer % 256) as usize] += 1;
    }

    /// What a run did.
    pub fn run(&mut self, call: &Call, verdict: &Verdict) {
        self.limits.run(call, verdict);
        self.runs += 1;
        self.run_answers[(verdict.answer % 256) as usize] += 1;
        if verdict.answer != 0 {
            return;
        }
        self.tried.add(&verdict.counts);
        let log = verdict.log.chunks_exact(LOG_RECORD_LENGTH);
        let mut held = [0; 8];
        for record in log.take(verdict.log_records()) {
            let count = &mut held[usize::from(record[4])];
            self.outcomes[outcome_kind(record[5], record[7], *count)] += 1;
            if matches!(record[5], 32 | 33) {
                *count = record[7];
            }
            self.late_rounds += u64::from(record[3] != 0);
        }
        self.ends[usize::from(verdict.report[0])] += 1;
        for &fate in verdict.report[REPORT_FATES..REPORT_SUM]
            .iter()
            .filter(|&&fate| fate != 255)
        {
            self.fates[usize::from(fate)] += 1;
        }
    }

    /// The kinds of an accepted or refused random call.
    pub fn kinds(&mut self, file: &[u8], plan: PlanKind, list: ListKind) {
        self.share.note(file);
        let all = TurnKind::ALL;
        let place = match list {
            ListKind::Made(kind) => all.iter().position(|&each| each == kind),
            ListKind::TooLong => Some(all.len()),
            ListKind::Misnamed => Some(all.len() + 1),
            ListKind::LastMoves => Some(all.len() + 2),
            ListKind::Cut => Some(all.len() + 3),
        };
        self.lists[place.expect("a kind of list")] += 1;
        let place = PlanKind::ALL.iter().position(|&each| each == plan);
        self.plans[place.expect("a kind of plan")] += 1;
    }

    /// A call of several plans.
    pub fn batch(&mut self, batch: &Batch, verdict: &BatchVerdict) {
        self.batches += 1;
        self.limits.batch(batch, verdict);
    }

    /// A pair of calls, by its second one.
    pub fn pair(&mut self, pair: &Pair<Call>, second: &Call, verdict: &Verdict) {
        self.pairs += 1;
        self.limits.pair(pair, second, verdict);
    }

    /// A pair of calls of several plans.
    pub fn batch_pair(&mut self, first: &Batch, second: &Batch, verdict: &BatchVerdict) {
        self.pairs += 1;
        self.limits.batch_pair(first, second, verdict);
    }

    /// The kind of a random call of several plans.
    pub fn batch_kind(&mut self, kind: BatchKind) {
        let place = BatchKind::ALL.iter().position(|&each| each == kind);
        self.batch_kinds[place.expect("a kind of call")] += 1;
    }

    /// An accepted call held against one separate call a plan as well.
    pub fn separate(&mut self) {
        self.separate += 1;
    }

    /// A call of several plans with a length told beyond its bytes.
    pub fn told(&mut self, what: Beyond) {
        self.limits.told(what);
    }

    /// An ended run held against the round-by-round run as well.
    pub fn rounds(&mut self) {
        self.rounds += 1;
    }

    /// A call with a length told wrong by 4 GiB.
    pub fn vast(&mut self) {
        self.vast += 1;
    }

    /// A list of a tiny plan.
    pub fn tiny(&mut self) {
        self.tiny += 1;
    }

    /// Prints all rows and gives the names of what never came up; rows of
    /// runs only if runs are tested.
    pub fn print(&self, with_runs: bool) -> Vec<String> {
        let rows = self.rows(with_runs);
        let boards = self.limits.boards(with_runs);
        let limits = boards.iter().flat_map(|board| board.least());
        for (name, count) in rows.iter().cloned().chain(limits) {
            println!("{count:>12}  {name}");
        }
        let zero = rows.into_iter().filter(|(_, count)| *count == 0);
        let missing = boards.iter().flat_map(|board| board.missing());
        let names = zero.map(|(name, _)| name).chain(missing);
        names.chain(self.share.too_small()).collect()
    }

    /// All rows but those of limits.
    fn rows(&self, with_runs: bool) -> Vec<(String, u64)> {
        let of_check = |&(number, _): &(usize, u64)| !OF_RUNS.contains(&number);
        let mut rows = numbered("check: ", &self.check_answers, of_check);
        rows.extend(self.share.rows());
        if !with_runs {
            return rows;
        }
        rows.extend(numbered("run: ", &self.run_answers, |_| true));
        rows.extend(self.tried.rows());
        rows.extend(named("outcome: ", &OUTCOMES, &self.outcomes));
        rows.extend(named("end: ", &ENDS, &self.ends));
        rows.extend(named("fate: ", &FATES, &self.fates));
        let mut lists: Vec<String> = TurnKind::ALL.map(|kind| format!("{kind:?}")).to_vec();
        lists.extend(["TooLong", "Misnamed", "LastMoves", "Cut"].map(str::to_string));
        rows.extend(named("turn list: ", &lists, &self.lists));
        let plans = PlanKind::ALL.map(|kind| format!("{kind:?}"));
        rows.extend(named("plan: ", &plans, &self.plans));
        rows.push((
            "log record of a round above 255".to_string(),
            self.late_rounds,
        ));
        rows.push((
            "held against the round-by-round run".to_string(),
            self.rounds,
        ));
        rows.push(("length told 4 GiB too long".to_string(), self.vast));
        rows.push(("turn list of a tiny plan".to_string(), self.tiny));
        let batches = BatchKind::ALL.map(|kind| format!("{kind:?}"));
        rows.extend(named("random batch: ", &batches, &self.batch_kinds));
        rows.push((
            "batch held against separate runs".to_string(),
            self.separate,
        ));
        rows
    }
}

fn named(prefix: &str, names: &[impl AsRef<str>], counts: &[u64]) -> Vec<(String, u64)> {
    let row = |(name, count): (&_, &u64)| (prefix.to_string() + AsRef::as_ref(name), *count);
    names.iter().zip(counts).map(row).collect()
}

/// Refusals that no check gives.
const OF_RUNS: [usize; 3] = [11, 12, 13];

/// A row for each of the answers that can be.
fn numbered(
    prefix: &str,
    counts: &[u64],
    can_be: impl Fn(&(usize, u64)) -> bool,
) -> Vec<(String, u64)> {
    let row = |(number, count): (usize, u64)| match number {
        0 => (format!("{prefix}accepted"), count),
        _ => (format!("{prefix}refusal {number}"), count),
    };
    let all = counts.iter().copied().enumerate();
    all.filter(can_be).map(row).collect()
}

/// The place of an outcome of a worker with this count before the step.
fn outcome_kind(op: u8, outcome: u8, count: u8) -> usize {
    let held = usize::from(count > 0);
    match (op, outcome) {
        (32, 254) => 27,
        (33, 254) if count > 0 => 28,
        (33, 254) => 11,
        (34, 254) => 12,
        (37, 254) => 13,
        (38, 254) => 14,
        (32, 1) => 0,
        (32, _) => 1,
        (33, 0) => 2,
        (33, _) => 3,
        (34, _) => 4,
        (35, 255) => 6,
        (35, _) => 5,
        (36, woken) => 19 + 2 * woken_kind(woken) + held,
        (37, 0) => 7,
        (37, 1) => 8,
        (37, _) => 9,
        (39, 1) => 15 + held,
        (39, _) => 17 + held,
        _ => 10,
    }
}

/// Nobody, one, several or seven.
fn woken_kind(woken: u8) -> usize {
    match woken {
        0 | 1 => usize::from(woken),
        7 => 3,
        _ => 2,
    }
}
