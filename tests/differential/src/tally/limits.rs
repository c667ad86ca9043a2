//! How often each limit of the paper was met, by what the simulator says.

use simulator::counts::Board;
use simulator::format::LOG_RECORD_LENGTH;
use simulator::generate::Batch;

use super::batches::Beyond;
use super::queues::Walk;
use super::{answers, batches, logs, operands, pairs, queues, reports};
use crate::batch::BatchVerdict;
use crate::call::{Call, Verdict};
use crate::pair::Pair;

/// The boards of all limits.
pub struct Limits {
    checks: Board,
    files: Board,
    runs: Board,
    within: Board,
    reports: Board,
    logs: Board,
    queues: Board,
    batches: Board,
    pairs: Board,
}

impl Default for Limits {
    fn default() -> Self {
        Limits {
            checks: Board::new(&answers::CHECK_ROWS),
            files: Board::new(&operands::ROWS),
            runs: Board::new(&answers::RUN_ROWS),
            within: Board::new(&simulator::counts::ROWS),
            reports: Board::new(&reports::ROWS),
            logs: Board::new(&logs::ROWS),
            queues: Board::new(&queues::ROWS),
            batches: Board::new(&batches::ROWS),
            pairs: Board::new(&pairs::ROWS),
        }
    }
}

impl Limits {
    /// An answer of a check.
    pub fn check(&mut self, file: &[u8], answer: u32) {
        answers::note_check(&mut self.checks, file, answer);
        operands::note(&mut self.files, file, answer);
    }

    /// An answer of a run and, if it was accepted, what it did.
    pub fn run(&mut self, call: &Call, verdict: &Verdict) {
        answers::note_run(&mut self.runs, call, verdict.answer);
        if verdict.answer != 0 {
            return;
        }
        for &(limit, member) in &verdict.counts.limits.met {
            self.within.count(limit as usize, usize::from(member));
        }
        reports::note(&mut self.reports, &verdict.report);
        reports::note_sum(&mut self.reports, &call.lent[0], verdict);
        self.log(verdict);
    }

    /// A call of several plans.
    pub fn batch(&mut self, batch: &Batch, verdict: &BatchVerdict) {
        batches::note(&mut self.batches, batch, verdict);
    }

    /// A call of several plans that is told beyond its bytes.
    pub fn told(&mut self, what: Beyond) {
        batches::note_told(&mut self.batches, what);
    }

    /// A pair of calls, by its second one.
    pub fn pair(&mut self, pair: &Pair<Call>, second: &Call, verdict: &Verdict) {
        pairs::note(&mut self.pairs, pair, second, verdict);
    }

    /// A pair of calls of several plans.
    pub fn batch_pair(&mut self, first: &Batch, second: &Batch, verdict: &BatchVerdict) {
        pairs::note_batch(&mut self.pairs, first, second, verdict);
    }

    fn log(&mut self, verdict: &Verdict) {
        let mut walk = Walk::default();
        let records = verdict.log.chunks_exact(LOG_RECORD_LENGTH);
        for record in records.take(verdict.log_records()) {
            logs::note(&mut self.logs, record);
            walk.note(&mut self.queues, record);
        }
    }

    /// The boards; those of runs only if runs are tested.
    pub fn boards(&self, with_runs: bool) -> Vec<&Board> {
        let mut boards = vec![&self.checks, &self.files];
        if with_runs {
            boards.extend([&self.runs, &self.within, &self.reports]);
            boards.extend([&self.logs, &self.queues, &self.batches, &self.pairs]);
        }
        boards
    }
}
