//! Cutting a failing call down to a small one that still fails.

mod batches;

use simulator::format::{OP_BARRIER_SIZE, OP_START};

use crate::call::Call;
pub use batches::shrink_batch;

/// Shrinking ends after so much work, a try being as much work as it has
/// turns and a fixed part, which is that of its buffers.
const MOST_WORK: usize = 300_000_000;
const WORK_OF_A_TRY: usize = 10_000;

/// Bytes of a record of the plan file.
const RECORD: usize = 7;

/// A smaller call for which `fails` still holds.
pub fn shrink(call: &Call, fails: &dyn Fn(&Call) -> bool) -> Call {
    let mut shrinker = Shrinker {
        best: call.clone(),
        fails,
        work: 0,
    };
    loop {
        let before = shrinker.best.clone();
        shrinker.still_buffers();
        shrinker.cut_turns();
        shrinker.cut_records();
        shrinker.fewer_workers();
        if shrinker.best == before || shrinker.work >= MOST_WORK {
            return shrinker.best;
        }
    }
}

struct Shrinker<'a> {
    best: Call,
    fails: &'a dyn Fn(&Call) -> bool,
    work: usize,
}

impl Shrinker<'_> {
    /// Keeps the candidate if it still fails.
    fn try_one(&mut self, candidate: Call) -> bool {
        if self.work >= MOST_WORK || candidate == self.best {
            return false;
        }
        self.work += WORK_OF_A_TRY + candidate.turns.len();
        let kept = (self.fails)(&candidate);
        if kept {
            self.best = candidate;
        }
        kept
    }

    /// Zeros in place of old contents.
    fn still_buffers(&mut self) {
        for which in 0..4 {
            let mut candidate = self.best.clone();
            candidate.lent[which].fill(0);
            self.try_one(candidate);
        }
    }

    /// Takes out stretches of turns, long ones first.
    fn cut_turns(&mut self) {
        let mut length = self.best.turns.len();
        while length > 0 {
            let mut at = 0;
            while at + length <= self.best.turns.len() {
                let mut candidate = self.best.clone();
                candidate.turns.drain(at..at + length);
                if !self.try_one(candidate) {
                    at += length;
                }
            }
            length /= 2;
        }
    }

    /// Takes out records behind the first one.
    fn cut_records(&mut self) {
        let mut at = RECORD;
        while at + RECORD <= self.best.file.len() {
            let mut candidate = self.best.clone();
            candidate.file.drain(at..at + RECORD);
            if !self.try_one(candidate) {
                at += RECORD;
            }
        }
    }

    /// Takes out one worker with its steps and turns, the last one first.
    fn fewer_workers(&mut self) {
        if self.best.file.len() < RECORD {
            return;
        }
        for worker in (0..self.best.file[2]).rev() {
            if self.best.file[2] > 1 {
                let candidate = without_worker(&self.best, worker);
                self.try_one(candidate);
            }
        }
    }
}

/// The call without a worker, its sleep record and the starts of it; those
/// above it are named one lower.
fn without_worker(call: &Call, worker: u8) -> Call {
    let mut candidate = call.clone();
    candidate.file = call.file[..RECORD].to_vec();
    candidate.file[2] -= 1;
    for record in call.file[RECORD..].chunks(RECORD) {
        candidate.file.extend(record_without(record, worker));
    }
    let others = call.turns.iter().filter(|turn| **turn != worker);
    candidate.turns = others.map(|turn| turn - u8::from(*turn > worker)).collect();
    candidate
}

/// A record behind the first in a plan without a worker; nothing if it is that
/// worker's or a start of it. A barrier record names no worker.
fn record_without(record: &[u8], worker: u8) -> Vec<u8> {
    let mut left = record.to_vec();
    let &[_, _, own, op, _, number, _] = record else {
        return left;
    };
    if op == OP_BARRIER_SIZE {
        return left;
    }
    if own == worker || (op == OP_START && number == worker) {
        return Vec::new();
    }
    left[2] -= u8::from(own > worker);
    if op == OP_START {
        left[5] -= u8::from(number > worker);
    }
    left
}
