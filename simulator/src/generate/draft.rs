//! A plan before it is written down as bytes.

use crate::check::Step;
use crate::format::{file_of, Record, OP_BARRIER_SIZE, OP_PLAN, OP_SLEEP};

/// Barriers with their sizes, ascending, workers that sleep at first,
/// ascending, and the steps of each worker.
#[derive(Clone, Debug, PartialEq, Eq)]
pub struct Draft {
    pub barriers: Vec<(u8, u16)>,
    pub sleepers: Vec<u8>,
    pub steps: Vec<Vec<Step>>,
}

/// A step.
pub fn step(op: u8, register: u8, number: u16) -> Step {
    Step {
        op,
        register,
        number,
    }
}

impl Draft {
    /// A draft in which nobody sleeps.
    pub fn new(barriers: &[(u8, u16)], steps: Vec<Vec<Step>>) -> Self {
        Draft {
            barriers: barriers.to_vec(),
            sleepers: Vec::new(),
            steps,
        }
    }

    /// The draft with these workers asleep at first.
    pub fn asleep(mut self, sleepers: &[u8]) -> Self {
        self.sleepers = sleepers.to_vec();
        self
    }

    /// A draft from tuples (op, register, number), a row per worker.
    pub fn from_rows(barriers: &[(u8, u16)], rows: &[&[(u8, u8, u16)]]) -> Self {
        let steps_of = |row: &&[(u8, u8, u16)]| {
            row.iter()
                .map(|&(op, register, number)| step(op, register, number))
                .collect()
        };
        Draft::new(barriers, rows.iter().map(steps_of).collect())
    }

    /// Count of workers.
    pub fn workers(&self) -> usize {
        self.steps.len()
    }

    /// Count of steps of all workers.
    pub fn step_count(&self) -> usize {
        self.steps.iter().map(Vec::len).sum()
    }

    /// The records of the plan.
    pub fn records(&self) -> Vec<Record> {
        let mut records = vec![Record::new(self.workers() as u8, OP_PLAN, 0, 0)];
        for &(barrier, size) in &self.barriers {
            records.push(Record::new(0, OP_BARRIER_SIZE, barrier, size));
        }
        for &sleeper in &self.sleepers {
            records.push(Record::new(sleeper, OP_SLEEP, 0, 0));
        }
        for (worker, own) in self.steps.iter().enumerate() {
            for step in own {
                records.push(Record::new(
                    worker as u8,
                    step.op,
                    step.register,
                    step.number,
                ));
            }
        }
        records
    }

    /// The bytes of the plan file.
    pub fn file(&self) -> Vec<u8> {
        file_of(&self.records())
    }
}
