//! Reading a plan file: the plan, or the refusal that its author caused.
//!
//! Order of the tests: 1 for the whole file; then for each record in turn
//! 2, 3, 4, 6, 5, 8, 7, 9, just as the paper writes them down, with 14 at the
//! place of 4; then 10 over all steps. A record is a barrier record, a sleep
//! record or neither by its op, so no record can be both 4 and 14.

use crate::format::{
    Record, MOST_FILE_BYTES, MOST_STEPS, MOST_WORKERS, OP_BARRIER_SIZE, OP_PLAN, OP_SLEEP,
    OP_START, QUEUES, RECORD_LENGTH, RECORD_MARK,
};

/// A refusal's number and its record index, the plan record being 0.
#[derive(Clone, Copy, Debug, PartialEq, Eq)]
pub struct Refusal {
    pub number: u8,
    pub index: u32,
}

impl Refusal {
    /// A refusal at a record.
    pub fn at(number: u8, index: usize) -> Self {
        Refusal {
            number,
            index: index as u32,
        }
    }

    /// A refusal for which no record is stated: its index is 0.
    pub fn whole(number: u8) -> Self {
        Refusal { number, index: 0 }
    }

    /// Both in one number, refusal + 256 × index.
    pub fn code(self) -> u32 {
        u32::from(self.number) + 256 * self.index
    }
}

/// One step of a worker.
#[derive(Clone, Copy, Debug, PartialEq, Eq)]
pub struct Step {
    pub op: u8,
    pub register: u8,
    pub number: u16,
}

/// An accepted plan: the size of each barrier that has one, the workers that
/// sleep at first, ascending, and the steps of each worker.
#[derive(Clone, Debug, PartialEq, Eq)]
pub struct Plan {
    pub barrier_sizes: [Option<u8>; QUEUES],
    pub sleepers: Vec<u8>,
    pub steps: Vec<Vec<Step>>,
}

impl Plan {
    /// Count of workers, n.
    pub fn workers(&self) -> usize {
        self.steps.len()
    }

    /// Count of step records of the file.
    pub fn step_count(&self) -> usize {
        self.steps.iter().map(Vec::len).sum()
    }
}

/// Limits of the operands of one op.
struct Limits {
    op: u8,
    register_most: u8,
    number_least: u16,
    number_most: u16,
}

const fn limits(op: u8, register_most: u8, number_least: u16, number_most: u16) -> Limits {
    Limits {
        op,
        register_most,
        number_least,
        number_most,
    }
}

/// One row per op; an op without a row is unknown. The number of a start is a
/// worker's, so a plan with fewer workers allows less than its row.
const LIMITS: [Limits; 15] = [
    limits(16, 3, 0, 65_535),
    limits(17, 3, 0, 2_046),
    limits(18, 3, 0, 2_046),
    limits(19, 3, 0, 3),
    limits(20, 3, 0, 3),
    limits(21, 3, 1, 127),
    limits(22, 3, 1, 127),
    limits(32, 0, 0, 15),
    limits(33, 0, 0, 15),
    limits(34, 0, 0, 7),
    limits(35, 0, 0, 7),
    limits(36, 0, 0, 7),
    limits(37, 0, 0, 7),
    limits(38, 0, 0, 0),
    limits(39, 0, 0, 7),
];

/// Checks a file.
pub fn check(file: &[u8]) -> Result<Plan, Refusal> {
    let length = file.len();
    if length == 0 || !length.is_multiple_of(RECORD_LENGTH) || length > MOST_FILE_BYTES {
        return Err(Refusal::whole(1));
    }
    let mut reader = Reader::new();
    for (index, bytes) in file.chunks_exact(RECORD_LENGTH).enumerate() {
        reader
            .take(index, Record::from_bytes(bytes))
            .map_err(|number| Refusal::at(number, index))?;
    }
    match reader.skip_too_far() {
        Some(index) => Err(Refusal::at(10, index)),
        None => Ok(reader.into_plan()),
    }
}

/// What has been read so far.
struct Reader {
    barrier_sizes: [Option<u8>; QUEUES],
    /// Each worker's steps, each with its record index.
    steps: Vec<Vec<(usize, Step)>>,
    last_barrier: Option<u8>,
    /// Workers of the sleep records read.
    sleepers: Vec<u8>,
    /// Worker byte of the last step read.
    last_worker: Option<u8>,
}

impl Reader {
    fn new() -> Self {
        Reader {
            barrier_sizes: [None; QUEUES],
            steps: Vec::new(),
            last_barrier: None,
            sleepers: Vec::new(),
            last_worker: None,
        }
    }

    /// Takes one record or gives the number of its refusal.
    fn take(&mut self, index: usize, record: Record) -> Result<(), u8> {
        if record.mark != RECORD_MARK {
            return Err(2);
        }
        if index == 0 {
            return self.take_plan(record);
        }
        match record.op {
            OP_PLAN => Err(3),
            OP_BARRIER_SIZE => self.take_barrier(record),
            OP_SLEEP => self.take_sleeper(record),
            _ => self.take_step(index, record),
        }
    }

    /// The first record. Any other op there, also an unknown one, is 3.
    fn take_plan(&mut self, record: Record) -> Result<(), u8> {
        let workers = usize::from(record.worker);
        let fits = record.op == OP_PLAN
            && (1..=MOST_WORKERS).contains(&workers)
            && record.register == 0
            && record.number == 0;
        if !fits {
            return Err(3);
        }
        self.steps = vec![Vec::new(); workers];
        Ok(())
    }

    /// A barrier's size. A second record of one barrier is out of order, and a
    /// record behind a sleep record is as one behind a step.
    fn take_barrier(&mut self, record: Record) -> Result<(), u8> {
        let ascending = self.last_barrier.is_none_or(|last| last < record.register);
        let fits = self.last_worker.is_none()
            && self.sleepers.is_empty()
            && ascending
            && record.worker == 0
            && usize::from(record.register) < QUEUES
            && (1..=8).contains(&record.number);
        if !fits {
            return Err(4);
        }
        self.last_barrier = Some(record.register);
        self.barrier_sizes[usize::from(record.register)] = Some(record.number as u8);
        Ok(())
    }

    /// A worker that sleeps at first. The first worker never does, and a second
    /// record of one worker is out of order.
    fn take_sleeper(&mut self, record: Record) -> Result<(), u8> {
        let worker = usize::from(record.worker);
        let ascending = self
            .sleepers
            .last()
            .is_none_or(|&last| last < record.worker);
        let fits = self.last_worker.is_none()
            && ascending
            && (1..self.steps.len()).contains(&worker)
            && record.register == 0
            && record.number == 0;
        if !fits {
            return Err(14);
        }
        self.sleepers.push(record.worker);
        Ok(())
    }

    /// A step: 6, then 5, 8, 7, 9.
    fn take_step(&mut self, index: usize, record: Record) -> Result<(), u8> {
        let row = LIMITS.iter().find(|row| row.op == record.op).ok_or(6)?;
        let worker = usize::from(record.worker);
        let falling = self.last_worker.is_some_and(|last| record.worker < last);
        if worker >= self.steps.len() || falling {
            return Err(5);
        }
        if self.steps[worker].len() == MOST_STEPS {
            return Err(8);
        }
        let numbers = row.number_least..=row.number_most;
        let nobody = record.op == OP_START && usize::from(record.number) >= self.steps.len();
        if record.register > row.register_most || !numbers.contains(&record.number) || nobody {
            return Err(7);
        }
        if record.op == 37 && self.barrier_sizes[usize::from(record.number)].is_none() {
            return Err(9);
        }
        self.last_worker = Some(record.worker);
        let step = Step {
            op: record.op,
            register: record.register,
            number: record.number,
        };
        self.steps[worker].push((index, step));
        Ok(())
    }

    /// Record index of the first skip that lands further than just behind
    /// its worker's last step. Worker bytes never fall, so going worker by
    /// worker is going in the order of the file.
    fn skip_too_far(&self) -> Option<usize> {
        self.steps.iter().find_map(|own| {
            own.iter()
                .enumerate()
                .find(|(place, (_, step))| {
                    let skips = step.op == 21 || step.op == 22;
                    skips && place + 1 + usize::from(step.number) > own.len()
                })
                .map(|(_, (index, _))| *index)
        })
    }

    fn into_plan(self) -> Plan {
        let bare = |own: Vec<(usize, Step)>| own.into_iter().map(|(_, step)| step).collect();
        Plan {
            barrier_sizes: self.barrier_sizes,
            sleepers: self.sleepers,
            steps: self.steps.into_iter().map(bare).collect(),
        }
    }
}
