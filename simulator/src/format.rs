//! Sizes, marks and records of the byte formats.

/// Bytes in one record of a plan file.
pub const RECORD_LENGTH: usize = 7;
/// The mark that every record of a plan file begins with.
pub const RECORD_MARK: [u8; 2] = [0x4D, 0x50];
/// A longer plan file is refused: 1 plan record, 8 barriers, 7 sleepers, 8 times
/// 128 steps.
pub const MOST_FILE_BYTES: usize = 7_280;
/// Most workers of a plan.
pub const MOST_WORKERS: usize = 8;
/// Barriers and conditions are numbered 0 to 7.
pub const QUEUES: usize = 8;
/// Most steps of one worker.
pub const MOST_STEPS: usize = 128;
/// A longer turn list is refused.
pub const MOST_TURNS: usize = 65_535;

/// Most plans of one call that runs several.
pub const MOST_PLANS: usize = 40;
/// Bytes of a file's length in such a call.
pub const LENGTH_BYTES: usize = 4;

/// Length of the lent memory.
pub const MEMORY_LENGTH: usize = 2_048;
/// Length of the lent log.
pub const LOG_LENGTH: usize = 8_256;
/// Length of the lent report.
pub const REPORT_LENGTH: usize = 20;
/// Where the eight fates begin in a report, and where behind them the sum of
/// all words at even addresses does, four bytes, low byte first.
pub const REPORT_FATES: usize = 8;
pub const REPORT_SUM: usize = 16;
/// Length of the lent work buffer.
pub const WORK_LENGTH: usize = 32_768;

/// Bytes in one log record.
pub const LOG_RECORD_LENGTH: usize = 8;
/// The mark that every log record begins with.
pub const LOG_MARK: [u8; 2] = [0x4D, 0x4C];

/// Op of the plan record.
pub const OP_PLAN: u8 = 0;
/// Op of a barrier record.
pub const OP_BARRIER_SIZE: u8 = 1;
/// Op of a sleep record.
pub const OP_SLEEP: u8 = 2;

/// Ops of the steps that a worker makes by itself.
pub const OP_SET: u8 = 16;
pub const OP_LOAD: u8 = 17;
pub const OP_STORE: u8 = 18;
pub const OP_ADD: u8 = 19;
pub const OP_SUBTRACT: u8 = 20;
pub const OP_SKIP_ZERO: u8 = 21;
pub const OP_SKIP_NONZERO: u8 = 22;

/// Ops of the steps that synchronise.
pub const OP_LOCK: u8 = 32;
pub const OP_UNLOCK: u8 = 33;
pub const OP_WAIT: u8 = 34;
pub const OP_SIGNAL: u8 = 35;
pub const OP_BROADCAST: u8 = 36;
pub const OP_BARRIER: u8 = 37;
/// The end of the steps acts as this one too.
pub const OP_EXIT: u8 = 38;
pub const OP_START: u8 = 39;

/// Whether a step of this op synchronises: a case for each op, then those for
/// the bytes that name no step. No checked plan has these.
pub fn synchronises(op: u8) -> bool {
    match op {
        OP_SET => false,
        OP_LOAD => false,
        OP_STORE => false,
        OP_ADD => false,
        OP_SUBTRACT => false,
        OP_SKIP_ZERO => false,
        OP_SKIP_NONZERO => false,
        OP_LOCK => true,
        OP_UNLOCK => true,
        OP_WAIT => true,
        OP_SIGNAL => true,
        OP_BROADCAST => true,
        OP_BARRIER => true,
        OP_EXIT => true,
        OP_START => true,
        0..=15 | 23..=31 => false,
        40..=255 => true,
    }
}

/// One record of a plan file, as its bytes say, without any judgement.
#[derive(Clone, Copy, Debug, PartialEq, Eq)]
pub struct Record {
    pub mark: [u8; 2],
    pub worker: u8,
    pub op: u8,
    pub register: u8,
    pub number: u16,
}

impl Record {
    /// A record with the right mark.
    pub fn new(worker: u8, op: u8, register: u8, number: u16) -> Self {
        Record {
            mark: RECORD_MARK,
            worker,
            op,
            register,
            number,
        }
    }

    /// Reads seven bytes, the number with its low byte first.
    pub fn from_bytes(bytes: &[u8]) -> Self {
        Record {
            mark: [bytes[0], bytes[1]],
            worker: bytes[2],
            op: bytes[3],
            register: bytes[4],
            number: u16::from_le_bytes([bytes[5], bytes[6]]),
        }
    }

    /// The seven bytes of the record.
    pub fn to_bytes(self) -> [u8; RECORD_LENGTH] {
        let [low, high] = self.number.to_le_bytes();
        [
            self.mark[0],
            self.mark[1],
            self.worker,
            self.op,
            self.register,
            low,
            high,
        ]
    }
}

/// The bytes of a file of these records.
pub fn file_of(records: &[Record]) -> Vec<u8> {
    records
        .iter()
        .flat_map(|record| record.to_bytes())
        .collect()
}

/// The records of a file; bytes behind the last whole record are left out.
pub fn records_of(file: &[u8]) -> Vec<Record> {
    file.chunks_exact(RECORD_LENGTH)
        .map(Record::from_bytes)
        .collect()
}
