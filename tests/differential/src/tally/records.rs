//! Records that are refused for one field just out of its limits.

use simulator::counts::{Board, Row};
use simulator::format::{records_of, Record, OP_BARRIER_SIZE, OP_SLEEP, RECORD_MARK};

/// A refusal, the record that it names and what stands around it.
pub struct Seen {
    pub refusal: u32,
    index: usize,
    pub record: Record,
    /// The record before it; the plan record has itself here.
    before: Record,
    pub workers: u8,
    /// Steps of the same worker behind it.
    behind: u16,
}

impl Seen {
    /// What a refusal with a record index names in a file.
    pub fn new(file: &[u8], answer: u32) -> Option<Self> {
        let (refusal, index) = (answer % 256, (answer / 256) as usize);
        if !matches!(refusal, 2..=10 | 14) {
            return None;
        }
        let records = records_of(file);
        let record = records[index];
        let same = |each: &&Record| each.worker == record.worker;
        Some(Seen {
            refusal,
            index,
            record,
            before: records[index.saturating_sub(1)],
            workers: records[0].worker,
            behind: records[index + 1..].iter().take_while(same).count() as u16,
        })
    }
}

/// A name, and when a refusal is of this kind.
type Edge = (&'static str, fn(&Seen) -> bool);

/// The row.
pub const ROW: Row = Row {
    name: "record just out of its limits",
    members: EDGES.len(),
    named: |place| EDGES[place].0.to_string(),
};

/// Notes a refusal in a row of the board.
pub fn note(board: &mut Board, row: usize, seen: &Seen) {
    for (place, (_, is_so)) in EDGES.iter().enumerate() {
        if is_so(seen) {
            board.count(row, place);
        }
    }
}

const EDGES: [Edge; 38] = [
    ("2, first byte of the mark", |seen| {
        seen.refusal == 2 && seen.record.mark[1] == RECORD_MARK[1]
    }),
    ("2, second byte of the mark", |seen| {
        seen.refusal == 2 && seen.record.mark[0] == RECORD_MARK[0]
    }),
    ("3, no worker", |seen| plan(seen, [0, 0, 0, 0])),
    ("3, nine workers", |seen| plan(seen, [9, 0, 0, 0])),
    ("3, op 1", |seen| plan(seen, [seen.workers, 1, 0, 0])),
    ("3, register 1", |seen| plan(seen, [seen.workers, 0, 1, 0])),
    ("3, number 1", |seen| plan(seen, [seen.workers, 0, 0, 1])),
    ("3, op 0 later", |seen| seen.refusal == 3 && seen.index > 0),
    ("4, worker 1", |seen| size(seen, |r| r.worker == 1)),
    ("4, barrier 8", |seen| size(seen, |r| r.register == 8)),
    ("4, size 0", |seen| size(seen, |r| r.number == 0)),
    ("4, size 9", |seen| size(seen, |r| r.number == 9)),
    ("4, the same barrier again", |seen| {
        size(seen, |r| r.register == seen.before.register) && seen.before.op == OP_BARRIER_SIZE
    }),
    ("4, the barrier below", |seen| {
        size(seen, |r| below(r.register, seen.before.register)) && seen.before.op == OP_BARRIER_SIZE
    }),
    ("4, behind a step", |seen| {
        size(seen, |_| seen.before.op > OP_SLEEP)
    }),
    ("4, behind a sleep record", |seen| {
        size(seen, |_| seen.before.op == OP_SLEEP)
    }),
    ("5, worker n", |seen| {
        seen.refusal == 5 && seen.record.worker == seen.workers
    }),
    ("5, worker one below", |seen| {
        seen.refusal == 5 && below(seen.record.worker, seen.before.worker)
    }),
    ("6, op 3", |seen| op(seen, 3)),
    ("6, op 15", |seen| op(seen, 15)),
    ("6, op 23", |seen| op(seen, 23)),
    ("6, op 31", |seen| op(seen, 31)),
    ("6, op 40", |seen| op(seen, 40)),
    ("6, op 255", |seen| op(seen, 255)),
    ("10, skip if zero, one too far", |seen| skip(seen, 21, 1)),
    ("10, skip if zero, 127, one too far", |seen| {
        skip(seen, 21, 127)
    }),
    ("10, skip if not zero, one too far", |seen| {
        skip(seen, 22, 1)
    }),
    ("10, skip if not zero, 127, one too far", |seen| {
        skip(seen, 22, 127)
    }),
    ("10, far too far", |seen| {
        seen.refusal == 10 && seen.record.number > seen.behind + 1
    }),
    ("14, worker 0", |seen| sleeper(seen, |r| r.worker == 0)),
    ("14, worker n", |seen| {
        sleeper(seen, |r| r.worker == seen.workers)
    }),
    ("14, the same worker again", |seen| {
        sleeper(seen, |r| r.worker == seen.before.worker) && seen.before.op == OP_SLEEP
    }),
    ("14, the worker below", |seen| {
        sleeper(seen, |r| below(r.worker, seen.before.worker)) && seen.before.op == OP_SLEEP
    }),
    ("14, register 1", |seen| sleeper(seen, |r| r.register == 1)),
    ("14, number 1", |seen| sleeper(seen, |r| r.number == 1)),
    ("14, number 256", |seen| sleeper(seen, |r| r.number == 256)),
    ("14, behind a step", |seen| {
        sleeper(seen, |_| seen.before.op > OP_SLEEP)
    }),
    ("14, behind the plan record", |seen| {
        sleeper(seen, |_| seen.index == 1)
    }),
];

/// One is just below the other.
fn below(one: u8, other: u8) -> bool {
    one.checked_add(1) == Some(other)
}

/// A first record of these fields.
fn plan(seen: &Seen, fields: [u8; 4]) -> bool {
    let Record {
        worker,
        op,
        register,
        number,
        ..
    } = seen.record;
    let found = [worker, op, register].map(u16::from);
    let wanted = fields.map(u16::from);
    seen.refusal == 3 && seen.index == 0 && found == wanted[..3] && number == wanted[3]
}

/// A barrier record that is wrong in one way, which is this one.
fn size(seen: &Seen, which: impl Fn(&Record) -> bool) -> bool {
    let (record, before) = (&seen.record, &seen.before);
    let wrong = [
        record.worker != 0,
        record.register > 7,
        !(1..=8).contains(&record.number),
        before.op == OP_BARRIER_SIZE && record.register <= before.register,
        before.op > OP_BARRIER_SIZE,
    ];
    let ways = wrong.iter().filter(|&&way| way).count();
    seen.refusal == 4 && ways == 1 && which(record)
}

/// A sleep record that is wrong in one way, which is this one.
fn sleeper(seen: &Seen, which: impl Fn(&Record) -> bool) -> bool {
    let (record, before) = (&seen.record, &seen.before);
    let wrong = [
        record.worker == 0,
        record.worker >= seen.workers,
        record.register != 0,
        record.number != 0,
        before.op == OP_SLEEP && record.worker <= before.worker && record.worker != 0,
        before.op > OP_SLEEP,
    ];
    let ways = wrong.iter().filter(|&&way| way).count();
    seen.refusal == 14 && ways == 1 && which(record)
}

fn op(seen: &Seen, op: u8) -> bool {
    seen.refusal == 6 && seen.record.op == op
}

/// A skip of this op and distance that lands one step too far.
fn skip(seen: &Seen, op: u8, far: u16) -> bool {
    let one_too_far = seen.behind + 1 == seen.record.number;
    seen.refusal == 10 && seen.record.op == op && seen.record.number == far && one_too_far
}
