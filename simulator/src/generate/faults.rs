//! Single faults of the records of a plan, with the refusal of each.
//!
//! The limits are written down here a second time, so that a slip in the
//! check's own table shows.

use crate::format::{Record, OP_BARRIER_SIZE, OP_SLEEP, OP_START};
use crate::generate::draft::Draft;

/// A field of a record.
#[derive(Clone, Copy, Debug, PartialEq, Eq)]
pub enum Field {
    FirstMark,
    SecondMark,
    Worker,
    Op,
    Register,
    Number,
}

/// One field of one record set to a value for which the file is refused.
#[derive(Clone, Copy, Debug)]
pub struct Fault {
    pub index: usize,
    pub field: Field,
    pub value: u16,
    pub refusal: u8,
}

/// Ops that no record may have behind the first.
const UNKNOWN_OPS: [u16; 8] = [3, 4, 15, 23, 31, 40, 128, 255];

/// Every single fault of the records of an accepted plan.
pub fn faults(draft: &Draft) -> Vec<Fault> {
    let records = draft.records();
    let mut all = Vec::new();
    for index in 0..records.len() {
        mark_faults(&mut all, index);
        match (index, records[index].op) {
            (0, _) => plan_faults(&mut all),
            (_, OP_BARRIER_SIZE) => barrier_faults(&mut all, index),
            (_, OP_SLEEP) => sleep_faults(&mut all, &records, index),
            _ => {
                step_faults(&mut all, &records, index);
                far_skip_faults(&mut all, &records, index);
            }
        }
    }
    all
}

fn push(all: &mut Vec<Fault>, index: usize, field: Field, values: &[u16], refusal: u8) {
    for &value in values {
        all.push(Fault {
            index,
            field,
            value,
            refusal,
        });
    }
}

fn mark_faults(all: &mut Vec<Fault>, index: usize) {
    push(all, index, Field::FirstMark, &[0, 0x4C, 0x50, 0xFF], 2);
    push(all, index, Field::SecondMark, &[0, 0x4C, 0x4D, 0xFF], 2);
}

fn plan_faults(all: &mut Vec<Fault>) {
    push(all, 0, Field::Op, &[1, 2, 3, 16, 32, 38, 39, 255], 3);
    push(all, 0, Field::Worker, &[0, 9, 255], 3);
    push(all, 0, Field::Register, &[1, 255], 3);
    push(all, 0, Field::Number, &[1, 256, 65_535], 3);
}

fn barrier_faults(all: &mut Vec<Fault>, index: usize) {
    push(all, index, Field::Op, &[0], 3);
    push(all, index, Field::Op, &UNKNOWN_OPS, 6);
    // Its worker byte is 0, which no sleep record may have.
    push(all, index, Field::Op, &[2], 14);
    push(all, index, Field::Worker, &[1, 255], 4);
    push(all, index, Field::Register, &[8, 255], 4);
    push(all, index, Field::Number, &[0, 9, 256, 257, 65_535], 4);
}

fn sleep_faults(all: &mut Vec<Fault>, records: &[Record], index: usize) {
    let workers = u16::from(records[0].worker);
    let before = records[index - 1];
    push(all, index, Field::Op, &[0], 3);
    push(all, index, Field::Op, &UNKNOWN_OPS, 6);
    // Its worker byte is not 0, which every barrier record must have.
    push(all, index, Field::Op, &[1], 4);
    push(all, index, Field::Worker, &[0, workers, 128, 255], 14);
    push(all, index, Field::Register, &[1, 128, 255], 14);
    push(all, index, Field::Number, &[1, 255, 256, 65_535], 14);
    if before.op == OP_SLEEP {
        let last = u16::from(before.worker);
        push(all, index, Field::Worker, &[last, last - 1], 14);
    }
}

fn step_faults(all: &mut Vec<Fault>, records: &[Record], index: usize) {
    let record = records[index];
    let workers = u16::from(records[0].worker);
    push(all, index, Field::Op, &[0], 3);
    push(all, index, Field::Op, &UNKNOWN_OPS, 6);
    push(all, index, Field::Worker, &[workers, 255], 5);
    order_faults(all, records[index - 1], index);
    let (registers, numbers) = wrong_operands(record.op);
    push(all, index, Field::Register, registers, 7);
    push(all, index, Field::Number, numbers, 7);
    match record.op {
        OP_START => push(all, index, Field::Number, &[workers], 7),
        37 => {
            let bare = without_size(records);
            push(all, index, Field::Number, &bare, 9);
        }
        _ => {}
    }
}

/// What may not come behind a record: a barrier record behind a sleep record,
/// either of them behind a step, a step of a worker below it behind a step.
fn order_faults(all: &mut Vec<Fault>, before: Record, index: usize) {
    if before.op <= OP_BARRIER_SIZE {
        return;
    }
    push(all, index, Field::Op, &[1], 4);
    if before.op == OP_SLEEP {
        return;
    }
    push(all, index, Field::Op, &[2], 14);
    if let Some(below) = u16::from(before.worker).checked_sub(1) {
        push(all, index, Field::Worker, &[below], 5);
    }
}

/// Barriers that have no size.
fn without_size(records: &[Record]) -> Vec<u16> {
    let sized = |name: u16| {
        let mut all = records.iter();
        all.any(|each| each.op == OP_BARRIER_SIZE && u16::from(each.register) == name)
    };
    (0..8).filter(|&name| !sized(name)).collect()
}

/// Registers and numbers that an op may not have.
fn wrong_operands(op: u8) -> (&'static [u16], &'static [u16]) {
    match op {
        16 => (&[4, 255], &[]),
        17 | 18 => (&[4, 255], &[2_047, 2_048, 65_535]),
        19 | 20 => (&[4, 255], &[4, 256, 65_535]),
        21 | 22 => (&[4, 255], &[0, 128, 256, 257, 65_535]),
        32 | 33 => (&[1, 255], &[16, 256, 65_535]),
        38 => (&[1, 255], &[1, 256, 65_535]),
        39 => (&[1, 255], &[8, 9, 256, 257, 65_535]),
        _ => (&[1, 255], &[8, 256, 257, 65_535]),
    }
}

/// A skip one further than just behind the last step, and further still.
fn far_skip_faults(all: &mut Vec<Fault>, records: &[Record], index: usize) {
    let record = records[index];
    if record.op != 21 && record.op != 22 {
        return;
    }
    let same = |each: &&Record| each.worker == record.worker;
    let behind = records[index + 1..].iter().take_while(same).count() as u16;
    if behind < 127 {
        push(all, index, Field::Number, &[behind + 1, 127], 10);
    }
}

/// Puts a fault into the records of its plan.
pub fn apply(records: &mut [Record], fault: Fault) {
    let record = &mut records[fault.index];
    match fault.field {
        Field::FirstMark => record.mark[0] = fault.value as u8,
        Field::SecondMark => record.mark[1] = fault.value as u8,
        Field::Worker => record.worker = fault.value as u8,
        Field::Op => record.op = fault.value as u8,
        Field::Register => record.register = fault.value as u8,
        Field::Number => record.number = fault.value,
    }
}

/// Which of two faults is met first, where that is plain.
pub fn deciding(first: Fault, second: Fault) -> Option<Fault> {
    let rank = |fault: Fault| {
        let order = [2, 3, 4, 14, 6, 5, 8, 7, 9];
        order.iter().position(|&number| number == fault.refusal)
    };
    if first.index != second.index {
        return match (rank(first), rank(second)) {
            (None, Some(_)) => Some(second),
            (Some(_), None) => Some(first),
            _ if first.index < second.index => Some(first),
            _ => Some(second),
        };
    }
    // A fault overwritten by the other, or an op that turns the record into
    // another kind, leaves no plain answer unless it is tested first.
    if first.field == second.field {
        return Some(second);
    }
    let (op, other) = if first.field == Field::Op {
        (first, second)
    } else {
        (second, first)
    };
    if op.field == Field::Op && other.refusal != 2 {
        return Some(op);
    }
    let late = usize::MAX;
    match rank(first).unwrap_or(late) <= rank(second).unwrap_or(late) {
        true => Some(first),
        false => Some(second),
    }
}
