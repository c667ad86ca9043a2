//! Damaged plan files, with the answer that a check must give.

use crate::check::{Refusal, Step};
use crate::format::{
    file_of, Record, MOST_STEPS, MOST_WORKERS, OP_BARRIER_SIZE, OP_SLEEP, OP_START, RECORD_LENGTH,
    RECORD_MARK,
};
use crate::generate::draft::{step, Draft};
use crate::generate::faults::{apply, deciding, faults, Fault};
use crate::generate::plans::{plan, PlanKind};
use crate::generate::rng::Rng;

/// A file and what a check of it must say.
#[derive(Clone, Debug)]
pub struct Damaged {
    pub label: String,
    pub file: Vec<u8>,
    /// `Some(Ok(()))` accepted, `Some(Err(_))` refused so, `None` not known
    /// from the way the file was made.
    pub expected: Option<Result<(), Refusal>>,
}

/// A plan with every op, three workers, of which two sleep, and gaps among its
/// barriers.
pub fn showcase() -> Draft {
    let every: &[(u8, u8, u16)] = &[
        (16, 0, 65_535),
        (17, 3, 2_046),
        (18, 1, 255),
        (19, 2, 3),
        (20, 3, 0),
        (21, 0, 1),
        (22, 3, 10),
        (32, 0, 15),
        (34, 0, 7),
        (33, 0, 15),
        (35, 0, 7),
        (36, 0, 0),
        (37, 0, 1),
        (37, 0, 6),
        (38, 0, 0),
        (16, 0, 1),
        (16, 0, 2),
        (16, 0, 3),
        (39, 0, 2),
    ];
    let first = [&[(39, 0, 1), (39, 0, 2)], every].concat();
    let short: &[(u8, u8, u16)] = &[(22, 2, 1), (37, 0, 3), (18, 0, 2_046)];
    Draft::from_rows(&[(1, 2), (3, 1), (6, 8)], &[&first, short, every]).asleep(&[1, 2])
}

fn refused(label: String, file: Vec<u8>, number: u8, index: usize) -> Damaged {
    let refusal = Refusal {
        number,
        index: index as u32,
    };
    Damaged {
        label,
        file,
        expected: Some(Err(refusal)),
    }
}

fn accepted(label: &str, draft: &Draft) -> Damaged {
    Damaged {
        label: label.to_string(),
        file: draft.file(),
        expected: Some(Ok(())),
    }
}

fn with_fault(draft: &Draft, fault: Fault) -> Damaged {
    let mut records = draft.records();
    apply(&mut records, fault);
    let label = format!("one fault: {fault:?}");
    refused(label, file_of(&records), fault.refusal, fault.index)
}

/// A file for every single fault of a plan.
pub fn single_faults(draft: &Draft) -> Vec<Damaged> {
    let each = |fault| with_fault(draft, fault);
    faults(draft).into_iter().map(each).collect()
}

/// A file with one of the faults of a plan.
pub fn single_fault(rng: &mut Rng, draft: &Draft) -> Damaged {
    let fault = rng.pick(&faults(draft));
    with_fault(draft, fault)
}

/// A file with two faults. The earlier record decides, save that 10 comes
/// behind all else; within a record the order of the tests decides.
pub fn double_fault(rng: &mut Rng, draft: &Draft) -> Damaged {
    let all = faults(draft);
    let first = rng.pick(&all);
    let mut second = rng.pick(&all);
    if rng.chance(1, 2) {
        let same: Vec<Fault> = all
            .into_iter()
            .filter(|each| each.index == first.index)
            .collect();
        second = rng.pick(&same);
    }
    with_two_faults(draft, first, second)
}

/// A file for every two faults of one record, and for every skip too far
/// together with any other fault, before or behind it.
pub fn fault_pairs(draft: &Draft) -> Vec<Damaged> {
    let all = faults(draft);
    let telling = |first: &Fault, second: &Fault| {
        (first.index == second.index && first.field != second.field) || first.refusal == 10
    };
    let mut pairs = Vec::new();
    for first in &all {
        for second in all.iter().filter(|second| telling(first, second)) {
            pairs.push(with_two_faults(draft, *first, *second));
        }
    }
    pairs
}

fn with_two_faults(draft: &Draft, first: Fault, second: Fault) -> Damaged {
    let mut records = draft.records();
    apply(&mut records, first);
    apply(&mut records, second);
    let label = format!("two faults: {first:?} and {second:?}");
    let file = file_of(&records);
    match deciding(first, second) {
        Some(fault) => refused(label, file, fault.refusal, fault.index),
        None => Damaged {
            label,
            file,
            expected: None,
        },
    }
}

/// Files with a wrong length: empty, cut, with bytes added, too long.
pub fn length_damages(rng: &mut Rng, draft: &Draft) -> Vec<Damaged> {
    let file = draft.file();
    let longest = plan(rng, PlanKind::Longest).file();
    let mut all = vec![refused("an empty file".to_string(), Vec::new(), 1, 0)];
    for bytes in 1..RECORD_LENGTH {
        let mut cut = file.clone();
        cut.truncate(file.len() - bytes);
        all.push(refused(format!("{bytes} bytes cut"), cut, 1, 0));
        let mut more = file.clone();
        more.extend(vec![RECORD_MARK[0]; bytes]);
        all.push(refused(format!("{bytes} bytes added"), more, 1, 0));
        all.push(refused(
            format!("{bytes} bytes only"),
            file[..bytes].to_vec(),
            1,
            0,
        ));
    }
    for records in [1, 2, 300] {
        let mut more = longest.clone();
        for _ in 0..records {
            more.extend_from_slice(&Record::new(7, 16, 0, 0).to_bytes());
        }
        all.push(refused(format!("{records} records too many"), more, 1, 0));
    }
    all
}

/// A plan with its last record a few times more. A long one comes to the
/// greatest length of a file so, or just above it.
pub fn lengthened(rng: &mut Rng, draft: &Draft) -> Damaged {
    let mut file = draft.file();
    let last = file.len() - RECORD_LENGTH..file.len();
    for _ in 0..rng.between(1, 9) {
        file.extend_from_within(last.clone());
    }
    let label = format!("lengthened to {} bytes", file.len());
    match file.len() > 7_280 {
        true => refused(label, file, 1, 0),
        false => Damaged {
            label,
            file,
            expected: None,
        },
    }
}

/// Barrier records twice, swapped, lost, behind a sleep record or a step.
pub fn barrier_damages(draft: &Draft) -> Vec<Damaged> {
    let records = draft.records();
    let behind = draft.barriers.len() + 1;
    let mut all: Vec<Damaged> = (1..behind).map(|index| twice(&records, index, 4)).collect();
    all.extend((2..behind).map(|index| swapped(&records, index, 4)));
    all.extend((1..behind).filter_map(|index| lost(&records, index)));
    all.extend((behind + 1..=records.len()).map(|index| late(&records, index)));
    all
}

/// Sleep records twice, swapped, in front of a barrier record, behind a step,
/// and each of them left out, which leaves a plan.
pub fn sleep_damages(draft: &Draft) -> Vec<Damaged> {
    let records = draft.records();
    let first = draft.barriers.len() + 1;
    let behind = first + draft.sleepers.len();
    let mut all: Vec<Damaged> = (first..behind)
        .map(|index| twice(&records, index, 14))
        .collect();
    all.extend((first + 1..behind).map(|index| swapped(&records, index, 14)));
    all.extend((1..first).map(|index| early_sleeper(&records, index)));
    all.extend((behind + 1..=records.len()).map(|index| late_sleeper(&records, index)));
    for place in 0..draft.sleepers.len() {
        let mut fewer = draft.clone();
        fewer.sleepers.remove(place);
        all.push(accepted("a sleeper less", &fewer));
    }
    all
}

fn twice(records: &[Record], index: usize, refusal: u8) -> Damaged {
    let mut records = records.to_vec();
    records.insert(index, records[index]);
    let label = "a barrier or a sleeper twice".to_string();
    refused(label, file_of(&records), refusal, index + 1)
}

fn swapped(records: &[Record], index: usize, refusal: u8) -> Damaged {
    let mut records = records.to_vec();
    records.swap(index - 1, index);
    let label = "barriers or sleepers swapped".to_string();
    refused(label, file_of(&records), refusal, index)
}

/// The sleep record may stand there, but not the barrier record behind it.
fn early_sleeper(records: &[Record], index: usize) -> Damaged {
    let mut records = records.to_vec();
    records.insert(index, Record::new(1, OP_SLEEP, 0, 0));
    let label = "a sleeper in front of a barrier".to_string();
    refused(label, file_of(&records), 4, index + 1)
}

fn late_sleeper(records: &[Record], index: usize) -> Damaged {
    let last = records[0].worker - 1;
    let mut records = records.to_vec();
    records.insert(index, Record::new(last, OP_SLEEP, 0, 0));
    refused("a late sleeper".to_string(), file_of(&records), 14, index)
}

/// Without its record a barrier has no size at its first use, if it has one.
fn lost(records: &[Record], index: usize) -> Option<Damaged> {
    let mut records = records.to_vec();
    let name = u16::from(records.remove(index).register);
    let uses = |each: &Record| each.op == 37 && each.number == name;
    let first = records.iter().position(uses)?;
    Some(refused(
        "a barrier lost".to_string(),
        file_of(&records),
        9,
        first,
    ))
}

fn late(records: &[Record], index: usize) -> Damaged {
    let mut records = records.to_vec();
    records.insert(index, Record::new(0, OP_BARRIER_SIZE, 7, 1));
    refused("a late barrier".to_string(), file_of(&records), 4, index)
}

/// A plan record put in again behind the first.
pub fn second_plan_records(draft: &Draft) -> Vec<Damaged> {
    let records = draft.records();
    (1..=records.len())
        .map(|index| {
            let mut more = records.clone();
            more.insert(index, records[0]);
            refused("a second plan record".to_string(), file_of(&more), 3, index)
        })
        .collect()
}

/// Steps of each op as a 129th step of each worker, right and wrong ones.
pub fn step_129_damages() -> Vec<Damaged> {
    let extra = [
        (step(16, 0, 0), 8),
        (step(16, 4, 0), 8),
        (step(21, 0, 127), 8),
        (step(32, 0, 0), 8),
        (step(37, 0, 0), 8),
        (step(38, 0, 0), 8),
        (step(39, 0, 2), 8),
        (step(39, 0, 3), 8),
        (step(40, 0, 0), 6),
        (step(0, 0, 0), 3),
        (step(1, 0, 1), 4),
        (step(2, 0, 0), 14),
    ];
    let mut all = Vec::new();
    for worker in 0..3 {
        for (last, number) in extra {
            let mut draft = full_workers(3);
            draft.steps[worker].push(last);
            let index = (worker + 1) * MOST_STEPS + 1;
            let label = format!("129th step of worker {worker}, op {}", last.op);
            all.push(refused(label, draft.file(), number, index));
        }
    }
    all
}

fn full_workers(count: usize) -> Draft {
    let own: Vec<Step> = vec![step(16, 0, 0); MOST_STEPS];
    Draft::new(&[], vec![own; count])
}

/// Starts of the workers n − 1 and n, which is one too many, and a start whose
/// low byte alone would name a worker.
pub fn start_damages() -> Vec<Damaged> {
    let mut all = Vec::new();
    for workers in 1..=MOST_WORKERS {
        let naming = |number: u16| {
            let mut steps = vec![Vec::new(); workers];
            steps[workers - 1] = vec![step(16, 0, 0), step(OP_START, 0, number)];
            Draft::new(&[], steps)
        };
        let last = workers as u16 - 1;
        all.push(accepted("a start of the last worker", &naming(last)));
        for number in [last + 1, last + 256] {
            let label = format!("a start of {number}, n being {workers}");
            all.push(refused(label, naming(number).file(), 7, 2));
        }
    }
    all
}

/// Skips at and over the border, among full and nearly empty workers.
pub fn skip_damages() -> Vec<Damaged> {
    let mut all = Vec::new();
    for worker in 0..2 {
        for op in [21, 22] {
            let mut just = full_workers(2);
            just.steps[worker][0] = step(op, 0, 127);
            all.push(accepted("a skip of 127 steps", &just));
            let mut far = full_workers(2);
            far.steps[worker][1] = step(op, 0, 127);
            let index = worker * MOST_STEPS + 2;
            all.push(refused("a skip too far".to_string(), far.file(), 10, index));
            let mut alone = full_workers(2);
            alone.steps[worker] = vec![step(op, 0, 1)];
            let index = if worker == 0 { 1 } else { MOST_STEPS + 1 };
            all.push(refused("a skip alone".to_string(), alone.file(), 10, index));
        }
    }
    all
}

/// Accepted files that stand at the limits.
pub fn border_files(rng: &mut Rng) -> Vec<Damaged> {
    let mut all = vec![
        accepted("the showcase", &showcase()),
        accepted("a longest file", &plan(rng, PlanKind::Longest)),
        accepted("a file with a longest log", &plan(rng, PlanKind::FullLog)),
    ];
    for count in 1..=8 {
        all.push(accepted(
            "workers without steps",
            &Draft::from_rows(&[], &vec![&[][..]; count]),
        ));
        all.push(accepted("workers full of steps", &full_workers(count)));
        let sleepers: Vec<u8> = (1..count as u8).collect();
        let sleeping = full_workers(count).asleep(&sleepers);
        all.push(accepted("all that may sleep do", &sleeping));
    }
    for sleeper in 1..MOST_WORKERS as u8 {
        let one = Draft::new(&[(7, 8)], vec![Vec::new(); MOST_WORKERS]).asleep(&[sleeper]);
        all.push(accepted("one sleeper", &one));
    }
    for size in 1..=8 {
        let one = Draft::from_rows(&[(0, size), (7, size)], &[&[(37, 0, 7)]]);
        all.push(accepted("a barrier of any size", &one));
    }
    all
}

/// A plan with a few bytes changed at random; the answer is not known.
pub fn fuzzed(rng: &mut Rng, draft: &Draft) -> Damaged {
    let mut file = draft.file();
    for _ in 0..rng.between(1, 4) {
        let place = rng.below(file.len());
        file[place] = match rng.below(3) {
            0 => rng.byte(),
            1 => file[place].wrapping_add(1),
            _ => file[place] ^ (1 << rng.below(8)),
        };
    }
    Damaged {
        label: "bytes changed".to_string(),
        file,
        expected: None,
    }
}

/// Damaged and border files of every kind; `doubles` says how many with two
/// faults and how many with changed bytes there are.
pub fn damaged_files(rng: &mut Rng, doubles: usize) -> Vec<Damaged> {
    let base = showcase();
    let mut all = single_faults(&base);
    all.extend(length_damages(rng, &base));
    all.extend(barrier_damages(&base));
    all.extend(sleep_damages(&base));
    all.extend(start_damages());
    all.extend(second_plan_records(&base));
    all.extend(step_129_damages());
    all.extend(skip_damages());
    all.extend(border_files(rng));
    for _ in 0..doubles {
        all.push(double_fault(rng, &base));
        let kind = rng.pick(&PlanKind::SMALL);
        let draft = plan(rng, kind);
        all.push(fuzzed(rng, &draft));
    }
    for kind in [PlanKind::Longest, PlanKind::FullLog] {
        let draft = plan(rng, kind);
        all.extend((0..4).map(|_| lengthened(rng, &draft)));
    }
    all
}
