//! Writes inputs of the fuzz target with sleepers, starts, broadcasts, words
//! that several workers write, several plans, and locks by name.
//!
//! `seeds FOLDER`. tests/fuzz/fuzz.c says how an input is laid out. The inputs
//! are the same each time: `start-N`, `broadcast-N` and `sum-N` are plans with
//! their turns, `commit-N` plans up to their first commit, `sleep-N` files with a fault of a sleep record or of a start,
//! `long-4` a file of the greatest length and `long-5` one with a record more,
//! `made-starts`, `made-sleepers` and `made-broadcasts` are steps from which
//! the target makes a file, `length-*-4` plans with a buffer four bytes short,
//! `batch-N` several plans, `lock-N` plans about the locks that a worker holds,
//! and `made-names` steps with some.

mod batches;
mod locks;

use std::path::Path;
use std::process::ExitCode;
use std::{env, fs};

use simulator::format::{
    LOG_RECORD_LENGTH, MEMORY_LENGTH, OP_BROADCAST, OP_SLEEP, OP_START, RECORD_LENGTH,
};
use simulator::generate::damage::{single_faults, sleep_damages, start_damages};
use simulator::generate::faults::{faults, Fault};
use simulator::generate::last_turn::cut_moves;
use simulator::generate::{plan, Damaged, Draft, PlanKind, Rng};
use simulator::turn_machine::End;
use simulator::{check, play_rounds, Machine};

/// Flags of an input: the plan's part is the file, memory of many values, each
/// turn eight times, memory of 255s.
const FILE: u8 = 1;
const VALUES: u8 = 4;
const EIGHT_TIMES: u8 = 8;
const FULL: u8 = 32;

/// Names no wrong length of a buffer.
const RIGHT_LENGTHS: u8 = 255;
/// From here on a byte names a buffer that is four bytes short.
const SHORT_LENGTHS: u8 = 8;

fn main() -> ExitCode {
    let [folder] = &env::args().skip(1).collect::<Vec<_>>()[..] else {
        eprintln!("seeds FOLDER");
        return ExitCode::FAILURE;
    };
    match write_all(Path::new(folder)) {
        Ok(count) => {
            println!("{count} inputs");
            ExitCode::SUCCESS
        }
        Err(error) => {
            eprintln!("seeds: {folder}: {error}");
            ExitCode::FAILURE
        }
    }
}

fn write_all(folder: &Path) -> std::io::Result<usize> {
    let mut rng = Rng::new(39);
    let mut all = Vec::new();
    all.extend(numbered("start", starts(&mut rng)));
    all.extend(numbered("sleep", refused()));
    all.extend(longest(&mut rng));
    all.extend(made());
    all.extend(numbered("broadcast", broadcasts(&mut rng)));
    all.push(made_broadcasts());
    all.extend(numbered("sum", sums(&mut rng)));
    all.extend(numbered("commit", commits()));
    all.extend(short_buffers());
    all.extend(numbered("batch", batches::all()));
    all.extend(numbered("lock", locks::all()));
    all.push(locks::made());
    for (name, bytes) in &all {
        fs::write(folder.join(name), bytes)?;
    }
    Ok(all.len())
}

type Named = (String, Vec<u8>);

fn numbered(name: &str, inputs: Vec<Vec<u8>>) -> Vec<Named> {
    let each = |(number, bytes)| (format!("{name}-{number:03}"), bytes);
    inputs.into_iter().enumerate().map(each).collect()
}

fn input(flags: u8, plan: &[u8], turns: &[u8]) -> Vec<u8> {
    let [low, high] = (plan.len() as u16).to_le_bytes();
    [&[flags, RIGHT_LENGTHS, low, high], plan, turns].concat()
}

/// Turns of any worker to the end of a plan, or so many of them.
fn turns(rng: &mut Rng, file: &[u8], most: usize) -> Vec<u8> {
    let plan = check(file).expect("an accepted plan");
    let mut machine = Machine::new(&plan, &[0; MEMORY_LENGTH]);
    let mut list = Vec::new();
    while machine.end() == End::Going && list.len() < most {
        let worker = rng.below(plan.workers());
        machine.turn(worker);
        list.push(worker as u8);
    }
    list
}

/// Small plans with sleepers, of every small kind.
fn starts(rng: &mut Rng) -> Vec<Vec<u8>> {
    let mut all = Vec::new();
    while all.len() < 48 {
        let kind = match all.len() % 2 {
            0 => PlanKind::Starts,
            _ => rng.pick(&PlanKind::SMALL),
        };
        let draft = plan(rng, kind);
        let file = draft.file();
        if draft.sleepers.is_empty() || file.len() > 45 * RECORD_LENGTH {
            continue;
        }
        let list = turns(rng, &file, 400);
        all.push(input(FILE | rng.pick(&[0, VALUES]), &file, &list));
    }
    all
}

/// Small plans in which a broadcast wakes several: from two to seven in turn.
fn broadcasts(rng: &mut Rng) -> Vec<Vec<u8>> {
    let mut all = Vec::new();
    while all.len() < 36 {
        let file = plan(rng, PlanKind::Broadcasts).file();
        let wanted = 2 + all.len() % 6;
        if file.len() <= 60 * RECORD_LENGTH && most_woken(&file) == wanted {
            let list = turns(rng, &file, 400);
            all.push(input(FILE | rng.pick(&[0, VALUES]), &file, &list));
        }
    }
    all
}

/// Small plans in which workers write the same words, from memories of zeros, of
/// many values and of 255s, to the end and cut anywhere.
fn sums(rng: &mut Rng) -> Vec<Vec<u8>> {
    let mut all = Vec::new();
    while all.len() < 48 {
        let draft = plan(rng, PlanKind::Sums);
        let file = draft.file();
        if file.len() > 60 * RECORD_LENGTH {
            continue;
        }
        let list = match all.len() % 2 {
            0 => turns(rng, &file, 400),
            _ => cut_moves(rng, &draft, &[0; MEMORY_LENGTH]),
        };
        let memory = [0, VALUES, FULL][all.len() / 2 % 3];
        all.push(input(FILE | memory, &file, &list));
    }
    all
}

type Row = &'static [(u8, u8, u16)];

/// Each step that commits, alone behind a store: the steps before the store and
/// behind it. Worker 1 sleeps.
const COMMITS: [(Row, Row); 15] = [
    (&[], &[(32, 0, 0), (33, 0, 0)]),
    (&[(32, 0, 0)], &[(33, 0, 0)]),
    (&[(32, 0, 0)], &[(34, 0, 0)]),
    (&[], &[(35, 0, 0)]),
    (&[(32, 0, 0)], &[(35, 0, 0)]),
    (&[], &[(36, 0, 0)]),
    (&[(32, 0, 0)], &[(36, 0, 0)]),
    (&[], &[(37, 0, 0)]),
    (&[], &[(37, 0, 1)]),
    (&[], &[(38, 0, 0)]),
    (&[], &[]),
    (&[], &[(39, 0, 1)]),
    (&[(32, 0, 0)], &[(39, 0, 1)]),
    (&[], &[(39, 0, 0)]),
    (&[(32, 0, 0)], &[(39, 0, 0)]),
];

/// Plans of these, with their turns up to the commit.
fn commits() -> Vec<Vec<u8>> {
    let each = |(before, behind): (Row, Row)| {
        let own = [before, &[(16, 0, 0x0201), (18, 0, 255)], behind].concat();
        let draft = Draft::from_rows(&[(0, 2), (1, 1)], &[&own, &[]]).asleep(&[1]);
        let file = draft.file();
        input(FILE, &file, &turns_to_commit(&file))
    };
    COMMITS.into_iter().map(each).collect()
}

/// Turns of the first worker up to the first that moves the sum from zero.
fn turns_to_commit(file: &[u8]) -> Vec<u8> {
    let plan = check(file).expect("an accepted plan");
    let mut machine = Machine::new(&plan, &[0; MEMORY_LENGTH]);
    let mut list = Vec::new();
    while machine.outcome().sum() == 0 {
        assert!(machine.turn(0), "it commits before it stops");
        list.push(0);
    }
    list
}

/// A plan that would be accepted, each time with another buffer too short.
fn short_buffers() -> Vec<Named> {
    let rows: [&[(u8, u8, u16)]; 1] = [&[(16, 0, 0x0201), (18, 0, 255)]];
    let file = Draft::from_rows(&[], &rows).file();
    let named = |(which, name): (u8, &str)| {
        let mut bytes = input(FILE | FULL, &file, &[0, 0, 0, 0]);
        bytes[1] = SHORT_LENGTHS + which;
        (format!("length-{name}-4"), bytes)
    };
    let buffers = ["memory", "log", "report", "work"];
    (0..).zip(buffers).map(named).collect()
}

/// The most workers that a broadcast of a plan wakes.
fn most_woken(file: &[u8]) -> usize {
    let plan = check(file).expect("an accepted plan");
    let log = play_rounds(&plan, &[0; MEMORY_LENGTH]).log;
    let records = log.chunks_exact(LOG_RECORD_LENGTH);
    let woken = records.filter(|record| record[5] == OP_BROADCAST);
    woken
        .map(|record| usize::from(record[7]))
        .max()
        .unwrap_or(0)
}

/// Sleep records and starts of a small plan that are refused as such, and
/// barrier records behind a sleep record.
fn refused() -> Vec<Vec<u8>> {
    let rows: [&[(u8, u8, u16)]; 3] = [&[(39, 0, 2), (38, 0, 0)], &[(37, 0, 2)], &[]];
    let draft = Draft::from_rows(&[(2, 2)], &rows).asleep(&[1, 2]);
    let records = draft.records();
    let of_request = |fault: &Fault| match records[fault.index].op {
        OP_SLEEP | OP_START => matches!(fault.refusal, 4 | 7 | 14),
        _ => fault.refusal == 14,
    };
    let single = faults(&draft).into_iter().zip(single_faults(&draft));
    let single = single.filter(|(fault, _)| of_request(fault));
    let all = single.map(|(_, damaged)| damaged);
    let all = all.chain(sleep_damages(&draft)).chain(start_damages());
    let each = |damaged: Damaged| input(FILE, &damaged.file, &[0, 1, 2, 0, 1]);
    all.map(each).collect()
}

fn longest(rng: &mut Rng) -> [Named; 2] {
    let mut file = plan(rng, PlanKind::Longest).file();
    let list = turns(rng, &file, 300);
    let just = input(FILE | EIGHT_TIMES, &file, &list);
    file.extend_from_within(file.len() - RECORD_LENGTH..);
    let over = input(FILE | EIGHT_TIMES, &file, &list);
    [("long-4".to_string(), just), ("long-5".to_string(), over)]
}

/// Three workers and a barrier of all. In the first the others sleep and are
/// started, one of them within a lock; in the second nobody starts the last.
fn made() -> [Named; 2] {
    let sleeps = 128;
    let head = [2, 2, sleeps, sleeps, 0, 0, 0, 0, 0];
    let next_worker = 128;
    // Op by its place in the target's table, register, number.
    let (store, lock, unlock, barrier, start) = (2, 7, 8, 12, 14);
    let starts = [
        [start, 0, 1, 0],
        [store, 1, 255, 0],
        [lock, 0, 3, 0],
        [start, 0, 2, 0],
        [unlock, 0, 3, 0],
        [barrier, 0, 0, 0],
        [next_worker | start, 0, 0, 0],
        [barrier, 0, 0, 0],
        [next_worker | barrier, 0, 0, 0],
    ];
    let sleepers = [
        [start, 0, 1, 0],
        [start, 0, 1, 0],
        [next_worker | store, 0, 9, 0],
    ];
    let cycles = [0, 1, 2].repeat(12);
    let of = |name: &str, steps: &[[u8; 4]]| {
        let plan = [&head[..], &steps.concat()].concat();
        (name.to_string(), input(VALUES, &plan, &cycles))
    };
    [of("made-starts", &starts), of("made-sleepers", &sleepers)]
}

/// Four workers and no barrier: two wait on one condition, one on another; the
/// last signals, wakes the rest within a lock, and the others without one.
fn made_broadcasts() -> Named {
    let head = [3, 0, 0, 0, 0, 0, 0, 0, 0];
    let next_worker = 128;
    let (store, lock, unlock, wait, signal, broadcast) = (2, 7, 8, 9, 10, 11);
    let waits = |mark: u8, condition: u8| {
        [
            [mark | lock, 0, 3, 0],
            [wait, 0, condition, 0],
            [store, 1, 255, 0],
            [unlock, 0, 3, 0],
        ]
    };
    let wakes = [
        [next_worker | lock, 0, 5, 0],
        [signal, 0, 6, 0],
        [broadcast, 0, 6, 0],
        [unlock, 0, 5, 0],
        [broadcast, 0, 4, 0],
    ];
    let waiters = [waits(0, 6), waits(next_worker, 6), waits(next_worker, 4)];
    let steps = [&waiters.concat()[..], &wakes].concat();
    let plan = [&head[..], &steps.concat()].concat();
    let cycles = [0, 1, 2, 3].repeat(16);
    let bytes = input(VALUES, &plan, &cycles);
    ("made-broadcasts".to_string(), bytes)
}
