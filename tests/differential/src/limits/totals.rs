//! Numbers of the report and of log records in their second byte, up to the
//! greatest that can be.

use simulator::generate::draft::step;
use simulator::generate::locks::each_lock;
use simulator::generate::Draft;
use simulator::{Machine, Step};

use super::{draft, memory, moving_turns, plan_of, played, rising, some_locks, times, Limit};

/// Where the report has moving turns, rounds completed and log records.
const MOVES: usize = 2;
const ROUNDS: usize = 4;
const RECORDS: usize = 6;

pub fn all() -> Vec<Limit> {
    let signals = draft(&[], vec![times(128, 36, 0); 8]);
    let nested = [
        each_lock(32, &some_locks(16)),
        each_lock(33, &some_locks(16)),
    ]
    .concat();
    let locks = draft(&[], vec![nested.repeat(4); 8]);
    let relay = relay();
    let chain = chain();
    let mut all = Vec::new();
    all.extend(cuts(
        &signals,
        MOVES,
        &[255, 256, 257, 511, 512, 2_063, 2_064],
    ));
    all.extend(cuts(
        &signals,
        RECORDS,
        &[255, 256, 257, 511, 512, 1_031, 1_032],
    ));
    all.extend(cuts(&relay, ROUNDS, &[255, 256, 257, 511, 512, 1_018]));
    all.extend(cuts(&chain, ROUNDS, &[1_024, 1_025]));
    all.extend(played("a longest log", &locks));
    all.extend(played("a longest log", &signals));
    all.extend(played("kept over many rounds", &kept_over_rounds()));
    let different = (0..=8).map(all_different);
    all.extend(different.flat_map(|draft| played("steps that all differ", &draft)));
    all
}

/// The longest relay: a worker queues at a barrier until the one before it
/// comes there, and has a round for each of its signals.
fn relay() -> Draft {
    let row = |worker: u16| {
        let mut own = times(128, 35, worker);
        if worker > 0 {
            own[0] = step(37, 0, worker - 1);
        }
        if worker < 7 {
            own[127] = step(37, 0, worker);
        }
        own
    };
    let sizes: Vec<(u8, u16)> = (0..7).map(|barrier| (barrier, 2)).collect();
    draft(&sizes, (0..8).map(row).collect())
}

/// The most rounds: each worker has one for each of its signals, starts the
/// next worker in the round of its end, and has left when that one comes.
fn chain() -> Draft {
    let row = |worker: u16| {
        let mut own = times(128, 35, worker);
        if worker < 7 {
            own[127] = step(39, 0, worker + 1);
        }
        own
    };
    draft(&[], (0..8).map(row).collect()).asleep(&[1, 2, 3, 4, 5, 6, 7])
}

/// The shortest lists of a plan's moves that bring a number of the report to
/// each of these.
fn cuts(draft: &Draft, at: usize, numbers: &[u16]) -> Vec<Limit> {
    let (file, plan) = (draft.file(), plan_of(draft));
    let moving = moving_turns(&plan, &rising(&plan));
    let mut machine = Machine::new(&plan, &memory());
    let mut all = Vec::new();
    let mut before = 0;
    for (place, &turn) in moving.iter().enumerate() {
        machine.turn(usize::from(turn));
        let report = machine.outcome().report;
        let number = u16::from_le_bytes([report[at], report[at + 1]]);
        if number != before && numbers.contains(&number) {
            let turns = moving[..=place].to_vec();
            all.push(Limit::new("a number of two bytes", file.clone(), turns));
        }
        before = number;
    }
    all
}

/// Eight workers whose 1,024 steps all differ, and so many barrier records in
/// front of them: every other step stores a word of its own to its own place.
/// As many workers sleep as there are barriers, or all that may; a start of
/// each takes the place of a step of the first worker.
fn all_different(barriers: u8) -> Draft {
    let pair = |place: u16| [step(16, 0, 31 * place + 7), step(18, 0, 4 * place)];
    let own = |worker: u16| (64 * worker..64 * worker + 64).flat_map(pair).collect();
    let sizes: Vec<(u8, u16)> = (8 - barriers..8).map(|barrier| (barrier, 3)).collect();
    let mut steps: Vec<Vec<Step>> = (0..8).map(own).collect();
    let sleepers: Vec<u8> = (8 - barriers.min(7)..8).collect();
    for &sleeper in &sleepers {
        steps[0][16 * usize::from(sleeper)] = step(39, 0, u16::from(sleeper));
    }
    draft(&sizes, steps).asleep(&sleepers)
}

/// A relay that takes more than 700 rounds. Registers are set in the first one and
/// stored at the end; the first worker waits meanwhile, with two locks.
fn kept_over_rounds() -> Draft {
    let set =
        |worker: u16| (0..4).map(move |each| step(16, each, 500 * worker + 99 + u16::from(each)));
    let store =
        |worker: u16| (0..4).map(move |each| step(18, each, 256 * worker + 60 * u16::from(each)));
    let row = |worker: u16| {
        let mut own: Vec<Step> = set(worker).collect();
        own.extend((worker > 1).then(|| step(37, 0, worker - 1)));
        match worker {
            0 => own.extend([step(32, 0, 1), step(32, 0, 2), step(34, 0, 0)]),
            _ => own.extend(times(110, 36, worker)),
        }
        own.extend(store(worker));
        match worker {
            0 => own.extend([step(33, 0, 1), step(33, 0, 2)]),
            7 => own.push(step(35, 0, 0)),
            _ => own.push(step(37, 0, worker)),
        }
        own
    };
    let sizes: Vec<(u8, u16)> = (1..7).map(|barrier| (barrier, 2)).collect();
    draft(&sizes, (0..8).map(row).collect())
}
