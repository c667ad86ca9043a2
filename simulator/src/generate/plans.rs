//! Random plans that are worth running.

use crate::check::Step;
use crate::format::{MOST_STEPS, MOST_WORKERS, QUEUES};
use crate::generate::broadcasts::broadcasts;
use crate::generate::deep::deep;
use crate::generate::draft::{step, Draft};
use crate::generate::locks::{any_order, each_lock, held_behind, some_locks};
use crate::generate::long_queues::long_queues;
use crate::generate::names::names;
use crate::generate::rng::Rng;
use crate::generate::script::{add_skips, script, Taste, BLOCKS};
use crate::generate::starts::{add_starts, sleepers, sleepers_at_times, with_sleepers};
use crate::generate::sums::sums;

/// What a random plan is about.
#[derive(Clone, Copy, Debug, PartialEq, Eq)]
pub enum PlanKind {
    /// Many workers, or all of them, without steps.
    Empty,
    /// Loads and stores on few addresses, hardly a lock.
    Race,
    /// Locked sections, nested ones too.
    Locks,
    /// Waits, signals and broadcasts.
    Conditions,
    /// Barriers below, at and above n, met at random.
    Barriers,
    /// Every worker meets the same barriers in the same order.
    Phases,
    /// Steps that fail between ones that do not.
    Failures,
    /// Some of everything.
    Mixed,
    /// Steps drawn one by one.
    Loose,
    /// Sleepers and many starts.
    Starts,
    /// Waiters that are woken by one or all together, and wake each other.
    Broadcasts,
    /// Workers that write the same words in every round.
    Sums,
    /// Workers that hold several locks at once, the same ones as others do.
    Names,
    /// The longest file: 1,040 records.
    Longest,
    /// The longest log: 1,032 records; without starts, in as many moves as can
    /// be.
    FullLog,
    /// One worker behind the other, so that rounds go far above 255.
    Relay,
    /// Up to sixteen locks at once.
    Deep,
    /// Nearly all workers in one queue.
    LongQueues,
}

impl PlanKind {
    /// Every kind.
    pub const ALL: [PlanKind; 18] = [
        PlanKind::Empty,
        PlanKind::Race,
        PlanKind::Locks,
        PlanKind::Conditions,
        PlanKind::Barriers,
        PlanKind::Phases,
        PlanKind::Failures,
        PlanKind::Mixed,
        PlanKind::Loose,
        PlanKind::Starts,
        PlanKind::Broadcasts,
        PlanKind::Sums,
        PlanKind::Names,
        PlanKind::Longest,
        PlanKind::FullLog,
        PlanKind::Relay,
        PlanKind::Deep,
        PlanKind::LongQueues,
    ];

    /// The kinds that go to the limits of counts and queues. The stored plans
    /// are made of the other kinds.
    pub const FAR: [PlanKind; 2] = [PlanKind::Deep, PlanKind::LongQueues];

    /// The kinds whose plans are long.
    pub const LONG: [PlanKind; 3] = [PlanKind::Longest, PlanKind::FullLog, PlanKind::Relay];

    /// The kinds whose plans stay small, but for those that are about sums and
    /// about locks by name.
    pub const SMALL: [PlanKind; 11] = [
        PlanKind::Empty,
        PlanKind::Race,
        PlanKind::Locks,
        PlanKind::Conditions,
        PlanKind::Barriers,
        PlanKind::Phases,
        PlanKind::Failures,
        PlanKind::Mixed,
        PlanKind::Loose,
        PlanKind::Starts,
        PlanKind::Broadcasts,
    ];

    /// Weights of the blocks: plain, bump, section, wait, signal, barrier,
    /// slip, exit, loose, start.
    fn weights(self, rng: &mut Rng) -> [usize; BLOCKS] {
        match self {
            PlanKind::Empty | PlanKind::Race => [6, 4, 1, 0, 0, 0, 0, 0, 0, 0],
            PlanKind::Locks => [2, 3, 8, 0, 1, 0, 0, 0, 0, 1],
            PlanKind::Conditions => [1, 1, 2, 5, 7, 0, 0, 0, 0, 1],
            PlanKind::Barriers => [2, 2, 1, 0, 0, 6, 0, 0, 0, 1],
            PlanKind::Phases => [3, 3, 2, 0, 1, 0, 0, 0, 0, 0],
            PlanKind::Failures => [3, 2, 3, 1, 1, 1, 3, 1, 0, 1],
            PlanKind::Mixed => [3, 3, 4, 2, 3, 2, 1, 1, 1, 2],
            PlanKind::Loose => [0, 0, 0, 0, 0, 0, 0, 0, 1, 0],
            PlanKind::Starts => [2, 3, 2, 1, 2, 2, 1, 1, 0, 8],
            // Half of the long plans hold nothing that stops a worker early.
            PlanKind::Longest if rng.chance(1, 2) => [4, 4, 6, 0, 4, 0, 0, 0, 0, 0],
            PlanKind::Longest => [12, 12, 18, 2, 14, 2, 0, 0, 0, 2],
            PlanKind::FullLog | PlanKind::Relay => [0; BLOCKS],
            PlanKind::Deep | PlanKind::LongQueues => [0; BLOCKS],
            PlanKind::Broadcasts | PlanKind::Sums | PlanKind::Names => [0; BLOCKS],
        }
    }
}

/// Addresses at both ends of memory and around page borders.
const ADDRESSES: [u16; 20] = [
    0, 1, 2, 3, 127, 253, 254, 255, 256, 257, 510, 511, 512, 767, 1_023, 1_535, 1_791, 1_792,
    2_045, 2_046,
];

/// A random plan of a kind.
pub fn plan(rng: &mut Rng, kind: PlanKind) -> Draft {
    match kind {
        PlanKind::Longest => longest(rng),
        PlanKind::FullLog => full_log(rng),
        PlanKind::Relay if rng.chance(1, 2) => chain(rng),
        PlanKind::Relay => relay(rng),
        PlanKind::Phases => phases(rng),
        PlanKind::Broadcasts => broadcasts(rng),
        PlanKind::Sums => sums(rng),
        PlanKind::Names => {
            let draft = names(rng);
            with_sleepers(rng, draft)
        }
        PlanKind::Deep => {
            let draft = deep(rng);
            with_sleepers(rng, draft)
        }
        PlanKind::LongQueues => {
            let draft = long_queues(rng);
            with_sleepers(rng, draft)
        }
        _ => small(rng, kind),
    }
}

/// Taste for the scripts of a plan with these barriers, workers and sleepers.
fn taste(
    rng: &mut Rng,
    kind: PlanKind,
    barriers: &[(u8, u16)],
    workers: usize,
    sleepers: &[u8],
) -> Taste {
    let home = rng.below(ADDRESSES.len() - 3);
    let mut addresses: Vec<u16> = ADDRESSES[home..home + rng.between(1, 3)].to_vec();
    if rng.chance(1, 2) {
        addresses.push(rng.pick(&ADDRESSES));
    }
    if rng.chance(1, 4) {
        addresses.push(rng.below(2_047) as u16);
    }
    let first = rng.below(QUEUES) as u16;
    let conditions = (0..rng.between(1, 2) as u16)
        .map(|offset| (first + 3 * offset) % QUEUES as u16)
        .collect();
    Taste {
        addresses,
        barriers: barriers.iter().map(|&(name, _)| u16::from(name)).collect(),
        conditions,
        workers: workers as u16,
        sleepers: sleepers.iter().map(|&each| u16::from(each)).collect(),
        weights: kind.weights(rng),
    }
}

/// Up to `most` barriers with sizes below, at and above n.
fn barriers(rng: &mut Rng, workers: usize, most: usize) -> Vec<(u8, u16)> {
    let mut names: Vec<u8> = (0..QUEUES as u8).collect();
    rng.shuffle(&mut names);
    names.truncate(rng.between(0, most));
    names.sort_unstable();
    names
        .into_iter()
        .map(|name| (name, barrier_size(rng, workers)))
        .collect()
}

fn barrier_size(rng: &mut Rng, workers: usize) -> u16 {
    let size = match rng.below(8) {
        0 => 1,
        1..=3 => workers,
        4 | 5 => rng.between(1, workers),
        6 => workers + 1,
        _ => rng.between(1, 8),
    };
    size.min(8) as u16
}

fn worker_count(rng: &mut Rng) -> usize {
    match rng.below(8) {
        0 => 1,
        1..=3 => 2,
        4 | 5 => 3,
        _ => rng.between(1, MOST_WORKERS),
    }
}

fn length(rng: &mut Rng) -> usize {
    match rng.below(16) {
        0 => 0,
        1..=9 => rng.between(1, 10),
        10..=13 => rng.between(8, 30),
        _ => rng.between(1, 90),
    }
}

fn small(rng: &mut Rng, kind: PlanKind) -> Draft {
    let workers = match kind {
        PlanKind::Starts => rng.between(2, MOST_WORKERS),
        _ => worker_count(rng),
    };
    let sleepers = match kind {
        PlanKind::Starts => sleepers(rng, workers),
        _ => sleepers_at_times(rng, workers),
    };
    let sizes = barriers(rng, workers, 3);
    let taste = taste(rng, kind, &sizes, workers, &sleepers);
    let mut steps = Vec::new();
    for _ in 0..workers {
        let empty = kind == PlanKind::Empty && rng.chance(3, 4);
        let wanted = if empty { 0 } else { length(rng) };
        let mut own = script(rng, &taste, wanted);
        let skips = if rng.chance(1, 2) { rng.below(3) } else { 0 };
        add_skips(rng, &mut own, skips);
        steps.push(own);
    }
    let mut draft = Draft::new(&sizes, steps).asleep(&sleepers);
    add_starts(rng, &mut draft);
    draft
}

/// All workers meet the same barriers; their size is mostly n.
fn phases(rng: &mut Rng) -> Draft {
    let workers = worker_count(rng);
    let names = rng.between(1, 3);
    let sizes: Vec<(u8, u16)> = (0..names as u8)
        .map(|name| {
            let odd = rng.chance(1, 4);
            let size = if odd {
                barrier_size(rng, workers)
            } else {
                workers as u16
            };
            (2 * name, size)
        })
        .collect();
    let taste = taste(rng, PlanKind::Phases, &sizes, workers, &[]);
    let order: Vec<u16> = (0..rng.between(1, 4))
        .map(|_| rng.pick(&taste.barriers))
        .collect();
    let mut steps = vec![Vec::new(); workers];
    for own in &mut steps {
        for &barrier in &order {
            let wanted = rng.below(6);
            let mut part = script(rng, &taste, wanted);
            // A cut section would fail at the barrier; close it mostly.
            if rng.chance(3, 4) {
                close(&mut part);
            }
            own.extend(part);
            own.push(step(37, 0, barrier));
        }
    }
    with_sleepers(rng, Draft::new(&sizes, steps))
}

/// Unlocks what the steps leave locked when all of them are run.
fn close(steps: &mut Vec<Step>) {
    let held = held_behind(steps);
    steps.extend(each_lock(33, &held));
}

/// Eight workers with 128 steps each, eight barriers and seven sleepers.
fn longest(rng: &mut Rng) -> Draft {
    let sizes: Vec<(u8, u16)> = (0..QUEUES as u8)
        .map(|name| (name, barrier_size(rng, MOST_WORKERS)))
        .collect();
    let sleepers: Vec<u8> = (1..MOST_WORKERS as u8).collect();
    let taste = taste(rng, PlanKind::Longest, &sizes, MOST_WORKERS, &sleepers);
    let mut steps = Vec::new();
    for _ in 0..MOST_WORKERS {
        let mut own = script(rng, &taste, MOST_STEPS);
        if rng.chance(1, 3) {
            add_skips(rng, &mut own, 3);
        }
        steps.push(own);
    }
    let mut draft = Draft::new(&sizes, steps).asleep(&sleepers);
    add_starts(rng, &mut draft);
    draft
}

/// Eight workers with 128 synchronising steps each, none of which fails,
/// waits or queues, so that each worker adds 129 log records. In half of the
/// plans the first worker starts all others.
fn full_log(rng: &mut Rng) -> Draft {
    let only_signals = rng.chance(1, 3);
    let sleepers: Vec<u8> = match rng.chance(1, 2) {
        true => (1..MOST_WORKERS as u8).collect(),
        false => Vec::new(),
    };
    let mut steps = vec![Vec::new(); MOST_WORKERS];
    let start = |&sleeper| step(39, 0, u16::from(sleeper));
    steps[0] = sleepers.iter().map(start).collect();
    for own in &mut steps {
        while own.len() < MOST_STEPS {
            let room = MOST_STEPS - own.len();
            let kind = if only_signals { 0 } else { rng.below(6) };
            full_log_block(rng, own, kind, room);
        }
    }
    Draft::new(&[(7, 1)], steps).asleep(&sleepers)
}

fn full_log_block(rng: &mut Rng, own: &mut Vec<Step>, kind: usize, room: usize) {
    let condition = rng.below(QUEUES) as u16;
    match kind {
        1 if room >= 2 => own.extend([step(32, 0, 9), step(33, 0, 9)]),
        2 if room >= 4 => {
            let count = rng.between(2, (room / 2).min(4));
            let locks = some_locks(rng, count);
            own.extend(each_lock(32, &locks));
            own.extend(each_lock(33, &any_order(rng, &locks)));
        }
        3 => own.push(step(37, 0, 7)),
        4 => own.push(step(36, 0, condition)),
        5 => own.push(step(39, 0, rng.below(MOST_WORKERS) as u16)),
        _ => own.push(step(35, 0, condition)),
    }
}

/// Each worker but the first queues at a barrier until the one before it has
/// come there, a round for each of its signals.
fn relay(rng: &mut Rng) -> Draft {
    let workers = rng.between(3, MOST_WORKERS);
    let last = workers as u16 - 1;
    let steps = (0..=last).map(|worker| {
        let mut own = Vec::new();
        if worker > 0 {
            own.push(step(37, 0, worker - 1));
        }
        own.extend([step(16, 0, 300 + worker), step(18, 0, 255)]);
        for _ in 0..rng.between(80, 120) {
            let condition = rng.below(QUEUES) as u16;
            own.push(step(rng.pick(&[35, 36]), 0, condition));
        }
        if worker < last {
            own.push(step(37, 0, worker));
        }
        own
    });
    let sizes: Vec<(u8, u16)> = (0..last as u8).map(|name| (name, 2)).collect();
    Draft::new(&sizes, steps.collect())
}

/// Each worker starts the next one after a round for each of its signals, and
/// exits at once or has a round more beside it.
fn chain(rng: &mut Rng) -> Draft {
    let workers = rng.between(3, MOST_WORKERS);
    let steps = (1..=workers as u16).map(|next| {
        let mut own = vec![step(16, 0, 300 + next), step(18, 0, 255)];
        for _ in 0..rng.between(80, 120) {
            let condition = rng.below(QUEUES) as u16;
            own.push(step(rng.pick(&[35, 36]), 0, condition));
        }
        if next < workers as u16 {
            own.push(step(39, 0, next));
        }
        own.extend(rng.chance(1, 2).then(|| step(35, 0, 0)));
        own
    });
    let sleepers: Vec<u8> = (1..workers as u8).collect();
    Draft::new(&[], steps.collect()).asleep(&sleepers)
}
