//! Sleepers and starts: every count, every caller and sleeper, every way on
//! from a start, every order in which workers come into the next list.

use simulator::generate::draft::step;
use simulator::generate::locks::each_lock;
use simulator::generate::Draft;
use simulator::Step;

use super::{draft, played, some_locks, times, Limit};

/// All workers that may sleep.
const OTHERS: [u8; 7] = [1, 2, 3, 4, 5, 6, 7];

/// Orders in which they are started.
const ORDERS: [[u16; 7]; 3] = [
    [1, 2, 3, 4, 5, 6, 7],
    [7, 6, 5, 4, 3, 2, 1],
    [4, 7, 1, 6, 2, 5, 3],
];

pub fn all() -> Vec<Limit> {
    let mut all: Vec<Limit> = (0..=16)
        .flat_map(|count| played("a start with locks held", &counted(count)))
        .collect();
    for caller in 0..8 {
        all.extend(ORDERS.into_iter().flat_map(|order| by(caller, order)));
    }
    for held in [false, true] {
        all.extend(played("starts of all others", &found(held)));
        all.extend((0..10).flat_map(|way| ways_on(way, held)));
    }
    all.extend((1..8).flat_map(never_started));
    let orders = [joins_behind_freed(), joins_by_turns()];
    all.extend(orders.iter().flat_map(|draft| played("a next list", draft)));
    all.extend(played("a late start", &late()));
    all
}

fn start(worker: u16) -> Step {
    step(39, 0, worker)
}

/// Two workers start a third one with so many locks held, which does the same
/// with the first; the first one does so again behind a store.
fn counted(count: usize) -> Draft {
    let row = |target: u16| {
        let mut own = each_lock(32, &some_locks(count));
        own.push(start(target));
        own
    };
    let mut first = row(2);
    first.extend([step(18, 3, 2 * count as u16), start(2)]);
    draft(&[], vec![first, row(2), row(0)]).asleep(&[2])
}

/// What a started worker does: stores registers that nobody has set, shows in
/// a common word who came last, and has a round more.
fn started(worker: u16) -> Vec<Step> {
    vec![
        step(18, 3, 256 * worker + 9),
        step(17, 1, 300),
        step(18, 1, 20 * worker),
        step(16, 0, 0x101 * (worker + 1)),
        step(18, 0, 300),
        step(36, 0, worker),
        step(17, 2, 300),
        step(18, 2, 20 * worker + 1_024),
    ]
}

/// One worker starts all others that may sleep, in this order, in one hold;
/// unless it is the first, it has been started itself in a second plan.
fn by(caller: u16, order: [u16; 7]) -> Vec<Limit> {
    let mut steps: Vec<Vec<Step>> = (0..8).map(started).collect();
    let targets = order.into_iter().filter(|&target| target != caller);
    let starts: Vec<Step> = targets.map(start).collect();
    let own = &mut steps[usize::from(caller)];
    own.splice(0..0, starts);
    let others: Vec<u8> = OTHERS
        .into_iter()
        .filter(|&other| u16::from(other) != caller)
        .collect();
    let awake = draft(&[], steps.clone()).asleep(&others);
    let mut all = played("starts of all sleepers", &awake);
    if caller > 0 {
        steps[0].insert(3, start(caller));
        let chained = draft(&[], steps).asleep(&OTHERS);
        all.extend(played("starts by a started worker", &chained));
    }
    all
}

/// One fails, one exits, one waits, one queues, one gives up the token; the
/// next starts all of these, itself, the one behind it, a sleeper, and the
/// sleeper again, with or without a lock.
fn found(held: bool) -> Draft {
    let mut own = vec![step(18, 2, 700)];
    own.extend(held.then(|| step(32, 0, 0)));
    own.extend((0..8).map(start));
    own.push(step(18, 3, 702));
    own.push(start(7));
    own.extend(held.then(|| step(33, 0, 0)));
    let steps = vec![
        times(1, 33, 0),
        vec![],
        vec![step(32, 0, 0), step(34, 0, 3)],
        times(1, 37, 5),
        times(1, 35, 0),
        own,
        vec![],
        started(7),
    ];
    draft(&[(5, 2)], steps).asleep(&[7])
}

/// A start with or without a lock, stores behind it, and then each way on:
/// every synchronising step, the end, and a barrier that is not full.
fn ways_on(way: u8, held: bool) -> Vec<Limit> {
    let on = match way {
        1 => vec![step(33, 0, 2)],
        0..5 => vec![step(32 + way, 0, 1)],
        5 => vec![step(37, 0, 0)],
        6 => vec![step(38, 0, 0)],
        7 => vec![start(1), step(18, 2, 900)],
        8 => vec![],
        _ => vec![step(37, 0, 1)],
    };
    let mut all = Vec::new();
    for target in [1, 2] {
        let mut own: Vec<Step> = held.then(|| step(32, 0, 2)).into_iter().collect();
        own.extend([step(16, 0, 0xA1B2), step(18, 0, 100), start(target)]);
        own.extend([step(16, 0, 0xC3D4), step(18, 0, 300)]);
        own.extend(&on);
        let mut behind = own.clone();
        behind.extend([step(18, 0, 500), step(32, 0, 9), step(18, 0, 700)]);
        behind.extend([step(33, 0, 9), step(33, 0, 2)]);
        // The end of the steps has nothing behind it.
        let rows = if way == 8 {
            vec![own]
        } else {
            vec![own, behind]
        };
        for row in rows {
            let steps = vec![times(1, 37, 0), row, started(2), started(3)];
            let plan = draft(&[(0, 2), (1, 3)], steps).asleep(&[2]);
            all.extend(played("a way on from a start", &plan));
        }
    }
    all
}

/// So many sleepers that nobody starts, in a plan that finishes and in one
/// that is stuck, and a turn list in between.
fn never_started(count: u8) -> Vec<Limit> {
    let sleepers: Vec<u8> = (8 - count..8).collect();
    let steps: Vec<Vec<Step>> = (0..8).map(started).collect();
    let mut stuck = steps.clone();
    stuck[0].extend([step(32, 0, 0), step(34, 0, 0)]);
    let mut all = Vec::new();
    for rows in [steps, stuck] {
        all.extend(played("never started", &draft(&[], rows).asleep(&sleepers)));
    }
    let fewer = draft(&[], vec![vec![]; usize::from(count) + 1]);
    let sleepers: Vec<u8> = (1..=count).collect();
    all.extend(played("one is awake", &fewer.asleep(&sleepers)));
    all
}

/// Two gave up the token, two are started, two are freed, then the caller.
fn joins_behind_freed() -> Draft {
    let steps = vec![
        times(1, 37, 4),
        times(1, 37, 4),
        times(1, 35, 0),
        times(1, 36, 0),
        vec![start(7), start(6), step(37, 0, 4)],
        times(1, 35, 0),
        started(6),
        started(7),
    ];
    draft(&[(4, 3)], steps).asleep(&[6, 7])
}

/// One gives up the token, others are freed, and then two start somebody and
/// give up the token, one by a signal and one by an unlock.
fn joins_by_turns() -> Draft {
    let steps = vec![
        times(1, 37, 4),
        times(1, 37, 4),
        times(1, 35, 0),
        times(1, 37, 4),
        vec![start(7), step(35, 0, 0)],
        vec![step(32, 0, 0), start(6), step(33, 0, 0)],
        started(6),
        started(7),
    ];
    draft(&[(4, 3)], steps).asleep(&[6, 7])
}

/// A worker stores in each of many rounds and then starts one that loads what
/// it finds, with registers that are still zero.
fn late() -> Draft {
    let round = |place: u16| [step(16, 0, 3 * place), step(18, 0, 300), step(35, 0, 0)];
    let mut own: Vec<Step> = (0..42).flat_map(round).collect();
    own.extend([start(1), step(18, 0, 302)]);
    let late = [started(1), vec![step(18, 3, 600), start(0)]].concat();
    draft(&[], vec![own, late]).asleep(&[1])
}
