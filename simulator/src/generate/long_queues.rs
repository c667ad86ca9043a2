//! Plans in whose queues nearly all workers come to stand, in any order.

use crate::check::Step;
use crate::format::{MOST_WORKERS, QUEUES};
use crate::generate::draft::{step, Draft};
use crate::generate::locks::{any_order, each_lock, some_locks};
use crate::generate::rng::Rng;

/// A barrier of one worker, which takes a round and nothing else.
const PAUSE: u16 = 7;

/// Many workers, waiting on one to three conditions or at a large barrier.
pub fn long_queues(rng: &mut Rng) -> Draft {
    let workers = rng.between(6, MOST_WORKERS);
    let first = rng.below(QUEUES);
    let used = rng.between(1, 3);
    let conditions: Vec<u16> = (first..first + used)
        .map(|each| (each % QUEUES) as u16)
        .collect();
    let met = rng.below(usize::from(PAUSE)) as u16;
    let waker = rng.below(workers);
    let meets = rng.chance(1, 3);
    let row = |worker| match (meets, worker == waker) {
        (true, _) => meeting(rng, met),
        (false, true) => waking(rng, &conditions),
        (false, false) => waiting(rng, &conditions),
    };
    let steps = (0..workers).map(row).collect();
    let size = rng.between(workers - 2, workers) as u16;
    Draft::new(&[(met as u8, size), (PAUSE as u8, 1)], steps)
}

/// So many rounds without any other effect.
fn pauses(rng: &mut Rng) -> Vec<Step> {
    vec![step(37, 0, PAUSE); rng.below(10)]
}

/// Comes to the barrier a few times.
fn meeting(rng: &mut Rng, barrier: u16) -> Vec<Step> {
    let mut own = Vec::new();
    for _ in 0..rng.between(1, 3) {
        own.extend(pauses(rng));
        own.push(step(37, 0, barrier));
    }
    own
}

/// Waits a few times, with one lock or several, at times twice with the same.
fn waiting(rng: &mut Rng, conditions: &[u16]) -> Vec<Step> {
    let mut own = Vec::new();
    for _ in 0..rng.between(1, 2) {
        own.extend(pauses(rng));
        let count = rng.pick(&[1, 1, 2, 3]);
        let locks = some_locks(rng, count);
        own.extend(each_lock(32, &locks));
        let condition = rng.pick(conditions);
        let waits = if rng.chance(1, 4) { 2 } else { 1 };
        own.extend(vec![step(34, 0, condition); waits]);
        own.extend(each_lock(33, &any_order(rng, &locks)));
    }
    own
}

/// Signals and broadcasts in rounds of their own or in one hold, with a wait
/// behind them at times.
fn waking(rng: &mut Rng, conditions: &[u16]) -> Vec<Step> {
    let mut own = vec![step(37, 0, PAUSE); rng.between(4, 12)];
    for _ in 0..rng.between(1, 3) {
        let locked = rng.chance(1, 2);
        own.extend(locked.then(|| step(32, 0, 0)));
        for _ in 0..rng.between(1, 10) {
            own.push(step(rng.pick(&[35, 36]), 0, rng.pick(conditions)));
        }
        own.extend(locked.then(|| step(33, 0, 0)));
    }
    if rng.chance(1, 3) {
        own.extend([step(32, 0, 0), step(34, 0, rng.pick(conditions))]);
    }
    own
}
