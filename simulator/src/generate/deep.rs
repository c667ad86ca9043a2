//! Plans whose workers hold many locks at once, up to all sixteen.

use crate::check::Step;
use crate::format::MOST_STEPS;
use crate::generate::draft::{step, Draft};
use crate::generate::locks::{another_lock, any_order, each_lock, held_behind, some_locks, LOCKS};
use crate::generate::rng::Rng;

/// A few workers with many locks, and one that wakes those that wait.
pub fn deep(rng: &mut Rng) -> Draft {
    let divers = rng.between(1, 3);
    let mut steps: Vec<Vec<Step>> = (0..divers).map(|_| diver(rng)).collect();
    if rng.chance(3, 4) {
        let place = rng.below(divers + 1);
        steps.insert(place, waker(rng));
    }
    Draft::new(&[(3, 1), (5, 2)], steps)
}

/// Takes locks and gives them back, up to three times, and leaves some locked
/// behind the last time, at times.
fn diver(rng: &mut Rng) -> Vec<Step> {
    let mut own = Vec::new();
    for _ in 0..rng.below(3) {
        own.extend(down(rng));
        let held = held_behind(&own);
        own.extend(each_lock(33, &any_order(rng, &held)));
    }
    own.extend(down(rng));
    let held = held_behind(&own);
    own.extend(behind(rng, &held));
    own.truncate(MOST_STEPS);
    own
}

/// Locks to a depth with stores between them, then a wait at times.
fn down(rng: &mut Rng) -> Vec<Step> {
    let most = usize::from(LOCKS);
    let depth = match rng.below(3) {
        0 => rng.between(1, most),
        1 => rng.between(most / 2, most),
        _ => rng.pick(&[2, 7, 8, 9, 15, 16]),
    };
    let locks = some_locks(rng, depth);
    let mut own = each_lock(32, &locks);
    for _ in 0..rng.below(4) {
        let place = rng.below(own.len() + 1);
        own.insert(place, step(18, 1, 255));
        own.insert(place, step(16, 1, depth as u16));
    }
    if rng.chance(1, 2) {
        own.push(step(34, 0, rng.below(2) as u16));
    }
    own
}

/// What comes behind these locks: what fails with any of them, a lock twice,
/// unlocks of some or all, and one too many or a wrong one.
fn behind(rng: &mut Rng, held: &[u16]) -> Vec<Step> {
    let mut order = any_order(rng, held);
    match rng.below(8) {
        0 => return vec![step(38, 0, 0)],
        1 => return vec![step(37, 0, rng.pick(&[3, 5]))],
        2 => return vec![step(32, 0, rng.pick(held))],
        3 => order.truncate(rng.below(held.len() + 1)),
        4 => {
            let wrong = another_lock(rng, held);
            order.insert(rng.below(held.len()), wrong);
        }
        5 => order.push(rng.pick(held)),
        _ => {}
    }
    each_lock(33, &order)
}

fn waker(rng: &mut Rng) -> Vec<Step> {
    let each = |_| step(rng.pick(&[35, 36]), 0, rng.below(2) as u16);
    (0..12).map(each).collect()
}
