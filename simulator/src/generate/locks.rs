//! Which locks the steps of a worker leave locked, so that a step written
//! behind them can name the right one, or the wrong one.

use crate::check::Step;
use crate::generate::draft::step;
use crate::generate::rng::Rng;

/// Locks are numbered 0 to 15.
pub const LOCKS: u16 = 16;

/// The locks that these steps leave locked when all of them are run and none
/// fails, the first one first.
pub fn held_behind(steps: &[Step]) -> Vec<u16> {
    let mut held = Vec::new();
    for step in steps {
        match step.op {
            32 => held.push(step.number),
            33 => held.retain(|&lock| lock != step.number),
            _ => {}
        }
    }
    held
}

/// Any lock but these; where they are all, the first.
pub fn another_lock(rng: &mut Rng, held: &[u16]) -> u16 {
    let is_free = |lock: &u16| !held.contains(lock);
    let free: Vec<u16> = (0..LOCKS).filter(is_free).collect();
    match free.is_empty() {
        true => 0,
        false => rng.pick(&free),
    }
}

/// So many different locks, or all there are, in any order.
pub fn some_locks(rng: &mut Rng, count: usize) -> Vec<u16> {
    let mut all: Vec<u16> = (0..LOCKS).collect();
    rng.shuffle(&mut all);
    all.truncate(count);
    all
}

/// A step of this op, 32 or 33, for each of the locks.
pub fn each_lock(op: u8, locks: &[u16]) -> Vec<Step> {
    locks.iter().map(|&lock| step(op, 0, lock)).collect()
}

/// These locks in an order in which they can be given back: the first one
/// first, the last one first, or any.
pub fn any_order(rng: &mut Rng, locks: &[u16]) -> Vec<u16> {
    let mut order = locks.to_vec();
    match rng.below(3) {
        0 => {}
        1 => order.reverse(),
        _ => rng.shuffle(&mut order),
    }
    order
}
