//! Workers that sleep at first, and starts of them and of others.

use crate::check::Step;
use crate::format::{MOST_STEPS, OP_START};
use crate::generate::draft::{step, Draft};
use crate::generate::rng::Rng;

/// Workers that sleep at first, ascending: one, all that may, or any of them.
/// A worker alone does not sleep.
pub fn sleepers(rng: &mut Rng, workers: usize) -> Vec<u8> {
    let mut all: Vec<u8> = (1..workers as u8).collect();
    rng.shuffle(&mut all);
    let wanted = match rng.below(4) {
        0 => 1,
        1 => all.len(),
        _ => rng.between(1, workers),
    };
    all.truncate(wanted);
    all.sort_unstable();
    all
}

/// Sleepers in half of the plans.
pub fn sleepers_at_times(rng: &mut Rng, workers: usize) -> Vec<u8> {
    match rng.chance(1, 2) {
        true => sleepers(rng, workers),
        false => Vec::new(),
    }
}

/// Puts in a start of most sleepers, by somebody who is awake or has been
/// started before it, so that starts form chains; then a few starts of
/// anybody by anybody.
pub fn add_starts(rng: &mut Rng, draft: &mut Draft) {
    let workers = draft.workers();
    let sleeps = |worker: &usize| draft.sleepers.contains(&(*worker as u8));
    let (mut asleep, mut awake): (Vec<usize>, Vec<usize>) = (0..workers).partition(sleeps);
    if asleep.is_empty() {
        return;
    }
    rng.shuffle(&mut asleep);
    for sleeper in asleep {
        if rng.chance(7, 8) {
            let caller = rng.pick(&awake);
            put_start(rng, &mut draft.steps[caller], sleeper, 4);
            awake.push(sleeper);
        }
    }
    for _ in 0..rng.below(3) {
        let (caller, target) = (rng.below(workers), rng.below(workers));
        let within = draft.steps[caller].len() + 1;
        put_start(rng, &mut draft.steps[caller], target, within);
    }
}

/// Puts a start among the first steps, or in the place of one where there is
/// no room. A skip still lands within the steps or just behind them.
fn put_start(rng: &mut Rng, steps: &mut Vec<Step>, target: usize, within: usize) {
    let start = step(OP_START, 0, target as u16);
    if steps.len() < MOST_STEPS {
        let place = rng.below(within.min(steps.len() + 1));
        return steps.insert(place, start);
    }
    let place = rng.below(within.min(steps.len()));
    steps[place] = start;
}

/// Puts workers of a plan to sleep, in half of the plans, and starts them.
pub fn with_sleepers(rng: &mut Rng, mut draft: Draft) -> Draft {
    draft.sleepers = sleepers_at_times(rng, draft.workers());
    add_starts(rng, &mut draft);
    draft
}
