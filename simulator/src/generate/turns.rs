//! Turn lists of every kind, and ones that are refused.

use crate::format::MOST_TURNS;
use crate::generate::rng::Rng;

/// How a turn list is made.
#[derive(Clone, Copy, Debug, PartialEq, Eq)]
pub enum TurnKind {
    /// No turn at all.
    Empty,
    /// Any worker at any time.
    Random,
    /// One worker many times, then another one.
    Bursts,
    /// One worker hardly ever.
    Starving,
    /// Some workers take all turns for a long while, then others do.
    Spinning,
    /// Only one worker.
    Alone,
    /// Cycles 0 .. n−1 to the end.
    Cycles,
    /// Cycles n−1 .. 0 to the end.
    Reversed,
    /// Cycles to the end, each in an order of its own.
    Shuffled,
    /// The beginning of another list.
    Prefix,
    /// Cycles to the end and then more turns.
    BehindEnd,
    /// As long as a list may be.
    Longest,
}

impl TurnKind {
    /// Every kind.
    pub const ALL: [TurnKind; 12] = [
        TurnKind::Empty,
        TurnKind::Random,
        TurnKind::Bursts,
        TurnKind::Starving,
        TurnKind::Spinning,
        TurnKind::Alone,
        TurnKind::Cycles,
        TurnKind::Reversed,
        TurnKind::Shuffled,
        TurnKind::Prefix,
        TurnKind::BehindEnd,
        TurnKind::Longest,
    ];

    /// All but the longest.
    pub const CHEAP: [TurnKind; 11] = [
        TurnKind::Empty,
        TurnKind::Random,
        TurnKind::Bursts,
        TurnKind::Starving,
        TurnKind::Spinning,
        TurnKind::Alone,
        TurnKind::Cycles,
        TurnKind::Reversed,
        TurnKind::Shuffled,
        TurnKind::Prefix,
        TurnKind::BehindEnd,
    ];

    /// Whether lists of this kind hold whole cycles enough for every plan.
    pub fn reaches_end(self) -> bool {
        matches!(
            self,
            TurnKind::Cycles | TurnKind::Reversed | TurnKind::Shuffled | TurnKind::BehindEnd
        )
    }
}

/// A turn list for a plan with so many workers and steps.
pub fn turns(rng: &mut Rng, kind: TurnKind, workers: usize, steps: usize) -> Vec<u8> {
    let cycles = 2 * (steps + workers);
    let length = rng.between(1, (2 * cycles * workers).min(MOST_TURNS));
    match kind {
        TurnKind::Empty => Vec::new(),
        TurnKind::Random => random(rng, workers, length),
        TurnKind::Bursts => bursts(rng, workers, length),
        TurnKind::Starving => starving(rng, workers, length),
        TurnKind::Spinning => spinning(rng, workers, length),
        TurnKind::Alone => vec![rng.below(workers) as u8; length],
        TurnKind::Cycles => (0..workers as u8).collect::<Vec<_>>().repeat(cycles),
        TurnKind::Reversed => (0..workers as u8).rev().collect::<Vec<_>>().repeat(cycles),
        TurnKind::Shuffled => shuffled(rng, workers, cycles),
        TurnKind::Prefix => prefix(rng, workers, cycles),
        TurnKind::BehindEnd => {
            let mut list = shuffled(rng, workers, cycles);
            let more = rng.between(1, 300);
            list.extend(random(rng, workers, more));
            list
        }
        TurnKind::Longest if rng.chance(1, 2) => random(rng, workers, MOST_TURNS),
        TurnKind::Longest => bursts(rng, workers, MOST_TURNS),
    }
}

fn random(rng: &mut Rng, workers: usize, length: usize) -> Vec<u8> {
    (0..length).map(|_| rng.below(workers) as u8).collect()
}

fn bursts(rng: &mut Rng, workers: usize, length: usize) -> Vec<u8> {
    let mut list = Vec::new();
    while list.len() < length {
        let worker = rng.below(workers) as u8;
        let burst = rng.between(1, 20);
        list.extend(vec![worker; burst]);
    }
    list.truncate(length);
    list
}

/// One worker gets a turn only now and then.
fn starving(rng: &mut Rng, workers: usize, length: usize) -> Vec<u8> {
    let starved = rng.below(workers) as u8;
    (0..length)
        .map(|_| {
            let worker = rng.below(workers) as u8;
            if worker == starved && rng.chance(15, 16) {
                (worker + 1) % workers as u8
            } else {
                worker
            }
        })
        .collect()
}

/// Neighbours spin at the fence, the rest being kept waiting.
fn spinning(rng: &mut Rng, workers: usize, length: usize) -> Vec<u8> {
    let mut list = Vec::new();
    while list.len() < length {
        let least = rng.below(workers);
        let most = rng.between(least, workers - 1);
        let count = rng.between(1, 300);
        list.extend((0..count).map(|_| rng.between(least, most) as u8));
    }
    list.truncate(length);
    list
}

fn shuffled(rng: &mut Rng, workers: usize, cycles: usize) -> Vec<u8> {
    let mut cycle: Vec<u8> = (0..workers as u8).collect();
    let mut list = Vec::new();
    for _ in 0..cycles {
        rng.shuffle(&mut cycle);
        list.extend_from_slice(&cycle);
    }
    list
}

fn prefix(rng: &mut Rng, workers: usize, cycles: usize) -> Vec<u8> {
    let mut list = match rng.below(3) {
        0 => random(rng, workers, cycles * workers),
        1 => bursts(rng, workers, cycles * workers),
        _ => shuffled(rng, workers, cycles),
    };
    // Early cuts are the telling ones; few plans need all of their turns.
    let most = if rng.chance(1, 2) {
        list.len()
    } else {
        list.len() / 4
    };
    list.truncate(rng.below(most + 1));
    list
}

/// A list one or more turns too long, which is 12.
pub fn too_long(rng: &mut Rng, workers: usize) -> Vec<u8> {
    let length = MOST_TURNS + rng.pick(&[1, 1, 2, 4_096]);
    random(rng, workers, length)
}

/// A list with a turn that names no worker, which is 13: in front, in the
/// middle or at the tail, where it can come behind the end of the plan.
pub fn misnamed(rng: &mut Rng, workers: usize, steps: usize) -> Vec<u8> {
    let kind = rng.pick(&[TurnKind::Empty, TurnKind::Random, TurnKind::BehindEnd]);
    let mut list = turns(rng, kind, workers, steps);
    let name = match rng.below(3) {
        0 => workers as u8,
        1 => 255,
        _ => rng.between(workers, 255) as u8,
    };
    let place = match rng.below(3) {
        0 => 0,
        1 => list.len(),
        _ => rng.below(list.len() + 1),
    };
    list.insert(place, name);
    list
}
