//! Contents and lengths of the lent buffers.

use crate::format::{LOG_LENGTH, MEMORY_LENGTH, REPORT_LENGTH, WORK_LENGTH};
use crate::generate::rng::Rng;

/// Right lengths of memory, log, report and work.
pub const LENGTHS: [usize; 4] = [MEMORY_LENGTH, LOG_LENGTH, REPORT_LENGTH, WORK_LENGTH];

/// A starting memory: of the least and of the greatest sum, of few values,
/// or of any bytes.
pub fn memory(rng: &mut Rng) -> Vec<u8> {
    match rng.below(6) {
        0 | 1 => vec![0; MEMORY_LENGTH],
        2 => vec![255; MEMORY_LENGTH],
        3 => (0..MEMORY_LENGTH)
            .map(|_| rng.pick(&[0, 0, 1, 5, 255]))
            .collect(),
        _ => noise(rng, MEMORY_LENGTH),
    }
}

/// Any bytes, as old contents of a buffer.
pub fn noise(rng: &mut Rng, length: usize) -> Vec<u8> {
    let mut bytes = Vec::with_capacity(length + 8);
    while bytes.len() < length {
        bytes.extend(rng.draw().to_le_bytes());
    }
    bytes.truncate(length);
    bytes
}

/// Lengths of which at least one is wrong, which is 11.
pub fn wrong_lengths(rng: &mut Rng) -> [usize; 4] {
    let mut lengths = LENGTHS;
    let first = rng.below(4);
    lengths[first] = wrong_length(rng, LENGTHS[first]);
    if rng.chance(1, 3) {
        let second = rng.below(4);
        lengths[second] = wrong_length(rng, LENGTHS[second]);
    }
    lengths
}

fn wrong_length(rng: &mut Rng, right: usize) -> usize {
    match rng.below(6) {
        0 => 0,
        1 => right - 1,
        2 => right + 1,
        3 => right / 2,
        // A report without its sum.
        4 => right - 4,
        _ => right * 2,
    }
}
