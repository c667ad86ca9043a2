//! Second memories, which differ from a first one only in bytes nobody named.

use crate::generate::rng::Rng;
use crate::named::Named;

const PAGE: usize = 256;
const PAGES: [usize; 8] = [0, 1, 2, 3, 4, 5, 6, 7];

/// Which of these bytes are changed. Where a file has none of that kind, all
/// of them are.
#[derive(Clone, Copy, Debug, PartialEq, Eq)]
pub enum Change {
    One,
    Some,
    All,
    /// Those right below and right above a named byte.
    Beside,
    /// Those in pages that a store covers a byte of.
    Copied,
    /// Two of them, both low or both high bytes of their words, change places,
    /// so that the sum stays.
    Exchanged,
}

impl Change {
    /// Every kind.
    pub const ALL: [Change; 6] = [
        Change::One,
        Change::Some,
        Change::All,
        Change::Beside,
        Change::Copied,
        Change::Exchanged,
    ];
}

/// A memory that differs from this one only in bytes that no load or store of
/// the file covers. If there are none it is the same.
pub fn changed(rng: &mut Rng, change: Change, file: &[u8], memory: &[u8]) -> Vec<u8> {
    let mut free = Named::by(file).unnamed();
    free.retain(|&address| address < memory.len());
    let mut other = memory.to_vec();
    if free.is_empty() || change == Change::Exchanged && exchange(rng, &mut other, &free) {
        return other;
    }
    let mut chosen = chosen(rng, change, file, &free);
    if chosen.is_empty() {
        chosen = free;
    }
    for address in chosen {
        other[address] ^= 1 + rng.below(255) as u8;
    }
    other
}

/// The addresses of a kind among the free ones, of which there are some.
fn chosen(rng: &mut Rng, change: Change, file: &[u8], free: &[usize]) -> Vec<usize> {
    let all = free.iter().copied();
    match change {
        Change::One => vec![rng.pick(free)],
        Change::Some => all.filter(|_| rng.chance(1, 3)).collect(),
        Change::All | Change::Exchanged => free.to_vec(),
        Change::Beside => {
            let named = Named::by(file);
            let beside = |&at: &usize| named.has(at + 1) || at > 0 && named.has(at - 1);
            all.filter(beside).collect()
        }
        Change::Copied => {
            let stored = Named::by_stores(file);
            let copied = PAGES.map(|page| (0..PAGE).any(|place| stored.has(page * PAGE + place)));
            all.filter(|at| copied[at / PAGE]).collect()
        }
    }
}

/// Exchanges two free bytes of one parity that differ; says whether a few tries
/// found any.
fn exchange(rng: &mut Rng, memory: &mut [u8], free: &[usize]) -> bool {
    for _ in 0..16 {
        let (one, other) = (rng.pick(free), rng.pick(free));
        if one % 2 == other % 2 && memory[one] != memory[other] {
            memory.swap(one, other);
            return true;
        }
    }
    false
}
