//! Skips of every distance, taken and not, to the middle and to the end.

use simulator::generate::draft::step;
use simulator::generate::Draft;
use simulator::Step;

use super::{draft, played, Limit};

pub fn all() -> Vec<Limit> {
    let mut all = Vec::new();
    for far in 1..=126 {
        all.extend(played("a skip to the end", &skips(far, 0)));
        let room = (126 - far).min(2);
        all.extend(played("a skip", &skips(far, room)));
    }
    all.extend(played("a skip of 127 steps", &skips_of_127()));
    all
}

/// Stores of a register, each to an address of its own, so that memory
/// shows which of them were carried out.
fn stores(worker: u16, register: u8, count: u16) -> impl Iterator<Item = Step> {
    (0..count).map(move |place| step(18, register, 512 * worker + 3 * place))
}

/// Both ops, taken and not, and so many steps behind the skipped ones. Each
/// register has its turn, and no other one is set.
fn skips(far: u16, behind: u16) -> Draft {
    let register = (far % 4) as u8;
    let own = |worker: u16| {
        let (op, value) = (21 + worker as u8 / 2, worker % 2);
        let mut steps = vec![step(16, register, value), step(op, register, far)];
        steps.extend(stores(worker, register, far + behind));
        steps
    };
    draft(&[], (0..4).map(own).collect())
}

/// Only a first step can skip so far.
fn skips_of_127() -> Draft {
    let own = |worker: u16| {
        let mut steps = vec![step(21 + worker as u8, worker as u8, 127)];
        steps.extend(stores(worker, 2, 127));
        steps
    };
    draft(&[], (0..2).map(own).collect())
}
