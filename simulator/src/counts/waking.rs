//! Limits of signals and broadcasts: how many are woken, in front of whom,
//! who waits on, and how many come into one round's list.

use crate::counts::limits::Limit;
use crate::counts::locks::LOCKS;
use crate::counts::meeting::{Hold, Meetings};
use crate::format::{MOST_WORKERS, OP_BROADCAST, OP_SIGNAL};

/// A signal or a broadcast of the holder.
#[derive(Clone, Copy)]
pub struct Waking {
    pub op: u8,
    pub count: u8,
    pub woken: usize,
    /// Workers behind the holder in the list before the woken come there.
    pub behind: usize,
    /// Workers that wait on; behind a broadcast all of them are on other
    /// conditions.
    pub left: usize,
}

/// How a holder has woken somebody.
#[derive(Clone, Copy, Debug, PartialEq, Eq)]
pub enum Woke {
    BySignal,
    OneByBroadcast,
    SeveralByBroadcast,
}

impl Waking {
    fn woke(&self) -> Option<Woke> {
        match (self.op, self.woken) {
            (_, 0) => None,
            (OP_SIGNAL, _) => Some(Woke::BySignal),
            (_, 1) => Some(Woke::OneByBroadcast),
            _ => Some(Woke::SeveralByBroadcast),
        }
    }
}

/// Counts of workers that come into one round's list, those that are in it
/// when the round begins included. A worker that waits and is woken comes
/// again.
pub const CAME: [usize; 12] = [9, 16, 17, 64, 128, 255, 256, 257, 511, 512, 513, 768];

/// Pairs of woken workers, at least one, and workers behind the holder.
pub const INTO: usize = 28;

/// The pairs with fewer woken than so many.
fn pairs_below(woken: usize) -> usize {
    (1..woken).map(|fewer| MOST_WORKERS - fewer).sum()
}

impl Meetings {
    /// The holder comes to a signal or a broadcast, after what it has done in
    /// this hold.
    pub fn wakes(&mut self, waking: Waking, hold: &mut Hold) {
        if let Some(above) = usize::from(waking.count).checked_sub(1) {
            let which = usize::from(waking.op - OP_SIGNAL);
            self.note(Limit::CountedSignal, LOCKS * which + above);
        }
        if waking.op == OP_BROADCAST {
            self.broadcasts(waking);
        }
        let Some(woke) = waking.woke() else {
            return;
        };
        if let Some(before) = hold.woke.replace(woke) {
            self.note(Limit::WokenBefore, 3 * before as usize + woke as usize);
        }
    }

    fn broadcasts(&mut self, waking: Waking) {
        let Waking { woken, behind, .. } = waking;
        let held = usize::from(waking.count > 0);
        self.note(Limit::Broadcast, 2 * woken + held);
        if woken > 0 {
            self.note(Limit::BroadcastInto, pairs_below(woken) + behind);
        }
        if let Some(left) = waking.left.checked_sub(1) {
            let row = MOST_WORKERS - 1;
            self.note(Limit::BroadcastBeside, row * usize::from(woken > 0) + left);
        }
    }

    /// So many have come into this round's list, in a plan of so many workers.
    pub fn came(&mut self, came: usize, workers: usize) {
        self.note_one_of(Limit::Came, &CAME, came);
        for (place, limit) in [workers + 1, 2 * workers + 1].into_iter().enumerate() {
            if came == limit {
                self.note(Limit::CameAboveAll, 2 * (workers - 2) + place);
            }
        }
    }
}

/// A pair's woken workers and those behind the holder.
pub fn into(place: usize) -> String {
    let woken = (1..MOST_WORKERS)
        .rev()
        .find(|&woken| pairs_below(woken) <= place);
    let woken = woken.unwrap_or(1);
    format!("{woken} woken, {} behind", place - pairs_below(woken))
}

pub fn beside(place: usize) -> String {
    let woken = ["nobody", "somebody"][place / 7];
    format!("{woken} woken, {} on other conditions", place % 7 + 1)
}

pub fn woken_before(place: usize) -> String {
    let names = ["one by a signal", "one by a broadcast", "several"];
    format!("{}, then {}", names[place / 3], names[place % 3])
}

pub fn above_all(place: usize) -> String {
    let workers = place / 2 + 2;
    let came = [workers + 1, 2 * workers + 1][place % 2];
    format!("{came} of {workers}")
}
