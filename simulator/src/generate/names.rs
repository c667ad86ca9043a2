//! Plans about which locks a worker holds: several at once out of a few that
//! all workers use, given back in any order, kept over waits, passed on from
//! one to the next, and now and then the wrong one.

use crate::check::Step;
use crate::format::{MOST_STEPS, MOST_WORKERS};
use crate::generate::draft::{step, Draft};
use crate::generate::locks::{another_lock, any_order, held_behind, some_locks};
use crate::generate::rng::Rng;

/// Addresses that all workers share, one of them over a page border.
const ADDRESSES: [u16; 3] = [0, 2, 255];

/// Conditions 0 and 1 are in use.
const CONDITIONS: usize = 2;

/// A barrier of all, and one of one worker, which takes a round and nothing
/// else.
const MEETING: u16 = 0;
const PAUSE: u16 = 1;

/// A plan in which one worker wakes the others.
pub fn names(rng: &mut Rng) -> Draft {
    let workers = match rng.chance(1, 2) {
        true => rng.between(2, 3),
        false => rng.between(2, MOST_WORKERS),
    };
    let count = rng.pick(&[2, 2, 3, 4, 16]);
    let locks = some_locks(rng, count);
    let waker = rng.below(workers);
    let all_wait = rng.chance(1, 6);
    let row = |worker| row(rng, &locks, worker == waker, all_wait);
    let steps = (0..workers).map(row).collect();
    let sizes = [(MEETING as u8, workers as u16), (PAUSE as u8, 1)];
    Draft::new(&sizes, steps)
}

/// The steps of one worker while they are written.
struct Row<'a> {
    rng: &'a mut Rng,
    /// The locks that all workers use.
    locks: &'a [u16],
    wakes: bool,
    steps: Vec<Step>,
}

fn row(rng: &mut Rng, locks: &[u16], wakes: bool, all_wait: bool) -> Vec<Step> {
    let steps = Vec::new();
    let mut row = Row {
        rng,
        locks,
        wakes,
        steps,
    };
    if all_wait {
        row.wait_or_wake();
    }
    for _ in 0..row.rng.between(1, 5) {
        row.block();
    }
    row.steps.truncate(MOST_STEPS);
    row.steps
}

impl Row<'_> {
    fn put(&mut self, op: u8, number: u16) {
        self.steps.push(step(op, 0, number));
    }

    fn block(&mut self) {
        match self.rng.below(20) {
            0..6 => self.inside(Row::bump),
            6..12 => self.wait_or_wake(),
            12 => self.inside(Row::wake),
            13 | 14 => self.pass_on(),
            15 => self.put(37, PAUSE),
            16 => self.bump(),
            17 => self.wake(),
            18 => self.slip_behind_locks(),
            _ => self.leave(),
        }
    }

    fn wait_or_wake(&mut self) {
        match self.wakes {
            true => self.wake_later(),
            false => self.inside(Row::wait),
        }
    }

    /// Takes up to so many of the locks that it does not hold.
    fn take(&mut self, count: usize) {
        for _ in 0..count {
            let held = held_behind(&self.steps);
            let is_free = |lock: &u16| !held.contains(lock);
            let free: Vec<u16> = self.locks.iter().copied().filter(is_free).collect();
            if !free.is_empty() {
                let lock = self.rng.pick(&free);
                self.put(32, lock);
            }
        }
    }

    fn give_back(&mut self) {
        let held = held_behind(&self.steps);
        for lock in any_order(self.rng, &held) {
            self.put(33, lock);
        }
    }

    /// So many locks of those in use, mostly few.
    fn some(&mut self) -> usize {
        match self.rng.chance(1, 4) {
            true => self.rng.between(1, self.locks.len()),
            false => self.rng.between(1, 3),
        }
    }

    /// Something inside of several locks, and another lock, a write or, seldom,
    /// a slip behind it.
    fn inside(&mut self, what: fn(&mut Self)) {
        let count = self.some();
        self.take(count);
        what(self);
        match self.rng.below(24) {
            0..6 => self.take(1),
            6..12 => self.bump(),
            12 => self.slip(),
            _ => {}
        }
        self.give_back();
    }

    /// Takes one after the other and gives the one before it back.
    fn pass_on(&mut self) {
        self.take(1);
        for _ in 0..self.rng.between(1, 3) {
            let held = held_behind(&self.steps);
            self.take(1);
            self.put(33, held[0]);
        }
        self.give_back();
    }

    fn condition(&mut self) -> u16 {
        self.rng.below(CONDITIONS) as u16
    }

    fn wait(&mut self) {
        let condition = self.condition();
        self.put(34, condition);
    }

    fn wake(&mut self) {
        let (op, condition) = (self.rng.pick(&[35, 36]), self.condition());
        self.put(op, condition);
    }

    /// Lets a round or two go by and wakes waiters on either condition, inside
    /// of locks at times.
    fn wake_later(&mut self) {
        for _ in 0..self.rng.between(1, 2) {
            self.put(37, PAUSE);
        }
        if self.rng.chance(1, 2) {
            let count = self.some();
            self.take(count);
        }
        for condition in 0..CONDITIONS as u16 {
            let op = self.rng.pick(&[35, 36, 36]);
            self.put(op, condition);
        }
        self.give_back();
    }

    /// Adds to a word that all share, so that memory shows who came when.
    fn bump(&mut self) {
        let address = self.rng.pick(&ADDRESSES);
        self.steps.extend([step(17, 0, address), step(19, 0, 0)]);
        self.steps.extend([step(16, 1, 1), step(19, 0, 1)]);
        self.steps.push(step(18, 0, address));
    }

    /// Takes a few locks or none, writes, and slips.
    fn slip_behind_locks(&mut self) {
        let count = self.rng.below(4);
        self.take(count);
        self.bump();
        self.slip();
    }

    /// The lock of one that it has, or the unlock of one that it has not.
    fn slip(&mut self) {
        let held = held_behind(&self.steps);
        match held.is_empty() || self.rng.chance(1, 2) {
            true => {
                let in_use = self.locks.iter().find(|lock| !held.contains(lock));
                let wrong = in_use.copied();
                let wrong = wrong.unwrap_or_else(|| another_lock(self.rng, &held));
                self.put(33, wrong);
            }
            false => {
                let twice = self.rng.pick(&held);
                self.put(32, twice);
            }
        }
    }

    /// Comes to a barrier or leaves, with locks held at times.
    fn leave(&mut self) {
        if self.rng.chance(1, 4) {
            let count = self.some();
            self.take(count);
        }
        match self.rng.below(3) {
            0 => self.put(38, 0),
            1 => self.put(37, PAUSE),
            _ => self.put(37, MEETING),
        }
    }
}
