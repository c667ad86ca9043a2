//! Plans that are played while they are written. Whoever has the token gets
//! its next step by where the others are, so that a broadcast finds waiters,
//! few or many, and workers wake each other within one round.

use std::collections::VecDeque;

use crate::check::Step;
use crate::format::{MOST_STEPS, MOST_WORKERS, OP_BROADCAST, OP_SIGNAL, OP_START, QUEUES};
use crate::generate::draft::{step, Draft};
use crate::generate::locks::{another_lock, any_order, each_lock};
use crate::generate::rng::Rng;
use crate::generate::starts::sleepers_at_times;

/// Addresses that all workers share, one of them over a page border.
const ADDRESSES: [u16; 4] = [0, 2, 255, 1_024];

/// A worker with so many steps gets no more than what ends it.
const NEARLY_ALL: usize = MOST_STEPS - 16;

/// Locks that a worker holds at most.
const MOST_LOCKS: usize = 3;

/// A plan of waits, signals and broadcasts, one to three conditions being in
/// use.
pub fn broadcasts(rng: &mut Rng) -> Draft {
    let workers = match rng.chance(1, 3) {
        true => MOST_WORKERS,
        false => rng.between(2, MOST_WORKERS),
    };
    let sleepers = sleepers_at_times(rng, workers);
    let wanted = match rng.chance(1, 8) {
        true => rng.between(80, 240),
        false => rng.between(2 * workers, 60),
    };
    let mut lists = Lists::new(rng, workers, &sleepers);
    for _ in 0..wanted {
        lists.go_on();
    }
    lists.close();
    Draft::new(&[], lists.steps).asleep(&sleepers)
}

/// All others, in a third of the plans, or any number of them.
fn patience(rng: &mut Rng, workers: usize) -> usize {
    match rng.chance(1, 3) {
        true => workers - 1,
        false => rng.between(1, workers - 1),
    }
}

/// The lists and queues as the steps written so far leave them.
struct Lists<'a> {
    rng: &'a mut Rng,
    /// The conditions in use, and who waits on each.
    conditions: Vec<u16>,
    waiting: Vec<Vec<usize>>,
    /// Nobody is woken before so many wait, but for now and then.
    patience: usize,
    steps: Vec<Vec<Step>>,
    /// The locks of each worker.
    locks: Vec<Vec<u16>>,
    list: VecDeque<usize>,
    next: VecDeque<usize>,
    asleep: Vec<usize>,
}

impl<'a> Lists<'a> {
    fn new(rng: &'a mut Rng, workers: usize, sleepers: &[u8]) -> Self {
        let first = rng.below(QUEUES);
        let used = rng.pick(&[1, 1, 2, 2, 3]);
        let condition = |place: usize| ((first + 3 * place) % QUEUES) as u16;
        let asleep: Vec<usize> = sleepers.iter().map(|&each| usize::from(each)).collect();
        Lists {
            conditions: (0..used).map(condition).collect(),
            waiting: vec![Vec::new(); used],
            patience: patience(rng, workers),
            steps: vec![Vec::new(); workers],
            locks: vec![Vec::new(); workers],
            list: (0..workers).filter(|who| !asleep.contains(who)).collect(),
            next: VecDeque::new(),
            asleep,
            rng,
        }
    }

    /// Whoever has the token gets a step, or a few on memory; nobody has it
    /// where all wait, sleep or have left.
    fn go_on(&mut self) {
        if self.list.is_empty() {
            std::mem::swap(&mut self.list, &mut self.next);
        }
        let Some(&holder) = self.list.front() else {
            return;
        };
        if self.steps[holder].len() > NEARLY_ALL {
            self.list.pop_front();
            return;
        }
        if self.wants_to_wake() {
            return self.wake(holder);
        }
        match (self.locks[holder].len(), self.rng.below(16)) {
            (_, 0) => self.bump(holder),
            (_, 1) => self.start(holder),
            (0, 2) => self.wake(holder),
            (0, _) => self.lock(holder),
            (locks, 2) if locks < MOST_LOCKS => self.lock(holder),
            (_, 3 | 4) => self.unlock(holder),
            _ => self.wait(holder),
        }
    }

    /// Where enough wait; and nearly always where nobody else could go on.
    fn wants_to_wake(&mut self) -> bool {
        let waiting: usize = self.waiting.iter().map(Vec::len).sum();
        let last = self.list.len() == 1 && self.next.is_empty();
        match (waiting >= self.patience, last && waiting > 0) {
            (_, true) => self.rng.chance(15, 16),
            (true, _) => self.rng.chance(1, 2),
            _ => self.rng.chance(1, 32),
        }
    }

    fn put(&mut self, worker: usize, op: u8, number: u16) {
        self.steps[worker].push(step(op, 0, number));
    }

    fn lock(&mut self, holder: usize) {
        let lock = another_lock(self.rng, &self.locks[holder]);
        self.put(holder, 32, lock);
        self.locks[holder].push(lock);
    }

    fn unlock(&mut self, holder: usize) {
        let place = self.rng.below(self.locks[holder].len());
        let lock = self.locks[holder].remove(place);
        self.put(holder, 33, lock);
        self.give_up_without_lock(holder);
    }

    fn give_up_without_lock(&mut self, holder: usize) {
        if self.locks[holder].is_empty() {
            self.list.pop_front();
            self.next.push_back(holder);
        }
    }

    fn wait(&mut self, holder: usize) {
        let place = self.rng.below(self.conditions.len());
        self.put(holder, 34, self.conditions[place]);
        self.list.pop_front();
        self.waiting[place].push(holder);
    }

    /// A signal or, twice as often, a broadcast.
    fn wake(&mut self, holder: usize) {
        let place = self.place_to_wake();
        let op = self.rng.pick(&[OP_SIGNAL, OP_BROADCAST, OP_BROADCAST]);
        self.wake_at(holder, op, place);
    }

    /// Mostly a condition with waiters, where there is one.
    fn place_to_wake(&mut self) -> usize {
        let with_waiters = |place: &usize| !self.waiting[*place].is_empty();
        let found: Vec<usize> = (0..self.waiting.len()).filter(with_waiters).collect();
        match found.is_empty() || self.rng.chance(1, 8) {
            true => self.rng.below(self.conditions.len()),
            false => self.rng.pick(&found),
        }
    }

    fn wake_at(&mut self, holder: usize, op: u8, place: usize) {
        self.put(holder, op, self.conditions[place]);
        let queue = &mut self.waiting[place];
        let most = if op == OP_SIGNAL { 1 } else { queue.len() };
        let woken: Vec<usize> = queue.drain(..most.min(queue.len())).collect();
        self.list.pop_front();
        for waiter in woken.into_iter().rev() {
            self.list.push_front(waiter);
        }
        self.list.push_front(holder);
        self.give_up_without_lock(holder);
    }

    /// Adds to a word that all share, so that memory shows who came when.
    fn bump(&mut self, holder: usize) {
        let address = self.rng.pick(&ADDRESSES);
        let own = &mut self.steps[holder];
        own.extend([step(17, 0, address), step(19, 0, 0)]);
        own.extend([step(16, 1, holder as u16 + 1), step(19, 0, 1)]);
        own.push(step(18, 0, address));
    }

    /// Starts one that sleeps, or else anybody.
    fn start(&mut self, holder: usize) {
        let target = match self.asleep.is_empty() {
            true => self.rng.below(self.steps.len()),
            false => {
                let place = self.rng.below(self.asleep.len());
                let sleeper = self.asleep.remove(place);
                self.next.push_back(sleeper);
                sleeper
            }
        };
        self.put(holder, OP_START, target as u16);
    }

    /// Mostly the waiters are woken and everybody unlocks what it has locked.
    fn close(&mut self) {
        for place in 0..self.conditions.len() {
            if self.list.is_empty() {
                std::mem::swap(&mut self.list, &mut self.next);
            }
            match self.list.front() {
                Some(&holder) if self.rng.chance(3, 4) => {
                    self.wake_at(holder, OP_BROADCAST, place);
                }
                _ => {}
            }
        }
        for (own, locks) in self.steps.iter_mut().zip(&self.locks) {
            own.extend(each_lock(33, &any_order(self.rng, locks)));
        }
    }
}
