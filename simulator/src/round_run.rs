//! The round-by-round run: an accepted plan and a starting memory, no turns.
//!
//! Written apart from the turn machine. Workers carry no arrival flag, each
//! condition and each barrier has its own queue, and the private bytes of a
//! worker are cells by address in place of pages. A worker's locks are a set of
//! their numbers, in place of bits. The sum of the words at even addresses is
//! kept at each commit, where the turn machine works it out afresh.

use std::collections::{BTreeSet, VecDeque};

use crate::check::{Plan, Step};
use crate::format::synchronises;
use crate::outcome::Outcome;

/// One byte of a copied page.
#[derive(Clone, Copy)]
struct Cell {
    now: u8,
    twin: u8,
}

/// Fate of a worker that nobody has started yet.
const ASLEEP: u8 = 5;

/// One worker. Fates are the report's bytes.
struct Seat {
    place: usize,
    registers: [u16; 4],
    locks: BTreeSet<u16>,
    cells: Vec<Option<Cell>>,
    fate: u8,
}

/// What follows a step of the holder.
enum Then {
    RunOn,
    JoinNext,
    Away(u8),
}

struct Rounds<'a> {
    plan: &'a Plan,
    memory: Vec<u8>,
    /// The sum of all words of memory at even addresses.
    sum: u32,
    seats: Vec<Seat>,
    list: VecDeque<usize>,
    next: VecDeque<usize>,
    conditions: Vec<VecDeque<usize>>,
    barriers: Vec<VecDeque<usize>>,
    log: Vec<[u8; 8]>,
    moves: u32,
    completed: u32,
}

/// Plays a plan to its end, round by round.
pub fn play_rounds(plan: &Plan, memory: &[u8]) -> Outcome {
    let mut run = Rounds::start(plan, memory);
    loop {
        run.fence();
        run.tokens();
        run.completed += 1;
        if run.next.is_empty() {
            return run.finish();
        }
        std::mem::swap(&mut run.list, &mut run.next);
    }
}

impl<'a> Rounds<'a> {
    fn start(plan: &'a Plan, memory: &[u8]) -> Self {
        let sleeps = |who: &usize| plan.sleepers.contains(&(*who as u8));
        let seat = |who| Seat {
            place: 0,
            registers: [0; 4],
            locks: BTreeSet::new(),
            cells: vec![None; memory.len()],
            fate: if sleeps(&who) { ASLEEP } else { 0 },
        };
        let count = plan.workers();
        Rounds {
            plan,
            memory: memory.to_vec(),
            sum: (0..).zip(memory).map(|(at, &byte)| share(at, byte)).sum(),
            seats: (0..count).map(seat).collect(),
            list: (0..count).filter(|who| !sleeps(who)).collect(),
            next: VecDeque::new(),
            conditions: vec![VecDeque::new(); 8],
            barriers: vec![VecDeque::new(); 8],
            log: Vec::new(),
            moves: 0,
            completed: 0,
        }
    }

    /// The step of a worker's place, nothing at the end of its steps.
    fn step_of(&self, who: usize) -> Option<Step> {
        self.plan.steps[who].get(self.seats[who].place).copied()
    }

    /// In list order each worker runs up to its next synchronising step or
    /// its end. Nobody commits here, so the order does not matter.
    fn fence(&mut self) {
        for who in self.list.clone() {
            while let Some(step) = self.step_of(who).filter(|step| !synchronises(step.op)) {
                self.ordinary(who, step);
            }
            // The arrival.
            self.moves += 1;
        }
    }

    /// Each worker of the list in turn holds the token. The holder is taken
    /// out at once, so directly behind the holder is the front of the list.
    fn tokens(&mut self) {
        while let Some(holder) = self.list.pop_front() {
            loop {
                match self.holder_step(holder) {
                    Then::RunOn => {}
                    Then::JoinNext => {
                        self.next.push_back(holder);
                        break;
                    }
                    Then::Away(fate) => {
                        self.seats[holder].fate = fate;
                        break;
                    }
                }
            }
        }
    }

    fn holder_step(&mut self, who: usize) -> Then {
        match self.step_of(who) {
            Some(step) if synchronises(step.op) => self.synchronising(who, step.op, step.number),
            Some(step) => {
                self.ordinary(who, step);
                Then::RunOn
            }
            None => self.synchronising(who, 38, 0),
        }
    }

    /// A step that does not synchronise: registers, loads, stores and skips.
    fn ordinary(&mut self, who: usize, step: Step) {
        self.moves += 1;
        let value = self.seats[who].registers[step.register as usize];
        let mut skipped = 0;
        let result = match step.op {
            16 => step.number,
            17 => self.load(who, step.number as usize),
            18 => {
                self.store(who, step.number as usize, value);
                value
            }
            19 | 20 => {
                let other = self.seats[who].registers[step.number as usize];
                sum_or_difference(value, other, step.op == 19)
            }
            _ => {
                // Op 21 skips at zero, op 22 at anything else.
                if (value == 0) == (step.op == 21) {
                    skipped = step.number as usize;
                }
                value
            }
        };
        let seat = &mut self.seats[who];
        seat.registers[step.register as usize] = result;
        seat.place += 1 + skipped;
    }

    fn load(&self, who: usize, address: usize) -> u16 {
        let byte = |at: usize| -> u16 {
            let cell = self.seats[who].cells[at];
            u16::from(cell.map_or(self.memory[at], |cell| cell.now))
        };
        byte(address) + 256 * byte(address + 1)
    }

    fn store(&mut self, who: usize, address: usize, value: u16) {
        let bytes = [(value % 256) as u8, (value / 256) as u8];
        for (at, byte) in (address..).zip(bytes) {
            self.make_page_private(who, at);
            if let Some(cell) = &mut self.seats[who].cells[at] {
                cell.now = byte;
            }
        }
    }

    /// Copies the whole page around an address unless the worker has it.
    fn make_page_private(&mut self, who: usize, at: usize) {
        let cells = &mut self.seats[who].cells;
        if cells[at].is_some() {
            return;
        }
        let first = at - at % 256;
        let page = first..first + 256;
        for (cell, &byte) in cells[page.clone()].iter_mut().zip(&self.memory[page]) {
            *cell = Some(Cell {
                now: byte,
                twin: byte,
            });
        }
    }

    /// A byte moves the sum by its difference from the shared one, which is
    /// not that from its twin where somebody has committed in between.
    fn commit(&mut self, who: usize) {
        let cells = self.seats[who].cells.iter_mut();
        for (at, (cell, byte)) in cells.zip(&mut self.memory).enumerate() {
            if let Some(Cell { now, twin }) = cell.take() {
                if now != twin {
                    self.sum = self.sum - share(at, *byte) + share(at, now);
                    *byte = now;
                }
            }
        }
    }

    /// A synchronising step of the holder, its end as op 38 included.
    fn synchronising(&mut self, who: usize, op: u8, number: u16) -> Then {
        self.moves += 1;
        let (outcome, then) = if self.fails(who, op, number) {
            // Its cells stay behind unread: the worker never moves again.
            (254, Then::Away(2))
        } else {
            self.seats[who].place += 1;
            self.carry_out(who, op, number)
        };
        let round = (self.completed + 1) as u16;
        self.log.push([
            0x4D,
            0x4C,
            (round % 256) as u8,
            (round / 256) as u8,
            who as u8,
            op,
            number as u8,
            outcome,
        ]);
        then
    }

    /// Whether a synchronising step is a failure. What others have locked
    /// plays no part.
    fn fails(&self, who: usize, op: u8, number: u16) -> bool {
        let locks = &self.seats[who].locks;
        match op {
            32 => locks.contains(&number),
            33 => !locks.contains(&number),
            34 => locks.is_empty(),
            37 | 38 => !locks.is_empty(),
            _ => false,
        }
    }

    /// A synchronising step that does not fail: its outcome and what follows.
    fn carry_out(&mut self, who: usize, op: u8, number: u16) -> (u8, Then) {
        let name = number as usize;
        let held = self.seats[who].locks.len();
        let commits = match op {
            32 => held == 0,
            33 => held == 1,
            _ => true,
        };
        if commits {
            self.commit(who);
        }
        match op {
            32 | 33 => self.lock_or_unlock(who, op == 32, number),
            34 => {
                self.conditions[name].push_back(who);
                (255, Then::Away(3))
            }
            35 => (self.wake(name), run_on_if(held > 0)),
            36 => (self.wake_all(name), run_on_if(held > 0)),
            37 => self.meet(who, name),
            39 => (self.rouse(name), Then::RunOn),
            _ => (255, Then::Away(1)),
        }
    }

    /// The worker runs on while it holds a lock, and so behind every lock.
    fn lock_or_unlock(&mut self, who: usize, locks: bool, number: u16) -> (u8, Then) {
        let held = &mut self.seats[who].locks;
        match locks {
            true => held.insert(number),
            false => held.remove(&number),
        };
        (held.len() as u8, run_on_if(!held.is_empty()))
    }

    fn wake(&mut self, condition: usize) -> u8 {
        match self.conditions[condition].pop_front() {
            Some(woken) => {
                self.seats[woken].fate = 0;
                self.list.push_front(woken);
                woken as u8
            }
            None => 255,
        }
    }

    /// Empties a condition's queue from its tail, so that its first waiter
    /// comes to stand in front of all. Says how many there were.
    fn wake_all(&mut self, condition: usize) -> u8 {
        let mut woken = 0;
        while let Some(waiter) = self.conditions[condition].pop_back() {
            self.seats[waiter].fate = 0;
            self.list.push_front(waiter);
            woken += 1;
        }
        woken
    }

    /// A start. Whoever sleeps stands in the next list at once, in front of
    /// all that come there later, the caller too.
    fn rouse(&mut self, target: usize) -> u8 {
        if self.seats[target].fate != ASLEEP {
            return 253;
        }
        self.seats[target].fate = 0;
        self.next.push_back(target);
        1
    }

    fn meet(&mut self, who: usize, barrier: usize) -> (u8, Then) {
        let size = self.plan.barrier_sizes[barrier].expect("a checked plan sizes its barriers");
        let queue = &mut self.barriers[barrier];
        if queue.len() < usize::from(size) - 1 {
            queue.push_back(who);
            return (0, Then::Away(4));
        }
        for freed in std::mem::take(queue) {
            self.seats[freed].fate = 0;
            self.next.push_back(freed);
        }
        (size, Then::JoinNext)
    }

    fn finish(self) -> Outcome {
        let over = self
            .seats
            .iter()
            .all(|seat| matches!(seat.fate, 1 | 2 | ASLEEP));
        let tallies = [self.moves, self.completed, self.log.len() as u32];
        let mut report = vec![if over { 1 } else { 2 }, self.seats.len() as u8];
        for tally in tallies {
            report.extend([(tally % 256) as u8, (tally / 256) as u8]);
        }
        report.extend(self.seats.iter().map(|seat| seat.fate));
        report.resize(16, 255);
        report.extend(self.sum.to_le_bytes());
        Outcome {
            memory: self.memory,
            log: self.log.concat(),
            report: report.try_into().expect("twenty bytes"),
        }
    }
}

/// What a byte adds to the sum: at an odd address it is the high byte of its
/// word.
fn share(at: usize, byte: u8) -> u32 {
    match at % 2 {
        0 => u32::from(byte),
        _ => 256 * u32::from(byte),
    }
}

fn run_on_if(keeps: bool) -> Then {
    if keeps {
        Then::RunOn
    } else {
        Then::JoinNext
    }
}

fn sum_or_difference(left: u16, right: u16, sum: bool) -> u16 {
    let (left, right) = (u32::from(left), u32::from(right));
    let exact = if sum {
        left + right
    } else {
        left + 65_536 - right
    };
    (exact % 65_536) as u16
}
