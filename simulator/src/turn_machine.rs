//! The turn machine: one turn names a worker and makes at most one move.
//!
//! Points the paper leaves open or says only by implication, as decided here:
//!
//! * The list passes to the next round within the move that empties it; no
//!   turn is spent on it.
//! * A woken worker counts as arrived in the round whose list it is put in:
//!   it comes behind a full fence and needs no arrival of its own.
//! * The tests for failure come before the commit of the step, so a failing
//!   step writes nothing to shared memory.
//! * A failure logs the op and the number as met; the end of the steps is met
//!   as op 38 with number 0.
//! * A failing lock or unlock leaves the worker's set of locks as it is, and
//!   nobody looks at a failed worker's set again.
//! * A holder with a count above 0 that wakes two workers one after the other
//!   puts the second directly behind itself, so in front of the first. Those
//!   whom a broadcast wakes go, as they waited, in front of whomever the same
//!   holder woke before.
//! * The caller that fills a barrier gives up the token.
//! * A load of two bytes looks for a copy for each of them, since they can
//!   lie in different pages.
//! * A started worker is in no list but the next round's, so its turns pass
//!   until that round; its fate is going from the start on.
//! * A start never fails, whatever the count. A holder with count 0 that has
//!   started somebody runs on, and a lock then commits again.
//! * The report's sum is that of shared memory as it stands, whatever workers
//!   have in their copies, after no turns too. It is worked out afresh here.

mod held;

use crate::check::{Plan, Step};
use crate::counts::{
    Authors, By, Change, Counts, Found, Hold, Joining, Move, Other, Place, Sight, Stand, Taken,
    Tried, Waking,
};
use crate::format::{
    synchronises, LOG_MARK, LOG_RECORD_LENGTH, MOST_WORKERS, OP_BROADCAST, OP_EXIT, OP_SIGNAL,
    OP_START, REPORT_FATES, REPORT_LENGTH, REPORT_SUM,
};
use crate::outcome::Outcome;
use held::Held;

const PAGE_SIZE: usize = 256;
const PAGES: usize = 8;

const NOBODY: u8 = 255;
const FAILURE: u8 = 254;
const STARTED: u8 = 1;
const NOT_ASLEEP: u8 = 253;

/// A page as a worker has copied it: what it works on, and the twin.
#[derive(Clone)]
struct PageCopy {
    working: [u8; PAGE_SIZE],
    twin: [u8; PAGE_SIZE],
}

/// What has become of a worker.
#[derive(Clone, Copy, PartialEq, Eq)]
enum Fate {
    Going,
    Exited,
    Failed,
    OnCondition,
    AtBarrier,
    Asleep,
}

/// A worker's private record.
#[derive(Clone)]
struct Worker {
    place: usize,
    registers: [u16; 4],
    /// Registers that have been given a value; only counts need it.
    known: [bool; 4],
    held: Held,
    /// The locks in their order; only counts need it.
    taken: Taken,
    copies: [Option<Box<PageCopy>>; PAGES],
    /// Addresses of the stores into these copies; only counts need them.
    stored: Vec<usize>,
    arrived: bool,
    fate: Fate,
}

impl Worker {
    fn new(fate: Fate, held: Held) -> Self {
        Worker {
            place: 0,
            registers: [0; 4],
            known: [false; 4],
            held,
            taken: Taken::default(),
            copies: Default::default(),
            stored: Vec::new(),
            arrived: false,
            fate,
        }
    }

    /// How many locks it holds.
    fn count(&self) -> u8 {
        self.held.size()
    }

    /// Where it is, as one that holds a lock without having the token.
    fn as_other(&self) -> Other {
        match self.fate {
            Fate::OnCondition => Other::Waits,
            Fate::Failed => Other::Failed,
            _ => Other::WasWoken,
        }
    }

    fn has_copies(&self) -> bool {
        self.copies.iter().any(Option::is_some)
    }

    fn read(&self, shared: &[u8], address: usize) -> u8 {
        match &self.copies[address / PAGE_SIZE] {
            Some(copy) => copy.working[address % PAGE_SIZE],
            None => shared[address],
        }
    }

    fn write(&mut self, shared: &[u8], address: usize, byte: u8) {
        let page = address / PAGE_SIZE;
        let copy = self.copies[page].get_or_insert_with(|| {
            let mut bytes = [0; PAGE_SIZE];
            bytes.copy_from_slice(&shared[page * PAGE_SIZE..][..PAGE_SIZE]);
            Box::new(PageCopy {
                working: bytes,
                twin: bytes,
            })
        });
        copy.working[address % PAGE_SIZE] = byte;
    }

    fn load(&self, shared: &[u8], address: usize) -> u16 {
        let low = self.read(shared, address);
        let high = self.read(shared, address + 1);
        u16::from_le_bytes([low, high])
    }

    fn store(&mut self, shared: &[u8], address: usize, word: u16) {
        let [low, high] = word.to_le_bytes();
        self.write(shared, address, low);
        self.write(shared, address + 1, high);
        self.stored.push(address);
    }

    /// Every byte that differs from its twin, beside the shared one.
    fn changes(&self, shared: &[u8]) -> Vec<Change> {
        let mut changes = Vec::new();
        for (page, slot) in self.copies.iter().enumerate() {
            let Some(copy) = slot else { continue };
            for (offset, (&after, &twin)) in copy.working.iter().zip(&copy.twin).enumerate() {
                let address = page * PAGE_SIZE + offset;
                if after != twin {
                    let before = shared[address];
                    changes.push(Change {
                        address,
                        twin,
                        before,
                        after,
                    });
                }
            }
        }
        changes
    }

    /// Writes every byte that differs from its twin and drops the copies. Says
    /// what it wrote, which only counts need.
    fn commit(&mut self, shared: &mut [u8]) -> Vec<Change> {
        let changes = self.changes(shared);
        for change in &changes {
            shared[change.address] = change.after;
        }
        self.drop_copies();
        changes
    }

    /// What counts need to know of a step on registers or memory.
    fn sight(&self) -> Sight {
        Sight {
            registers: self.registers,
            known: self.known,
            copied: self.copies.each_ref().map(Option::is_some),
        }
    }

    fn drop_copies(&mut self) {
        self.copies = Default::default();
        self.stored.clear();
    }

    /// Carries out a step that does not synchronise.
    fn plain(&mut self, shared: &[u8], step: Step) {
        let own = usize::from(step.register);
        let number = usize::from(step.number);
        self.place += 1;
        self.known[own] |= matches!(step.op, 16 | 17 | 19 | 20);
        match step.op {
            16 => self.registers[own] = step.number,
            17 => self.registers[own] = self.load(shared, number),
            18 => self.store(shared, number, self.registers[own]),
            19 => self.registers[own] = self.registers[own].wrapping_add(self.registers[number]),
            20 => self.registers[own] = self.registers[own].wrapping_sub(self.registers[number]),
            21 if self.registers[own] == 0 => self.place += number,
            22 if self.registers[own] != 0 => self.place += number,
            _ => {}
        }
    }
}

/// Where a queued worker is queued.
#[derive(Clone, Copy, PartialEq, Eq)]
enum Spot {
    Condition(u16),
    Barrier(u16),
}

/// What the holder does with the token after a step.
#[derive(Clone, Copy, PartialEq, Eq)]
enum Token {
    Keep,
    GiveUp,
    Leave,
}

/// How a plan stands.
#[derive(Clone, Copy, PartialEq, Eq, Debug)]
pub enum End {
    Going,
    Finished,
    Stuck,
}

/// The whole state between two turns.
#[derive(Clone)]
pub struct Machine<'a> {
    plan: &'a Plan,
    shared: Vec<u8>,
    workers: Vec<Worker>,
    list: Vec<usize>,
    next: Vec<usize>,
    /// All queued workers in the order in which they queued.
    parked: Vec<(Spot, usize)>,
    rounds: u16,
    moves: u16,
    log: Vec<u8>,
    end: End,
    counts: Counts,
    /// Turns played, the number of the one that moved last, and the record
    /// index of each worker's first step; only counts need them.
    turns: usize,
    last_moved: usize,
    first: Vec<usize>,
    /// What the holder has done, how the last one came into the next list,
    /// and how many have come into this round's list; only counts need them.
    hold: Hold,
    joined: Option<Joining>,
    came: usize,
    /// Who wrote which byte last; only counts need it.
    authors: Authors,
}

impl<'a> Machine<'a> {
    /// The start of round 1.
    pub fn new(plan: &'a Plan, memory: &[u8]) -> Self {
        Machine::holding(plan, memory, Held::NO_NAMES)
    }

    /// The start of round 1 by the rule that only the count of locks matters,
    /// not which ones they are. It stood before locks had names; no call uses
    /// it. The counts of limits say nothing here.
    pub fn counting(plan: &'a Plan, memory: &[u8]) -> Self {
        Machine::holding(plan, memory, Held::NO_COUNT)
    }

    fn holding(plan: &'a Plan, memory: &[u8], held: Held) -> Self {
        let mut workers = vec![Worker::new(Fate::Going, held); plan.workers()];
        for &sleeper in &plan.sleepers {
            workers[usize::from(sleeper)].fate = Fate::Asleep;
        }
        let awake = |worker: &usize| workers[*worker].fate == Fate::Going;
        let list: Vec<usize> = (0..plan.workers()).filter(awake).collect();
        Machine {
            plan,
            shared: memory.to_vec(),
            came: list.len(),
            list,
            workers,
            next: Vec::new(),
            parked: Vec::new(),
            rounds: 0,
            moves: 0,
            log: Vec::new(),
            end: End::Going,
            counts: Counts::default(),
            turns: 0,
            last_moved: 0,
            first: first_records(plan),
            hold: Hold::default(),
            joined: None,
            authors: Authors::default(),
        }
    }

    /// What has been tried so far.
    pub fn counts(&self) -> &Counts {
        &self.counts
    }

    /// How the plan stands.
    pub fn end(&self) -> End {
        self.end
    }

    /// Plays one turn and says whether it moved.
    pub fn turn(&mut self, worker: usize) -> bool {
        self.turns += 1;
        let made = self.try_move(worker);
        if let Some(made) = made {
            self.moves += 1;
            self.last_moved = self.turns;
            let ended = self.end != End::Going;
            self.counts.limits.moved(self.turns, made, ended);
        }
        made.is_some()
    }

    /// Memory, log and report as they stand.
    pub fn outcome(&self) -> Outcome {
        Outcome {
            memory: self.shared.clone(),
            log: self.log.clone(),
            report: self.report(),
        }
    }

    /// The step at which a worker stands; its end is an exit.
    fn at_hand(&self, worker: usize) -> Step {
        let end = Step {
            op: OP_EXIT,
            register: 0,
            number: 0,
        };
        let place = self.workers[worker].place;
        self.plan.steps[worker].get(place).copied().unwrap_or(end)
    }

    fn try_move(&mut self, worker: usize) -> Option<Move> {
        if self.end != End::Going {
            self.counts.passes_behind_end += 1;
            return None;
        }
        if !self.list.contains(&worker) {
            self.pass_out_of_list(worker);
            return None;
        }
        let fence_full = self.list.iter().all(|&each| self.workers[each].arrived);
        if fence_full && self.list[0] != worker {
            self.counts.passes_without_token += 1;
            return None;
        }
        if !fence_full && self.workers[worker].arrived {
            self.counts.passes_at_fence += 1;
            return None;
        }
        let step = self.at_hand(worker);
        match (synchronises(step.op), fence_full) {
            (false, _) => {
                self.plain_step(worker, step);
                Some(Move::OwnStep)
            }
            (true, false) => {
                self.workers[worker].arrived = true;
                self.counts.arrivals += 1;
                Some(Move::Arrival)
            }
            (true, true) => {
                self.token_step(worker, step);
                Some(Move::Synchronising)
            }
        }
    }

    fn pass_out_of_list(&mut self, worker: usize) {
        match self.found(worker) {
            Some(Found::Started) => self.counts.passes_before_first_round += 1,
            Some(_) => self.counts.passes_out_of_list += 1,
            None => self.counts.passes_asleep += 1,
        }
    }

    /// Where a worker is that does not sleep, as counts need to know it. Only
    /// one that was started in this round stands in the next list without
    /// having arrived.
    fn found(&self, worker: usize) -> Option<Found> {
        let own = &self.workers[worker];
        match own.fate {
            Fate::Asleep => None,
            Fate::Exited => Some(Found::Exited),
            Fate::Failed => Some(Found::Failed),
            Fate::OnCondition => Some(Found::OnCondition),
            Fate::AtBarrier => Some(Found::AtBarrier),
            Fate::Going if self.list.first() == Some(&worker) => Some(Found::Itself),
            Fate::Going if self.list.contains(&worker) => Some(Found::InList),
            Fate::Going if own.arrived => Some(Found::InNext),
            Fate::Going => Some(Found::Started),
        }
    }

    /// Where a worker stands, as counts need to know it.
    fn stand(&self, worker: usize) -> Stand {
        Stand {
            worker,
            workers: self.workers.len(),
            place: self.workers[worker].place,
            length: self.plan.steps[worker].len(),
            record: self.first[worker] + self.workers[worker].place,
            count: self.workers[worker].count(),
        }
    }

    /// A step on registers or memory, by a runner or by the holder.
    fn plain_step(&mut self, worker: usize, step: Step) {
        let stand = self.stand(worker);
        let own = &mut self.workers[worker];
        self.counts.plain(stand, step, &own.sight());
        own.plain(&self.shared, step);
        if step.op == 18 && self.workers.len() == MOST_WORKERS {
            let copies = self.workers.iter().flat_map(|each| &each.copies);
            self.counts.limits.copies(copies.flatten().count());
        }
    }

    /// The holder carries out a synchronising step.
    fn token_step(&mut self, worker: usize, step: Step) {
        let stand = self.stand(worker);
        self.counts.synchronising(stand, step.op);
        let copied = self.workers[worker].has_copies();
        let hold = self.hold;
        self.counts
            .limits
            .behind_start(stand, step.op, hold, copied);
        let fails = self.fails(worker, step);
        if matches!(step.op, 32 | 33) {
            self.count_lock(stand, step, fails);
        }
        let (outcome, token) = if fails {
            self.counts.limits.failed(stand, step.op);
            let lost = self.workers[worker].changes(&self.shared);
            self.counts.limits.lost(stand, step.op, &lost);
            self.fail(worker)
        } else {
            self.workers[worker].place += 1;
            self.synchronise(worker, step)
        };
        self.write_log(worker, step, outcome);
        self.settle(worker, token);
    }

    fn fails(&self, worker: usize, step: Step) -> bool {
        let held = self.workers[worker].held;
        match step.op {
            32 => !held.can_lock(step.number),
            33 => !held.can_unlock(step.number),
            34 => held.size() == 0,
            37 | 38 => held.size() > 0,
            _ => false,
        }
    }

    /// The holder comes to a lock or an unlock.
    fn count_lock(&mut self, stand: Stand, step: Step, fails: bool) {
        let tried = Tried::new(step.op, stand.count, fails);
        let elsewhere = |worker: &&Worker| worker.taken.holds(step.number);
        let before = self.workers[..stand.worker].iter();
        let others = before.chain(&self.workers[stand.worker + 1..]);
        let others: Vec<Other> = others.filter(elsewhere).map(Worker::as_other).collect();
        let limits = &mut self.counts.limits;
        limits.held_by_others(step.number, tried, &others);
        let taken = &mut self.workers[stand.worker].taken;
        limits.tries(stand, step.number, tried, taken);
    }

    fn fail(&mut self, worker: usize) -> (u8, Token) {
        self.workers[worker].drop_copies();
        self.workers[worker].fate = Fate::Failed;
        (FAILURE, Token::Leave)
    }

    fn synchronise(&mut self, worker: usize, step: Step) -> (u8, Token) {
        match step.op {
            32 => self.lock(worker, step.number),
            33 => self.unlock(worker, step.number),
            34 => self.wait(worker, step.number),
            OP_SIGNAL => self.signal(worker, step.number),
            OP_BROADCAST => self.broadcast(worker, step.number),
            37 => self.barrier(worker, step.number),
            OP_START => self.start(worker, usize::from(step.number)),
            _ => self.exit(worker),
        }
    }

    fn commit(&mut self, worker: usize, by: By) {
        let copied = self.workers[worker].has_copies();
        let stored = std::mem::take(&mut self.workers[worker].stored);
        let written = self.workers[worker].commit(&mut self.shared);
        if copied {
            let limits = &mut self.counts.limits;
            limits.committed(written.len());
            limits.commits(by, &stored, &written);
            self.authors.write(limits, worker, self.rounds, &written);
        }
    }

    /// One of two ways to commit, the second one with a count above 0.
    fn by_count(&self, worker: usize, ways: [By; 2]) -> By {
        ways[usize::from(self.workers[worker].count() > 0)]
    }

    fn lock(&mut self, worker: usize, lock: u16) -> (u8, Token) {
        if self.workers[worker].count() == 0 {
            self.commit(worker, By::Lock);
        }
        self.workers[worker].held.lock(lock);
        let count = self.workers[worker].count();
        self.counts.limits.counted(32, count);
        (count, Token::Keep)
    }

    fn unlock(&mut self, worker: usize, lock: u16) -> (u8, Token) {
        self.workers[worker].held.unlock(lock);
        let count = self.workers[worker].count();
        self.counts.limits.counted(33, count);
        if count > 0 {
            return (count, Token::Keep);
        }
        self.commit(worker, By::Unlock);
        (0, Token::GiveUp)
    }

    fn wait(&mut self, worker: usize, condition: u16) -> (u8, Token) {
        self.commit(worker, By::Wait);
        self.counts.limits.waits(self.workers[worker].count());
        self.workers[worker].taken.wait();
        self.workers[worker].fate = Fate::OnCondition;
        self.parked.push((Spot::Condition(condition), worker));
        (NOBODY, Token::Leave)
    }

    fn signal(&mut self, worker: usize, condition: u16) -> (u8, Token) {
        self.commit(worker, self.by_count(worker, By::SIGNAL));
        let spot = Spot::Condition(condition);
        let first = self.parked.iter().position(|&(at, _)| at == spot);
        let woken = first.map(|position| self.parked.remove(position).1);
        let woken: Vec<usize> = woken.into_iter().collect();
        self.put_behind_holder(worker, OP_SIGNAL, &woken);
        let outcome = woken.first().map_or(NOBODY, |&waiter| waiter as u8);
        (outcome, self.token_behind_waking(worker))
    }

    fn broadcast(&mut self, worker: usize, condition: u16) -> (u8, Token) {
        self.commit(worker, self.by_count(worker, By::BROADCAST));
        let spot = Spot::Condition(condition);
        let (waiters, kept): (Vec<_>, Vec<_>) = self.parked.iter().partition(|(at, _)| *at == spot);
        self.parked = kept;
        let woken: Vec<usize> = waiters.into_iter().map(|(_, waiter)| waiter).collect();
        self.put_behind_holder(worker, OP_BROADCAST, &woken);
        (woken.len() as u8, self.token_behind_waking(worker))
    }

    fn token_behind_waking(&self, worker: usize) -> Token {
        match self.workers[worker].count() {
            0 => Token::GiveUp,
            _ => Token::Keep,
        }
    }

    /// Those that the holder wakes go directly behind it, in this order.
    fn put_behind_holder(&mut self, holder: usize, op: u8, woken: &[usize]) {
        self.count_waking(holder, op, woken.len());
        for (place, &waiter) in woken.iter().enumerate() {
            let kept = self.workers[waiter].count();
            self.counts.limits.woken(kept, self.list.len());
            self.came += 1;
            self.counts.limits.came(self.came, self.workers.len());
            self.workers[waiter].fate = Fate::Going;
            self.list.insert(1 + place, waiter);
        }
    }

    /// The holder wakes so many, which no longer wait.
    fn count_waking(&mut self, holder: usize, op: u8, woken: usize) {
        let on_condition = |(at, _): &&(Spot, usize)| matches!(at, Spot::Condition(_));
        let waking = Waking {
            op,
            count: self.workers[holder].count(),
            woken,
            behind: self.list.len() - 1,
            left: self.parked.iter().filter(on_condition).count(),
        };
        self.counts.limits.wakes(waking, &mut self.hold);
    }

    fn barrier(&mut self, worker: usize, barrier: u16) -> (u8, Token) {
        let size = self.plan.barrier_sizes[usize::from(barrier)].unwrap_or(1);
        let spot = Spot::Barrier(barrier);
        let queued = self.parked.iter().filter(|(at, _)| *at == spot).count();
        if queued + 1 < usize::from(size) {
            self.commit(worker, By::QueuedBarrier);
            self.workers[worker].fate = Fate::AtBarrier;
            self.parked.push((spot, worker));
            return (0, Token::Leave);
        }
        self.commit(worker, By::FullBarrier);
        let (freed, kept): (Vec<_>, Vec<_>) = self.parked.iter().partition(|(at, _)| *at == spot);
        self.parked = kept;
        for (_, each) in freed {
            self.workers[each].fate = Fate::Going;
            self.join_next(each, Joining::Freed);
        }
        (size, Token::GiveUp)
    }

    fn start(&mut self, worker: usize, target: usize) -> (u8, Token) {
        let found = self.found(target);
        let ways = found.map_or(By::START, |_| By::START_OF_NO_SLEEPER);
        self.commit(worker, self.by_count(worker, ways));
        let count = self.workers[worker].count();
        self.counts.limits.starts(count, found);
        self.hold.any = true;
        if self.workers[target].fate != Fate::Asleep {
            return (NOT_ASLEEP, Token::Keep);
        }
        self.hold.sleepers += 1;
        let (started, waiting) = (self.hold.sleepers, self.next.len());
        self.counts.limits.started(worker, target, started, waiting);
        self.workers[target].fate = Fate::Going;
        self.join_next(target, Joining::Started);
        (STARTED, Token::Keep)
    }

    fn join_next(&mut self, worker: usize, how: Joining) {
        self.counts.limits.joins(self.joined, how);
        self.joined = Some(how);
        self.next.push(worker);
    }

    fn exit(&mut self, worker: usize) -> (u8, Token) {
        // The place has gone on already.
        let end = self.workers[worker].place > self.plan.steps[worker].len();
        let by = if end { By::EndOfSteps } else { By::Exit };
        self.commit(worker, by);
        self.workers[worker].fate = Fate::Exited;
        (NOBODY, Token::Leave)
    }

    fn write_log(&mut self, worker: usize, step: Step, outcome: u8) {
        let [low, high] = (self.rounds + 1).to_le_bytes();
        let number = step.number as u8;
        self.log.extend_from_slice(&LOG_MARK);
        self.log
            .extend_from_slice(&[low, high, worker as u8, step.op, number, outcome]);
    }

    /// Passes the token on and goes over to the next round where due.
    fn settle(&mut self, worker: usize, token: Token) {
        if token == Token::Keep {
            return;
        }
        self.list.remove(0);
        self.hold = Hold::default();
        if token == Token::GiveUp {
            self.join_next(worker, Joining::GaveUp);
        }
        if self.list.is_empty() {
            self.complete_round();
        }
    }

    fn complete_round(&mut self) {
        self.rounds += 1;
        self.joined = None;
        self.list = std::mem::take(&mut self.next);
        self.came = self.list.len();
        for &each in &self.list {
            self.workers[each].arrived = false;
        }
        if self.list.is_empty() {
            let over =
                |worker: &Worker| matches!(worker.fate, Fate::Exited | Fate::Failed | Fate::Asleep);
            self.end = if self.workers.iter().all(over) {
                End::Finished
            } else {
                End::Stuck
            };
        }
    }

    fn report(&self) -> [u8; REPORT_LENGTH] {
        let mut report = [NOBODY; REPORT_LENGTH];
        report[0] = match self.end {
            End::Going => 0,
            End::Finished => 1,
            End::Stuck => 2,
        };
        report[1] = self.workers.len() as u8;
        let records = (self.log.len() / LOG_RECORD_LENGTH) as u16;
        report[2..4].copy_from_slice(&self.moves.to_le_bytes());
        report[4..6].copy_from_slice(&self.rounds.to_le_bytes());
        report[6..8].copy_from_slice(&records.to_le_bytes());
        let fates = report[REPORT_FATES..REPORT_SUM].iter_mut();
        for (slot, worker) in fates.zip(&self.workers) {
            *slot = fate_byte(worker.fate);
        }
        report[REPORT_SUM..].copy_from_slice(&sum_of_words(&self.shared).to_le_bytes());
        report
    }

    /// Notes the bytes that nobody has committed yet.
    fn note_uncommitted(&mut self) {
        let full = self.list.iter().all(|&each| self.workers[each].arrived);
        for (behind, &each) in self.list.iter().enumerate() {
            let worker = &self.workers[each];
            let place = match (full, behind, worker.arrived) {
                (true, 0, _) if worker.count() > 0 => Place::HoldsWithCount,
                (true, 0, _) => Place::Holds,
                (true, ..) => Place::BehindHolder,
                (false, _, true) => Place::AtFence,
                (false, _, false) => Place::BeforeFence,
            };
            let changes = worker.changes(&self.shared);
            self.counts.limits.uncommitted(place, &changes);
        }
    }
}

/// The sum of all words at even addresses, low byte first.
fn sum_of_words(shared: &[u8]) -> u32 {
    let word = |pair: &[u8]| u32::from(u16::from_le_bytes([pair[0], pair[1]]));
    shared.chunks_exact(2).map(word).sum()
}

/// Behind the plan record come those of the barriers and of the sleepers, then
/// the steps.
fn first_records(plan: &Plan) -> Vec<usize> {
    let mut next = 1 + plan.barrier_sizes.iter().flatten().count() + plan.sleepers.len();
    let mut first = Vec::new();
    for own in &plan.steps {
        first.push(next);
        next += own.len();
    }
    first
}

fn fate_byte(fate: Fate) -> u8 {
    match fate {
        Fate::Going => 0,
        Fate::Exited => 1,
        Fate::Failed => 2,
        Fate::OnCondition => 3,
        Fate::AtBarrier => 4,
        Fate::Asleep => 5,
    }
}

/// Plays a whole list of turns. Each turn names a worker below n.
pub fn play_turns(plan: &Plan, memory: &[u8], turns: &[u8]) -> Outcome {
    play_counted(plan, memory, turns).0
}

/// As `play_turns`, and says what was tried on the way.
pub fn play_counted(plan: &Plan, memory: &[u8], turns: &[u8]) -> (Outcome, Counts) {
    let mut machine = Machine::new(plan, memory);
    for &turn in turns {
        machine.turn(usize::from(turn));
    }
    let last_moved = machine.last_moved;
    machine.counts.limits.played(turns.len(), last_moved);
    machine.note_uncommitted();
    (machine.outcome(), machine.counts)
}
