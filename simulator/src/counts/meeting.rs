//! Noting the limits that a run meets.

use crate::check::Step;
use crate::counts::limits::{Limit, Met, COMMITTED, OPS, RECORDS, SET, TURNS};
use crate::counts::locks::LOCKS;
use crate::counts::waking::Woke;
use crate::format::{MOST_STEPS, MOST_TURNS, MOST_WORKERS, OP_START};

/// Where a worker stands when it comes to a step, or to its end of steps.
#[derive(Clone, Copy)]
pub struct Stand {
    pub worker: usize,
    /// The plan's count of workers.
    pub workers: usize,
    /// Steps of this worker before the one at hand, and all of its steps.
    pub place: usize,
    pub length: usize,
    /// Index of the record of the step at hand.
    pub record: usize,
    /// How many locks it holds.
    pub count: u8,
}

/// What a step on registers or memory finds.
pub struct Sight {
    pub registers: [u16; 4],
    /// Registers that this worker has set, loaded or summed before.
    pub known: [bool; 4],
    /// Pages of which this worker has a copy.
    pub copied: [bool; 8],
}

/// What a turn's move was.
#[derive(Clone, Copy, Debug, PartialEq, Eq)]
pub enum Move {
    OwnStep,
    Arrival,
    Synchronising,
}

/// Where a start finds a worker that does not sleep.
#[derive(Clone, Copy, Debug, PartialEq, Eq)]
pub enum Found {
    Itself,
    /// Behind the caller in this round's list.
    InList,
    /// In the next list, having had the token or having been freed.
    InNext,
    /// In the next list, started in this round.
    Started,
    Exited,
    Failed,
    OnCondition,
    AtBarrier,
}

/// How a worker comes into the next list.
#[derive(Clone, Copy, Debug, PartialEq, Eq)]
pub enum Joining {
    Started,
    Freed,
    GaveUp,
}

/// What the holder has done since it got the token: whether it came to a
/// start, how many sleepers it started, and how it woke somebody last.
#[derive(Clone, Copy, Debug, Default, PartialEq, Eq)]
pub struct Hold {
    pub any: bool,
    pub sleepers: usize,
    pub woke: Option<Woke>,
}

/// The limits met by one run, in the order in which it met them.
#[derive(Clone, Debug, Default, PartialEq, Eq)]
pub struct Meetings {
    pub met: Vec<Met>,
}

impl Meetings {
    pub(super) fn note(&mut self, limit: Limit, member: usize) {
        self.met.push((limit, member as u16));
    }

    /// Notes a number that is one of a row's.
    pub(super) fn note_one_of<T: PartialEq>(&mut self, limit: Limit, all: &[T], number: T) {
        if let Some(place) = all.iter().position(|each| *each == number) {
            self.note(limit, place);
        }
    }

    /// A step on registers or memory.
    pub fn plain(&mut self, stand: Stand, step: Step, sight: &Sight) {
        let op = usize::from(step.op - 16);
        self.step(stand, op);
        self.note(Limit::OpsByRegister, 4 * op + usize::from(step.register));
        let own = sight.registers[usize::from(step.register)];
        match step.op {
            16 => self.note_one_of(Limit::Set, &SET, step.number),
            17 => self.word(0, usize::from(step.number), sight),
            18 => self.store(stand, step, sight),
            19 | 20 => self.sum(step, sight),
            21 => self.skip(0, stand, step, own == 0),
            22 => self.skip(1, stand, step, own != 0),
            _ => {}
        }
    }

    /// Any step, by the place of its op among all ops.
    fn step(&mut self, stand: Stand, op: usize) {
        if stand.workers == MOST_WORKERS {
            self.note(Limit::OpsOfEight, OPS * stand.worker + op);
        }
        if stand.place + 1 == MOST_STEPS {
            self.note(Limit::LastStep, stand.worker);
        }
        self.note_one_of(Limit::RecordIndex, &RECORDS, stand.record);
    }

    /// A load (0) or a store (1) of the two bytes at an address.
    fn word(&mut self, which: usize, address: usize, sight: &Sight) {
        self.note(Limit::Address, 2_047 * which + address);
        let page = address / 256;
        if address % 256 == 255 {
            let copied = usize::from(sight.copied[page]) + 2 * usize::from(sight.copied[page + 1]);
            self.note(Limit::Border, 28 * which + 4 * page + copied);
        }
        for byte in [address, address + 1] {
            if matches!(byte % 256, 0 | 255) {
                let place = 2 * (byte / 256) + usize::from(byte % 256 == 255);
                self.note(Limit::Edge, 16 * which + place);
            }
        }
    }

    fn store(&mut self, stand: Stand, step: Step, sight: &Sight) {
        let (address, register) = (usize::from(step.number), usize::from(step.register));
        self.word(1, address, sight);
        self.note(Limit::PageStore, 8 * stand.worker + address / 256);
        if !sight.known[register] {
            self.note(Limit::UnknownRegister, 4 * stand.worker + register);
        }
    }

    fn sum(&mut self, step: Step, sight: &Sight) {
        let which = usize::from(step.op - 19);
        let (own, other) = (usize::from(step.register), usize::from(step.number));
        self.note(Limit::Sum, 16 * which + 4 * own + other);
        let exact = [(65_535, 1), (0, 1)][which];
        if (sight.registers[own], sight.registers[other]) == exact {
            self.note(Limit::ExactWrap, which);
        }
    }

    fn skip(&mut self, which: usize, stand: Stand, step: Step, taken: bool) {
        let far = usize::from(step.number);
        // A skip of 127 has one place in the row, since it goes one way only.
        let place = (2 * (far - 1) + usize::from(taken)).min(252);
        self.note(Limit::Skip, 253 * which + place);
        if taken && stand.place + 1 + far == stand.length {
            self.note(Limit::SkipToEnd, which);
        }
    }

    /// All workers have a copy of so many pages in sum.
    pub fn copies(&mut self, sum: usize) {
        if sum == 8 * MOST_WORKERS {
            self.note(Limit::AllCopied, 0);
        }
    }

    /// A commit of pages that a worker has copied has written so many bytes.
    pub fn committed(&mut self, bytes: usize) {
        self.note_one_of(Limit::Committed, &COMMITTED, bytes);
    }

    /// The holder at a synchronising step, or at its end of steps.
    pub fn synchronising(&mut self, stand: Stand, op: u8) {
        if stand.place < stand.length {
            return self.step(stand, usize::from(op - 32) + 7);
        }
        if stand.length == 0 && stand.workers == MOST_WORKERS {
            self.note(Limit::NoStep, stand.worker);
        }
    }

    /// The holder fails there.
    pub fn failed(&mut self, stand: Stand, op: u8) {
        let count = usize::from(stand.count);
        match op {
            37 => self.note(Limit::FailedBarrier, count - 1),
            38 if stand.place < stand.length => self.note(Limit::FailedExit, count - 1),
            38 => self.note(Limit::FailedEnd, count - 1),
            _ => {}
        }
    }

    /// A lock or an unlock has left this count.
    pub fn counted(&mut self, op: u8, count: u8) {
        match op {
            32 => self.note(Limit::Lock, usize::from(count) - 1),
            _ => self.note(Limit::Unlock, usize::from(count)),
        }
    }

    /// A start with this count of somebody that sleeps, or is found elsewhere.
    pub fn starts(&mut self, count: u8, found: Option<Found>) {
        let count = usize::from(count);
        self.note(
            Limit::Start,
            (LOCKS + 1) * usize::from(found.is_some()) + count,
        );
        if let Some(found) = found {
            let place = 2 * found as usize + usize::from(count > 0);
            self.note(Limit::StartFound, place);
        }
    }

    /// A sleeper is started, so many in this hold, with so many before it in
    /// the next list. The first worker never sleeps and nobody starts itself.
    pub fn started(&mut self, caller: usize, sleeper: usize, in_hold: usize, next: usize) {
        let other = caller - usize::from(caller > sleeper);
        let others = MOST_WORKERS - 1;
        self.note(Limit::StartedBy, others * (sleeper - 1) + other);
        self.note(Limit::StartedInHold, in_hold - 1);
        self.note(Limit::StartedBehind, next);
    }

    /// The holder at a synchronising step or its end, with or without copies,
    /// after what it has done in this hold.
    pub fn behind_start(&mut self, stand: Stand, op: u8, hold: Hold, copied: bool) {
        if !hold.any {
            return;
        }
        let step = match stand.place == stand.length {
            true => usize::from(OP_START - 32) + 1,
            false => usize::from(op - 32),
        };
        let place = 2 * step + usize::from(stand.count > 0);
        self.note(Limit::BehindStart, place);
        if copied {
            self.note(Limit::StoredBehindStart, place);
        }
    }

    /// A worker comes into the next list, behind one that came so.
    pub fn joins(&mut self, before: Option<Joining>, how: Joining) {
        let place = match (before, how) {
            (None, _) => return,
            // The caller that frees others comes directly behind them.
            (Some(Joining::Freed), Joining::Freed) => 6,
            (Some(Joining::Freed), _) => 7,
            (Some(before), how) => 3 * usize::from(before == Joining::GaveUp) + how as usize,
        };
        self.note(Limit::Joined, place);
    }

    /// A wait keeps this count.
    pub fn waits(&mut self, count: u8) {
        self.note(Limit::Wait, usize::from(count) - 1);
    }

    /// A worker that has kept this count is woken into a list of so many.
    pub fn woken(&mut self, count: u8, list: usize) {
        self.note(Limit::Waking, usize::from(count) - 1);
        self.note(Limit::WokenInto, list - 1);
    }

    /// The turn of this number, the first being 1, made a move; `ended` says
    /// whether the plan has ended with it.
    pub fn moved(&mut self, turn: usize, made: Move, ended: bool) {
        self.note_one_of(Limit::TurnNumber, &TURNS, turn);
        if turn == MOST_TURNS {
            let place = match made {
                Move::OwnStep => 0,
                Move::Arrival => 1,
                Move::Synchronising => 2 + usize::from(ended),
            };
            self.note(Limit::LastTurn, place);
        }
    }

    /// A list of so many turns has been played, of which this one moved last.
    pub fn played(&mut self, turns: usize, last_moved: usize) {
        if turns == MOST_TURNS - 1 && last_moved == turns {
            self.note(Limit::TurnBeforeLast, 0);
        }
    }
}
