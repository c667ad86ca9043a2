//! Limits of commits and of the sum of all words at even addresses: by which
//! step a commit moves the sum and how far, what its bytes come upon, and
//! which bytes are not committed.

use std::collections::BTreeMap;

use crate::counts::limits::Limit;
use crate::counts::meeting::{Meetings, Stand};

/// A byte of a copy that differs from its twin.
#[derive(Clone, Copy, Debug, PartialEq, Eq)]
pub struct Change {
    pub address: usize,
    pub twin: u8,
    /// The shared byte, which is not the twin where somebody has committed
    /// since the page was copied.
    pub before: u8,
    pub after: u8,
}

/// What a step is by which a worker commits.
#[derive(Clone, Copy, Debug, PartialEq, Eq)]
pub enum By {
    Lock,
    Unlock,
    Wait,
    Signal,
    SignalWithCount,
    Broadcast,
    BroadcastWithCount,
    QueuedBarrier,
    FullBarrier,
    Exit,
    EndOfSteps,
    Start,
    StartWithCount,
    StartOfNoSleeper,
    StartOfNoSleeperWithCount,
}

impl By {
    /// With count 0 and with a count above it.
    pub const SIGNAL: [By; 2] = [By::Signal, By::SignalWithCount];
    pub const BROADCAST: [By; 2] = [By::Broadcast, By::BroadcastWithCount];
    pub const START: [By; 2] = [By::Start, By::StartWithCount];
    pub const START_OF_NO_SLEEPER: [By; 2] = [By::StartOfNoSleeper, By::StartOfNoSleeperWithCount];
}

/// In the order of `By`.
const BY: [&str; 15] = [
    "lock",
    "unlock",
    "wait",
    "signal",
    "signal with a count",
    "broadcast",
    "broadcast with a count",
    "barrier, queued",
    "barrier, full",
    "exit",
    "end of steps",
    "start of a sleeper",
    "start of a sleeper with a count",
    "start of no sleeper",
    "start of no sleeper with a count",
];

/// Ways of a commit that writes other bytes than the shared ones.
const WAYS: [&str; 3] = ["the sum rises", "the sum falls", "the sum stays"];

/// Count of ways to commit, by step and by what comes of the sum.
pub const COMMITS: usize = BY.len() * WAYS.len();

/// Where a worker is whose bytes are not committed when the list of turns ends.
#[derive(Clone, Copy, Debug, PartialEq, Eq)]
pub enum Place {
    BeforeFence,
    AtFence,
    Holds,
    HoldsWithCount,
    BehindHolder,
}

/// Differences by which a commit moves the sum. 128 steps set 128 words to
/// zero, or 127 to another number.
pub const MOVED: [i64; 12] = [
    -8_388_480, -65_535, -65_280, -256, -255, -1, 1, 255, 256, 65_280, 65_535, 8_322_945,
];

/// What a byte counts in the sum: at an odd address it is its word's high one.
fn weight(address: usize) -> i64 {
    [1, 256][address % 2]
}

/// By how much these bytes move the sum when they are written.
fn moved(changes: &[Change]) -> i64 {
    let each = |change: &Change| {
        let difference = i64::from(change.after) - i64::from(change.before);
        weight(change.address) * difference
    };
    changes.iter().map(each).sum()
}

/// Whoever wrote each byte last, and in which round.
#[derive(Clone, Debug, Default)]
pub struct Authors {
    last: BTreeMap<usize, (usize, u16)>,
}

impl Authors {
    /// Notes what the bytes of a commit come upon, and whose they are now.
    pub fn write(&mut self, met: &mut Meetings, worker: usize, round: u16, changes: &[Change]) {
        for change in changes {
            let odd = change.address % 2;
            met.note(Limit::ByteOver, 2 * self.found(worker, round, change) + odd);
            if let Some(&(other, then)) = self.last.get(&(change.address ^ 1)) {
                if other != worker {
                    let earlier = usize::from(then != round);
                    met.note(Limit::WordOfTwo, 2 * earlier + odd);
                }
            }
        }
        for change in changes {
            self.last.insert(change.address, (worker, round));
        }
    }

    /// What stands where a byte is written, in the order of `byte_over`.
    fn found(&self, worker: usize, round: u16, change: &Change) -> usize {
        let last = self.last.get(&change.address);
        let of_another = last.is_some_and(|&(other, then)| other != worker && then == round);
        match (change.before == change.twin, change.before == change.after) {
            (true, _) if of_another => 3,
            (true, _) => 0,
            (false, false) => 1,
            (false, true) => 2,
        }
    }
}

impl Meetings {
    /// A commit of pages that a worker has copied, with its stores.
    pub fn commits(&mut self, by: By, stored: &[usize], changes: &[Change]) {
        let sum = moved(changes);
        self.note_one_of(Limit::SumMoved, &MOVED, sum);
        if changes.iter().any(|change| change.after != change.before) {
            let way = match sum {
                1.. => 0,
                ..=-1 => 1,
                0 => 2,
            };
            self.note(Limit::CommitBy, WAYS.len() * by as usize + way);
        }
        for &address in stored.iter().filter(|address| *address % 2 == 1) {
            let writes = |at: usize| changes.iter().any(|change| change.address == at);
            let both = usize::from(writes(address)) + 2 * usize::from(writes(address + 1));
            self.note(Limit::OddStore, both);
            if address % 256 == 255 {
                self.note(Limit::BorderStore, 4 * (address / 256) + both);
            }
        }
    }

    /// A failure loses bytes which would have moved the sum.
    pub fn lost(&mut self, stand: Stand, op: u8, changes: &[Change]) {
        if moved(changes) == 0 {
            return;
        }
        let place = match op {
            33 if stand.count == 0 => 0,
            34 => 1,
            37 => 2,
            38 if stand.place < stand.length => 3,
            38 => 4,
            32 => 5,
            _ => 6,
        };
        self.note(Limit::Lost, place);
    }

    /// The list of turns has ended before these bytes were committed, which
    /// would move the sum.
    pub fn uncommitted(&mut self, place: Place, changes: &[Change]) {
        if moved(changes) != 0 {
            self.note(Limit::Uncommitted, place as usize);
        }
    }
}

pub fn commit_by(place: usize) -> String {
    format!("{}, {}", BY[place / WAYS.len()], WAYS[place % WAYS.len()])
}

const ADDRESSES: [&str; 2] = ["even", "odd"];

pub fn byte_over(place: usize) -> String {
    let names = [
        "over its twin",
        "over another byte of this round",
        "over an equal byte of this round",
        "over a byte that is its twin again",
    ];
    format!("{} address, {}", ADDRESSES[place % 2], names[place / 2])
}

pub fn word_of_two(place: usize) -> String {
    let last = ["low", "high"][place % 2];
    let round = ["this round", "an earlier round"][place / 2];
    format!("the {last} byte beside one of {round}")
}

const WRITTEN: [&str; 4] = ["no byte", "its low byte", "its high byte", "both bytes"];

pub fn odd_store(place: usize) -> String {
    WRITTEN[place].to_string()
}

pub fn border_store(place: usize) -> String {
    format!("at {}, {}", 256 * (place / 4) + 255, WRITTEN[place % 4])
}

/// In the order of `Place`.
pub fn uncommitted(place: usize) -> String {
    let names = [
        "one before the fence",
        "one at the fence",
        "the holder with count 0",
        "the holder with a count",
        "one behind the holder",
    ];
    names[place].to_string()
}

pub fn lost(place: usize) -> String {
    let names = [
        "unlock, none held",
        "wait",
        "barrier",
        "exit",
        "end of steps",
        "lock",
        "unlock, others held",
    ];
    names[place].to_string()
}
