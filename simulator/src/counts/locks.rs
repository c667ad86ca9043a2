//! Limits of locks by name: how many and which a worker holds, in which order
//! it gives them back, what it fails at, and which of them others hold.

use crate::counts::limits::Limit;
use crate::counts::meeting::{Meetings, Stand};

/// Locks are numbered 0 to 15.
pub const LOCKS: usize = 16;

/// What comes of a lock or an unlock.
#[derive(Clone, Copy, Debug, PartialEq, Eq)]
pub enum Tried {
    Locked,
    Unlocked,
    /// The worker holds it already.
    LockFailed,
    /// It holds others.
    WrongUnlockFailed,
    /// It holds no lock at all.
    UnlockFailed,
}

/// In the order of `Tried`.
const TRIED: [&str; 5] = [
    "lock",
    "unlock",
    "lock failed",
    "unlock failed, others held",
    "unlock failed, none held",
];

impl Tried {
    /// What a lock or an unlock of a worker that holds so many comes to.
    pub fn new(op: u8, count: u8, fails: bool) -> Self {
        match (op, fails, count) {
            (32, false, _) => Tried::Locked,
            (32, true, _) => Tried::LockFailed,
            (_, false, _) => Tried::Unlocked,
            (_, true, 0) => Tried::UnlockFailed,
            (_, true, _) => Tried::WrongUnlockFailed,
        }
    }
}

/// Where another worker is that holds a lock.
#[derive(Clone, Copy, Debug, PartialEq, Eq)]
pub enum Other {
    Waits,
    Failed,
    WasWoken,
}

/// In the order of `Other`.
const OTHERS: [&str; 3] = ["one that waits", "one that failed", "one that was woken"];

/// Count of ways to come upon a lock that another holds. The last one cannot
/// be: in front of a woken worker stands only who woke it, or was woken with
/// it, and has held a lock since.
pub const BESIDE: usize = TRIED.len() * OTHERS.len() - 1;

/// What a worker has done with its locks.
#[derive(Clone, Debug, Default)]
pub struct Taken {
    /// Those that it holds, the first taken first.
    held: Vec<u16>,
    /// Those that it has given back, with others held or none behind it.
    given_back: Vec<(u16, bool)>,
    /// Those that it held when it waited last.
    kept: Vec<u16>,
}

impl Taken {
    pub fn holds(&self, lock: u16) -> bool {
        self.held.contains(&lock)
    }

    fn lock(&mut self, lock: u16) {
        self.held.push(lock);
    }

    fn unlock(&mut self, lock: u16) {
        self.held.retain(|&each| each != lock);
        self.kept.retain(|&each| each != lock);
        self.given_back.retain(|&(each, _)| each != lock);
        self.given_back.push((lock, !self.held.is_empty()));
    }

    /// The worker waits with what it holds.
    pub fn wait(&mut self) {
        self.kept = self.held.clone();
    }
}

impl Meetings {
    /// A lock or an unlock, before the worker's own locks change.
    pub fn tries(&mut self, stand: Stand, lock: u16, tried: Tried, taken: &mut Taken) {
        let (name, kind) = (usize::from(lock), tried as usize);
        let count = usize::from(stand.count);
        match tried {
            Tried::LockFailed => self.note(Limit::FailedLock, count - 1),
            Tried::UnlockFailed | Tried::WrongUnlockFailed => self.note(Limit::FailedUnlock, count),
            _ => {}
        }
        // Both ways to fail at an unlock stand in one place.
        let place = LOCKS * kind.min(3) + name;
        self.note(Limit::LockOfWorker, 4 * LOCKS * stand.worker + place);
        if let [one] = taken.held[..] {
            let which = usize::from(matches!(tried, Tried::Unlocked | Tried::WrongUnlockFailed));
            let pair = LOCKS * usize::from(one) + name;
            self.note(Limit::LockBeside, LOCKS * LOCKS * which + pair);
        }
        self.behind_wait(lock, tried, taken);
        match tried {
            Tried::Locked => self.takes(lock, taken),
            Tried::Unlocked => self.gives_back(lock, taken),
            _ => {}
        }
    }

    /// Others are there that hold a lock as it is tried.
    pub fn held_by_others(&mut self, lock: u16, tried: Tried, others: &[Other]) {
        for &other in others {
            let place = OTHERS.len() * tried as usize + other as usize;
            self.note(Limit::LockOfOther, place);
        }
        let alive = others.iter().filter(|&&other| other != Other::Failed);
        let alive = alive.count();
        if tried == Tried::Locked && alive > 0 {
            self.note(Limit::LockOfOthers, alive - 1);
            self.note(Limit::HeldByTwo, usize::from(lock));
        }
    }

    /// What a woken worker does with the locks that it kept.
    fn behind_wait(&mut self, lock: u16, tried: Tried, taken: &Taken) {
        if taken.kept.is_empty() {
            return;
        }
        let several = usize::from(taken.kept.len() > 1);
        let way = match (tried, taken.kept.contains(&lock)) {
            (Tried::Unlocked, true) => 0,
            (Tried::LockFailed, true) => 1,
            (Tried::WrongUnlockFailed, false) => 2,
            (Tried::Locked, false) => 3,
            _ => return,
        };
        self.note(Limit::KeptLock, 2 * way + several);
    }

    fn takes(&mut self, lock: u16, taken: &mut Taken) {
        let before = taken.given_back.iter().find(|(each, _)| *each == lock);
        if let Some((_, with_others)) = before {
            let place = LOCKS * usize::from(*with_others) + usize::from(lock);
            self.note(Limit::TakenAgain, place);
        }
        taken.lock(lock);
    }

    fn gives_back(&mut self, lock: u16, taken: &mut Taken) {
        match taken.held[..] {
            [] | [_] => {}
            [first, ..] if first == lock => self.note(Limit::GivenBack, 0),
            [.., last] if last == lock => self.note(Limit::GivenBack, 2),
            _ => self.note(Limit::GivenBack, 1),
        }
        taken.unlock(lock);
    }
}

pub fn of_worker(place: usize) -> String {
    let kinds = ["lock", "unlock", "lock failed", "unlock failed"];
    let kind = kinds[place / LOCKS % 4];
    let worker = place / (4 * LOCKS);
    format!("{kind}, {}, worker {worker}", place % LOCKS)
}

pub fn beside_one(place: usize) -> String {
    let op = ["lock", "unlock"][place / (LOCKS * LOCKS)];
    format!("{op} {}, held: {}", place % LOCKS, place / LOCKS % LOCKS)
}

pub fn of_other(place: usize) -> String {
    let other = OTHERS[place % OTHERS.len()];
    format!("{}, held by {other}", TRIED[place / OTHERS.len()])
}

pub fn kept_lock(place: usize) -> String {
    let ways = [
        "unlock of one",
        "lock of one, which fails",
        "unlock of another, which fails",
        "lock of another",
    ];
    let kept = ["one kept", "several kept"][place % 2];
    format!("{}, {kept}", ways[place / 2])
}

pub fn taken_again(place: usize) -> String {
    let held = ["none", "others"][place / LOCKS];
    format!("{}, {held} held when it was given back", place % LOCKS)
}

pub fn given_back(place: usize) -> String {
    ["the first taken", "one in between", "the last taken"][place].to_string()
}
