//! What a worker holds: its locks by name, or by the rule that stood before
//! no more than how many there are.

/// The set of a worker's locks.
#[derive(Clone, Copy, Debug, PartialEq, Eq)]
pub enum Held {
    /// A bit for each lock, 0 to 15.
    Names(u16),
    /// Any lock is as good as any other.
    Count(u8),
}

impl Held {
    pub const NO_NAMES: Held = Held::Names(0);
    pub const NO_COUNT: Held = Held::Count(0);

    pub fn size(self) -> u8 {
        match self {
            Held::Names(names) => names.count_ones() as u8,
            Held::Count(count) => count,
        }
    }

    pub fn can_lock(self, lock: u16) -> bool {
        match self {
            Held::Names(names) => names >> lock & 1 == 0,
            Held::Count(_) => true,
        }
    }

    pub fn can_unlock(self, lock: u16) -> bool {
        match self {
            Held::Names(names) => names >> lock & 1 == 1,
            Held::Count(count) => count > 0,
        }
    }

    /// Takes a lock that can be locked.
    pub fn lock(&mut self, lock: u16) {
        match self {
            Held::Names(names) => *names |= 1 << lock,
            Held::Count(count) => *count += 1,
        }
    }

    /// Gives a lock back that can be unlocked.
    pub fn unlock(&mut self, lock: u16) {
        match self {
            Held::Names(names) => *names &= !(1 << lock),
            Held::Count(count) => *count -= 1,
        }
    }
}
