//! Plans whose workers write the same few words in every round, so that
//! commits come upon each other's bytes and move the sum of all words up, down
//! or not at all.

use crate::check::Step;
use crate::format::{MOST_STEPS, MOST_WORKERS};
use crate::generate::draft::{step, Draft};
use crate::generate::locks::{another_lock, held_behind};
use crate::generate::rng::Rng;
use crate::generate::starts::with_sleepers;

/// First addresses of small areas, most of them at a page border.
const AREAS: [u16; 10] = [0, 1, 6, 253, 254, 510, 1_022, 1_534, 1_790, 2_043];

/// Addresses in an area.
const NEIGHBOURS: usize = 4;

/// Values of which many have a byte in common.
const VALUES: [u16; 10] = [0, 1, 255, 256, 257, 511, 0xFF00, 0xFF01, 0xFFFE, 65_535];

/// A register that no step sets.
const UNSET: u8 = 3;

/// Conditions 0 and 1 are in use; so are barriers of all, of one, and of any
/// number.
const CONDITIONS: usize = 2;
const BARRIERS: usize = 3;

/// What the workers of a plan have in common.
struct Area {
    first: u16,
    values: Vec<u16>,
    /// Whether all writes are words that change places.
    swaps: bool,
    workers: usize,
}

/// A plan of stores and of every step that commits.
pub fn sums(rng: &mut Rng) -> Draft {
    let workers = match rng.chance(1, 2) {
        true => rng.between(2, 3),
        false => rng.between(2, MOST_WORKERS),
    };
    let area = Area {
        first: rng.pick(&AREAS),
        values: (0..rng.between(1, 4)).map(|_| rng.pick(&VALUES)).collect(),
        swaps: rng.chance(1, 4),
        workers,
    };
    let sizes = [
        (0, workers as u16),
        (1, 1),
        (2, rng.between(1, MOST_WORKERS) as u16),
    ];
    let steps = (0..workers).map(|_| row(rng, &area)).collect();
    with_sleepers(rng, Draft::new(&sizes, steps))
}

/// The steps of one worker while they are written.
struct Row<'a> {
    rng: &'a mut Rng,
    area: &'a Area,
    steps: Vec<Step>,
}

/// Writes and commits by turns; at times the last bytes are left to the end of
/// the steps.
fn row(rng: &mut Rng, area: &Area) -> Vec<Step> {
    let steps = Vec::new();
    let mut row = Row { rng, area, steps };
    for _ in 0..row.rng.between(1, 4) {
        row.write_some();
        row.commit();
    }
    if row.rng.chance(1, 2) {
        row.write_some();
    }
    row.steps.truncate(MOST_STEPS);
    row.steps
}

impl Row<'_> {
    fn put(&mut self, op: u8, register: u8, number: u16) {
        self.steps.push(step(op, register, number));
    }

    fn address(&mut self) -> u16 {
        self.area.first + self.rng.below(NEIGHBOURS) as u16
    }

    fn write_some(&mut self) {
        for _ in 0..self.rng.between(1, 3) {
            self.write();
        }
    }

    /// A value, zero, or a loaded word elsewhere; or two words change places.
    fn write(&mut self) {
        let (one, other) = (self.address(), self.address());
        match self.rng.below(8) {
            _ if self.area.swaps => self.swap(one),
            0 => self.put(18, UNSET, one),
            1 => {
                self.put(17, 0, one);
                self.put(18, 0, other);
            }
            2 => self.swap(one),
            _ => {
                let value = self.rng.pick(&self.area.values);
                self.put(16, 0, value);
                self.put(18, 0, one);
            }
        }
    }

    /// A word and a distant one, both at even addresses or both at odd ones,
    /// change places, so that the sum stays.
    fn swap(&mut self, one: u16) {
        let far = (self.area.first.abs_diff(1_000) & !1) + one % 2;
        self.put(17, 0, one);
        self.put(17, 1, far);
        self.put(18, 0, far);
        self.put(18, 1, one);
    }

    /// A step that commits, inside a lock or without one.
    fn commit(&mut self) {
        match self.rng.below(12) {
            0 => self.put(37, 0, 0),
            1 => {
                let barrier = self.rng.below(BARRIERS) as u16;
                self.put(37, 0, barrier);
            }
            2 | 3 => self.wake_or_start(),
            4 | 5 => self.locked(Row::wake_or_start),
            6 | 7 => self.locked(Row::wait),
            8 => self.slip(),
            9 if self.rng.chance(1, 4) => self.put(38, 0, 0),
            _ => self.locked(Row::write),
        }
    }

    /// A step inside a lock, mostly with bytes to commit before and behind it.
    fn locked(&mut self, inside: fn(&mut Self)) {
        let lock = self.free_lock();
        self.put(32, 0, lock);
        if self.rng.chance(3, 4) {
            self.write();
        }
        inside(self);
        if self.rng.chance(3, 4) {
            self.write();
        }
        self.put(33, 0, lock);
    }

    fn free_lock(&mut self) -> u16 {
        another_lock(self.rng, &held_behind(&self.steps))
    }

    fn condition(&mut self) -> u16 {
        self.rng.below(CONDITIONS) as u16
    }

    fn wait(&mut self) {
        let condition = self.condition();
        self.put(34, 0, condition);
    }

    fn wake_or_start(&mut self) {
        let condition = self.condition();
        let target = self.rng.below(self.area.workers) as u16;
        match self.rng.below(3) {
            0 => self.put(35, 0, condition),
            1 => self.put(36, 0, condition),
            _ => self.put(39, 0, target),
        }
    }

    /// Something that fails, so that the bytes before it are lost, at once or,
    /// with a lock that stays, in the end.
    fn slip(&mut self) {
        let lock = self.free_lock();
        match self.rng.below(7) {
            0 => self.put(33, 0, lock),
            1 => self.wait(),
            way => {
                self.put(32, 0, lock);
                self.write_some();
                match way {
                    2 => self.put(37, 0, 1),
                    3 => self.put(38, 0, 0),
                    4 => self.put(32, 0, lock),
                    5 => self.put(33, 0, lock ^ 1),
                    _ => {}
                }
            }
        }
    }
}
