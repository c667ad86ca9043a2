//! Writing the steps of one worker, block by block.

use crate::check::Step;
use crate::format::MOST_STEPS;
use crate::generate::draft::step;
use crate::generate::locks::{another_lock, any_order, held_behind};
use crate::generate::rng::Rng;

/// What the workers of one plan have in common.
#[derive(Clone, Debug)]
pub struct Taste {
    /// The few addresses that all workers load from and store to.
    pub addresses: Vec<u16>,
    /// Barriers that have a size.
    pub barriers: Vec<u16>,
    /// Conditions in use.
    pub conditions: Vec<u16>,
    /// Count of workers, and those that sleep at first.
    pub workers: u16,
    pub sleepers: Vec<u16>,
    /// How likely each block is, in the order of `Script::block`.
    pub weights: [usize; BLOCKS],
}

/// Count of kinds of blocks.
pub const BLOCKS: usize = 10;

/// Values that show carries, differing halves and equal bytes.
const VALUES: [u16; 12] = [0, 1, 2, 5, 7, 255, 256, 257, 511, 0x0101, 0xFF00, 65_535];

/// The steps of one worker while they are written.
pub struct Script<'a> {
    rng: &'a mut Rng,
    taste: &'a Taste,
    steps: Vec<Step>,
}

/// So many steps of one worker, block by block. At the end the last block
/// is cut at times, which can leave a lock locked; mostly steps on registers
/// and memory fill the place that is too small for a block.
pub fn script(rng: &mut Rng, taste: &Taste, length: usize) -> Vec<Step> {
    let cuts = rng.chance(1, 8);
    let mut script = Script {
        rng,
        taste,
        steps: Vec::new(),
    };
    while script.steps.len() < length {
        let before = script.steps.len();
        script.block();
        if script.steps.len() > length && !cuts {
            script.steps.truncate(before);
            script.plain();
        }
    }
    script.steps.truncate(length);
    script.steps
}

impl Script<'_> {
    fn put(&mut self, op: u8, register: u8, number: u16) {
        self.steps.push(step(op, register, number));
    }

    fn register(&mut self) -> u8 {
        self.rng.below(4) as u8
    }

    /// A lock that the steps so far do not leave locked.
    fn free_lock(&mut self) -> u16 {
        another_lock(self.rng, &held_behind(&self.steps))
    }

    /// Takes so many more locks and says which.
    fn take(&mut self, count: usize) -> Vec<u16> {
        let mut taken = Vec::new();
        for _ in 0..count {
            let lock = self.free_lock();
            self.put(32, 0, lock);
            taken.push(lock);
        }
        taken
    }

    /// Gives these locks back, in any order.
    fn give_back(&mut self, locks: &[u16]) {
        for lock in any_order(self.rng, locks) {
            self.put(33, 0, lock);
        }
    }

    fn address(&mut self) -> u16 {
        self.rng.pick(&self.taste.addresses)
    }

    fn block(&mut self) {
        match self.rng.weighted(&self.taste.weights) {
            0 => self.plain(),
            1 => self.bump(),
            2 => self.section(2),
            3 => self.wait(),
            4 => self.signal(),
            5 => self.barrier(),
            6 => self.slip(),
            7 => self.put(38, 0, 0),
            8 => self.loose(),
            _ => self.start(),
        }
    }

    /// One step on registers or memory.
    fn plain(&mut self) {
        let register = self.register();
        let other = u16::from(self.register());
        match self.rng.below(6) {
            0 => {
                let value = self.value();
                self.put(16, register, value);
            }
            1 => {
                let address = self.address();
                self.put(17, register, address);
            }
            2 | 3 => {
                let address = self.address();
                self.put(18, register, address);
            }
            4 => self.put(19, register, other),
            _ => self.put(20, register, other),
        }
    }

    fn value(&mut self) -> u16 {
        if self.rng.chance(1, 4) {
            self.rng.draw() as u16
        } else {
            self.rng.pick(&VALUES)
        }
    }

    /// Adds a value to the word at a shared address.
    fn bump(&mut self) {
        let address = self.address();
        let value = self.value();
        self.put(16, 1, value);
        self.put(17, 0, address);
        self.put(19, 0, 1);
        self.put(18, 0, address);
    }

    /// A locked section, with a further one inside it at times; or one of
    /// several locks.
    fn section(&mut self, depth: usize) {
        let locks = if self.rng.chance(1, 4) {
            self.rng.between(2, 3)
        } else {
            1
        };
        let taken = self.take(locks);
        for _ in 0..self.rng.below(3) {
            match self.rng.below(5) {
                0 if depth > 0 => self.section(depth - 1),
                1 => self.plain(),
                2 => self.bare_signal(),
                3 if !self.taste.sleepers.is_empty() => self.bare_start(),
                _ => self.bump(),
            }
        }
        self.give_back(&taken);
    }

    /// A wait inside one to three locks.
    fn wait(&mut self) {
        let locks = self.rng.pick(&[1, 1, 2, 3]);
        let taken = self.take(locks);
        if self.rng.chance(1, 2) {
            self.bump();
        }
        let condition = self.rng.pick(&self.taste.conditions);
        self.put(34, 0, condition);
        if self.rng.chance(1, 2) {
            self.bump();
        }
        self.give_back(&taken);
    }

    fn bare_signal(&mut self) {
        let op = self.rng.pick(&[35, 36]);
        let condition = self.rng.pick(&self.taste.conditions);
        self.put(op, 0, condition);
    }

    /// A signal or broadcast, or a few of them inside a lock.
    fn signal(&mut self) {
        if self.rng.chance(1, 2) {
            return self.bare_signal();
        }
        let taken = self.take(1);
        for _ in 0..self.rng.between(1, 3) {
            self.bare_signal();
            if self.rng.chance(1, 3) {
                self.plain();
            }
        }
        self.give_back(&taken);
    }

    /// A start, mostly of one that sleeps at first.
    fn bare_start(&mut self) {
        let anybody = self.taste.sleepers.is_empty() || self.rng.chance(1, 4);
        let target = match anybody {
            true => self.rng.below(usize::from(self.taste.workers)) as u16,
            false => self.rng.pick(&self.taste.sleepers),
        };
        self.put(39, 0, target);
    }

    /// A start or several, and what the holder does with the token it kept:
    /// its own steps, a lock that commits again, or any other way on.
    fn start(&mut self) {
        for _ in 0..self.rng.between(1, 3) {
            self.bare_start();
            if self.rng.chance(1, 3) {
                self.bump();
            }
        }
        match self.rng.below(6) {
            0 => self.bump(),
            1 => self.section(0),
            2 => self.barrier(),
            3 => self.bare_signal(),
            4 => self.wait(),
            _ => {}
        }
    }

    fn barrier(&mut self) {
        match self.taste.barriers.is_empty() {
            true => self.plain(),
            false => {
                let barrier = self.rng.pick(&self.taste.barriers);
                self.put(37, 0, barrier);
            }
        }
    }

    /// Something that fails with the locks the block itself leads to.
    fn slip(&mut self) {
        self.bump();
        match self.rng.below(6) {
            0 => {
                let lock = self.free_lock();
                self.put(33, 0, lock);
            }
            1 => {
                let condition = self.rng.pick(&self.taste.conditions);
                self.put(34, 0, condition);
            }
            way => self.slip_inside(way),
        }
    }

    /// Something that fails inside a lock or two.
    fn slip_inside(&mut self, way: usize) {
        let locks = self.rng.between(1, 2);
        let taken = self.take(locks);
        self.bump();
        match way {
            2 => self.barrier(),
            3 => self.put(38, 0, 0),
            4 => {
                let lock = self.free_lock();
                self.put(33, 0, lock);
            }
            _ => {
                let lock = self.rng.pick(&taken);
                self.put(32, 0, lock);
            }
        }
    }

    /// A lock that is locked, or, seldom and where there is none, any.
    fn held_lock(&mut self) -> u16 {
        let held = held_behind(&self.steps);
        match held.is_empty() || self.rng.chance(1, 8) {
            true => self.rng.below(16) as u16,
            false => self.rng.pick(&held),
        }
    }

    /// Any step at all but a skip.
    fn loose(&mut self) {
        let condition = self.rng.pick(&self.taste.conditions);
        match self.rng.below(20) {
            0 | 1 => {
                let lock = self.free_lock();
                self.put(32, 0, lock);
            }
            2 | 3 => {
                let lock = self.held_lock();
                self.put(33, 0, lock);
            }
            4 if self.rng.chance(1, 2) => self.put(34, 0, condition),
            5 | 6 => self.bare_signal(),
            7 => self.barrier(),
            8 if self.rng.chance(1, 4) => self.put(38, 0, 0),
            9 | 10 => {
                let (register, value) = (self.register(), self.value());
                self.put(16, register, value);
            }
            11 | 12 => self.bare_start(),
            _ => self.plain(),
        }
    }
}

/// Puts skips among the steps of one worker. While there is room they are
/// added, else they take the place of a step. Each lands within the steps or
/// just behind the last one.
pub fn add_skips(rng: &mut Rng, steps: &mut Vec<Step>, count: usize) {
    for _ in 0..count {
        if steps.len() < 2 {
            return;
        }
        let place = rng.below(steps.len() - 1);
        let adds = steps.len() < MOST_STEPS && rng.chance(3, 4);
        let room = steps.len() - 1 - place + usize::from(adds);
        let most = if rng.chance(1, 4) { 127 } else { 4 };
        let far = if rng.chance(1, 4) {
            room.min(127)
        } else {
            rng.between(1, room.min(most))
        };
        let op = rng.pick(&[21, 22]);
        let skip = step(op, rng.below(4) as u8, far as u16);
        if adds {
            steps.insert(place, skip);
        } else {
            steps[place] = skip;
        }
    }
}
