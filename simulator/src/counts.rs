//! Counts of the rules that a run tried, so that a test can say that it left
//! none of them out.

mod board;
mod limits;
mod locks;
mod meeting;
mod sums;
mod waking;

pub use board::{Board, Row};
pub use limits::{Limit, Met, ROWS};
pub use locks::{Other, Taken, Tried};
pub use meeting::{Found, Hold, Joining, Meetings, Move, Sight, Stand};
pub use sums::{Authors, By, Change, Place};
pub use waking::{Waking, Woke};

use crate::check::Step;

/// How often each op and each way of passing came up.
#[derive(Clone, Debug, Default, PartialEq, Eq)]
pub struct Counts {
    /// Executed steps by op, failed ones included, ends of steps not.
    pub ops: [u64; 32],
    pub synchronising: [u64; 8],
    /// Ends of steps, as op 38.
    pub ends_of_steps: u64,
    pub arrivals: u64,
    /// Skips that skipped, for op 21 and for op 22.
    pub skips_taken: [u64; 2],
    pub skips_not_taken: [u64; 2],
    /// Sums above 65,535 and differences below 0.
    pub wraps: [u64; 2],
    /// Loads and stores over a page border.
    pub border_loads: u64,
    pub border_stores: u64,
    pub passes_at_fence: u64,
    pub passes_without_token: u64,
    /// Of workers that wait or have left, or stand in the next list.
    pub passes_out_of_list: u64,
    pub passes_asleep: u64,
    /// Of workers that were started in this round.
    pub passes_before_first_round: u64,
    pub passes_behind_end: u64,
    pub limits: Meetings,
}

impl Counts {
    /// A step on registers or memory.
    pub fn plain(&mut self, stand: Stand, step: Step, sight: &Sight) {
        self.limits.plain(stand, step, sight);
        self.ops[usize::from(step.op)] += 1;
        let registers = sight.registers;
        let own = registers[usize::from(step.register)];
        let over_border = step.number % 256 == 255;
        match step.op {
            17 if over_border => self.border_loads += 1,
            18 if over_border => self.border_stores += 1,
            19 | 20 => self.sum(step, own, registers),
            21 => self.skip(0, own == 0),
            22 => self.skip(1, own != 0),
            _ => {}
        }
    }

    fn sum(&mut self, step: Step, own: u16, registers: [u16; 4]) {
        let other = registers[usize::from(step.number)];
        let wraps = match step.op {
            19 => own.checked_add(other).is_none(),
            _ => own.checked_sub(other).is_none(),
        };
        self.wraps[usize::from(step.op - 19)] += u64::from(wraps);
    }

    fn skip(&mut self, which: usize, taken: bool) {
        match taken {
            true => self.skips_taken[which] += 1,
            false => self.skips_not_taken[which] += 1,
        }
    }

    /// A step of the holder, or its end of steps as op 38.
    pub fn synchronising(&mut self, stand: Stand, op: u8) {
        self.limits.synchronising(stand, op);
        match stand.place == stand.length {
            true => self.ends_of_steps += 1,
            false => self.synchronising[usize::from(op - 32)] += 1,
        }
    }
}

/// Names of the synchronising ops, 32 to 39.
const SYNCHRONISING: [&str; 8] = [
    "lock",
    "unlock",
    "wait",
    "signal",
    "broadcast",
    "barrier",
    "exit",
    "start",
];

/// Names of the other ops, 16 to 22.
const PLAIN: [&str; 7] = [
    "set",
    "load",
    "store",
    "add",
    "subtract",
    "skip if zero",
    "skip if not zero",
];

impl Counts {
    /// A name and a count for everything that is counted.
    pub fn rows(&self) -> Vec<(String, u64)> {
        let mut rows = Vec::new();
        for (name, count) in PLAIN.iter().zip(&self.ops[16..23]) {
            rows.push((format!("op {name}"), *count));
        }
        for (name, count) in SYNCHRONISING.iter().zip(&self.synchronising) {
            rows.push((format!("op {name}"), *count));
        }
        for (which, name) in ["zero", "not zero"].into_iter().enumerate() {
            rows.push((format!("skip if {name}, taken"), self.skips_taken[which]));
            let not_taken = self.skips_not_taken[which];
            rows.push((format!("skip if {name}, not taken"), not_taken));
        }
        let others = [
            ("end of steps", self.ends_of_steps),
            ("arrival", self.arrivals),
            ("sum above 65,535", self.wraps[0]),
            ("difference below 0", self.wraps[1]),
            ("load over a page border", self.border_loads),
            ("store over a page border", self.border_stores),
            ("pass at the fence", self.passes_at_fence),
            ("pass without the token", self.passes_without_token),
            ("pass out of the list", self.passes_out_of_list),
            ("pass of a sleeper", self.passes_asleep),
            (
                "pass of a started worker before its first round",
                self.passes_before_first_round,
            ),
            ("pass behind the end", self.passes_behind_end),
        ];
        rows.extend(others.map(|(name, count)| (name.to_string(), count)));
        rows
    }

    /// Adds the counts of another run. The limits that it met are not kept;
    /// a `Board` counts them.
    pub fn add(&mut self, other: &Counts) {
        add_all(&mut self.ops, &other.ops);
        add_all(&mut self.synchronising, &other.synchronising);
        add_all(&mut self.skips_taken, &other.skips_taken);
        add_all(&mut self.skips_not_taken, &other.skips_not_taken);
        add_all(&mut self.wraps, &other.wraps);
        self.ends_of_steps += other.ends_of_steps;
        self.arrivals += other.arrivals;
        self.border_loads += other.border_loads;
        self.border_stores += other.border_stores;
        self.passes_at_fence += other.passes_at_fence;
        self.passes_without_token += other.passes_without_token;
        self.passes_out_of_list += other.passes_out_of_list;
        self.passes_asleep += other.passes_asleep;
        self.passes_before_first_round += other.passes_before_first_round;
        self.passes_behind_end += other.passes_behind_end;
    }
}

fn add_all(to: &mut [u64], from: &[u64]) {
    for (sum, more) in to.iter_mut().zip(from) {
        *sum += more;
    }
}
