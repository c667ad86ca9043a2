//! Plans and turn lists at each limit of the paper, always run before the
//! random calls. Chance seldom or never goes so far.

pub mod batches;
mod broadcasts;
mod depths;
mod full_lists;
mod locks;
mod operands;
mod pages;
mod queues;
mod refusals;
mod skips;
mod starts;
mod sums;
mod totals;
pub mod unnamed;

use simulator::format::MEMORY_LENGTH;
use simulator::generate::draft::step;
use simulator::generate::Draft;
use simulator::turn_machine::End;
use simulator::{check, Machine, Plan, Step};

/// A file, a turn list and a starting memory at a limit.
pub struct Limit {
    pub name: String,
    pub file: Vec<u8>,
    pub turns: Vec<u8>,
    pub memory: Vec<u8>,
}

impl Limit {
    fn new(name: &str, file: Vec<u8>, turns: Vec<u8>) -> Self {
        Limit {
            name: format!("at the limits: {name}"),
            file,
            turns,
            memory: memory(),
        }
    }

    /// The same with another starting memory.
    fn on(mut self, memory: &[u8]) -> Self {
        self.memory = memory.to_vec();
        self
    }
}

/// All of them.
pub fn all() -> Vec<Limit> {
    let parts = [
        broadcasts::all(),
        depths::all(),
        full_lists::all(),
        locks::all(),
        operands::all(),
        pages::all(),
        queues::all(),
        refusals::all(),
        skips::all(),
        starts::all(),
        sums::all(),
        totals::all(),
    ];
    parts.into_iter().flatten().collect()
}

/// A starting memory in which no byte is zero, and pages differ from each other.
fn memory() -> Vec<u8> {
    let byte = |address: usize| (1 + (3 * address + 50 * (address / 256)) % 255) as u8;
    (0..MEMORY_LENGTH).map(byte).collect()
}

/// A step as often as told.
fn times(count: usize, op: u8, number: u16) -> Vec<Step> {
    vec![step(op, 0, number); count]
}

/// So many different locks, other ones for other counts.
fn some_locks(count: usize) -> Vec<u16> {
    let each = |place: usize| (5 * place + 3 * count) as u16 % 16;
    (0..count).map(each).collect()
}

fn draft(barriers: &[(u8, u16)], steps: Vec<Vec<Step>>) -> Draft {
    Draft::new(barriers, steps)
}

fn plan_of(draft: &Draft) -> Plan {
    check(&draft.file()).expect("an accepted plan")
}

/// The turns that move when cycles in this order are played to the end.
fn moving_turns(plan: &Plan, order: &[u8]) -> Vec<u8> {
    moving_turns_on(&memory(), plan, order)
}

fn moving_turns_on(memory: &[u8], plan: &Plan, order: &[u8]) -> Vec<u8> {
    let mut machine = Machine::new(plan, memory);
    let mut moving = Vec::new();
    while machine.end() == End::Going {
        let cycle = order.iter().copied();
        moving.extend(cycle.filter(|&worker| machine.turn(usize::from(worker))));
    }
    moving
}

fn rising(plan: &Plan) -> Vec<u8> {
    (0..plan.workers() as u8).collect()
}

/// A plan under three lists: half of its moves, all of them, and cycles the
/// other way round, which hold turns that pass and go on behind the end.
fn played(name: &str, draft: &Draft) -> Vec<Limit> {
    let (file, plan) = (draft.file(), plan_of(draft));
    let moving = moving_turns(&plan, &rising(&plan));
    let falling: Vec<u8> = rising(&plan).into_iter().rev().collect();
    let half = moving[..moving.len() / 2].to_vec();
    let cycles = falling.repeat(moving.len());
    vec![
        Limit::new(name, file.clone(), half),
        Limit::new(name, file.clone(), moving),
        Limit::new(name, file, cycles),
    ]
}

/// A plan under every beginning of its moves, from the empty one on.
fn every_beginning(name: &str, draft: &Draft, memory: &[u8]) -> Vec<Limit> {
    let (file, plan) = (draft.file(), plan_of(draft));
    let moving = moving_turns_on(memory, &plan, &rising(&plan));
    let cut = |length: usize| Limit::new(name, file.clone(), moving[..length].to_vec());
    (0..=moving.len())
        .map(|length| cut(length).on(memory))
        .collect()
}
