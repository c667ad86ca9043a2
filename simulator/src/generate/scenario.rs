//! Whole calls for a comparison of two engines.

use crate::generate::buffers::{memory, noise, wrong_lengths, LENGTHS};
use crate::generate::damage::{
    damaged_files, double_fault, fuzzed, lengthened, showcase, single_fault, Damaged,
};
use crate::generate::draft::Draft;
use crate::generate::last_turn::{cut_moves, last_turn_moves};
use crate::generate::plans::{plan, PlanKind};
use crate::generate::rng::Rng;
use crate::generate::turns::{misnamed, too_long, turns, TurnKind};

/// How the turn list of a scenario is made.
#[derive(Clone, Copy, Debug, PartialEq, Eq)]
pub enum ListKind {
    Made(TurnKind),
    /// As long as a list may be, or one turn shorter, and its last turn moves.
    LastMoves,
    /// Moves alone, cut anywhere.
    Cut,
    /// Above 65,535 turns.
    TooLong,
    /// With a turn that names no worker.
    Misnamed,
}

/// All that is lent to one run, with old contents in every buffer.
#[derive(Clone, Debug, PartialEq, Eq)]
pub struct Scenario {
    pub label: String,
    pub plan: PlanKind,
    pub list: ListKind,
    pub file: Vec<u8>,
    pub turns: Vec<u8>,
    pub memory: Vec<u8>,
    pub log: Vec<u8>,
    pub report: Vec<u8>,
    pub work: Vec<u8>,
}

impl Scenario {
    /// Runs the scenario on its own buffers and gives the call's answer.
    pub fn run(&mut self) -> u32 {
        crate::calls::run(
            &self.file,
            &self.turns,
            &mut self.memory,
            &mut self.log,
            &mut self.report,
            &mut self.work,
        )
    }
}

/// A source of scenarios; each is settled by its seed alone.
pub struct Scenarios {
    base: Draft,
    damaged: Vec<Damaged>,
}

impl Default for Scenarios {
    fn default() -> Self {
        Self::new()
    }
}

impl Scenarios {
    /// The source, with its damaged files made once.
    pub fn new() -> Self {
        Scenarios {
            base: showcase(),
            damaged: damaged_files(&mut Rng::new(0), 0),
        }
    }

    /// The scenario of a seed. Most are accepted; the others have a damaged
    /// file, wrong turns or wrong lengths, at times several of these at once.
    pub fn of(&self, seed: u64) -> Scenario {
        let mut rng = Rng::new(seed);
        // Long plans are costly, so they come less often.
        let kind = match rng.below(48) {
            0..3 => rng.pick(&PlanKind::LONG),
            3..6 => rng.pick(&PlanKind::FAR),
            6..16 => PlanKind::Sums,
            16..21 => PlanKind::Names,
            _ => rng.pick(&PlanKind::SMALL),
        };
        let draft = plan(&mut rng, kind);
        let memory = memory(&mut rng);
        let cuts = rng.chance(if kind == PlanKind::Sums { 8 } else { 1 }, 16);
        let (list, turns) = match cuts {
            true => (ListKind::Cut, cut_moves(&mut rng, &draft, &memory)),
            false => turn_list(&mut rng, &draft, &memory),
        };
        let (file_label, file) = self.plan_file(&mut rng, &draft);
        let mut scenario = Scenario {
            label: format!("seed {seed}, {kind:?}, {list:?}, {file_label}"),
            plan: kind,
            list,
            file,
            turns,
            memory,
            log: Vec::new(),
            report: Vec::new(),
            work: Vec::new(),
        };
        lend(&mut rng, &mut scenario);
        scenario
    }

    fn plan_file(&self, rng: &mut Rng, draft: &Draft) -> (String, Vec<u8>) {
        let damaged = match rng.below(20) {
            0 => double_fault(rng, &self.base),
            1 => fuzzed(rng, draft),
            2 => single_fault(rng, draft),
            3 => self.damaged[rng.below(self.damaged.len())].clone(),
            4 if draft.step_count() > 1_000 => lengthened(rng, draft),
            _ => return ("whole".to_string(), draft.file()),
        };
        (damaged.label, damaged.file)
    }
}

fn turn_list(rng: &mut Rng, draft: &Draft, memory: &[u8]) -> (ListKind, Vec<u8>) {
    let (workers, steps) = (draft.workers(), draft.step_count());
    match rng.below(64) {
        0 => (ListKind::TooLong, too_long(rng, workers)),
        1 | 2 => (ListKind::Misnamed, misnamed(rng, workers, steps)),
        // The longest lists are costly, so they come less often.
        3 => longest_list(rng, draft, memory),
        _ => {
            let kind = rng.pick(&TurnKind::CHEAP);
            (ListKind::Made(kind), turns(rng, kind, workers, steps))
        }
    }
}

/// A longest list, of which the last turn moves in half of the cases in which
/// there is one of that kind.
fn longest_list(rng: &mut Rng, draft: &Draft, memory: &[u8]) -> (ListKind, Vec<u8>) {
    let moving = match rng.chance(1, 2) {
        true => last_turn_moves(rng, draft, memory),
        false => None,
    };
    match moving {
        Some(list) => (ListKind::LastMoves, list),
        None => (
            ListKind::Made(TurnKind::Longest),
            turns(rng, TurnKind::Longest, draft.workers(), draft.step_count()),
        ),
    }
}

/// Gives the buffers their lengths and old contents.
fn lend(rng: &mut Rng, scenario: &mut Scenario) {
    let wrong = rng.chance(1, 24);
    let lengths = if wrong { wrong_lengths(rng) } else { LENGTHS };
    scenario.memory.resize(lengths[0], 0);
    scenario.log = noise(rng, lengths[1]);
    scenario.report = noise(rng, lengths[2]);
    scenario.work = noise(rng, lengths[3]);
}
