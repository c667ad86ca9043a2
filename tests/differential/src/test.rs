//! The parts of the test. Each ends at the first difference.

mod pairs;

use simulator::generate::buffers::{noise, LENGTHS};
use simulator::generate::damage::fault_pairs;
use simulator::generate::{damaged_files, showcase, Batch, Batches, Rng, Scenario, Scenarios};

use crate::batch::{self, compare_batch, compare_far, compare_separate, compare_wrapped};
use crate::call::{
    compare_check, compare_rounds, compare_run, compare_vast, compare_vast_check, Call, Difference,
};
use crate::engine::Engine;
use crate::limits::{self, batches};
use crate::pair::Pair;
use crate::tally::{Beyond, Tally};
use crate::tiny;

/// A call on an engine.
pub enum Tried {
    Check(Call),
    Run(Call),
    Batch(Batch),
    Pair(Pair<Call>),
    BatchPair(Pair<Batch>),
}

/// A call for which engine and simulator differ, or a pair of which one call
/// differs from the other.
pub struct Failure {
    pub label: String,
    pub tried: Tried,
    pub difference: Difference,
}

/// The engine under test and what has been tried on it.
pub struct Test {
    pub engine: Engine,
    pub tally: Tally,
    rng: Rng,
    /// Which calls are made again, and from which memory.
    of_pairs: Rng,
    /// Nothing is held against the simulator.
    pairs_alone: bool,
}

type Done = Result<(), Box<Failure>>;

impl Test {
    pub fn new(engine: Engine, seed: u64, pairs_alone: bool) -> Self {
        Test {
            engine,
            tally: Tally::default(),
            rng: Rng::new(!seed),
            of_pairs: Rng::new(seed),
            pairs_alone,
        }
    }

    /// A call with right lengths and random old contents.
    fn call(&mut self, file: &[u8], turns: &[u8], lengths: [usize; 4]) -> Call {
        Call {
            file: file.to_vec(),
            turns: turns.to_vec(),
            lent: lengths.map(|length| noise(&mut self.rng, length)),
        }
    }

    /// Checks the file of a call and, where the engine has one, runs it.
    fn try_call(&mut self, label: &str, call: &Call) -> Done {
        let shift = self.rng.below(16);
        let (answer, difference) = compare_check(&self.engine, &call.file, shift);
        self.tally.check(&call.file, answer);
        self.settle(label, call, true, difference)?;
        if !self.engine.can_run() {
            return Ok(());
        }
        let (verdict, difference) = compare_run(&self.engine, call, shift);
        self.tally.run(call, &verdict);
        self.settle(label, call, false, difference)?;
        if verdict.answer == 0 && verdict.report[0] != 0 {
            self.tally.rounds();
            self.settle(label, call, false, compare_rounds(call))?;
        }
        self.pair_at_times(label, call)
    }

    /// Damaged files: every refusal at every kind of record.
    pub fn damaged(&mut self) -> Done {
        let mut files = damaged_files(&mut self.rng, 400);
        files.extend(fault_pairs(&showcase()));
        for damaged in files {
            let turns = [0, 0, 0];
            let call = self.call(&damaged.file, &turns, LENGTHS);
            self.try_call(&damaged.label, &call)?;
        }
        Ok(())
    }

    /// Each buffer shorter and longer, alone and with every later refusal. A
    /// report that is four bytes short has no sum.
    pub fn lengths(&mut self) -> Done {
        for which in 0..4 {
            let right = LENGTHS[which];
            let low_bits_right = right + 65_536;
            let near = [right - 4, right - 1, right, right + 1];
            for wrong in [&[0, 1][..], &near, &[2 * right, low_bits_right]].concat() {
                let mut lengths = LENGTHS;
                lengths[which] = wrong;
                self.later_refusals(lengths)?;
            }
        }
        Ok(())
    }

    /// Buffers of these lengths with good and bad files and turn lists.
    fn later_refusals(&mut self, lengths: [usize; 4]) -> Done {
        let good = showcase().file();
        let mut bad = good.clone();
        bad[7] = 0;
        let lists = [vec![], vec![0; 65_535], vec![0; 65_536], vec![3]];
        for file in [&good, &bad] {
            for turns in &lists {
                let call = self.call(file, turns, lengths);
                self.try_call("a buffer's length", &call)?;
            }
        }
        Ok(())
    }

    /// Lengths that differ from right ones above their low 32 bits.
    pub fn vast(&mut self) -> Done {
        let file = showcase().file();
        let call = self.call(&file, &[0, 1, 2], LENGTHS);
        let label = "a length told 4 GiB too long";
        let difference = compare_vast_check(&self.engine, &file);
        self.settle(label, &call, true, difference)?;
        self.tally.vast();
        if !self.engine.can_run() {
            return Ok(());
        }
        for which in 0..6 {
            let difference = compare_vast(&self.engine, &call, which);
            self.tally.vast();
            self.settle(label, &call, false, difference)?;
        }
        Ok(())
    }

    /// Tiny plans under all turn lists up to a length.
    pub fn tiny(&mut self) -> Done {
        if !self.engine.can_run() {
            return Ok(());
        }
        for plan in tiny::plans() {
            let mut call = self.call(&plan.file, &[], LENGTHS);
            for list in plan.lists() {
                call.turns = list;
                let (verdict, difference) = compare_run(&self.engine, &call, 0);
                self.tally.run(&call, &verdict);
                self.tally.tiny();
                self.settle("a tiny plan", &call, false, difference)?;
                self.pair_list_at_times("a tiny plan", &call)?;
            }
        }
        Ok(())
    }

    /// Plans and turn lists at each limit.
    pub fn limits(&mut self) -> Done {
        for limit in limits::all() {
            let mut call = self.call(&limit.file, &limit.turns, LENGTHS);
            call.lent[0] = limit.memory;
            self.try_call(&limit.name, &call)?;
        }
        Ok(())
    }

    /// Calls of several plans at each limit, and ones that are told beyond
    /// their bytes.
    pub fn batches(&mut self) -> Done {
        if !self.engine.can_run() {
            return Ok(());
        }
        for limit in batches::all() {
            self.try_batch(&limit.name, &limit.batch)?;
        }
        self.told_batches()
    }

    fn told_batches(&mut self) -> Done {
        let files = vec![showcase().file(); 2];
        let two = Batch::of(&mut Rng::new(33), &files);
        for which in 0..batch::BUFFERS {
            let difference = batch::compare_vast(&self.engine, &two, which);
            self.settle_told(Beyond::Vast(which), &two, difference)?;
        }
        for wrapped in batches::wrapped() {
            let difference = compare_wrapped(&self.engine, &wrapped);
            self.settle_told(Beyond::Count, &wrapped, difference)?;
        }
        for (near, others) in batches::far() {
            let difference = compare_far(&self.engine, &near, others);
            self.settle_told(Beyond::Far, &near, difference)?;
        }
        Ok(())
    }

    fn settle_told(&mut self, what: Beyond, batch: &Batch, difference: Option<Difference>) -> Done {
        self.tally.told(what);
        self.settle_batch("told beyond the bytes that are there", batch, difference)
    }

    /// Runs several plans, and holds an accepted call against separate ones.
    fn try_batch(&mut self, label: &str, batch: &Batch) -> Done {
        // The alignment hangs on the call alone.
        let shift = batch.files.len() % 16;
        let (verdict, difference) = compare_batch(&self.engine, batch, shift);
        self.tally.batch(batch, &verdict);
        self.settle_batch(label, batch, difference)?;
        if verdict.answer == 0 {
            self.tally.separate();
            self.settle_batch(label, batch, compare_separate(batch, &verdict))?;
        }
        self.pair_batch_at_times(label, batch)
    }

    /// The random call of several plans of a seed.
    pub fn random_batch(&mut self, source: &Batches, seed: u64) -> Done {
        if !self.engine.can_run() {
            return Ok(());
        }
        let (kind, batch) = source.of(seed);
        self.tally.batch_kind(kind);
        self.try_batch(&format!("seed {seed}, {kind:?}"), &batch)
    }

    /// The random call of a seed.
    pub fn random(&mut self, source: &Scenarios, seed: u64) -> Done {
        let scenario = source.of(seed);
        self.tally
            .kinds(&scenario.file, scenario.plan, scenario.list);
        let label = scenario.label.clone();
        self.try_call(&label, &call_of(scenario))
    }

    /// A difference from the simulator in a call.
    fn settle(
        &self,
        label: &str,
        call: &Call,
        by_check: bool,
        difference: Option<Difference>,
    ) -> Done {
        let tried = || match by_check {
            true => Tried::Check(call.clone()),
            false => Tried::Run(call.clone()),
        };
        fail(label, tried, difference.filter(|_| !self.pairs_alone))
    }

    /// The same in a call of several plans.
    fn settle_batch(&self, label: &str, batch: &Batch, difference: Option<Difference>) -> Done {
        let difference = difference.filter(|_| !self.pairs_alone);
        fail(label, || Tried::Batch(batch.clone()), difference)
    }
}

fn call_of(scenario: Scenario) -> Call {
    Call {
        file: scenario.file,
        turns: scenario.turns,
        lent: [
            scenario.memory,
            scenario.log,
            scenario.report,
            scenario.work,
        ],
    }
}

fn fail(label: &str, tried: impl Fn() -> Tried, difference: Option<Difference>) -> Done {
    match difference {
        None => Ok(()),
        Some(difference) => Err(Box::new(Failure {
            label: label.to_string(),
            tried: tried(),
            difference,
        })),
    }
}
