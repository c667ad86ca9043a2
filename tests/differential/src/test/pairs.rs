//! Pairs of calls whose memories differ only in bytes nobody named.

use simulator::generate::buffers::LENGTHS;
use simulator::generate::{Batch, Change};

use super::{fail, Done, Test, Tried};
use crate::batch::compare_batch;
use crate::call::{compare_run, Call};
use crate::limits::unnamed;
use crate::pair::{compare_batch_pair, compare_pair, Pair};

/// Among so many calls one is made again from another memory.
const CALLS_TO_A_PAIR: usize = 10;
/// The same of the lists of tiny plans, and of calls of several plans.
const LISTS_TO_A_PAIR: usize = 64;
const BATCHES_TO_A_PAIR: usize = 5;

impl Test {
    /// Plans at each limit of what is named, under every kind of change.
    pub fn pairs(&mut self) -> Done {
        for limit in unnamed::all() {
            let mut call = self.call(&limit.file, &limit.turns, LENGTHS);
            call.lent[0] = limit.memory;
            self.try_call(&limit.name, &call)?;
            for change in Change::ALL {
                self.try_pair(&limit.name, &call, change)?;
            }
        }
        for (place, limit) in unnamed::refused().into_iter().enumerate() {
            let mut call = self.call(&limit.file, &limit.turns, LENGTHS);
            call.lent[0] = limit.memory;
            let change = Change::ALL[place % Change::ALL.len()];
            self.try_pair(&limit.name, &call, change)?;
        }
        self.batch_pairs()
    }

    fn batch_pairs(&mut self) -> Done {
        if !self.engine.can_run() {
            return Ok(());
        }
        for limit in unnamed::batches() {
            self.try_batch(&limit.name, &limit.batch)?;
            for change in Change::ALL {
                self.try_batch_pair(&limit.name, &limit.batch, change)?;
            }
        }
        Ok(())
    }

    /// Makes some of all calls again, by some change.
    pub(super) fn pair_at_times(&mut self, label: &str, call: &Call) -> Done {
        self.pair_one_of(CALLS_TO_A_PAIR, label, call)
    }

    pub(super) fn pair_list_at_times(&mut self, label: &str, call: &Call) -> Done {
        self.pair_one_of(LISTS_TO_A_PAIR, label, call)
    }

    fn pair_one_of(&mut self, all: usize, label: &str, call: &Call) -> Done {
        if !self.of_pairs.chance(1, all) {
            return Ok(());
        }
        let change = self.of_pairs.pick(&Change::ALL);
        self.try_pair(label, call, change)
    }

    /// Holds two calls on the engine against each other, and the second one
    /// against the simulator.
    fn try_pair(&mut self, label: &str, call: &Call, change: Change) -> Done {
        if !self.engine.can_run() {
            return Ok(());
        }
        let pair = Pair {
            first: call.clone(),
            change,
            seed: self.of_pairs.draw(),
        };
        let label = format!("{label}, a pair by {change:?}");
        let difference = compare_pair(&self.engine, &pair);
        fail(&label, || Tried::Pair(pair.clone()), difference)?;
        let second = pair.second();
        let shift = self.of_pairs.below(16);
        let (verdict, difference) = compare_run(&self.engine, &second, shift);
        self.tally.run(&second, &verdict);
        self.tally.pair(&pair, &second, &verdict);
        self.settle(&label, &second, false, difference)
    }

    pub(super) fn pair_batch_at_times(&mut self, label: &str, batch: &Batch) -> Done {
        if !self.of_pairs.chance(1, BATCHES_TO_A_PAIR) {
            return Ok(());
        }
        let change = self.of_pairs.pick(&Change::ALL);
        self.try_batch_pair(label, batch, change)
    }

    /// The same for calls of several plans.
    fn try_batch_pair(&mut self, label: &str, batch: &Batch, change: Change) -> Done {
        let pair = Pair {
            first: batch.clone(),
            change,
            seed: self.of_pairs.draw(),
        };
        let label = format!("{label}, a pair by {change:?}");
        let difference = compare_batch_pair(&self.engine, &pair);
        fail(&label, || Tried::BatchPair(pair.clone()), difference)?;
        let second = pair.second();
        let (verdict, difference) = compare_batch(&self.engine, &second, 3);
        self.tally.batch(&second, &verdict);
        self.tally.batch_pair(batch, &second, &verdict);
        self.settle_batch(&label, &second, difference)
    }
}
