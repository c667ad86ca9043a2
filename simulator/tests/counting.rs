//! Names against counts: a plan whose round-by-round run fails at no lock and
//! at no unlock has, under every turn list, the memory, log and report that it
//! had when only the count of locks mattered.

use simulator::format::LOG_RECORD_LENGTH;
use simulator::generate::buffers::memory;
use simulator::generate::last_turn::cut_moves;
use simulator::generate::{plan, turns, Draft, PlanKind, Rng, TurnKind};
use simulator::{check, play_rounds, play_turns, Machine, Outcome, Plan};

/// What a turn list leaves by counts.
fn play_counts(plan: &Plan, start: &[u8], list: &[u8]) -> Outcome {
    let mut machine = Machine::counting(plan, start);
    for &turn in list {
        machine.turn(usize::from(turn));
    }
    machine.outcome()
}

/// Whether a log has a failed lock or a failed unlock.
fn slips(log: &[u8]) -> bool {
    let slip = |record: &[u8]| matches!((record[5], record[7]), (32 | 33, 254));
    log.chunks_exact(LOG_RECORD_LENGTH).any(slip)
}

/// How many of the plans slip, how many of these leave something else by
/// counts, and how many do not slip though they lock, one lock or several.
#[derive(Debug, Default)]
struct Seen {
    slip: usize,
    differ: usize,
    keep: usize,
    keep_several: usize,
}

impl Seen {
    /// One plan under lists of every kind. Without a slip nothing may differ.
    fn plan(&mut self, rng: &mut Rng, draft: &Draft) {
        let plan = check(&draft.file()).expect("an accepted plan");
        let start = memory(rng);
        let full = play_rounds(&plan, &start);
        let slipped = slips(&full.log);
        let mut differs = false;
        for list in lists(rng, draft, &start) {
            let (by_names, by_counts) = (
                play_turns(&plan, &start, &list),
                play_counts(&plan, &start, &list),
            );
            assert!(slipped || by_names == by_counts);
            differs |= by_names != by_counts;
        }
        self.slip += usize::from(slipped);
        self.differ += usize::from(differs);
        self.keep += usize::from(!slipped && holds(&full.log, 1));
        self.keep_several += usize::from(!slipped && holds(&full.log, 2));
    }
}

/// Whether a log has a lock with so many held behind it.
fn holds(log: &[u8], count: u8) -> bool {
    let locks = |record: &[u8]| record[5] == 32 && (count..=16).contains(&record[7]);
    log.chunks_exact(LOG_RECORD_LENGTH).any(locks)
}

/// A list of every kind but the longest, and one of moves alone, cut anywhere.
fn lists(rng: &mut Rng, draft: &Draft, start: &[u8]) -> Vec<Vec<u8>> {
    let (workers, steps) = (draft.workers(), draft.step_count());
    let made = TurnKind::CHEAP.map(|kind| turns(rng, kind, workers, steps));
    let mut all = made.to_vec();
    all.push(cut_moves(rng, draft, start));
    all
}

fn seen(seed: u64, kinds: &[PlanKind], count: usize) -> Seen {
    let mut rng = Rng::new(seed);
    let mut seen = Seen::default();
    for round in 0..count {
        let draft = plan(&mut rng, kinds[round % kinds.len()]);
        seen.plan(&mut rng, &draft);
    }
    seen
}

#[test]
fn plans_about_names() {
    let seen = seen(41, &[PlanKind::Names, PlanKind::Deep], 1_200);
    assert!(seen.slip > 200 && seen.differ > 100, "{seen:?}");
    assert!(seen.keep > 400 && seen.keep_several > 300, "{seen:?}");
}

#[test]
fn small_plans() {
    let seen = seen(42, &PlanKind::SMALL, 1_100);
    assert!(seen.slip > 50 && seen.differ > 20, "{seen:?}");
    assert!(seen.keep > 400 && seen.keep_several > 200, "{seen:?}");
}

#[test]
fn long_plans() {
    let kinds = [PlanKind::Longest, PlanKind::FullLog, PlanKind::LongQueues];
    let seen = seen(43, &kinds, 12);
    assert!(seen.keep > 3, "{seen:?}");
}

/// A failed unlock with no lock held was a failure before, so that plans that
/// slip in no other way have what they had as well.
#[test]
fn an_unlock_without_any_lock_fails_by_counts_too() {
    let draft = Draft::from_rows(&[], &[&[(18, 0, 0), (33, 0, 3)], &[(32, 0, 3), (33, 0, 3)]]);
    let plan = check(&draft.file()).expect("an accepted plan");
    let start = [9; 2_048];
    let cycles = [0, 1].repeat(12);
    let by_names = play_turns(&plan, &start, &cycles);
    assert!(slips(&by_names.log));
    assert_eq!(by_names, play_counts(&plan, &start, &cycles));
}
