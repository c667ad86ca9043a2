//! Whatever turn list reaches the end, memory, log and report are those of
//! the round-by-round run; an unfinished run's log begins the full log.

use std::cmp::Ordering;

use simulator::counts::{Board, ROWS};
use simulator::format::{LOG_LENGTH, RECORD_LENGTH};
use simulator::generate::buffers::memory;
use simulator::generate::last_turn::{cut_moves, last_turn_moves};
use simulator::generate::{plan, turns, Draft, PlanKind, Rng, Scenarios, TurnKind};
use simulator::turn_machine::play_counted;
use simulator::{check, play_rounds, play_turns, Outcome, Plan};

/// Plays one list and compares it with the full run; says whether it ended.
fn agrees(plan: &Plan, start: &[u8], list: &[u8], full: &Outcome) -> bool {
    let outcome = play_turns(plan, start, list);
    if outcome.end() != 0 {
        assert_eq!(&outcome, full);
        return true;
    }
    assert!(full.log.starts_with(&outcome.log));
    assert!(outcome.moving_turns() < full.moving_turns());
    assert!(outcome.rounds() <= full.rounds());
    false
}

/// One plan under a list of every kind; counts ended and unfinished ones.
fn compare(rng: &mut Rng, draft: &Draft, kinds: &[TurnKind]) -> (usize, usize) {
    let plan = check(&draft.file()).expect("an accepted plan");
    assert_eq!(plan.steps, draft.steps);
    assert_eq!(plan.sleepers, draft.sleepers);
    let start = memory(rng);
    let full = play_rounds(&plan, &start);
    let (workers, steps) = (plan.workers(), plan.step_count());
    assert!(usize::from(full.moving_turns()) <= 2 * (steps + workers));
    let mut counts = (0, 0);
    for &kind in kinds {
        let list = turns(rng, kind, workers, steps);
        let ended = agrees(&plan, &start, &list, &full);
        assert!(ended || !kind.reaches_end());
        match ended {
            true => counts.0 += 1,
            false => counts.1 += 1,
        }
    }
    counts
}

#[test]
fn small_plans() {
    let mut rng = Rng::new(20);
    let mut ends = [0; 3];
    let mut counts = (0, 0);
    for round in 0..900 {
        let kind = PlanKind::SMALL[round % PlanKind::SMALL.len()];
        let draft = plan(&mut rng, kind);
        let (ended, going) = compare(&mut rng, &draft, &TurnKind::CHEAP);
        counts = (counts.0 + ended, counts.1 + going);
        let read = check(&draft.file()).expect("an accepted plan");
        let full = play_rounds(&read, &[0; 2_048]);
        ends[usize::from(full.end())] += 1;
    }
    // The plans are worth running: both ends and both kinds of runs are met.
    assert!(ends[1] > 200 && ends[2] > 100, "{ends:?}");
    assert!(counts.0 > 3_000 && counts.1 > 1_000, "{counts:?}");
}

#[test]
fn long_plans() {
    let mut rng = Rng::new(21);
    for round in 0..6 {
        let longest = plan(&mut rng, PlanKind::Longest);
        assert_eq!(longest.file().len(), 1_040 * RECORD_LENGTH);
        compare(&mut rng, &longest, &TurnKind::ALL);
        let full = plan(&mut rng, PlanKind::FullLog);
        compare(&mut rng, &full, &[TurnKind::Shuffled, TurnKind::Bursts]);
        let read = check(&full.file()).expect("an accepted plan");
        let outcome = play_rounds(&read, &[0; 2_048]);
        assert_eq!(outcome.log.len(), LOG_LENGTH, "plan {round}");
        assert_eq!(outcome.end(), 1);
    }
}

#[test]
fn rounds_above_255() {
    let mut rng = Rng::new(23);
    for _ in 0..6 {
        let draft = plan(&mut rng, PlanKind::Relay);
        compare(&mut rng, &draft, &[TurnKind::Shuffled, TurnKind::Cycles]);
        let read = check(&draft.file()).expect("an accepted plan");
        let outcome = play_rounds(&read, &[0; 2_048]);
        assert_eq!(outcome.end(), 1);
        assert!(outcome.rounds() > 240, "{}", outcome.rounds());
    }
}

/// The most locks that a worker of a plan holds, and the most workers that its
/// log shows queued at once.
fn depth_and_queue(draft: &Draft) -> (u8, usize) {
    let read = check(&draft.file()).expect("an accepted plan");
    let log = play_rounds(&read, &[0; 2_048]).log;
    let locked = |record: &&[u8]| record[5] == 32 && record[7] != 254;
    let locks = log.chunks_exact(8).filter(locked);
    let depth = locks.map(|record| record[7]).max().unwrap_or(0);
    let (mut queued, mut most) = (0_usize, 0);
    for record in log.chunks_exact(8) {
        match (record[5], record[7]) {
            (34, 255) | (37, 0) => queued += 1,
            (35, 0..8) => queued -= 1,
            (36, woken) => queued -= usize::from(woken),
            (37, size @ 1..=8) => queued -= usize::from(size) - 1,
            _ => {}
        }
        most = most.max(queued);
    }
    (depth, most)
}

#[test]
fn far_plans() {
    let mut rng = Rng::new(24);
    let (mut depth, mut queue) = (0, 0);
    for round in 0..200 {
        let draft = plan(&mut rng, PlanKind::FAR[round % PlanKind::FAR.len()]);
        compare(&mut rng, &draft, &TurnKind::CHEAP);
        let far = depth_and_queue(&draft);
        (depth, queue) = (depth.max(far.0), queue.max(far.1));
    }
    assert!(depth == 16 && queue >= 7, "{depth}, {queue}");
}

/// Broadcasts reach nobody, everybody, and all numbers in between.
#[test]
fn broadcast_plans() {
    let mut rng = Rng::new(26);
    let mut woken = [0; 8];
    for _ in 0..250 {
        let draft = plan(&mut rng, PlanKind::Broadcasts);
        compare(&mut rng, &draft, &TurnKind::CHEAP);
        let read = check(&draft.file()).expect("an accepted plan");
        for record in play_rounds(&read, &[0; 2_048]).log.chunks_exact(8) {
            if record[5] == 36 {
                woken[usize::from(record[7])] += 1;
            }
        }
    }
    assert!(woken.iter().all(|&count| count > 20), "{woken:?}");
}

/// Workers hold any number of locks, give back some that are not the last
/// ones taken, and fail at a lock and at an unlock.
#[test]
fn name_plans() {
    let mut rng = Rng::new(29);
    let mut met = std::collections::BTreeMap::new();
    for _ in 0..400 {
        let draft = plan(&mut rng, PlanKind::Names);
        compare(&mut rng, &draft, &TurnKind::CHEAP);
        let read = check(&draft.file()).expect("an accepted plan");
        for record in play_rounds(&read, &[0; 2_048]).log.chunks_exact(8) {
            *met.entry((record[5], record[7])).or_insert(0) += 1;
        }
    }
    for wanted in [(32, 2), (32, 3), (32, 254), (33, 1), (33, 2), (33, 254)] {
        let count = met.get(&wanted).copied().unwrap_or(0);
        assert!(count > 50, "{wanted:?}: {count}");
    }
}

/// Runs whose sum rises, falls, and stays though memory changes.
#[test]
fn sum_plans() {
    let mut rng = Rng::new(27);
    let mut ways = [0; 3];
    for _ in 0..250 {
        let draft = plan(&mut rng, PlanKind::Sums);
        compare(&mut rng, &draft, &TurnKind::CHEAP);
        let read = check(&draft.file()).expect("an accepted plan");
        let start = memory(&mut rng);
        let before = play_turns(&read, &start, &[]).sum();
        let list = cut_moves(&mut rng, &draft, &start);
        let outcome = play_turns(&read, &start, &list);
        let way = match outcome.sum().cmp(&before) {
            Ordering::Less => 0,
            Ordering::Equal => 1,
            Ordering::Greater => 2,
        };
        ways[way] += usize::from(outcome.memory != start);
    }
    assert!(ways.iter().all(|&count| count > 5), "{ways:?}");
}

/// Rows of limits that plans about sums reach by chance.
const ROWS_OF_COMMITS: [&str; 5] = [
    "commit that changes memory",
    "byte written by a commit",
    "word with bytes of two workers",
    "store at an odd address",
    "bytes that would move the sum",
];

#[test]
fn sum_plans_meet_what_commits_can() {
    let mut rng = Rng::new(28);
    let mut board = Board::new(&ROWS);
    for _ in 0..3_000 {
        let draft = plan(&mut rng, PlanKind::Sums);
        let read = check(&draft.file()).expect("an accepted plan");
        let start = memory(&mut rng);
        let list = cut_moves(&mut rng, &draft, &start);
        let (_, counts) = play_counted(&read, &start, &list);
        for &(limit, member) in &counts.limits.met {
            board.count(limit as usize, usize::from(member));
        }
    }
    let of_commits = |name: &String| ROWS_OF_COMMITS.iter().any(|row| name.starts_with(row));
    let missing: Vec<String> = board.missing().into_iter().filter(of_commits).collect();
    assert!(missing.is_empty(), "{missing:?}");
}

/// Rows of limits that plans about locks by name reach by chance.
const ROWS_OF_LOCKS: [&str; 9] = [
    "lock, locks held behind it",
    "unlock, locks held behind it",
    "woken, locks kept",
    "unlock with several locks held",
    "lock that was given back before",
    "behind a wait with locks kept",
    "lock or unlock of one that another holds",
    "lock that others hold, how many",
    "lock held by two workers at once",
];

#[test]
fn name_plans_meet_what_locks_can() {
    let mut rng = Rng::new(43);
    let mut board = Board::new(&ROWS);
    for _ in 0..6_000 {
        let draft = plan(&mut rng, PlanKind::Names);
        let read = check(&draft.file()).expect("an accepted plan");
        let start = memory(&mut rng);
        let list = turns(
            &mut rng,
            TurnKind::Cycles,
            read.workers(),
            read.step_count(),
        );
        let (_, counts) = play_counted(&read, &start, &list);
        for &(limit, member) in &counts.limits.met {
            board.count(limit as usize, usize::from(member));
        }
    }
    let of_locks = |name: &String| ROWS_OF_LOCKS.iter().any(|row| name.starts_with(row));
    let missing: Vec<String> = board.missing().into_iter().filter(of_locks).collect();
    assert!(missing.is_empty(), "{missing:?}");
}

#[test]
fn the_last_turn_of_a_full_list_moves() {
    let mut rng = Rng::new(25);
    let mut ends = [0; 3];
    for round in 0..40 {
        let draft = plan(&mut rng, PlanKind::SMALL[round % PlanKind::SMALL.len()]);
        let start = memory(&mut rng);
        let Some(list) = last_turn_moves(&mut rng, &draft, &start) else {
            continue;
        };
        assert!(matches!(list.len(), 65_534 | 65_535));
        let read = check(&draft.file()).expect("an accepted plan");
        let all = play_turns(&read, &start, &list);
        let but_one = play_turns(&read, &start, &list[..list.len() - 1]);
        assert_eq!(all.moving_turns(), but_one.moving_turns() + 1);
        ends[usize::from(all.end())] += 1;
    }
    assert!(ends[0] > 5 && ends[1] > 5, "{ends:?}");
}

/// Ops and outcomes that small plans must show.
const WANTED: [(u8, u8); 27] = [
    (32, 1),
    (32, 3),
    (32, 254),
    (33, 0),
    (33, 1),
    (33, 2),
    (33, 254),
    (34, 254),
    (34, 255),
    (35, 0),
    (35, 255),
    (36, 0),
    (36, 1),
    (36, 2),
    (36, 3),
    (36, 4),
    (36, 5),
    (36, 6),
    (36, 7),
    (37, 0),
    (37, 1),
    (37, 2),
    (37, 254),
    (38, 254),
    (38, 255),
    (39, 1),
    (39, 253),
];

#[test]
fn every_outcome_is_met() {
    let mut rng = Rng::new(22);
    let mut met = std::collections::BTreeSet::new();
    for round in 0..600 {
        let draft = plan(&mut rng, PlanKind::SMALL[round % PlanKind::SMALL.len()]);
        let read = check(&draft.file()).expect("an accepted plan");
        for record in play_rounds(&read, &[0; 2_048]).log.chunks_exact(8) {
            met.insert((record[5], record[7]));
        }
    }
    for pair in WANTED {
        assert!(met.contains(&pair), "{pair:?} is not among {met:?}");
    }
}

#[test]
fn a_third_of_the_accepted_plans_have_sleepers() {
    let source = Scenarios::new();
    let (mut accepted, mut sleeping, mut started) = (0, 0, 0);
    for seed in 0..3_000 {
        let Ok(read) = check(&source.of(seed).file) else {
            continue;
        };
        accepted += 1;
        sleeping += usize::from(!read.sleepers.is_empty());
        let log = play_rounds(&read, &[0; 2_048]).log;
        let starts = |record: &[u8]| (record[5], record[7]) == (39, 1);
        started += usize::from(log.chunks_exact(8).any(starts));
    }
    assert!(5 * sleeping > 2 * accepted, "{sleeping} of {accepted}");
    assert!(3 * started > accepted, "{started} of {accepted}");
}

#[test]
fn scenarios_are_settled_by_their_seed() {
    let mut answers = std::collections::BTreeSet::new();
    let (source, other) = (Scenarios::new(), Scenarios::new());
    for seed in 0..800 {
        let mut first = source.of(seed);
        let second = other.of(seed);
        assert_eq!(first, second);
        let answer = first.run();
        answers.insert(answer % 256);
        if answer != 0 {
            assert_eq!(first, second);
        }
    }
    for answer in [0, 2, 7, 11, 12, 13, 14] {
        assert!(answers.contains(&answer), "{answers:?}");
    }
}
