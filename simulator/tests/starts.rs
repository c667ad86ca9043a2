//! Sleepers and starts, with values worked out by hand from the paper's first
//! request.

mod common;

use common::{end_of, front, report, run_call, Row};
use simulator::format::MEMORY_LENGTH;
use simulator::generate::draft::Draft;
use simulator::generate::Rng;
use simulator::{check, check_code, listing, play_turns, Machine};

const NONE: Row = &[];

/// A draft without barriers.
fn draft(rows: &[Row], sleepers: &[u8]) -> Draft {
    Draft::from_rows(&[], rows).asleep(sleepers)
}

#[test]
fn a_file_and_all_that_it_leaves() {
    let file = [
        0x4D, 0x50, 2, 0, 0, 0, 0, // two workers
        0x4D, 0x50, 1, 2, 0, 0, 0, // worker 1 sleeps
        0x4D, 0x50, 0, 16, 0, 9, 0, // worker 0: set r0 to 9
        0x4D, 0x50, 0, 18, 0, 1, 0, // store r0 at 1
        0x4D, 0x50, 0, 39, 0, 1, 0, // start 1
        0x4D, 0x50, 1, 17, 3, 1, 0, // worker 1: load r3 from 1
        0x4D, 0x50, 1, 18, 3, 0, 1, // store r3 at 256
    ];
    let rows: [Row; 2] = [
        &[(16, 0, 9), (18, 0, 1), (39, 0, 1)],
        &[(17, 3, 1), (18, 3, 256)],
    ];
    let draft = draft(&rows, &[1]);
    assert_eq!(draft.file(), file);
    let outcome = end_of(&draft, &[]);
    let log = [
        0x4D, 0x4C, 1, 0, 0, 39, 1, 1, //
        0x4D, 0x4C, 1, 0, 0, 38, 0, 255, //
        0x4D, 0x4C, 2, 0, 1, 38, 0, 255,
    ];
    assert_eq!(outcome.log, log);
    let none = 255;
    let bytes = [
        1, 2, 9, 0, 2, 0, 3, 0, 1, 1, none, none, none, none, none, none,
    ];
    assert_eq!(front(&outcome), bytes);
    let written = [(1, 9), (256, 9)];
    for (address, &byte) in outcome.memory.iter().enumerate() {
        let here = written.iter().find(|(at, _)| *at == address);
        assert_eq!(byte, here.map_or(0, |&(_, byte)| byte), "at {address}");
    }
}

#[test]
fn nobody_is_ever_started() {
    let own: Row = &[(16, 0, 7), (18, 0, 0)];
    let other: Row = &[(16, 0, 9), (18, 0, 0)];
    let plan = draft(&[own, other], &[1]);
    let outcome = end_of(&plan, &[]);
    assert_eq!(front(&outcome), report([1, 2], [4, 1, 1], &[1, 5]));
    assert_eq!(outcome.word(0), 7);
    assert_eq!(listing(&plan.file()), "1 0 38 0 255\nfinished 4\n");
    // A sleeper makes no plan stuck, and it frees none that is.
    let waits = draft(&[&[(32, 0, 0), (34, 0, 0)], NONE, NONE], &[1, 2]);
    let outcome = end_of(&waits, &[]);
    assert_eq!(front(&outcome), report([2, 3], [3, 1, 2], &[3, 5, 5]));
    assert_eq!(
        listing(&waits.file()),
        "1 0 32 0 1\n1 0 34 0 255\nstuck 3\n"
    );
    let fails = draft(&[&[(33, 0, 0)], NONE], &[1]);
    let outcome = end_of(&fails, &[]);
    assert_eq!(front(&outcome), report([1, 2], [2, 1, 1], &[2, 5]));
}

#[test]
fn the_first_list_is_of_those_awake() {
    let plan = draft(&[NONE; 5], &[1, 3]);
    let outcome = end_of(&plan, &[]);
    assert_eq!(front(&outcome), report([1, 5], [6, 1, 3], &[1, 5, 1, 5, 1]));
    let text = "1 0 38 0 255\n1 2 38 0 255\n1 4 38 0 255\nfinished 6\n";
    assert_eq!(listing(&plan.file()), text);
}

#[test]
fn a_worker_is_started_twice() {
    let plan = draft(&[&[(39, 0, 1), (39, 0, 1)], NONE], &[1]);
    let outcome = end_of(&plan, &[]);
    assert_eq!(front(&outcome), report([1, 2], [6, 2, 4], &[1, 1]));
    let text = "1 0 39 1 1\n1 0 39 1 253\n1 0 38 0 255\n2 1 38 0 255\nfinished 6\n";
    assert_eq!(listing(&plan.file()), text);
    // Once more by another worker of the same round, and in a later round.
    let plan = draft(
        &[&[(39, 0, 2), (35, 0, 0), (39, 0, 2)], &[(39, 0, 2)], NONE],
        &[2],
    );
    let outcome = end_of(&plan, &[]);
    assert_eq!(front(&outcome), report([1, 3], [11, 2, 7], &[1, 1, 1]));
    let text = "1 0 39 2 1\n1 0 35 0 255\n1 1 39 2 253\n1 1 38 0 255\n\
                2 2 38 0 255\n2 0 39 2 253\n2 0 38 0 255\nfinished 11\n";
    assert_eq!(listing(&plan.file()), text);
}

#[test]
fn a_started_worker_starts_another() {
    let rows: [Row; 3] = [&[(39, 0, 1)], &[(39, 0, 2)], &[(16, 0, 5), (18, 0, 0)]];
    let plan = draft(&rows, &[1, 2]);
    let outcome = end_of(&plan, &[]);
    assert_eq!(front(&outcome), report([1, 3], [10, 3, 5], &[1, 1, 1]));
    assert_eq!(outcome.word(0), 5);
    let text = "1 0 39 1 1\n1 0 38 0 255\n2 1 39 2 1\n2 1 38 0 255\n\
                3 2 38 0 255\nfinished 10\n";
    assert_eq!(listing(&plan.file()), text);
}

#[test]
fn a_start_of_one_that_does_not_sleep() {
    // One fails, one exits, one waits, one queues, one has given up the token,
    // one is the caller, one comes behind it.
    let starts = [0, 1, 2, 3, 4, 5, 6].map(|target| (39, 0, target));
    let rows: [Row; 7] = [
        &[(33, 0, 0)],
        NONE,
        &[(32, 0, 0), (34, 0, 0)],
        &[(37, 0, 0)],
        &[(35, 0, 1)],
        &starts,
        NONE,
    ];
    let plan = Draft::from_rows(&[(0, 2)], &rows);
    let outcome = end_of(&plan, &[]);
    let fates = [2, 1, 3, 4, 1, 1, 1];
    assert_eq!(front(&outcome), report([2, 7], [24, 2, 16], &fates));
    let text = "1 0 33 0 254\n1 1 38 0 255\n1 2 32 0 1\n1 2 34 0 255\n1 3 37 0 0\n\
                1 4 35 1 255\n1 5 39 0 253\n1 5 39 1 253\n1 5 39 2 253\n1 5 39 3 253\n\
                1 5 39 4 253\n1 5 39 5 253\n1 5 39 6 253\n1 5 38 0 255\n1 6 38 0 255\n\
                2 4 38 0 255\nstuck 24\n";
    assert_eq!(listing(&plan.file()), text);
}

#[test]
fn a_start_of_one_that_was_started_and_has_ended() {
    // Worker 1 exits and worker 2 fails in round 2; in round 3 worker 0 asks
    // for both again, and both stay what they are.
    let own: Row = &[
        (39, 0, 1),
        (39, 0, 2),
        (35, 0, 0),
        (35, 0, 0),
        (39, 0, 1),
        (39, 0, 2),
    ];
    let plan = draft(&[own, NONE, &[(34, 0, 7)]], &[1, 2]);
    let outcome = end_of(&plan, &[]);
    assert_eq!(front(&outcome), report([1, 3], [14, 3, 9], &[1, 1, 2]));
    let text = "1 0 39 1 1\n1 0 39 2 1\n1 0 35 0 255\n2 1 38 0 255\n2 2 34 7 254\n\
                2 0 35 0 255\n3 0 39 1 253\n3 0 39 2 253\n3 0 38 0 255\nfinished 14\n";
    assert_eq!(listing(&plan.file()), text);
}

#[test]
fn a_start_commits_when_nobody_joins_too() {
    let own: Row = &[(16, 0, 4), (18, 0, 0), (39, 0, 0), (18, 0, 2), (33, 0, 0)];
    let plan = draft(&[own], &[]);
    let outcome = end_of(&plan, &[]);
    assert_eq!((outcome.word(0), outcome.word(2)), (4, 0));
    assert_eq!(front(&outcome), report([1, 1], [6, 1, 2], &[2]));
    assert_eq!(
        listing(&plan.file()),
        "1 0 39 0 253\n1 0 33 0 254\nfinished 6\n"
    );
}

#[test]
fn a_start_between_lock_and_unlock() {
    let own: Row = &[
        (32, 0, 3),
        (16, 0, 8),
        (18, 0, 0),
        (39, 0, 1),
        (18, 0, 2),
        (33, 0, 3),
    ];
    let sees: Row = &[(17, 1, 0), (18, 1, 4)];
    let plan = draft(&[own, sees], &[1]);
    let outcome = end_of(&plan, &[]);
    assert_eq!([0, 2, 4].map(|at| outcome.word(at)), [8, 8, 8]);
    assert_eq!(front(&outcome), report([1, 2], [13, 2, 5], &[1, 1]));
    let text = "1 0 32 3 1\n1 0 39 1 1\n1 0 33 3 0\n2 1 38 0 255\n2 0 38 0 255\nfinished 13\n";
    assert_eq!(listing(&plan.file()), text);
    // Without the unlock the exit fails: what the start committed stays, what
    // was stored behind it is lost.
    let fails: Row = &[
        (32, 0, 0),
        (16, 0, 8),
        (18, 0, 0),
        (39, 0, 1),
        (18, 0, 2),
        (38, 0, 0),
    ];
    let plan = draft(&[fails, sees], &[1]);
    let outcome = end_of(&plan, &[]);
    assert_eq!([0, 2, 4].map(|at| outcome.word(at)), [8, 0, 8]);
    assert_eq!(front(&outcome), report([1, 2], [11, 2, 4], &[2, 1]));
    let text = "1 0 32 0 1\n1 0 39 1 1\n1 0 38 0 254\n2 1 38 0 255\nfinished 11\n";
    assert_eq!(listing(&plan.file()), text);
}

#[test]
fn a_start_then_own_steps_and_a_barrier() {
    let starts: Row = &[(39, 0, 2), (16, 0, 6), (18, 0, 0), (37, 0, 0)];
    let sees: Row = &[(17, 0, 0), (18, 0, 2)];
    let plan = Draft::from_rows(&[(0, 2)], &[&[(37, 0, 0)], starts, sees]).asleep(&[2]);
    let outcome = end_of(&plan, &[]);
    assert_eq!((outcome.word(0), outcome.word(2)), (6, 6));
    assert_eq!(front(&outcome), report([1, 3], [15, 2, 6], &[1, 1, 1]));
    let text = "1 0 37 0 0\n1 1 39 2 1\n1 1 37 0 2\n2 2 38 0 255\n2 0 38 0 255\n\
                2 1 38 0 255\nfinished 15\n";
    assert_eq!(listing(&plan.file()), text);
    // With nobody there before it the caller queues, and the plan is stuck
    // when the started worker has gone.
    let plan = Draft::from_rows(&[(0, 2)], &[starts, NONE, sees]).asleep(&[2]);
    let outcome = end_of(&plan, &[]);
    assert_eq!((outcome.word(0), outcome.word(2)), (6, 6));
    assert_eq!(front(&outcome), report([2, 3], [11, 2, 4], &[4, 1, 1]));
    let text = "1 0 39 2 1\n1 0 37 0 0\n1 1 38 0 255\n2 2 38 0 255\nstuck 11\n";
    assert_eq!(listing(&plan.file()), text);
}

#[test]
fn a_start_keeps_the_token_and_a_lock_commits_again() {
    // Stored in front of the start, between it and the lock, behind the lock.
    let rest = [
        (16, 0, 2),
        (18, 0, 2),
        (32, 0, 0),
        (16, 0, 3),
        (18, 0, 4),
        (38, 0, 0),
    ];
    for (target, outcome_byte) in [(1, 1), (0, 253)] {
        let own = [&[(16, 0, 1), (18, 0, 0), (39, 0, target)], &rest[..]].concat();
        let plan = draft(&[&own, NONE], &[1]);
        let outcome = end_of(&plan, &[]);
        assert_eq!([0, 2, 4].map(|at| outcome.word(at)), [1, 2, 0]);
        let text = format!("1 0 39 {target} {outcome_byte}\n1 0 32 0 1\n1 0 38 0 254\n");
        let (behind, fate, tallies) = match target {
            1 => ("2 1 38 0 255\nfinished 12\n", 1, [12, 2, 4]),
            _ => ("finished 10\n", 5, [10, 1, 3]),
        };
        assert_eq!(front(&outcome), report([1, 2], tallies, &[2, fate]));
        assert_eq!(listing(&plan.file()), text + behind);
    }
}

#[test]
fn nobody_comes_between_a_start_and_what_follows_it() {
    // Worker 0 starts, stores and unlocks again in one hold, with worker 1
    // behind it in the list; worker 1 adds to what it finds then.
    let own: Row = &[
        (39, 0, 2),
        (32, 0, 0),
        (16, 0, 20),
        (18, 0, 0),
        (33, 0, 0),
        (38, 0, 0),
    ];
    let adds: Row = &[
        (32, 0, 0),
        (17, 0, 0),
        (16, 1, 3),
        (19, 0, 1),
        (18, 0, 0),
        (33, 0, 0),
    ];
    let plan = draft(&[own, adds, adds], &[2]);
    let outcome = end_of(&plan, &[]);
    assert_eq!(outcome.word(0), 26);
    assert_eq!(front(&outcome), report([1, 3], [26, 3, 10], &[1, 1, 1]));
    let text = "1 0 39 2 1\n1 0 32 0 1\n1 0 33 0 0\n1 1 32 0 1\n1 1 33 0 0\n\
                2 2 32 0 1\n2 2 33 0 0\n2 0 38 0 255\n2 1 38 0 255\n3 2 38 0 255\nfinished 26\n";
    assert_eq!(listing(&plan.file()), text);
}

#[test]
fn the_next_list_by_the_order_of_events() {
    let rows: [Row; 6] = [
        &[(35, 0, 0)],
        &[(37, 0, 0)],
        &[(39, 0, 5), (35, 0, 0)],
        &[(39, 0, 4), (37, 0, 0)],
        NONE,
        NONE,
    ];
    let plan = Draft::from_rows(&[(0, 2)], &rows).asleep(&[4, 5]);
    let outcome = end_of(&plan, &[]);
    assert_eq!(front(&outcome), report([1, 6], [22, 2, 12], &[1; 6]));
    let text = "1 0 35 0 255\n1 1 37 0 0\n1 2 39 5 1\n1 2 35 0 255\n1 3 39 4 1\n1 3 37 0 2\n\
                2 0 38 0 255\n2 5 38 0 255\n2 2 38 0 255\n2 4 38 0 255\n2 1 38 0 255\n\
                2 3 38 0 255\nfinished 22\n";
    assert_eq!(listing(&plan.file()), text);
}

#[test]
fn several_are_started_in_one_hold() {
    let own: Row = &[(39, 0, 3), (39, 0, 1), (39, 0, 2)];
    let store = |value: u16| [(16, 0, value), (18, 0, 0)];
    let (one, two, three) = (store(1), store(2), store(3));
    let plan = draft(&[own, &one, &two, &three], &[1, 2, 3]);
    let outcome = end_of(&plan, &[]);
    // All have their copies before the first commit; the last one's stays.
    assert_eq!(outcome.word(0), 2);
    assert_eq!(front(&outcome), report([1, 4], [17, 2, 7], &[1; 4]));
    let text = "1 0 39 3 1\n1 0 39 1 1\n1 0 39 2 1\n1 0 38 0 255\n\
                2 3 38 0 255\n2 1 38 0 255\n2 2 38 0 255\nfinished 17\n";
    assert_eq!(listing(&plan.file()), text);
}

#[test]
fn a_woken_worker_goes_before_a_started_one() {
    // Worker 0 waits; worker 1 starts 2 and signals. The woken one unlocks in
    // this round, the started one comes in the next, in front of worker 1.
    let waits: Row = &[(32, 0, 0), (34, 0, 0), (33, 0, 0)];
    let plan = draft(&[waits, &[(39, 0, 2), (35, 0, 0)], NONE], &[2]);
    let outcome = end_of(&plan, &[]);
    assert_eq!(front(&outcome), report([1, 3], [13, 2, 8], &[1, 1, 1]));
    let text = "1 0 32 0 1\n1 0 34 0 255\n1 1 39 2 1\n1 1 35 0 0\n1 0 33 0 0\n\
                2 2 38 0 255\n2 1 38 0 255\n2 0 38 0 255\nfinished 13\n";
    assert_eq!(listing(&plan.file()), text);
}

#[test]
fn a_waiter_that_a_started_worker_wakes() {
    // All that are awake wait, but for a started one: the plan is not over.
    let starts: Row = &[(39, 0, 1), (32, 0, 0), (34, 0, 4), (33, 0, 0)];
    let plan = draft(&[starts, &[(36, 0, 4)]], &[1]);
    let outcome = end_of(&plan, &[]);
    assert_eq!(front(&outcome), report([1, 2], [11, 3, 7], &[1, 1]));
    let text = "1 0 39 1 1\n1 0 32 0 1\n1 0 34 4 255\n2 1 36 4 1\n2 0 33 0 0\n\
                3 1 38 0 255\n3 0 38 0 255\nfinished 11\n";
    assert_eq!(listing(&plan.file()), text);
}

#[test]
fn turn_by_turn() {
    let own: Row = &[(39, 0, 1), (16, 0, 3), (18, 0, 0)];
    let file = draft(&[own, NONE], &[1]).file();
    let plan = check(&file).expect("an accepted plan");
    let mut machine = Machine::new(&plan, &[0; MEMORY_LENGTH]);
    let turns = [1, 0, 1, 0, 1, 0, 0, 1, 0, 0, 1, 0, 1, 1, 0];
    let moves = [0, 1, 0, 1, 0, 1, 1, 0, 1, 0, 1, 0, 1, 0, 0];
    let fates = [5, 5, 5, 0, 0, 0, 0, 0, 0, 0, 0, 0, 1, 1, 1];
    for (turn, (moved, fate)) in turns.into_iter().zip(moves.into_iter().zip(fates)) {
        assert_eq!(machine.turn(turn), moved == 1);
        assert_eq!(machine.outcome().report[9], fate);
    }
    let outcome = machine.outcome();
    assert_eq!(front(&outcome), report([1, 2], [7, 2, 3], &[1, 1]));
    // What a run of the call leaves in between.
    let between = run_call(&draft(&[own, NONE], &[1]), &[1, 0, 1, 0, 1, 0, 0], &[]);
    assert_eq!(front(&between), report([0, 2], [4, 0, 1], &[0, 0]));
    assert_eq!(between.word(0), 0);
    let none = run_call(&draft(&[own, NONE], &[1]), &[], &[]);
    assert_eq!(front(&none), report([0, 2], [0, 0, 0], &[0, 5]));
}

#[test]
fn turns_of_sleepers_alone_pass() {
    let plan = draft(&[NONE; 3], &[1, 2]);
    let outcome = run_call(&plan, &[1, 2, 2, 1, 1], &[]);
    assert_eq!(front(&outcome), report([0, 3], [0, 0, 0], &[0, 5, 5]));
}

#[test]
fn the_longest_chain() {
    // 127 signals and a start, seven times, then 128 signals: each worker has
    // the rounds of its signals for itself, and starts the next one in the
    // round of its end.
    let rows: Vec<Vec<(u8, u8, u16)>> = (1..=8)
        .map(|next| {
            let mut row = vec![(35, 0, 0); 128];
            if next < 8 {
                row[127] = (39, 0, next);
            }
            row
        })
        .collect();
    let rows: Vec<Row> = rows.iter().map(Vec::as_slice).collect();
    let plan = draft(&rows, &[1, 2, 3, 4, 5, 6, 7]);
    let outcome = end_of(&plan, &[]);
    // 1,024 steps, eight ends and an arrival for each round of one worker.
    let rounds = 7 * 128 + 129;
    let tallies = [1_032 + rounds, rounds, 1_032];
    assert_eq!(front(&outcome), report([1, 8], tallies, &[1; 8]));
}

/// A plan of three workers with these records behind its first, and what a
/// check says: refusal and index.
fn answer(records: &[[u8; 5]]) -> (u32, u32) {
    let mut file = vec![0x4D, 0x50, 3, 0, 0, 0, 0];
    for record in records {
        file.extend([0x4D, 0x50]);
        file.extend(record);
    }
    let code = check_code(&file);
    (code % 256, code / 256)
}

#[test]
fn sleep_records_that_are_refused() {
    let sleeps = |worker: u8| [worker, 2, 0, 0, 0];
    assert_eq!(answer(&[sleeps(1), sleeps(2)]), (0, 0));
    assert_eq!(answer(&[sleeps(2)]), (0, 0));
    for worker in [0, 3, 4, 8, 128, 255] {
        assert_eq!(answer(&[sleeps(worker)]), (14, 1));
    }
    assert_eq!(answer(&[sleeps(1), sleeps(1)]), (14, 2));
    assert_eq!(answer(&[sleeps(2), sleeps(2)]), (14, 2));
    assert_eq!(answer(&[sleeps(2), sleeps(1)]), (14, 2));
    for bytes in [[1, 0, 0], [255, 0, 0], [0, 1, 0], [0, 0, 1], [0, 0, 255]] {
        let [register, low, high] = bytes;
        assert_eq!(answer(&[[1, 2, register, low, high]]), (14, 1));
        assert_eq!(answer(&[sleeps(1), [2, 2, register, low, high]]), (14, 2));
    }
    let step = [0, 38, 0, 0, 0];
    assert_eq!(answer(&[step, sleeps(1)]), (14, 2));
    assert_eq!(answer(&[sleeps(1), step, sleeps(2)]), (14, 3));
    // As the first record it is no plan record.
    let code = check_code(&[0x4D, 0x50, 1, 2, 0, 0, 0]);
    assert_eq!(code, 3);
}

#[test]
fn refusals_around_sleep_records() {
    let (sleeper, size, step) = ([1, 2, 0, 0, 0], [0, 1, 0, 1, 0], [0, 38, 0, 0, 0]);
    assert_eq!(answer(&[size, sleeper, step]), (0, 0));
    assert_eq!(answer(&[sleeper, size]), (4, 2));
    assert_eq!(answer(&[sleeper, step, size]), (4, 3));
    // Whichever comes first decides, and in one record 2 and 3 come before it.
    assert_eq!(answer(&[[0, 2, 0, 0, 0], [0, 99, 0, 0, 0]]), (14, 1));
    assert_eq!(answer(&[[0, 99, 0, 0, 0], [0, 2, 0, 0, 0]]), (6, 1));
    assert_eq!(answer(&[sleeper, [0, 0, 0, 0, 0]]), (3, 2));
    let mut marked = vec![0x4D, 0x50, 3, 0, 0, 0, 0];
    marked.extend([0x4D, 0x51, 0, 2, 9, 9, 9]);
    assert_eq!(check_code(&marked), 2 + 256);
    // A skip too far is tested over all steps behind all records.
    assert_eq!(answer(&[[0, 21, 0, 1, 0], sleeper]), (14, 2));
}

#[test]
fn starts_that_are_refused() {
    assert_eq!(answer(&[[0, 39, 0, 2, 0], [2, 39, 0, 2, 0]]), (0, 0));
    for number in [[3, 0], [7, 0], [8, 0], [0, 1], [2, 1], [255, 255]] {
        assert_eq!(answer(&[[0, 39, 0, number[0], number[1]]]), (7, 1));
    }
    assert_eq!(answer(&[[0, 39, 1, 0, 0]]), (7, 1));
    // 5 and 8 come before 7, and 40 is unknown.
    assert_eq!(answer(&[[3, 39, 0, 3, 0]]), (5, 1));
    assert_eq!(answer(&[[1, 39, 0, 0, 0], [0, 39, 0, 3, 0]]), (5, 2));
    let full = vec![[1, 39, 0, 1, 0]; 129];
    assert_eq!(answer(&full), (8, 129));
    assert_eq!(
        answer(&[&full[..128], &[[1, 39, 0, 3, 0]]].concat()),
        (8, 129)
    );
    assert_eq!(answer(&[[0, 40, 0, 0, 0]]), (6, 1));
    assert_eq!(answer(&[[0, 3, 0, 0, 0]]), (6, 1));
}

/// Every turn list up to a length leads to the end of the cycles, or to a
/// beginning of its log.
#[test]
fn any_order_of_turns_leads_to_one_end() {
    let rows: [Row; 3] = [
        &[(16, 0, 1), (39, 0, 2), (18, 0, 0), (35, 0, 0)],
        &[(17, 0, 0), (39, 0, 2), (18, 0, 2)],
        &[(17, 1, 0), (18, 1, 4), (39, 0, 0)],
    ];
    let file = draft(&rows, &[2]).file();
    let plan = check(&file).expect("an accepted plan");
    let memory = [7; MEMORY_LENGTH];
    let full = play_turns(&plan, &memory, &[0, 1, 2].repeat(30));
    assert_eq!(full.end(), 1);
    let mut rng = Rng::new(77);
    for _ in 0..4_000 {
        let list: Vec<u8> = (0..rng.below(90)).map(|_| rng.below(3) as u8).collect();
        let outcome = play_turns(&plan, &memory, &list);
        match outcome.end() {
            0 => assert!(full.log.starts_with(&outcome.log)),
            _ => assert_eq!(outcome, full),
        }
    }
}
