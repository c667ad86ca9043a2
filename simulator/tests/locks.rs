//! Locks by name, with values worked out by hand from the paper's fifth
//! request.

mod common;

use common::{end_of, front, report, run_call, Row};
use simulator::format::{MEMORY_LENGTH, REPORT_LENGTH};
use simulator::generate::draft::Draft;
use simulator::generate::{Batch, Rng};
use simulator::listing::listing_turns;
use simulator::{check, listing, Machine, Outcome};

fn draft(rows: &[Row]) -> Draft {
    Draft::from_rows(&[(0, 1), (1, 2)], rows)
}

/// Both runs give this text, and this report.
fn lists(draft: &Draft, text: &str, bytes: [u8; 16]) -> Outcome {
    assert_eq!(listing(&draft.file()), text);
    let outcome = end_of(draft, &[]);
    assert_eq!(front(&outcome), bytes);
    outcome
}

/// What a plan leaves by the rule that only the count of locks matters.
fn by_count(draft: &Draft) -> Outcome {
    let plan = check(&draft.file()).expect("an accepted plan");
    let mut machine = Machine::counting(&plan, &[0; MEMORY_LENGTH]);
    for turn in listing_turns(&plan) {
        machine.turn(usize::from(turn));
    }
    machine.outcome()
}

#[test]
fn a_file_and_all_that_it_leaves() {
    let file = [
        0x4D, 0x50, 1, 0, 0, 0, 0, // one worker
        0x4D, 0x50, 0, 32, 0, 3, 0, // lock 3
        0x4D, 0x50, 0, 16, 0, 2, 1, // set r0 to 258
        0x4D, 0x50, 0, 18, 0, 0, 0, // store it at 0
        0x4D, 0x50, 0, 32, 0, 9, 0, // lock 9
        0x4D, 0x50, 0, 33, 0, 3, 0, // unlock 3
        0x4D, 0x50, 0, 18, 0, 2, 0, // store r0 at 2
        0x4D, 0x50, 0, 33, 0, 9, 0, // unlock 9
    ];
    let own: Row = &[
        (32, 0, 3),
        (16, 0, 258),
        (18, 0, 0),
        (32, 0, 9),
        (33, 0, 3),
        (18, 0, 2),
        (33, 0, 9),
    ];
    let draft = Draft::from_rows(&[], &[own]);
    assert_eq!(draft.file(), file);
    let outcome = end_of(&draft, &[]);
    let log = [
        [0x4D, 0x4C, 1, 0, 0, 32, 3, 1],
        [0x4D, 0x4C, 1, 0, 0, 32, 9, 2],
        [0x4D, 0x4C, 1, 0, 0, 33, 3, 1],
        [0x4D, 0x4C, 1, 0, 0, 33, 9, 0],
        [0x4D, 0x4C, 2, 0, 0, 38, 0, 255],
    ];
    assert_eq!(outcome.log, log.concat());
    assert_eq!(outcome.memory[..6], [2, 1, 2, 1, 0, 0]);
    assert!(outcome.memory[6..].iter().all(|&byte| byte == 0));
    // An arrival, seven steps, an arrival and the end; the sum is 2 × 258.
    let no = 255;
    let bytes = [1, 1, 10, 0, 2, 0, 5, 0, 1, no, no, no, no, no, no, no];
    assert_eq!(front(&outcome), bytes);
    assert_eq!(outcome.report[16..], [4, 2, 0, 0]);
}

#[test]
fn two_are_given_back_in_either_order() {
    let first: Row = &[(32, 0, 3), (32, 0, 9), (33, 0, 3), (33, 0, 9)];
    let text = "1 0 32 3 1\n1 0 32 9 2\n1 0 33 3 1\n1 0 33 9 0\n2 0 38 0 255\nfinished 7\n";
    let bytes = report([1, 1], [7, 2, 5], &[1]);
    let outcome = lists(&draft(&[first]), text, bytes);
    assert_eq!(outcome, by_count(&draft(&[first])));
    let last: Row = &[(32, 0, 3), (32, 0, 9), (33, 0, 9), (33, 0, 3)];
    let text = "1 0 32 3 1\n1 0 32 9 2\n1 0 33 9 1\n1 0 33 3 0\n2 0 38 0 255\nfinished 7\n";
    let outcome = lists(&draft(&[last]), text, bytes);
    assert_eq!(outcome, by_count(&draft(&[last])));
}

#[test]
fn the_inner_unlock_commits_nothing_in_either_order() {
    for inner in [3, 9] {
        let own = [
            (32, 0, 3),
            (32, 0, 9),
            (16, 0, 7),
            (18, 0, 0),
            (33, 0, inner),
            (38, 0, 0),
        ];
        let outcome = end_of(&draft(&[&own]), &[]);
        assert!(outcome.memory.iter().all(|&byte| byte == 0));
        assert_eq!(front(&outcome), report([1, 1], [7, 1, 4], &[2]));
        assert_eq!(outcome.log[24..], [0x4D, 0x4C, 1, 0, 0, 38, 0, 254]);
    }
}

#[test]
fn the_wrong_one_is_unlocked() {
    let own: Row = &[
        (16, 0, 7),
        (18, 0, 0),
        (32, 0, 1),
        (18, 0, 2),
        (33, 0, 2),
        (18, 0, 4),
    ];
    let plan = draft(&[own]);
    // What the lock committed stays, what was stored behind it is lost.
    let text = "1 0 32 1 1\n1 0 33 2 254\nfinished 6\n";
    let outcome = lists(&plan, text, report([1, 1], [6, 1, 2], &[2]));
    assert_eq!(outcome.memory[..6], [7, 0, 0, 0, 0, 0]);
    assert_eq!(outcome.sum(), 7);
    // Document 01 ran on: a store, an arrival and the end more.
    let before = by_count(&plan);
    assert_eq!(before.memory[..6], [7, 0, 7, 0, 7, 0]);
    assert_eq!(front(&before), report([1, 1], [9, 2, 3], &[1]));
    assert_eq!(before.log[8..16], [0x4D, 0x4C, 1, 0, 0, 33, 2, 0]);
}

#[test]
fn one_is_taken_twice() {
    let own: Row = &[(16, 0, 7), (18, 0, 0), (32, 0, 5), (18, 0, 2), (32, 0, 5)];
    let plan = draft(&[own]);
    let text = "1 0 32 5 1\n1 0 32 5 254\nfinished 6\n";
    let outcome = lists(&plan, text, report([1, 1], [6, 1, 2], &[2]));
    assert_eq!(outcome.memory[..4], [7, 0, 0, 0]);
    // Document 01 counted 2 and failed at the end, a move later.
    let before = by_count(&plan);
    assert_eq!(before.memory[..4], [7, 0, 0, 0]);
    assert_eq!(front(&before), report([1, 1], [7, 1, 3], &[2]));
    // One that failed with lock 5 held does not keep others from it.
    let twice: Row = &[(32, 0, 5), (32, 0, 5)];
    let once: Row = &[(32, 0, 5), (33, 0, 5)];
    let text = "1 0 32 5 1\n1 0 32 5 254\n1 1 32 5 1\n1 1 33 5 0\n2 1 38 0 255\nfinished 8\n";
    let bytes = report([1, 2], [8, 2, 5], &[2, 1]);
    lists(&draft(&[twice, once]), text, bytes);
}

#[test]
fn one_is_taken_twice_with_another_between() {
    let own: Row = &[(32, 0, 5), (32, 0, 6), (32, 0, 5)];
    let text = "1 0 32 5 1\n1 0 32 6 2\n1 0 32 5 254\nfinished 4\n";
    lists(&draft(&[own]), text, report([1, 1], [4, 1, 3], &[2]));
}

#[test]
fn a_lock_that_was_given_back_is_taken_again() {
    let own: Row = &[(32, 0, 2), (33, 0, 2), (32, 0, 2), (33, 0, 2)];
    let text = "1 0 32 2 1\n1 0 33 2 0\n2 0 32 2 1\n2 0 33 2 0\n3 0 38 0 255\nfinished 8\n";
    lists(&draft(&[own]), text, report([1, 1], [8, 3, 5], &[1]));
    // With another one held meanwhile all of it is one hold.
    let own: Row = &[
        (32, 0, 1),
        (32, 0, 2),
        (33, 0, 2),
        (32, 0, 2),
        (33, 0, 1),
        (33, 0, 2),
    ];
    let text = "1 0 32 1 1\n1 0 32 2 2\n1 0 33 2 1\n1 0 32 2 2\n1 0 33 1 1\n1 0 33 2 0\n\
                2 0 38 0 255\nfinished 9\n";
    lists(&draft(&[own]), text, report([1, 1], [9, 2, 7], &[1]));
    // It is given back once.
    let own: Row = &[(32, 0, 1), (32, 0, 2), (33, 0, 2), (33, 0, 2)];
    let text = "1 0 32 1 1\n1 0 32 2 2\n1 0 33 2 1\n1 0 33 2 254\nfinished 5\n";
    lists(&draft(&[own]), text, report([1, 1], [5, 1, 4], &[2]));
}

#[test]
fn both_are_held_behind_a_wait() {
    let waits: Row = &[
        (32, 0, 3),
        (32, 0, 8),
        (34, 0, 2),
        (33, 0, 3),
        (16, 0, 9),
        (18, 0, 0),
        (33, 0, 8),
    ];
    let plan = draft(&[waits, &[(35, 0, 2)]]);
    let text = "1 0 32 3 1\n1 0 32 8 2\n1 0 34 2 255\n1 1 35 2 0\n1 0 33 3 1\n1 0 33 8 0\n\
                2 1 38 0 255\n2 0 38 0 255\nfinished 14\n";
    let outcome = lists(&plan, text, report([1, 2], [14, 2, 8], &[1, 1]));
    assert_eq!(outcome.memory[..4], [9, 0, 0, 0]);
    assert_eq!(outcome, by_count(&plan));
}

#[test]
fn just_these_two_are_held_behind_a_wait() {
    // Locking one of them fails, and so does unlocking any other.
    let fails = |op: u8, lock: u16| {
        let waits = [
            (32, 0, 3),
            (32, 0, 8),
            (34, 0, 2),
            (16, 0, 9),
            (18, 0, 0),
            (op, 0, lock),
        ];
        let text = format!(
            "1 0 32 3 1\n1 0 32 8 2\n1 0 34 2 255\n1 1 36 2 1\n1 0 {op} {lock} 254\n\
             2 1 38 0 255\nfinished 11\n"
        );
        let bytes = report([1, 2], [11, 2, 6], &[2, 1]);
        let outcome = lists(&draft(&[&waits, &[(36, 0, 2)]]), &text, bytes);
        assert!(outcome.memory.iter().all(|&byte| byte == 0));
    };
    fails(32, 3);
    fails(32, 8);
    for other in (0..16).filter(|&lock| lock != 3 && lock != 8) {
        fails(33, other);
    }
}

#[test]
fn two_workers_hold_the_same_lock() {
    let waits: Row = &[(32, 0, 3), (34, 0, 0), (17, 0, 2), (18, 0, 0), (33, 0, 3)];
    let takes: Row = &[(32, 0, 3), (16, 0, 6), (18, 0, 2), (35, 0, 0), (33, 0, 3)];
    let plan = draft(&[waits, takes]);
    let text = "1 0 32 3 1\n1 0 34 0 255\n1 1 32 3 1\n1 1 35 0 0\n1 1 33 3 0\n1 0 33 3 0\n\
                2 1 38 0 255\n2 0 38 0 255\nfinished 16\n";
    let outcome = lists(&plan, text, report([1, 2], [16, 2, 8], &[1, 1]));
    assert_eq!(outcome.memory[..4], [6, 0, 6, 0]);
    assert_eq!(outcome, by_count(&plan));
}

#[test]
fn nobody_unlocks_what_another_holds() {
    // Worker 0 holds lock 3 all the while, worker 1 nothing or lock 4.
    let waits: Row = &[(32, 0, 3), (34, 0, 0), (33, 0, 3)];
    let bare: Row = &[(16, 0, 7), (18, 0, 0), (33, 0, 3)];
    let text = "1 0 32 3 1\n1 0 34 0 255\n1 1 33 3 254\n1 2 35 0 0\n1 0 33 3 0\n\
                2 2 38 0 255\n2 0 38 0 255\nfinished 14\n";
    let bytes = report([1, 3], [14, 2, 7], &[1, 2, 1]);
    let outcome = lists(&draft(&[waits, bare, &[(35, 0, 0)]]), text, bytes);
    assert!(outcome.memory.iter().all(|&byte| byte == 0));
    let held: Row = &[(32, 0, 4), (16, 0, 7), (18, 0, 0), (33, 0, 3)];
    let text = "1 0 32 3 1\n1 0 34 0 255\n1 1 32 4 1\n1 1 33 3 254\n1 2 35 0 0\n1 0 33 3 0\n\
                2 2 38 0 255\n2 0 38 0 255\nfinished 15\n";
    let bytes = report([1, 3], [15, 2, 8], &[1, 2, 1]);
    let outcome = lists(&draft(&[waits, held, &[(35, 0, 0)]]), text, bytes);
    assert!(outcome.memory.iter().all(|&byte| byte == 0));
}

#[test]
fn eight_workers_hold_the_same_locks() {
    // Seven wait with locks 0 and 15 held, the eighth takes both and wakes them.
    let waits: Row = &[(32, 0, 0), (32, 0, 15), (34, 0, 7), (33, 0, 15), (33, 0, 0)];
    let wakes: Row = &[(32, 0, 15), (32, 0, 0), (36, 0, 7), (33, 0, 15), (33, 0, 0)];
    let mut text = String::new();
    for worker in 0..7 {
        text += &format!("1 {worker} 32 0 1\n1 {worker} 32 15 2\n1 {worker} 34 7 255\n");
    }
    text += "1 7 32 15 1\n1 7 32 0 2\n1 7 36 7 7\n1 7 33 15 1\n1 7 33 0 0\n";
    for worker in 0..7 {
        text += &format!("1 {worker} 33 15 1\n1 {worker} 33 0 0\n");
    }
    for worker in [7, 0, 1, 2, 3, 4, 5, 6] {
        text += &format!("2 {worker} 38 0 255\n");
    }
    // 8 arrivals, 7 × 5 + 5 steps, 8 arrivals and 8 ends.
    text += "finished 64\n";
    let rows: Vec<Row> = [&[waits; 7][..], &[wakes]].concat();
    lists(&draft(&rows), &text, report([1, 8], [64, 2, 48], &[1; 8]));
}

#[test]
fn all_sixteen() {
    let mut own: Vec<(u8, u8, u16)> = (0..16).map(|lock| (32, 0, lock)).collect();
    let mut text = String::new();
    for lock in 0..16 {
        text += &format!("1 0 32 {lock} {}\n", lock + 1);
    }
    // A further lock is one of them, whichever it is.
    for lock in [0, 7, 15] {
        let more = [&own[..], &[(32, 0, lock)]].concat();
        let text = format!("{text}1 0 32 {lock} 254\nfinished 18\n");
        lists(&draft(&[&more]), &text, report([1, 1], [18, 1, 17], &[2]));
    }
    // They are given back, the first one first.
    own.extend((0..16).map(|lock| (33, 0, lock)));
    for lock in 0..16 {
        text += &format!("1 0 33 {lock} {}\n", 15 - lock);
    }
    text += "2 0 38 0 255\nfinished 35\n";
    lists(&draft(&[&own]), &text, report([1, 1], [35, 2, 33], &[1]));
}

#[test]
fn a_wait_without_any_and_a_barrier_or_an_end_with_several() {
    let free: Row = &[(32, 0, 1), (33, 0, 1), (34, 0, 6)];
    let text = "1 0 32 1 1\n1 0 33 1 0\n2 0 34 6 254\nfinished 5\n";
    lists(&draft(&[free]), text, report([1, 1], [5, 2, 3], &[2]));
    let ends: [(Row, &str); 3] = [
        (&[(37, 0, 0)], "37 0"),
        (&[(38, 0, 0)], "38 0"),
        (&[], "38 0"),
    ];
    for (end, met) in ends {
        let own = [&[(32, 0, 4), (32, 0, 11), (18, 0, 0)], end].concat();
        let text = format!("1 0 32 4 1\n1 0 32 11 2\n1 0 {met} 254\nfinished 5\n");
        lists(&draft(&[&own]), &text, report([1, 1], [5, 1, 3], &[2]));
    }
}

#[test]
fn wakings_and_starts_run_on_while_any_lock_is_held() {
    let own: Row = &[
        (32, 0, 6),
        (32, 0, 7),
        (35, 0, 0),
        (33, 0, 6),
        (36, 0, 0),
        (39, 0, 1),
        (33, 0, 7),
        (36, 0, 0),
    ];
    // The started worker holds none of the caller's locks.
    let plan = draft(&[own, &[(33, 0, 7)]]).asleep(&[1]);
    let text = "1 0 32 6 1\n1 0 32 7 2\n1 0 35 0 255\n1 0 33 6 1\n1 0 36 0 0\n1 0 39 1 1\n\
                1 0 33 7 0\n2 1 33 7 254\n2 0 36 0 0\n3 0 38 0 255\nfinished 14\n";
    lists(&plan, text, report([1, 2], [14, 3, 10], &[1, 2]));
}

#[test]
fn each_plan_of_a_call_begins_without_locks() {
    // The first plan ends with lock 3 held, by one that waits.
    let waits: Row = &[(32, 0, 3), (34, 0, 0)];
    let takes: Row = &[(32, 0, 3), (33, 0, 3)];
    let files = [waits, takes, waits].map(|row| draft(&[row]).file());
    let mut call = Batch::of(&mut Rng::new(60), &files);
    assert_eq!(call.run(), 0);
    let fronts: Vec<&[u8]> = call.lent[2]
        .chunks_exact(REPORT_LENGTH)
        .map(|bytes| &bytes[..16])
        .collect();
    let stuck = report([2, 1], [3, 1, 2], &[3]);
    let finished = report([1, 1], [5, 2, 3], &[1]);
    assert_eq!(fronts, [stuck, finished, stuck]);
}

#[test]
fn turn_by_turn() {
    // Worker 1 comes to its wrong unlock only with the token, and worker 0
    // then goes on as if it had not been there.
    let waits: Row = &[(32, 0, 0), (32, 0, 1), (34, 0, 0), (33, 0, 0), (33, 0, 1)];
    let wrong: Row = &[(32, 0, 2), (35, 0, 0), (33, 0, 1)];
    let plan = draft(&[waits, wrong]);
    let read = check(&plan.file()).expect("an accepted plan");
    let mut machine = Machine::new(&read, &[0; MEMORY_LENGTH]);
    let turns = [1, 1, 0, 1, 0, 0, 0, 0, 1, 0, 1, 0, 1, 1, 0, 1, 0, 0, 0, 0];
    let moves = [1, 0, 1, 0, 1, 1, 1, 0, 1, 0, 1, 0, 1, 0, 1, 0, 1, 1, 1, 0];
    for (turn, moved) in turns.into_iter().zip(moves) {
        assert_eq!(machine.turn(turn), moved == 1);
    }
    let bytes = report([1, 2], [12, 2, 9], &[1, 2]);
    assert_eq!(front(&machine.outcome()), bytes);
    // What a run of the call leaves just before and just behind the failure.
    let before = run_call(&plan, &turns.map(|turn| turn as u8)[..12], &[]);
    assert_eq!(front(&before), report([0, 2], [7, 0, 5], &[0, 0]));
    let behind = run_call(&plan, &turns.map(|turn| turn as u8)[..13], &[]);
    assert_eq!(front(&behind), report([0, 2], [8, 0, 6], &[0, 2]));
    assert_eq!(behind.log[40..], [0x4D, 0x4C, 1, 0, 1, 33, 1, 254]);
}
