//! The paper's cases 1 to 11 and further plans, with values worked out by
//! hand from the paper.

mod common;

use common::{end_of, front, report, run_call, Row};
use simulator::format::{LOG_LENGTH, MEMORY_LENGTH};
use simulator::generate::draft::Draft;
use simulator::generate::{plan, PlanKind, Rng};
use simulator::listing::log_lines;
use simulator::{check, check_code, listing, Machine};

fn race() -> Draft {
    let first: Row = &[(17, 0, 2), (22, 0, 2), (16, 1, 1), (18, 1, 0)];
    let second: Row = &[(17, 0, 0), (22, 0, 2), (16, 1, 1), (18, 1, 2)];
    Draft::from_rows(&[], &[first, second])
}

#[test]
fn case_01_race() {
    let outcome = end_of(&race(), &[]);
    assert_eq!(outcome.memory[..4], [1, 0, 1, 0]);
    assert!(outcome.memory[4..].iter().all(|&byte| byte == 0));
    assert_eq!(front(&outcome), report([1, 2], [12, 1, 2], &[1, 1]));
    let bytes = [
        0x4D, 0x4C, 1, 0, 0, 38, 0, 255, //
        0x4D, 0x4C, 1, 0, 1, 38, 0, 255,
    ];
    assert_eq!(outcome.log, bytes);
    let text = "1 0 38 0 255\n1 1 38 0 255\nfinished 12\n";
    assert_eq!(listing(&race().file()), text);
}

#[test]
fn case_02_bytes_not_words() {
    let rows: [Row; 2] = [&[(16, 0, 256), (18, 0, 0)], &[(16, 0, 1), (18, 0, 0)]];
    let outcome = end_of(&Draft::from_rows(&[], &rows), &[]);
    assert_eq!(outcome.word(0), 257);
    assert_eq!(front(&outcome), report([1, 2], [8, 1, 2], &[1, 1]));
}

#[test]
fn case_03_only_bytes_that_differ() {
    let rows: [Row; 2] = [&[(16, 0, 7), (18, 0, 0)], &[(16, 0, 5), (18, 0, 0)]];
    let outcome = end_of(&Draft::from_rows(&[], &rows), &[(0, 5)]);
    assert_eq!(outcome.word(0), 7);
    assert_eq!(front(&outcome), report([1, 2], [8, 1, 2], &[1, 1]));
}

#[test]
fn case_04_locked_sums() {
    let own: Row = &[
        (32, 0, 0),
        (17, 0, 0),
        (16, 1, 1),
        (19, 0, 1),
        (18, 0, 0),
        (33, 0, 0),
    ];
    let draft = Draft::from_rows(&[], &[own, own]);
    let outcome = end_of(&draft, &[]);
    assert_eq!(outcome.word(0), 2);
    assert_eq!(front(&outcome), report([1, 2], [18, 2, 6], &[1, 1]));
    let text = "1 0 32 0 1\n1 0 33 0 0\n1 1 32 0 1\n1 1 33 0 0\n\
                2 0 38 0 255\n2 1 38 0 255\nfinished 18\n";
    assert_eq!(listing(&draft.file()), text);
}

#[test]
fn case_05_sums_without_locks() {
    let own: Row = &[(17, 0, 0), (16, 1, 1), (19, 0, 1), (18, 0, 0)];
    let outcome = end_of(&Draft::from_rows(&[], &[own, own]), &[]);
    assert_eq!(outcome.word(0), 1);
    assert_eq!(front(&outcome), report([1, 2], [12, 1, 2], &[1, 1]));
}

#[test]
fn case_06_wait_alone() {
    let draft = Draft::from_rows(&[], &[&[(32, 0, 0), (34, 0, 0)]]);
    let outcome = end_of(&draft, &[]);
    assert_eq!(front(&outcome), report([2, 1], [3, 1, 2], &[3]));
    let text = "1 0 32 0 1\n1 0 34 0 255\nstuck 3\n";
    assert_eq!(listing(&draft.file()), text);
}

#[test]
fn case_07_unlock_fails() {
    let bare = end_of(&Draft::from_rows(&[], &[&[(18, 0, 0), (33, 0, 0)]]), &[]);
    assert_eq!(front(&bare), report([1, 1], [3, 1, 1], &[2]));
    let draft = Draft::from_rows(&[], &[&[(16, 0, 9), (18, 0, 0), (33, 0, 0)]]);
    let outcome = end_of(&draft, &[]);
    assert!(outcome.memory.iter().all(|&byte| byte == 0));
    assert_eq!(front(&outcome), report([1, 1], [4, 1, 1], &[2]));
    assert_eq!(listing(&draft.file()), "1 0 33 0 254\nfinished 4\n");
}

#[test]
fn case_08_barrier_of_two() {
    let draft = Draft::from_rows(&[(0, 2)], &[&[(37, 0, 0)], &[(37, 0, 0)]]);
    assert_eq!(
        front(&end_of(&draft, &[])),
        report([1, 2], [8, 2, 4], &[1, 1])
    );
    let text = "1 0 37 0 0\n1 1 37 0 2\n2 0 38 0 255\n2 1 38 0 255\nfinished 8\n";
    assert_eq!(listing(&draft.file()), text);
}

#[test]
fn case_09_signal_within_the_round() {
    let waits: Row = &[(32, 0, 0), (34, 0, 0), (33, 0, 0)];
    let signals: Row = &[(32, 0, 0), (35, 0, 0), (33, 0, 0)];
    let draft = Draft::from_rows(&[], &[waits, signals]);
    assert_eq!(
        front(&end_of(&draft, &[])),
        report([1, 2], [12, 2, 8], &[1, 1])
    );
    let text = "1 0 32 0 1\n1 0 34 0 255\n1 1 32 0 1\n1 1 35 0 0\n1 1 33 0 0\n\
                1 0 33 0 0\n2 1 38 0 255\n2 0 38 0 255\nfinished 12\n";
    assert_eq!(listing(&draft.file()), text);
}

#[test]
fn case_10_no_turns() {
    let outcome = run_call(&race(), &[], &[]);
    assert!(outcome.log.is_empty());
    assert!(outcome.memory.iter().all(|&byte| byte == 0));
    assert_eq!(front(&outcome), report([0, 2], [0, 0, 0], &[0, 0]));
}

#[test]
fn case_11_limits() {
    for op in [17, 18] {
        let last = Draft::from_rows(&[], &[&[(op, 0, 2_046)]]);
        assert_eq!(check_code(&last.file()), 0);
        let over = Draft::from_rows(&[], &[&[(op, 0, 2_047)]]);
        assert_eq!(check_code(&over.file()), 7 + 256);
        assert_eq!(listing(&over.file()), "refused 7 1\n");
    }
    let longest = plan(&mut Rng::new(1), PlanKind::Longest).file();
    assert_eq!((longest.len(), check_code(&longest)), (7_280, 0));
    let mut longer = longest.clone();
    longer.extend_from_slice(&longest[longest.len() - 7..]);
    assert_eq!((longer.len(), check_code(&longer)), (7_287, 1));
    assert_eq!(listing(&longer), "refused 1 0\n");
    let none: Row = &[];
    assert_eq!(check_code(&Draft::from_rows(&[], &[none; 8]).file()), 0);
    assert_eq!(check_code(&Draft::from_rows(&[], &[none; 9]).file()), 3);
    let last = Draft::from_rows(&[], &[none, &[(21, 0, 1), (16, 0, 0)]]);
    assert_eq!(check_code(&last.file()), 0);
    let over = Draft::from_rows(&[], &[none, &[(21, 0, 2), (16, 0, 0)]]);
    assert_eq!(check_code(&over.file()), 10 + 256);
}

#[test]
fn second_signal_goes_before_the_first_woken() {
    let waits: Row = &[(32, 0, 0), (34, 0, 0), (33, 0, 0)];
    let signals: Row = &[(32, 0, 0), (35, 0, 0), (35, 0, 0), (33, 0, 0)];
    let draft = Draft::from_rows(&[], &[waits, waits, signals]);
    end_of(&draft, &[]);
    let text = "1 0 32 0 1\n1 0 34 0 255\n1 1 32 0 1\n1 1 34 0 255\n1 2 32 0 1\n\
                1 2 35 0 0\n1 2 35 0 1\n1 2 33 0 0\n1 1 33 0 0\n1 0 33 0 0\n\
                2 2 38 0 255\n2 1 38 0 255\n2 0 38 0 255\nfinished 19\n";
    assert_eq!(listing(&draft.file()), text);
}

#[test]
fn broadcast_wakes_everybody() {
    let waits: Row = &[(32, 0, 0), (34, 0, 0), (33, 0, 0)];
    let draft = Draft::from_rows(&[], &[waits, waits, &[(36, 0, 0)]]);
    let outcome = end_of(&draft, &[]);
    assert_eq!(front(&outcome), report([1, 3], [16, 2, 10], &[1, 1, 1]));
    let text = "1 0 32 0 1\n1 0 34 0 255\n1 1 32 0 1\n1 1 34 0 255\n1 2 36 0 2\n\
                1 0 33 0 0\n1 1 33 0 0\n2 2 38 0 255\n2 0 38 0 255\n2 1 38 0 255\n\
                finished 16\n";
    assert_eq!(listing(&draft.file()), text);
}

#[test]
fn barriers_of_other_sizes() {
    let own: Row = &[(37, 0, 4)];
    let above = Draft::from_rows(&[(4, 3)], &[own, own]);
    assert_eq!(
        front(&end_of(&above, &[])),
        report([2, 2], [4, 1, 2], &[4, 4])
    );
    let one = Draft::from_rows(&[(4, 1)], &[own]);
    assert_eq!(
        listing(&one.file()),
        "1 0 37 4 1\n2 0 38 0 255\nfinished 4\n"
    );
    let below = Draft::from_rows(&[(4, 2)], &[own, own, own]);
    let outcome = end_of(&below, &[]);
    assert_eq!(front(&outcome), report([2, 3], [10, 2, 5], &[1, 1, 4]));
    let text = "1 0 37 4 0\n1 1 37 4 2\n1 2 37 4 0\n2 0 38 0 255\n2 1 38 0 255\n";
    assert_eq!(log_lines(&outcome.log), text);
}

#[test]
fn a_full_barrier_joins_the_tail() {
    let meets: Row = &[(37, 0, 0)];
    let draft = Draft::from_rows(&[(0, 2)], &[meets, &[(35, 0, 0)], meets]);
    end_of(&draft, &[]);
    let text = "1 0 37 0 0\n1 1 35 0 255\n1 2 37 0 2\n2 1 38 0 255\n\
                2 0 38 0 255\n2 2 38 0 255\nfinished 12\n";
    assert_eq!(listing(&draft.file()), text);
}

#[test]
fn stores_and_loads_over_a_page_border() {
    let rows: [Row; 2] = [
        &[(16, 0, 513), (18, 0, 255)],
        &[(16, 0, 1_027), (18, 0, 256)],
    ];
    let outcome = end_of(&Draft::from_rows(&[], &rows), &[]);
    assert_eq!(outcome.memory[254..259], [0, 1, 3, 4, 0]);
    // Page 0 is copied, page 1 is not: the load takes a byte from each.
    let own: Row = &[(16, 0, 7), (18, 0, 254), (17, 1, 255), (18, 1, 0)];
    let outcome = end_of(&Draft::from_rows(&[], &[own]), &[(255, 3), (256, 9)]);
    assert_eq!(outcome.memory[..3], [0, 9, 0]);
    assert_eq!(outcome.memory[253..258], [0, 7, 0, 9, 0]);
}

#[test]
fn what_a_failure_loses() {
    // A first lock commits, a further one and an inner unlock do not.
    let store = [(16, 0, 1), (18, 0, 0)];
    let end = (38, 0, 0);
    let first = [store[0], store[1], (32, 0, 0), end];
    let second = [(32, 0, 0), store[0], store[1], (32, 0, 1), end];
    let inner = [(32, 0, 0), (32, 0, 1), store[0], store[1], (33, 0, 0), end];
    let signal = [(32, 0, 0), store[0], store[1], (35, 0, 0), (18, 0, 2), end];
    let rows: [(Row, u16); 4] = [(&first, 1), (&second, 0), (&inner, 0), (&signal, 1)];
    for (row, word) in rows {
        let outcome = end_of(&Draft::from_rows(&[], &[row]), &[]);
        assert_eq!((outcome.word(0), outcome.word(2)), (word, 0));
        assert_eq!(outcome.report[8], 2);
    }
}

#[test]
fn failures_are_logged_as_met() {
    let skips = Draft::from_rows(&[], &[&[(32, 0, 0), (16, 0, 0), (21, 0, 1), (33, 0, 0)]]);
    assert_eq!(
        listing(&skips.file()),
        "1 0 32 0 1\n1 0 38 0 254\nfinished 5\n"
    );
    let meets = Draft::from_rows(&[(3, 1)], &[&[(32, 0, 5), (37, 0, 3)]]);
    assert_eq!(
        listing(&meets.file()),
        "1 0 32 5 1\n1 0 37 3 254\nfinished 3\n"
    );
    let waits = Draft::from_rows(&[], &[&[(34, 0, 6)]]);
    assert_eq!(listing(&waits.file()), "1 0 34 6 254\nfinished 2\n");
}

#[test]
fn a_wait_keeps_the_count() {
    let waits: Row = &[(32, 0, 1), (32, 0, 2), (34, 0, 0), (33, 0, 2), (33, 0, 1)];
    let draft = Draft::from_rows(&[], &[waits, &[(35, 0, 0)]]);
    end_of(&draft, &[]);
    let text = "1 0 32 1 1\n1 0 32 2 2\n1 0 34 0 255\n1 1 35 0 0\n1 0 33 2 1\n\
                1 0 33 1 0\n2 1 38 0 255\n2 0 38 0 255\nfinished 12\n";
    assert_eq!(listing(&draft.file()), text);
}

#[test]
fn commits_come_behind_a_full_fence() {
    let signals: Row = &[(16, 0, 9), (18, 0, 0), (35, 0, 0)];
    let copies: Row = &[(17, 0, 0), (18, 0, 2)];
    let outcome = end_of(&Draft::from_rows(&[], &[signals, copies]), &[]);
    assert_eq!((outcome.word(0), outcome.word(2)), (9, 0));
    // A woken worker goes on in the same round and sees the commit.
    let waits: Row = &[(32, 0, 0), (34, 0, 0), (17, 0, 0), (18, 0, 2), (33, 0, 0)];
    let outcome = end_of(&Draft::from_rows(&[], &[waits, signals]), &[]);
    assert_eq!((outcome.word(0), outcome.word(2)), (9, 9));
}

#[test]
fn registers_wrap() {
    let own: Row = &[
        (16, 0, 65_535),
        (16, 1, 2),
        (19, 0, 1),
        (18, 0, 0),
        (16, 2, 1),
        (20, 2, 1),
        (18, 2, 2),
    ];
    let outcome = end_of(&Draft::from_rows(&[], &[own]), &[]);
    assert_eq!((outcome.word(0), outcome.word(2)), (1, 65_535));
}

#[test]
fn turn_by_turn() {
    let own: Row = &[(32, 0, 0), (33, 0, 0)];
    let file = Draft::from_rows(&[], &[own, own]).file();
    let plan = check(&file).expect("an accepted plan");
    let mut machine = Machine::new(&plan, &[0; MEMORY_LENGTH]);
    let turns = [1, 1, 0, 1, 0, 1, 0, 0, 1, 1, 1, 1, 0, 1, 0, 0, 1, 1, 0];
    let moves = [1, 0, 1, 0, 1, 0, 1, 0, 1, 1, 1, 0, 1, 0, 1, 0, 1, 0, 0];
    for (turn, moved) in turns.into_iter().zip(moves) {
        assert_eq!(machine.turn(turn), moved == 1);
    }
    let outcome = machine.outcome();
    assert_eq!(front(&outcome), report([1, 2], [10, 2, 6], &[1, 1]));
}

#[test]
fn the_longest_log_fits() {
    let signals = [(35, 0, 0); 128];
    let outcome = end_of(&Draft::from_rows(&[], &[&signals[..]; 8]), &[]);
    assert_eq!(outcome.log.len(), LOG_LENGTH);
    assert_eq!(
        front(&outcome),
        report([1, 8], [2_064, 129, 1_032], &[1; 8])
    );
}
