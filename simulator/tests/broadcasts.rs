//! Broadcasts, with values worked out by hand from the paper's second request.

mod common;

use common::{end_of, front, report, run_call, Row};
use simulator::format::MEMORY_LENGTH;
use simulator::generate::draft::Draft;
use simulator::generate::Rng;
use simulator::{check, listing, play_turns, Machine};

/// A wait on condition 0, and on condition 1, inside a lock.
const WAITS: Row = &[(32, 0, 0), (34, 0, 0), (33, 0, 0)];
const WAITS_ON_1: Row = &[(32, 0, 0), (34, 0, 1), (33, 0, 0)];
const BROADCASTS: Row = &[(36, 0, 0)];
const LOCKED: Row = &[(32, 0, 0), (36, 0, 0), (33, 0, 0)];

fn draft(rows: &[Row]) -> Draft {
    Draft::from_rows(&[], rows)
}

/// Both runs give this text, and this report.
fn lists(draft: &Draft, text: &str, bytes: [u8; 16]) {
    assert_eq!(listing(&draft.file()), text);
    assert_eq!(front(&end_of(draft, &[])), bytes);
}

#[test]
fn a_file_and_all_that_it_leaves() {
    let file = [
        0x4D, 0x50, 3, 0, 0, 0, 0, // three workers
        0x4D, 0x50, 0, 32, 0, 1, 0, // worker 0: lock 1
        0x4D, 0x50, 0, 34, 0, 5, 0, // wait on condition 5
        0x4D, 0x50, 0, 33, 0, 1, 0, // unlock 1
        0x4D, 0x50, 1, 32, 0, 1, 0, // worker 1: the same
        0x4D, 0x50, 1, 34, 0, 5, 0, //
        0x4D, 0x50, 1, 33, 0, 1, 0, //
        0x4D, 0x50, 2, 36, 0, 5, 0, // worker 2: broadcast condition 5
    ];
    let waits: Row = &[(32, 0, 1), (34, 0, 5), (33, 0, 1)];
    let draft = draft(&[waits, waits, &[(36, 0, 5)]]);
    assert_eq!(draft.file(), file);
    let log = [
        [0x4D, 0x4C, 1, 0, 0, 32, 1, 1],
        [0x4D, 0x4C, 1, 0, 0, 34, 5, 255],
        [0x4D, 0x4C, 1, 0, 1, 32, 1, 1],
        [0x4D, 0x4C, 1, 0, 1, 34, 5, 255],
        [0x4D, 0x4C, 1, 0, 2, 36, 5, 2],
        [0x4D, 0x4C, 1, 0, 0, 33, 1, 0],
        [0x4D, 0x4C, 1, 0, 1, 33, 1, 0],
        [0x4D, 0x4C, 2, 0, 2, 38, 0, 255],
        [0x4D, 0x4C, 2, 0, 0, 38, 0, 255],
        [0x4D, 0x4C, 2, 0, 1, 38, 0, 255],
    ];
    let outcome = end_of(&draft, &[]);
    assert_eq!(outcome.log, log.concat());
    let no = 255;
    let bytes = [1, 3, 16, 0, 2, 0, 10, 0, 1, 1, 1, no, no, no, no, no];
    assert_eq!(front(&outcome), bytes);
}

#[test]
fn waiters_of_another_condition_stay() {
    let rows: [Row; 5] = [WAITS, WAITS_ON_1, WAITS, WAITS, LOCKED];
    let text = "1 0 32 0 1\n1 0 34 0 255\n1 1 32 0 1\n1 1 34 1 255\n1 2 32 0 1\n1 2 34 0 255\n\
                1 3 32 0 1\n1 3 34 0 255\n1 4 32 0 1\n1 4 36 0 3\n1 4 33 0 0\n1 0 33 0 0\n\
                1 2 33 0 0\n1 3 33 0 0\n2 4 38 0 255\n2 0 38 0 255\n2 2 38 0 255\n\
                2 3 38 0 255\nstuck 27\n";
    let fates = [1, 3, 1, 1, 1];
    lists(&draft(&rows), text, report([2, 5], [27, 2, 18], &fates));
    // The same without a lock around the broadcast.
    let rows: [Row; 5] = [WAITS, WAITS_ON_1, WAITS, WAITS, BROADCASTS];
    let text = "1 0 32 0 1\n1 0 34 0 255\n1 1 32 0 1\n1 1 34 1 255\n1 2 32 0 1\n1 2 34 0 255\n\
                1 3 32 0 1\n1 3 34 0 255\n1 4 36 0 3\n1 0 33 0 0\n1 2 33 0 0\n1 3 33 0 0\n\
                2 4 38 0 255\n2 0 38 0 255\n2 2 38 0 255\n2 3 38 0 255\nstuck 25\n";
    lists(&draft(&rows), text, report([2, 5], [25, 2, 16], &fates));
}

#[test]
fn four_waiters_none_sleeps_on() {
    let rows: [Row; 5] = [LOCKED, WAITS, WAITS, WAITS, WAITS];
    // The broadcast comes before the waits, reaches nobody, and all four stay.
    let early = end_of(&draft(&rows), &[]);
    assert_eq!(front(&early), report([2, 5], [18, 2, 12], &[1, 3, 3, 3, 3]));
    // A round later it reaches all four of them.
    let late: Row = &[(35, 0, 7), (36, 0, 0)];
    let rows: [Row; 5] = [late, WAITS, WAITS, WAITS, WAITS];
    let text = "1 0 35 7 255\n1 1 32 0 1\n1 1 34 0 255\n1 2 32 0 1\n1 2 34 0 255\n1 3 32 0 1\n\
                1 3 34 0 255\n1 4 32 0 1\n1 4 34 0 255\n2 0 36 0 4\n2 1 33 0 0\n2 2 33 0 0\n\
                2 3 33 0 0\n2 4 33 0 0\n3 0 38 0 255\n3 1 38 0 255\n3 2 38 0 255\n\
                3 3 38 0 255\n3 4 38 0 255\nfinished 30\n";
    lists(&draft(&rows), text, report([1, 5], [30, 3, 19], &[1; 5]));
}

#[test]
fn seven_are_woken() {
    let waits: Row = &[(32, 0, 0), (34, 0, 7), (33, 0, 0)];
    for (own, locked) in [
        (&[(36, 0, 7)][..], false),
        (&[(32, 0, 2), (36, 0, 7), (33, 0, 2)], true),
    ] {
        let rows: Vec<Row> = [&[waits; 7][..], &[own]].concat();
        let mut text = String::new();
        for worker in 0..7 {
            text += &format!("1 {worker} 32 0 1\n1 {worker} 34 7 255\n");
        }
        text += match locked {
            false => "1 7 36 7 7\n",
            true => "1 7 32 2 1\n1 7 36 7 7\n1 7 33 2 0\n",
        };
        for worker in 0..7 {
            text += &format!("1 {worker} 33 0 0\n");
        }
        for worker in [7, 0, 1, 2, 3, 4, 5, 6] {
            text += &format!("2 {worker} 38 0 255\n");
        }
        let (moves, records) = if locked { (48, 32) } else { (46, 30) };
        text += &format!("finished {moves}\n");
        lists(
            &draft(&rows),
            &text,
            report([1, 8], [moves, 2, records], &[1; 8]),
        );
    }
}

#[test]
fn nobody_waits() {
    // With count 0 it commits and gives up the token.
    let own: Row = &[(16, 0, 9), (18, 0, 0), (36, 0, 3), (18, 0, 2)];
    let plan = draft(&[own, &[(36, 0, 7)]]);
    let text = "1 0 36 3 0\n1 1 36 7 0\n2 0 38 0 255\n2 1 38 0 255\nfinished 11\n";
    lists(&plan, text, report([1, 2], [11, 2, 4], &[1, 1]));
    let outcome = end_of(&plan, &[]);
    assert_eq!((outcome.word(0), outcome.word(2)), (9, 9));
    // Inside a lock it commits and runs on: what it stored before stays, what
    // it stored behind is lost with the failure.
    let own: Row = &[(32, 0, 0), (16, 0, 9), (18, 0, 0), (36, 0, 3), (18, 0, 2)];
    let plan = draft(&[own]);
    let text = "1 0 32 0 1\n1 0 36 3 0\n1 0 38 0 254\nfinished 7\n";
    lists(&plan, text, report([1, 1], [7, 1, 3], &[2]));
    let outcome = end_of(&plan, &[]);
    assert_eq!((outcome.word(0), outcome.word(2)), (9, 0));
    // Somebody waits, but on another condition.
    let plan = draft(&[WAITS_ON_1, BROADCASTS]);
    let text = "1 0 32 0 1\n1 0 34 1 255\n1 1 36 0 0\n2 1 38 0 255\nstuck 7\n";
    lists(&plan, text, report([2, 2], [7, 2, 4], &[3, 1]));
}

#[test]
fn one_is_woken_and_the_outcome_is_not_its_name() {
    let plan = draft(&[&[], &[], WAITS, BROADCASTS]);
    let text = "1 0 38 0 255\n1 1 38 0 255\n1 2 32 0 1\n1 2 34 0 255\n1 3 36 0 1\n1 2 33 0 0\n\
                2 3 38 0 255\n2 2 38 0 255\nfinished 14\n";
    lists(&plan, text, report([1, 4], [14, 2, 8], &[1; 4]));
    // A signal still tells the worker.
    let plan = draft(&[&[], &[], WAITS, &[(35, 0, 0)]]);
    let text = "1 0 38 0 255\n1 1 38 0 255\n1 2 32 0 1\n1 2 34 0 255\n1 3 35 0 2\n1 2 33 0 0\n\
                2 3 38 0 255\n2 2 38 0 255\nfinished 14\n";
    lists(&plan, text, report([1, 4], [14, 2, 8], &[1; 4]));
}

#[test]
fn a_signal_then_a_broadcast_by_one_holder() {
    // List behind the signal: 3, 0, 4; behind the broadcast: 3, 1, 2, 0, 4.
    let both: Row = &[(32, 0, 0), (35, 0, 0), (36, 0, 0), (33, 0, 0)];
    let section: Row = &[(32, 0, 0), (33, 0, 0)];
    let plan = draft(&[WAITS, WAITS, WAITS, both, section]);
    let text = "1 0 32 0 1\n1 0 34 0 255\n1 1 32 0 1\n1 1 34 0 255\n1 2 32 0 1\n1 2 34 0 255\n\
                1 3 32 0 1\n1 3 35 0 0\n1 3 36 0 2\n1 3 33 0 0\n1 1 33 0 0\n1 2 33 0 0\n\
                1 0 33 0 0\n1 4 32 0 1\n1 4 33 0 0\n2 3 38 0 255\n2 1 38 0 255\n2 2 38 0 255\n\
                2 0 38 0 255\n2 4 38 0 255\nfinished 30\n";
    lists(&plan, text, report([1, 5], [30, 2, 20], &[1; 5]));
}

#[test]
fn a_broadcast_then_a_signal_or_a_broadcast_by_one_holder() {
    // List behind the broadcast: 3, 0, 1; behind the signal: 3, 2, 0, 1.
    let both: Row = &[(32, 0, 0), (36, 0, 0), (35, 0, 1), (33, 0, 0)];
    let plan = draft(&[WAITS, WAITS, WAITS_ON_1, both]);
    let text = "1 0 32 0 1\n1 0 34 0 255\n1 1 32 0 1\n1 1 34 0 255\n1 2 32 0 1\n1 2 34 1 255\n\
                1 3 32 0 1\n1 3 36 0 2\n1 3 35 1 2\n1 3 33 0 0\n1 2 33 0 0\n1 0 33 0 0\n\
                1 1 33 0 0\n2 3 38 0 255\n2 2 38 0 255\n2 0 38 0 255\n2 1 38 0 255\nfinished 25\n";
    lists(&plan, text, report([1, 4], [25, 2, 17], &[1; 4]));
    // Behind the second broadcast: 4, 1, 3, 0, 2; the third finds nobody.
    let both: Row = &[(32, 0, 0), (36, 0, 0), (36, 0, 1), (36, 0, 0), (33, 0, 0)];
    let plan = draft(&[WAITS, WAITS_ON_1, WAITS, WAITS_ON_1, both]);
    let text = "1 0 32 0 1\n1 0 34 0 255\n1 1 32 0 1\n1 1 34 1 255\n1 2 32 0 1\n1 2 34 0 255\n\
                1 3 32 0 1\n1 3 34 1 255\n1 4 32 0 1\n1 4 36 0 2\n1 4 36 1 2\n1 4 36 0 0\n\
                1 4 33 0 0\n1 1 33 0 0\n1 3 33 0 0\n1 0 33 0 0\n1 2 33 0 0\n2 4 38 0 255\n\
                2 1 38 0 255\n2 3 38 0 255\n2 0 38 0 255\n2 2 38 0 255\nfinished 32\n";
    lists(&plan, text, report([1, 5], [32, 2, 22], &[1; 5]));
}

#[test]
fn the_first_waiter_need_not_be_the_first_worker() {
    // Worker 1 waits in round 1, worker 0 in round 2.
    let late: Row = &[(35, 0, 7), (32, 0, 0), (34, 0, 0), (33, 0, 0)];
    let wakes: Row = &[(35, 0, 7), (35, 0, 7), (36, 0, 0)];
    let plan = draft(&[late, WAITS, wakes]);
    let text = "1 0 35 7 255\n1 1 32 0 1\n1 1 34 0 255\n1 2 35 7 255\n2 0 32 0 1\n2 0 34 0 255\n\
                2 2 35 7 255\n3 2 36 0 2\n3 1 33 0 0\n3 0 33 0 0\n4 2 38 0 255\n4 1 38 0 255\n\
                4 0 38 0 255\nfinished 22\n";
    lists(&plan, text, report([1, 3], [22, 4, 13], &[1; 3]));
}

#[test]
fn the_woken_go_before_the_rest_of_the_list() {
    // The list of round 2 is 1, 3, and behind the broadcast 1, 0, 2, 3.
    let signals: Row = &[(35, 0, 7), (35, 0, 7)];
    let wakes: Row = &[(35, 0, 7), (36, 0, 0)];
    let plan = draft(&[WAITS, wakes, WAITS, signals]);
    let text = "1 0 32 0 1\n1 0 34 0 255\n1 1 35 7 255\n1 2 32 0 1\n1 2 34 0 255\n1 3 35 7 255\n\
                2 1 36 0 2\n2 0 33 0 0\n2 2 33 0 0\n2 3 35 7 255\n3 1 38 0 255\n3 0 38 0 255\n\
                3 2 38 0 255\n3 3 38 0 255\nfinished 24\n";
    lists(&plan, text, report([1, 4], [24, 3, 14], &[1; 4]));
}

#[test]
fn signals_back_and_forth_within_a_round() {
    // Into the list of round 1 come 0, 1 and then 0, 1, 0, 1 again.
    let first: Row = &[
        (32, 0, 0),
        (34, 0, 0),
        (35, 0, 1),
        (34, 0, 0),
        (35, 0, 1),
        (33, 0, 0),
    ];
    let second: Row = &[
        (32, 0, 0),
        (35, 0, 0),
        (34, 0, 1),
        (35, 0, 0),
        (34, 0, 1),
        (33, 0, 0),
    ];
    let text = "1 0 32 0 1\n1 0 34 0 255\n1 1 32 0 1\n1 1 35 0 0\n1 1 34 1 255\n1 0 35 1 1\n\
                1 0 34 0 255\n1 1 35 0 0\n1 1 34 1 255\n1 0 35 1 1\n1 0 33 0 0\n1 1 33 0 0\n\
                2 0 38 0 255\n2 1 38 0 255\nfinished 18\n";
    let bytes = report([1, 2], [18, 2, 14], &[1, 1]);
    lists(&draft(&[first, second]), text, bytes);
    // Broadcasts in place of the signals wake the same one each, and say so.
    let as_broadcast = |row: Row| -> Vec<(u8, u8, u16)> {
        let each = |&(op, register, number)| (if op == 35 { 36 } else { op }, register, number);
        row.iter().map(each).collect()
    };
    let (first, second) = (as_broadcast(first), as_broadcast(second));
    let text = "1 0 32 0 1\n1 0 34 0 255\n1 1 32 0 1\n1 1 36 0 1\n1 1 34 1 255\n1 0 36 1 1\n\
                1 0 34 0 255\n1 1 36 0 1\n1 1 34 1 255\n1 0 36 1 1\n1 0 33 0 0\n1 1 33 0 0\n\
                2 0 38 0 255\n2 1 38 0 255\nfinished 18\n";
    lists(&draft(&[&first, &second]), text, bytes);
}

#[test]
fn broadcasts_back_and_forth_within_a_round() {
    // Into the list of round 1 come 0, 1, 2, then 0, 1, then 2, 0, then 1, 2.
    let rows: [Row; 3] = [
        &[(32, 0, 0), (34, 0, 0), (34, 0, 0), (36, 0, 0), (33, 0, 0)],
        &[(32, 0, 0), (34, 0, 0), (36, 0, 0), (34, 0, 0), (33, 0, 0)],
        &[(32, 0, 0), (36, 0, 0), (34, 0, 0), (34, 0, 0), (33, 0, 0)],
    ];
    let text = "1 0 32 0 1\n1 0 34 0 255\n1 1 32 0 1\n1 1 34 0 255\n1 2 32 0 1\n1 2 36 0 2\n\
                1 2 34 0 255\n1 0 34 0 255\n1 1 36 0 2\n1 1 34 0 255\n1 2 34 0 255\n1 0 36 0 2\n\
                1 0 33 0 0\n1 1 33 0 0\n1 2 33 0 0\n2 0 38 0 255\n2 1 38 0 255\n\
                2 2 38 0 255\nfinished 24\n";
    lists(&draft(&rows), text, report([1, 3], [24, 2, 18], &[1; 3]));
}

#[test]
fn the_woken_see_the_commit_and_each_other() {
    // Each woken one doubles the word at 0 and adds a number of its own.
    let woken = |own: u16| {
        [
            (32, 0, 0),
            (34, 0, 0),
            (17, 0, 0),
            (19, 0, 0),
            (16, 1, own),
            (19, 0, 1),
            (18, 0, 0),
            (33, 0, 0),
        ]
    };
    let (one, two, three) = (woken(1), woken(2), woken(3));
    let free: Row = &[(16, 0, 5), (18, 0, 0), (36, 0, 0), (16, 0, 7), (18, 0, 2)];
    let outcome = end_of(&draft(&[&one, &two, &three, free]), &[]);
    // 5, 11, 24, 51; what the holder stores in round 2 nobody else sees.
    assert_eq!((outcome.word(0), outcome.word(2)), (51, 7));
    // With a lock the holder runs on, and its next commit comes before them.
    let held: Row = &[
        (32, 0, 0),
        (16, 0, 5),
        (18, 0, 0),
        (36, 0, 0),
        (16, 0, 7),
        (18, 0, 0),
        (33, 0, 0),
    ];
    let outcome = end_of(&draft(&[&one, &two, &three, held]), &[]);
    // 7, 15, 32, 67.
    assert_eq!(outcome.word(0), 67);
}

#[test]
fn the_woken_keep_their_counts() {
    let twice: Row = &[(32, 0, 1), (32, 0, 2), (34, 0, 0), (33, 0, 2), (33, 0, 1)];
    let fails: Row = &[(32, 0, 1), (34, 0, 0)];
    let plan = draft(&[twice, fails, BROADCASTS]);
    let text = "1 0 32 1 1\n1 0 32 2 2\n1 0 34 0 255\n1 1 32 1 1\n1 1 34 0 255\n1 2 36 0 2\n\
                1 0 33 2 1\n1 0 33 1 0\n1 1 38 0 254\n2 2 38 0 255\n2 0 38 0 255\nfinished 16\n";
    lists(&plan, text, report([1, 3], [16, 2, 11], &[1, 2, 1]));
}

#[test]
fn whoever_sleeps_or_queues_at_a_barrier_is_not_woken() {
    let rows: [Row; 4] = [WAITS, &[(37, 0, 0)], BROADCASTS, &[]];
    let plan = Draft::from_rows(&[(0, 2)], &rows).asleep(&[3]);
    let text = "1 0 32 0 1\n1 0 34 0 255\n1 1 37 0 0\n1 2 36 0 1\n1 0 33 0 0\n2 2 38 0 255\n\
                2 0 38 0 255\nstuck 12\n";
    lists(&plan, text, report([2, 4], [12, 2, 7], &[1, 4, 1, 5]));
}

#[test]
fn a_start_and_a_broadcast_in_one_hold() {
    // The woken come in this round, the started one in the next, before the
    // caller, which gives up the token by its broadcast.
    let own: Row = &[(39, 0, 3), (36, 0, 0)];
    let plan = draft(&[WAITS, WAITS, own, BROADCASTS]).asleep(&[3]);
    let text = "1 0 32 0 1\n1 0 34 0 255\n1 1 32 0 1\n1 1 34 0 255\n1 2 39 3 1\n1 2 36 0 2\n\
                1 0 33 0 0\n1 1 33 0 0\n2 3 36 0 0\n2 2 38 0 255\n2 0 38 0 255\n2 1 38 0 255\n\
                3 3 38 0 255\nfinished 21\n";
    lists(&plan, text, report([1, 4], [21, 3, 13], &[1; 4]));
}

#[test]
fn turn_by_turn() {
    let file = draft(&[WAITS, WAITS, BROADCASTS]).file();
    let plan = check(&file).expect("an accepted plan");
    let mut machine = Machine::new(&plan, &[0; MEMORY_LENGTH]);
    // Behind the broadcast worker 2 stands in the next list, and worker 1
    // comes behind worker 0.
    let turns = [
        2, 0, 1, 0, 0, 1, 1, 0, 2, 2, 1, 0, 0, 1, 1, 0, 2, 0, 2, 1, 0, 1,
    ];
    let moves = [
        1, 1, 1, 1, 1, 1, 1, 0, 1, 0, 0, 1, 0, 1, 1, 1, 1, 0, 1, 0, 1, 1,
    ];
    for (turn, moved) in turns.into_iter().zip(moves) {
        assert_eq!(machine.turn(turn), moved == 1);
    }
    let bytes = report([1, 3], [16, 2, 10], &[1, 1, 1]);
    assert_eq!(front(&machine.outcome()), bytes);
    // What a run of the call leaves just before and just behind the broadcast.
    let rows: [Row; 3] = [WAITS, WAITS, BROADCASTS];
    let before = run_call(&draft(&rows), &turns.map(|turn| turn as u8)[..8], &[]);
    assert_eq!(front(&before), report([0, 3], [7, 0, 4], &[3, 3, 0]));
    let behind = run_call(&draft(&rows), &turns.map(|turn| turn as u8)[..9], &[]);
    assert_eq!(front(&behind), report([0, 3], [8, 0, 5], &[0, 0, 0]));
    assert_eq!(behind.log[32..], [0x4D, 0x4C, 1, 0, 2, 36, 0, 2]);
}

/// Turn lists of any order lead to the end of the cycles, or to a beginning of
/// its log.
#[test]
fn any_order_of_turns_leads_to_one_end() {
    let rows: [Row; 4] = [
        &[(32, 0, 0), (34, 0, 0), (17, 0, 0), (36, 0, 1), (33, 0, 0)],
        &[(32, 0, 0), (34, 0, 0), (18, 1, 0), (34, 0, 1), (33, 0, 0)],
        &[
            (16, 1, 3),
            (18, 1, 0),
            (35, 0, 7),
            (36, 0, 0),
            (17, 2, 0),
            (18, 2, 4),
        ],
        &[(32, 0, 0), (34, 0, 0), (16, 1, 9), (18, 1, 0), (33, 0, 0)],
    ];
    let plan = check(&draft(&rows).file()).expect("an accepted plan");
    let memory = [7; MEMORY_LENGTH];
    let full = play_turns(&plan, &memory, &[0, 1, 2, 3].repeat(60));
    assert_ne!(full.end(), 0);
    let mut rng = Rng::new(78);
    let mut ended = 0;
    for _ in 0..4_000 {
        let list: Vec<u8> = (0..rng.below(160)).map(|_| rng.below(4) as u8).collect();
        let outcome = play_turns(&plan, &memory, &list);
        match outcome.end() {
            0 => assert!(full.log.starts_with(&outcome.log)),
            _ => assert_eq!(outcome, full),
        }
        ended += usize::from(outcome.end() != 0);
    }
    assert!((400..3_600).contains(&ended), "{ended}");
}
