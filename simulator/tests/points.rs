//! Which steps synchronise, op by op, with values worked out by hand from the
//! paper's table and its sixth request.

mod common;

use common::{end_of, front, report, run_call, Row};
use simulator::format::{
    file_of, synchronises, Record, MEMORY_LENGTH, OP_ADD, OP_BARRIER, OP_BROADCAST, OP_EXIT,
    OP_LOAD, OP_LOCK, OP_SET, OP_SIGNAL, OP_SKIP_NONZERO, OP_SKIP_ZERO, OP_START, OP_STORE,
    OP_SUBTRACT, OP_UNLOCK, OP_WAIT,
};
use simulator::generate::buffers::{noise, LENGTHS};
use simulator::generate::draft::Draft;
use simulator::generate::Rng;
use simulator::{check, listing, run, Machine, Outcome, Refusal};

/// A step of each op below 32. Behind a skip there must be something to skip:
/// an exit, and skipped or not the next step synchronises.
const OWN: [Row; 7] = [
    &[(16, 1, 9)],
    &[(17, 0, 0)],
    &[(18, 0, 4)],
    &[(19, 0, 1)],
    &[(20, 0, 1)],
    &[(21, 0, 1), (38, 0, 0)],
    &[(22, 0, 1), (38, 0, 0)],
];

/// A step of each op from 32 up, and its outcome with lock 0 held.
const POINTS: [((u8, u8, u16), u8); 8] = [
    ((32, 0, 3), 2),
    ((33, 0, 0), 0),
    ((34, 0, 2), 255),
    ((35, 0, 2), 255),
    ((36, 0, 2), 0),
    ((37, 0, 1), 254),
    ((38, 0, 0), 254),
    ((39, 0, 1), 253),
];

/// The word at 4 at the start, 261. A store of zero, which the registers hold
/// at first, would show there once it were committed.
const START: [(usize, u8); 2] = [(4, 5), (5, 1)];

/// Two workers, the second one without steps. Barrier 1 is of one.
fn beside_an_idle_one(own: Row) -> Draft {
    Draft::from_rows(&[(1, 1)], &[own, &[]])
}

fn behind_a_lock(own: Row) -> Draft {
    beside_an_idle_one(&[&[(32, 0, 0)], own].concat())
}

/// A plan for each of the 15 ops, and whether its step synchronises.
fn all_drafts() -> Vec<(Draft, bool)> {
    let own = OWN.map(|row| (beside_an_idle_one(row), false));
    let points = POINTS.map(|(step, _)| (beside_an_idle_one(&[step]), true));
    own.into_iter().chain(points).collect()
}

/// The bytes that no step of the table has as its op: 16 + 9 + 216.
fn nameless() -> Vec<u8> {
    let bytes: Vec<u8> = (0..=15).chain(23..=31).chain(40..=255).collect();
    assert_eq!(bytes.len(), 256 - 15);
    bytes
}

/// Memory is as it was at the start.
fn is_untouched(outcome: &Outcome) {
    let mut start = [0; MEMORY_LENGTH];
    start[4..6].copy_from_slice(&[5, 1]);
    assert_eq!(outcome.memory, start);
    assert_eq!(outcome.sum(), 261);
}

#[test]
fn every_byte() {
    let (points, others): (Vec<u8>, Vec<u8>) = (0..=255).partition(|&op| synchronises(op));
    assert_eq!(others, (0..32).collect::<Vec<u8>>());
    assert_eq!(points, (32..=255).collect::<Vec<u8>>());
}

#[test]
fn each_op_by_its_name() {
    let table = [
        ("set", OP_SET, 16, false),
        ("load", OP_LOAD, 17, false),
        ("store", OP_STORE, 18, false),
        ("add", OP_ADD, 19, false),
        ("subtract", OP_SUBTRACT, 20, false),
        ("skip if zero", OP_SKIP_ZERO, 21, false),
        ("skip if not zero", OP_SKIP_NONZERO, 22, false),
        ("lock", OP_LOCK, 32, true),
        ("unlock", OP_UNLOCK, 33, true),
        ("wait", OP_WAIT, 34, true),
        ("signal", OP_SIGNAL, 35, true),
        ("broadcast", OP_BROADCAST, 36, true),
        ("barrier", OP_BARRIER, 37, true),
        ("exit", OP_EXIT, 38, true),
        ("start", OP_START, 39, true),
    ];
    for (name, op, number, expected) in table {
        assert_eq!(op, number, "{name}");
        assert_eq!(synchronises(op), expected, "{name}");
    }
}

#[test]
fn bytes_that_name_no_op() {
    let points = nameless().iter().filter(|&&op| synchronises(op)).count();
    assert_eq!(points, 256 - 40);
    for op in [0, 15, 23, 31] {
        assert!(!synchronises(op), "{op}");
    }
    for op in [40, 127, 128, 255] {
        assert!(synchronises(op), "{op}");
    }
}

#[test]
fn a_step_moves_or_is_an_arrival() {
    for (draft, arrives) in all_drafts() {
        let plan = check(&draft.file()).expect("an accepted plan");
        let mut machine = Machine::new(&plan, &[0; MEMORY_LENGTH]);
        // The step and the arrival behind it, or the arrival at the step.
        let moves = match arrives {
            false => [true, true, false],
            true => [true, false, false],
        };
        let made = [0; 3].map(|turn| machine.turn(turn));
        assert_eq!(made, moves, "{:?}", draft.steps);
    }
}

#[test]
fn nothing_is_logged_or_committed_before_the_fence_is_full() {
    for (draft, arrives) in all_drafts() {
        let tallies = match arrives {
            false => [0, 1, 2, 2],
            true => [0, 1, 1, 1],
        };
        for (turns, moves) in tallies.into_iter().enumerate() {
            let outcome = run_call(&draft, &[0; 3][..turns], &START);
            let bytes = report([0, 2], [moves, 0, 0], &[0, 0]);
            assert_eq!(front(&outcome), bytes, "{:?}, {turns} turns", draft.steps);
            assert!(outcome.log.is_empty());
            is_untouched(&outcome);
        }
    }
}

#[test]
fn own_steps_of_the_holder_are_not_logged() {
    for row in OWN {
        // Two arrivals, the lock, the step.
        let outcome = run_call(&behind_a_lock(row), &[0, 1, 0, 0], &START);
        let bytes = report([0, 2], [4, 0, 1], &[0, 0]);
        assert_eq!(front(&outcome), bytes, "{row:?}");
        assert_eq!(outcome.log, [0x4D, 0x4C, 1, 0, 0, 32, 0, 1]);
        is_untouched(&outcome);
    }
}

#[test]
fn the_holder_needs_no_arrival() {
    for (step, result) in POINTS {
        // Two arrivals, the lock, the step.
        let outcome = run_call(&behind_a_lock(&[step]), &[0, 1, 0, 0], &START);
        let (op, _, number) = step;
        let log = [
            [0x4D, 0x4C, 1, 0, 0, 32, 0, 1],
            [0x4D, 0x4C, 1, 0, 0, op, number as u8, result],
        ];
        assert_eq!(outcome.log, log.concat(), "{step:?}");
        let fate = match op {
            34 => 3,
            37 | 38 => 2,
            _ => 0,
        };
        assert_eq!(front(&outcome), report([0, 2], [4, 0, 2], &[fate, 0]));
        is_untouched(&outcome);
    }
}

#[test]
fn own_steps_keep_nobody_from_running_on() {
    // Worker 1 loads the 5 at 0 before worker 0 commits its 7.
    let stores: Row = &[(16, 0, 7), (18, 0, 0)];
    for row in OWN {
        let loads = [row[0], (16, 3, 1), (17, 1, 0), (18, 1, 2)];
        let draft = Draft::from_rows(&[], &[stores, &loads]);
        let outcome = end_of(&draft, &[(0, 5)]);
        assert_eq!(outcome.memory[..4], [7, 0, 5, 0], "{row:?}");
    }
}

/// Both runs give this text, and this sum from the word of the start.
fn lists(draft: &Draft, text: &str, sum: u32) {
    assert_eq!(listing(&draft.file()), text);
    assert_eq!(end_of(draft, &START).sum(), sum);
}

#[test]
fn own_steps_to_the_end() {
    for row in OWN {
        // The step, two arrivals, two ends. The first end commits the store.
        let text = "1 0 38 0 255\n1 1 38 0 255\nfinished 5\n";
        let stores = row[0].0 == 18;
        lists(&beside_an_idle_one(row), text, if stores { 0 } else { 261 });
        // Two arrivals, the lock, the step, a failure, an end.
        let text = "1 0 32 0 1\n1 0 38 0 254\n1 1 38 0 255\nfinished 6\n";
        lists(&behind_a_lock(row), text, 261);
    }
}

#[test]
fn points_to_the_end() {
    let texts = [
        "1 0 32 3 1\n1 0 38 0 254\n1 1 38 0 255\nfinished 5\n",
        "1 0 33 0 254\n1 1 38 0 255\nfinished 4\n",
        "1 0 34 2 254\n1 1 38 0 255\nfinished 4\n",
        "1 0 35 2 255\n1 1 38 0 255\n2 0 38 0 255\nfinished 6\n",
        "1 0 36 2 0\n1 1 38 0 255\n2 0 38 0 255\nfinished 6\n",
        "1 0 37 1 1\n1 1 38 0 255\n2 0 38 0 255\nfinished 6\n",
        "1 0 38 0 255\n1 1 38 0 255\nfinished 4\n",
        "1 0 39 1 253\n1 0 38 0 255\n1 1 38 0 255\nfinished 5\n",
    ];
    for ((step, _), text) in POINTS.into_iter().zip(texts) {
        lists(&beside_an_idle_one(&[step]), text, 261);
    }
}

#[test]
fn points_behind_a_lock_to_the_end() {
    let texts = [
        "1 0 32 3 2\n1 0 38 0 254\n1 1 38 0 255\nfinished 6\n",
        "1 0 33 0 0\n1 1 38 0 255\n2 0 38 0 255\nfinished 7\n",
        "1 0 34 2 255\n1 1 38 0 255\nstuck 5\n",
        "1 0 35 2 255\n1 0 38 0 254\n1 1 38 0 255\nfinished 6\n",
        "1 0 36 2 0\n1 0 38 0 254\n1 1 38 0 255\nfinished 6\n",
        "1 0 37 1 254\n1 1 38 0 255\nfinished 5\n",
        "1 0 38 0 254\n1 1 38 0 255\nfinished 5\n",
        "1 0 39 1 253\n1 0 38 0 254\n1 1 38 0 255\nfinished 6\n",
    ];
    for ((step, _), text) in POINTS.into_iter().zip(texts) {
        lists(&behind_a_lock(&[step]), &format!("1 0 32 0 1\n{text}"), 261);
    }
}

/// A run is refused and leaves every byte.
fn refuses(file: &[u8], number: u32, index: u32) {
    let old = LENGTHS.map(|length| noise(&mut Rng::new(61), length));
    let mut new = old.clone();
    let [memory, log, report, work] = &mut new;
    let answer = run(file, &[0, 0, 0], memory, log, report, work);
    assert_eq!(answer, number + 256 * index);
    assert_eq!(old, new);
}

#[test]
fn a_step_whose_op_is_no_op_is_never_run() {
    for op in nameless() {
        // Behind a step ops 0, 1 and 2 are records out of their place.
        let number = match op {
            0 => 3,
            1 => 4,
            2 => 14,
            _ => 6,
        };
        let records = [
            Record::new(2, 0, 0, 0),
            Record::new(0, 16, 1, 9),
            Record::new(0, op, 0, 1),
        ];
        let file = file_of(&records);
        assert_eq!(check(&file), Err(Refusal::at(number, 2)), "op {op}");
        refuses(&file, u32::from(number), 2);
    }
}

#[test]
fn a_first_step_whose_op_is_no_op_is_never_run() {
    for op in nameless().into_iter().filter(|&op| op > 2) {
        let file = file_of(&[Record::new(2, 0, 0, 0), Record::new(0, op, 0, 1)]);
        assert_eq!(check(&file), Err(Refusal::at(6, 1)), "op {op}");
        refuses(&file, 6, 1);
    }
}
