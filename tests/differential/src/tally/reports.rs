//! Limits that show in a report.

use std::cmp::Ordering;

use simulator::counts::{Board, Row};
use simulator::format::{REPORT_FATES, REPORT_SUM};
use simulator::pair::sum_of;

use crate::call::Verdict;

const MOVES: [u16; 7] = [255, 256, 257, 511, 512, 2_063, 2_064];
/// 1,018 are the rounds of eight workers that go one behind the other by
/// barriers, 1,025 those of eight of which each starts the next.
pub const ROUNDS: [u16; 8] = [255, 256, 257, 511, 512, 1_018, 1_024, 1_025];
const RECORDS: [u16; 7] = [255, 256, 257, 511, 512, 1_031, 1_032];

/// Sums at the limits of their bytes, and the least and the greatest ones.
pub const SUMS: [u32; 11] = [
    0, 1, 255, 256, 65_535, 65_536, 16_777_215, 16_777_216, 33_553_920, 67_107_839, 67_107_840,
];

/// What a run makes of memory and of the sum.
const WAYS: [&str; 4] = [
    "the sum has risen",
    "the sum has fallen",
    "the sum has stayed, memory has not",
    "memory has stayed",
];

/// Starting memories, from which the sum can go one way only.
const MEMORIES: [&str; 4] = [
    "all 0, which stays",
    "all 0, the sum has risen",
    "all 255, which stays",
    "all 255, the sum has fallen",
];

const ENDS: [&str; 3] = ["going", "finished", "stuck"];

/// The rows.
pub const ROWS: [Row; 10] = [
    Row {
        name: "end and n",
        members: 24,
        named: |place| format!("{}, n = {}", ENDS[place / 8], place % 8 + 1),
    },
    Row {
        name: "moving turns",
        members: MOVES.len(),
        named: |place| MOVES[place].to_string(),
    },
    Row {
        name: "rounds completed",
        members: ROUNDS.len(),
        named: |place| ROUNDS[place].to_string(),
    },
    Row {
        name: "log records",
        members: RECORDS.len(),
        named: |place| RECORDS[place].to_string(),
    },
    Row {
        name: "fate by worker",
        members: 47,
        named: fate_and_worker,
    },
    Row {
        name: "fate of a worker that is not there",
        members: 7,
        named: |place| format!("worker {}", place + 1),
    },
    Row {
        name: "end and workers asleep",
        members: 21,
        named: |place| format!("{}, {}", ENDS[place / 7], place % 7 + 1),
    },
    Row {
        name: "sum",
        members: SUMS.len(),
        named: |place| SUMS[place].to_string(),
    },
    Row {
        name: "end and what comes of the sum",
        members: ENDS.len() * WAYS.len(),
        named: |place| format!("{}, {}", ENDS[place / 4], WAYS[place % 4]),
    },
    Row {
        name: "starting memory",
        members: MEMORIES.len(),
        named: |place| MEMORIES[place].to_string(),
    },
];

const ASLEEP: u8 = 5;

/// Any worker can have the fates 0 to 4; the first never sleeps.
fn fate_and_worker(place: usize) -> String {
    match place {
        0..40 => format!("fate {}, worker {}", place / 8, place % 8),
        _ => format!("fate {ASLEEP}, worker {}", place - 39),
    }
}

/// Notes the report of an accepted run.
pub fn note(board: &mut Board, report: &[u8]) {
    let two = |at: usize| u16::from_le_bytes([report[at], report[at + 1]]);
    let (end, workers) = (usize::from(report[0]), usize::from(report[1]));
    board.count(0, 8 * end + workers - 1);
    note_number(board, 1, &MOVES, two(2));
    note_number(board, 2, &ROUNDS, two(4));
    note_number(board, 3, &RECORDS, two(6));
    let fates = &report[REPORT_FATES..REPORT_SUM];
    for (worker, &fate) in fates.iter().enumerate() {
        match fate {
            255 => board.count(5, worker - 1),
            ASLEEP => board.count(4, 39 + worker),
            _ => board.count(4, 8 * usize::from(fate) + worker),
        }
    }
    let asleep = fates.iter().filter(|&&fate| fate == ASLEEP).count();
    if asleep > 0 {
        board.count(6, 7 * end + asleep - 1);
    }
}

/// Notes what came of the sum in an accepted run that was lent this memory.
pub fn note_sum(board: &mut Board, lent: &[u8], verdict: &Verdict) {
    let sum = verdict.sum();
    note_number(board, 7, &SUMS, sum);
    let changed = lent != verdict.memory;
    let way = match sum.cmp(&sum_of(lent)) {
        Ordering::Greater => 0,
        Ordering::Less => 1,
        Ordering::Equal if changed => 2,
        Ordering::Equal => 3,
    };
    board.count(8, WAYS.len() * usize::from(verdict.report[0]) + way);
    for (which, byte) in [0, 255].into_iter().enumerate() {
        if lent.iter().all(|&each| each == byte) {
            board.count(9, 2 * which + usize::from(changed));
        }
    }
}

/// Notes a number that is one of a row's.
pub fn note_number<T: PartialEq>(board: &mut Board, row: usize, all: &[T], number: T) {
    if let Some(place) = all.iter().position(|each| *each == number) {
        board.count(row, place);
    }
}
