//! Limits that show in an answer, beside the file or the turns it was given.

use simulator::counts::{Board, Row};
use simulator::format::MOST_TURNS;
use simulator::generate::buffers::LENGTHS;

use crate::call::Call;

/// Record indices around those of one byte.
const INDICES: [u32; 3] = [255, 256, 257];

/// Refusals that name a record.
const REFUSALS: [u32; 10] = [2, 3, 4, 5, 6, 7, 8, 9, 10, 14];

/// The last record that a refusal can name. Nine comes no later, since a file
/// of 1,040 records without a refusal before has a size for every barrier.
fn last_record(refusal: u32) -> u32 {
    match refusal {
        9 => 1_038,
        _ => 1_039,
    }
}

/// Rows of the answers of a check.
pub const CHECK_ROWS: [Row; 5] = [
    Row {
        name: "check: refusal at record",
        members: 4 * REFUSALS.len(),
        named: refusal_and_record,
    },
    Row {
        name: "check: accepted, 1,040 records",
        members: 1,
        named: |_| "not met".to_string(),
    },
    Row {
        name: "check: accepted, barrier records",
        members: 9,
        named: |place| place.to_string(),
    },
    Row {
        name: "check: accepted, sleep records",
        members: 8,
        named: |place| place.to_string(),
    },
    Row {
        name: "check: accepted, sleeper",
        members: 7,
        named: |place| format!("worker {}", place + 1),
    },
];

/// Rows of the answers of a run.
pub const RUN_ROWS: [Row; 4] = [
    Row {
        name: "run: refusal at record",
        members: 4 * REFUSALS.len(),
        named: refusal_and_record,
    },
    Row {
        name: "turns in a list",
        members: 3,
        named: |place| ["65,534", "65,535", "65,536, which is 12"][place].to_string(),
    },
    Row {
        name: "refusal 13, by",
        members: 11,
        named: misnaming,
    },
    Row {
        name: "refusal 11, one buffer",
        members: 4 * WRONG.len(),
        named: |place| format!("{} {}", BUFFERS[place / 4], WRONG[place % 4]),
    },
];

const BUFFERS: [&str; 4] = ["memory", "log", "report", "work"];

/// A report that is four bytes short has no sum.
const WRONG: [&str; 4] = [
    "one byte short",
    "four bytes short",
    "one byte longer",
    "64 KiB longer",
];

fn refusal_and_record(place: usize) -> String {
    let refusal = REFUSALS[place / 4];
    let record = match INDICES.get(place % 4) {
        Some(&index) => index,
        None => last_record(refusal),
    };
    format!("{refusal} at {record}")
}

fn misnaming(place: usize) -> String {
    match place {
        0..8 => format!("turn {}, n being so", place + 1),
        8 => "turn 255".to_string(),
        9 => "the first of 65,535 turns alone".to_string(),
        _ => "the last of 65,535 turns alone".to_string(),
    }
}

/// The place of a refusal with its record index in the row on them.
fn place_of(answer: u32) -> Option<usize> {
    let (refusal, index) = (answer % 256, answer / 256);
    let record = match INDICES.iter().position(|&each| each == index) {
        Some(place) => place,
        None if index == last_record(refusal) => 3,
        None => return None,
    };
    let row = REFUSALS.iter().position(|&each| each == refusal)?;
    Some(4 * row + record)
}

/// Notes the answer of a check.
pub fn note_check(board: &mut Board, file: &[u8], answer: u32) {
    if let Some(place) = place_of(answer) {
        board.count(0, place);
    }
    if answer != 0 {
        return;
    }
    if file.len() == 1_040 * 7 {
        board.count(1, 0);
    }
    let of_op = |op: u8| file.chunks_exact(7).filter(move |record| record[3] == op);
    board.count(2, of_op(1).count());
    board.count(3, of_op(2).count());
    for record in of_op(2) {
        board.count(4, usize::from(record[2]) - 1);
    }
}

/// Notes the answer of a run.
pub fn note_run(board: &mut Board, call: &Call, answer: u32) {
    if let Some(place) = place_of(answer) {
        board.count(0, place);
    }
    match (answer, call.turns.len()) {
        (0, 65_534) => board.count(1, 0),
        (0, 65_535) => board.count(1, 1),
        (12, 65_536) => board.count(1, 2),
        (11, _) => note_lengths(board, call),
        (13, _) => note_misnamed(board, call),
        _ => {}
    }
}

/// Just one buffer has a wrong length.
fn note_lengths(board: &mut Board, call: &Call) {
    let wrong = |&which: &usize| call.lent[which].len() != LENGTHS[which];
    let all: Vec<usize> = (0..4).filter(wrong).collect();
    let [which] = all[..] else {
        return;
    };
    let (length, right) = (call.lent[which].len(), LENGTHS[which]);
    let wrong = [right - 1, right - 4, right + 1, right + 65_536];
    if let Some(by) = wrong.iter().position(|&each| each == length) {
        board.count(3, 4 * which + by);
    }
}

/// Just one turn names nobody, and which one it is.
fn note_misnamed(board: &mut Board, call: &Call) {
    let workers = call.file[2];
    let all = call.turns.iter().enumerate();
    let mut wrong = all.filter(|(_, turn)| **turn >= workers);
    let (Some((place, &turn)), None) = (wrong.next(), wrong.next()) else {
        return;
    };
    if turn == workers {
        board.count(2, usize::from(workers) - 1);
    }
    if turn == 255 {
        board.count(2, 8);
    }
    match (call.turns.len(), place) {
        (MOST_TURNS, 0) => board.count(2, 9),
        (MOST_TURNS, 65_534) => board.count(2, 10),
        _ => {}
    }
}
