//! Limits that show in a single log record.

use std::ops::Range;

use simulator::counts::{Board, Row};

use super::reports::{note_number, ROUNDS};

/// What can come of a step, and the numbers it can have. The first worker
/// never sleeps.
const KINDS: [(&str, Range<usize>); 15] = [
    ("lock", 0..16),
    ("unlock", 0..16),
    ("unlock failed", 0..16),
    ("wait", 0..8),
    ("wait failed", 0..8),
    ("signal, one woken", 0..8),
    ("signal, nobody", 0..8),
    ("broadcast, nobody", 0..8),
    ("broadcast, one woken", 0..8),
    ("broadcast, several woken", 0..8),
    ("barrier, queued", 0..8),
    ("barrier failed", 0..8),
    ("start of a sleeper", 1..8),
    ("start of no sleeper", 0..8),
    ("lock failed", 0..16),
];

/// The rows.
pub const ROWS: [Row; 3] = [
    Row {
        name: "outcome by number",
        members: 151,
        named: kind_and_number,
    },
    Row {
        name: "log record of round",
        members: ROUNDS.len(),
        named: |place| ROUNDS[place].to_string(),
    },
    Row {
        name: "outcome of a lock or an unlock",
        members: 2 * LOCKS,
        named: |place| match place < LOCKS {
            true => format!("lock, {}", place + 1),
            false => format!("unlock, {}", place - LOCKS),
        },
    },
];

/// A lock leaves 1 to 16 locked, an unlock 0 to 15.
const LOCKS: usize = 16;

fn kind_and_number(mut place: usize) -> String {
    for (kind, numbers) in KINDS {
        if place < numbers.len() {
            return format!("{kind}, {}", numbers.start + place);
        }
        place -= numbers.len();
    }
    String::new()
}

/// Which of the kinds a record is; a full barrier and an exit are none.
fn kind_of(op: u8, outcome: u8) -> Option<usize> {
    match (op, outcome) {
        (32, 254) => Some(14),
        (32, _) => Some(0),
        (33, 254) => Some(2),
        (33, _) => Some(1),
        (34, 254) => Some(4),
        (34, _) => Some(3),
        (35, 255) => Some(6),
        (35, _) => Some(5),
        (36, 0) => Some(7),
        (36, 1) => Some(8),
        (36, _) => Some(9),
        (37, 0) => Some(10),
        (37, 254) => Some(11),
        (39, 1) => Some(12),
        (39, _) => Some(13),
        _ => None,
    }
}

/// Notes a log record.
pub fn note(board: &mut Board, record: &[u8]) {
    if let Some(kind) = kind_of(record[5], record[7]) {
        let before: usize = KINDS[..kind].iter().map(|each| each.1.len()).sum();
        let number = usize::from(record[6]) - KINDS[kind].1.start;
        board.count(0, before + number);
    }
    let round = u16::from_le_bytes([record[2], record[3]]);
    note_number(board, 1, &ROUNDS, round);
    match (record[5], usize::from(record[7])) {
        (32, count @ 1..=LOCKS) => board.count(2, count - 1),
        (33, count @ 0..LOCKS) => board.count(2, LOCKS + count),
        _ => {}
    }
}
