//! Limits of calls of several plans: counts, places, what a plan comes behind,
//! and what the whole call is refused for.

use simulator::batch::{cut, total, UNITS};
use simulator::counts::{Board, Row};
use simulator::format::{
    LENGTH_BYTES, LOG_RECORD_LENGTH, MOST_FILE_BYTES, MOST_PLANS, REPORT_FATES, WORK_LENGTH,
};
use simulator::generate::Batch;

use super::reports::note_number;
use crate::batch::{BatchVerdict, BUFFERS as BUFFERS_OF_A_CALL};

/// Which plans of an accepted call are refused.
const PATTERNS: [&str; 9] = [
    "none",
    "the first alone",
    "one in between alone",
    "the last alone",
    "the only one",
    "all of several",
    "all but the first",
    "all but the last",
    "all of 40",
];

/// What an accepted plan comes directly behind.
const BEHIND: [&str; 10] = [
    "a refused one",
    "a finished one",
    "a stuck one",
    "one with a failed worker",
    "one with more log records",
    "one with more workers",
    "one with fewer workers",
    "the same, from an equal memory",
    "the same, from another memory",
    "a refused one that is behind an accepted one",
];

/// What an accepted plan leaves.
const LEAVES: [&str; 10] = [
    "finished",
    "stuck",
    "a failed worker",
    "a worker on a condition",
    "a worker at a barrier",
    "a worker asleep",
    "another memory",
    "the memory as lent",
    "a full log",
    "a file of the greatest length",
];

/// Numbers of a plan's own refusal; all but the first name a record.
const REFUSALS: [u8; 11] = [1, 2, 3, 4, 5, 6, 7, 8, 9, 10, 14];

/// Lengths of files, up to the fourth byte.
const FILE_LENGTHS: [usize; 12] = [
    0, 1, 6, 7, 8, 7_273, 7_279, 7_280, 7_281, 7_287, 65_543, 16_777_223,
];

/// Buffers with a part for each plan, and how they can be wrong.
const BUFFERS: [&str; 5] = ["memories", "logs", "reports", "answers", "lengths"];
const HOWS: [&str; 5] = [
    "empty",
    "one byte short",
    "one byte longer",
    "a unit short",
    "a unit longer",
];

/// How lengths can fail to add up.
const SUMS: [&str; 7] = [
    "one too many",
    "one too few",
    "right modulo 2^32",
    "right modulo 65,536",
    "right high byte first",
    "no byte of a file",
    "all lengths 0",
];

const COUNTS: [&str; 3] = ["0", "41", "above 41"];

/// Bits of a count above which it is wrong.
const BITS: [u32; 5] = [8, 16, 32, 62, 63];

const WORKS: [usize; 6] = [
    0,
    WORK_LENGTH - 4,
    WORK_LENGTH - 1,
    WORK_LENGTH + 1,
    2 * WORK_LENGTH,
    WORK_LENGTH + 65_536,
];

/// What can be 15 beside a wrong length of work.
const OTHERS: [&str; 8] = [
    "a count of 0",
    "a count above 40",
    "memories",
    "logs",
    "reports",
    "answers",
    "lengths",
    "the lengths' sum",
];

/// What is told beyond the bytes that are there.
#[derive(Clone, Copy)]
pub enum Beyond {
    /// The length of a buffer, by 4 GiB.
    Vast(usize),
    /// A count, and the answers' length, so that products wrap around.
    Count,
    /// Lengths of files, and their sum.
    Far,
}

const TOLD: [&str; BUFFERS_OF_A_CALL + 2] = [
    "memories by 4 GiB",
    "logs by 4 GiB",
    "reports by 4 GiB",
    "answers by 4 GiB",
    "work by 4 GiB",
    "files by 4 GiB",
    "lengths by 4 GiB",
    "a count, so that products wrap around",
    "files up to 39 x 4 GiB and their lengths",
];

/// The rows.
pub const ROWS: [Row; 16] = [
    Row {
        name: "batch: accepted, plans",
        members: MOST_PLANS,
        named: |place| (place + 1).to_string(),
    },
    Row {
        name: "batch: accepted, refused plans",
        members: PATTERNS.len(),
        named: |place| PATTERNS[place].to_string(),
    },
    Row {
        name: "batch: place of an accepted plan",
        members: MOST_PLANS,
        named: |place| place.to_string(),
    },
    Row {
        name: "batch: place of a refused plan",
        members: MOST_PLANS,
        named: |place| place.to_string(),
    },
    Row {
        name: "batch: accepted plan behind",
        members: BEHIND.len(),
        named: |place| BEHIND[place].to_string(),
    },
    Row {
        name: "batch: accepted plan leaves",
        members: LEAVES.len(),
        named: |place| LEAVES[place].to_string(),
    },
    Row {
        name: "batch: a plan's refusal",
        members: REFUSALS.len(),
        named: |place| REFUSALS[place].to_string(),
    },
    Row {
        name: "batch: a plan's refusal at a record that is not told",
        members: 2 * (REFUSALS.len() - 1),
        named: |place| {
            let index = ["1 to 255", "256 and above"][place % 2];
            format!("{} at {index}", REFUSALS[1 + place / 2])
        },
    },
    Row {
        name: "batch: length of a file",
        members: FILE_LENGTHS.len(),
        named: |place| FILE_LENGTHS[place].to_string(),
    },
    Row {
        name: "batch: refusal 15, count alone",
        members: COUNTS.len(),
        named: |place| COUNTS[place].to_string(),
    },
    Row {
        name: "batch: refusal 15, count whose low bits fit",
        members: BITS.len(),
        named: |place| format!("{} of them", BITS[place]),
    },
    Row {
        name: "batch: refusal 15, one buffer",
        members: BUFFERS.len() * HOWS.len(),
        named: |place| format!("{} {}", BUFFERS[place / 5], HOWS[place % 5]),
    },
    Row {
        name: "batch: refusal 15, sum of lengths alone",
        members: SUMS.len(),
        named: |place| SUMS[place].to_string(),
    },
    Row {
        name: "batch: refusal 11 alone, work",
        members: WORKS.len(),
        named: |place| WORKS[place].to_string(),
    },
    Row {
        name: "batch: refusal 11 before 15 by",
        members: OTHERS.len(),
        named: |place| OTHERS[place].to_string(),
    },
    Row {
        name: "batch: told beyond its bytes",
        members: TOLD.len(),
        named: |place| TOLD[place].to_string(),
    },
];

/// Notes a call and what the simulator says of it.
pub fn note(board: &mut Board, batch: &Batch, verdict: &BatchVerdict) {
    match verdict.answer {
        0 => note_accepted(board, batch, &verdict.after),
        11 => note_work(board, batch),
        _ => note_refused(board, batch),
    }
}

/// Notes a call that is told beyond its bytes.
pub fn note_told(board: &mut Board, what: Beyond) {
    let member = match what {
        Beyond::Vast(which) => which,
        Beyond::Count => BUFFERS_OF_A_CALL,
        Beyond::Far => BUFFERS_OF_A_CALL + 1,
    };
    board.count(15, member);
}

fn note_accepted(board: &mut Board, batch: &Batch, after: &Batch) {
    let answers = &after.lent[3];
    board.count(0, batch.count - 1);
    for pattern in patterns(answers) {
        board.count(1, pattern);
    }
    let files = cut(&batch.files, &batch.lengths);
    for (place, file) in files.iter().enumerate() {
        note_number(board, 8, &FILE_LENGTHS, file.len());
        match answers[place] {
            0 => {
                board.count(2, place);
                note_left(board, batch, after, place, file);
                note_behind(board, batch, after, place, &files);
            }
            refusal => {
                board.count(3, place);
                note_number(board, 6, &REFUSALS, refusal);
                note_index(board, file);
            }
        }
    }
}

/// The patterns of refused plans, in the order of their names.
fn patterns(answers: &[u8]) -> Vec<usize> {
    let refused = |answer: &u8| *answer != 0;
    let count = answers.iter().filter(|answer| refused(answer)).count();
    let last = answers.len() - 1;
    let mut found = Vec::new();
    match (count, answers.iter().position(refused)) {
        (_, None) => found.push(0),
        (1, Some(_)) if last == 0 => found.push(4),
        (1, Some(0)) => found.push(1),
        (1, Some(place)) if place == last => found.push(3),
        (1, Some(_)) => found.push(2),
        _ if count == answers.len() => found.push(5),
        _ => {}
    }
    if count > 0 && count == last {
        found.extend((answers[0] == 0).then_some(6));
        found.extend((answers[last] == 0).then_some(7));
    }
    found.extend((count == MOST_PLANS).then_some(8));
    found
}

/// The part of a plan in memories, logs or reports.
fn part(batch: &Batch, which: usize, place: usize) -> &[u8] {
    &batch.lent[which][place * UNITS[which]..][..UNITS[which]]
}

fn records(report: &[u8]) -> usize {
    usize::from(u16::from_le_bytes([report[6], report[7]]))
}

fn note_left(board: &mut Board, batch: &Batch, after: &Batch, place: usize, file: &[u8]) {
    let report = part(after, 2, place);
    let fates = &report[REPORT_FATES..][..8];
    let kept = part(batch, 0, place) == part(after, 0, place);
    let left = [
        report[0] == 1,
        report[0] == 2,
        fates.contains(&2),
        fates.contains(&3),
        fates.contains(&4),
        fates.contains(&5),
        !kept,
        kept,
        records(report) * LOG_RECORD_LENGTH == UNITS[1],
        file.len() == MOST_FILE_BYTES,
    ];
    note_all(board, 5, &left);
}

fn note_behind(board: &mut Board, batch: &Batch, after: &Batch, place: usize, files: &[&[u8]]) {
    let Some(before) = place.checked_sub(1) else {
        return;
    };
    let answers = &after.lent[3];
    if answers[before] != 0 {
        board.count(4, 0);
        if before > 0 && answers[before - 1] == 0 {
            board.count(4, 9);
        }
        return;
    }
    let (first, second) = (part(after, 2, before), part(after, 2, place));
    let same = files[before] == files[place];
    let equal = part(batch, 0, before) == part(batch, 0, place);
    let behind = [
        false,
        first[0] == 1,
        first[0] == 2,
        first[REPORT_FATES..][..8].contains(&2),
        records(first) > records(second),
        first[1] > second[1],
        first[1] < second[1],
        same && equal,
        same && !equal,
    ];
    note_all(board, 4, &behind);
}

/// Counts those members of a row that hold.
fn note_all(board: &mut Board, row: usize, holds: &[bool]) {
    for (member, _) in holds.iter().enumerate().filter(|(_, holds)| **holds) {
        board.count(row, member);
    }
}

/// A refusal at a record behind the first, whose index the answer leaves out.
fn note_index(board: &mut Board, file: &[u8]) {
    let Err(refusal) = simulator::check(file) else {
        return;
    };
    let number = REFUSALS.iter().position(|&each| each == refusal.number);
    if let (Some(row @ 1..), 1..) = (number, refusal.index) {
        board.count(7, 2 * (row - 1) + usize::from(refusal.index > 255));
    }
}

/// Whether each buffer is not count times its unit, in the order of their names.
fn wrong_buffers(batch: &Batch) -> [bool; 5] {
    let wrong = |length: usize, unit: usize| length as u128 != batch.count as u128 * unit as u128;
    let lent = |which: usize| wrong(batch.lent[which].len(), UNITS[which]);
    let lengths = wrong(batch.lengths.len(), LENGTH_BYTES);
    [lent(0), lent(1), lent(2), lent(3), lengths]
}

fn wrong_sum(batch: &Batch) -> bool {
    total(&batch.lengths) != batch.files.len() as u64
}

fn wrong_count(batch: &Batch) -> bool {
    !(1..=MOST_PLANS).contains(&batch.count)
}

/// The only one of these that holds.
fn alone(all: &[bool]) -> Option<usize> {
    let mut holds = (0..all.len()).filter(|&place| all[place]);
    match (holds.next(), holds.next()) {
        (Some(place), None) => Some(place),
        _ => None,
    }
}

fn note_work(board: &mut Board, batch: &Batch) {
    let [memories, logs, reports, answers, lengths] = wrong_buffers(batch);
    let others = [
        batch.count == 0,
        batch.count > MOST_PLANS,
        memories,
        logs,
        reports,
        answers,
        lengths,
        // Without their right count of bytes the lengths have no sum.
        wrong_sum(batch) && !lengths,
    ];
    match alone(&others) {
        Some(place) => board.count(14, place),
        None if others == [false; 8] => note_number(board, 13, &WORKS, batch.lent[4].len()),
        None => {}
    }
}

fn note_refused(board: &mut Board, batch: &Batch) {
    let buffers = wrong_buffers(batch);
    match (wrong_count(batch), alone(&buffers)) {
        (true, None) if buffers == [false; 5] => note_count(board, batch.count),
        (true, _) => note_low_bits(board, batch),
        (false, Some(which)) => note_buffer(board, batch, which),
        (false, None) if buffers == [false; 5] => note_sum(board, batch),
        _ => {}
    }
}

fn note_count(board: &mut Board, count: usize) {
    match count {
        0 => board.count(9, 0),
        41 => board.count(9, 1),
        _ => board.count(9, 2),
    }
}

/// The count would do with its low bits alone.
fn note_low_bits(board: &mut Board, batch: &Batch) {
    for (member, bits) in BITS.into_iter().enumerate() {
        let mut low = batch.clone();
        low.count %= 1 << bits;
        let fits = batch.count >> bits == 1 && wrong_buffers(&low) == [false; 5];
        if fits && !wrong_count(&low) && !wrong_sum(&low) {
            board.count(10, member);
        }
    }
}

fn note_buffer(board: &mut Board, batch: &Batch, which: usize) {
    let (length, unit) = match which {
        4 => (batch.lengths.len(), LENGTH_BYTES),
        _ => (batch.lent[which].len(), UNITS[which]),
    };
    let right = batch.count * unit;
    let wrong = [0, right - 1, right + 1, right - unit, right + unit];
    // Lengths that do not add up would be another thing wrong.
    let adds_up = which != 4 || !wrong_sum(batch);
    for (how, _) in wrong
        .iter()
        .enumerate()
        .filter(|(_, each)| **each == length)
    {
        if adds_up {
            board.count(11, HOWS.len() * which + how);
        }
    }
}

fn note_sum(board: &mut Board, batch: &Batch) {
    let (sum, bytes) = (total(&batch.lengths), batch.files.len() as u64);
    let mut turned = batch.lengths.clone();
    turned.chunks_mut(LENGTH_BYTES).for_each(<[u8]>::reverse);
    let wrong = [
        sum == bytes + 1,
        sum + 1 == bytes,
        sum % (1 << 32) == bytes,
        sum % 65_536 == bytes % 65_536,
        total(&turned) == bytes,
        bytes == 0,
        sum == 0,
    ];
    note_all(board, 12, &wrong);
}
