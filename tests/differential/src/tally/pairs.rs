//! What pairs of calls differ in, and what comes of them.

use std::cmp::Ordering;

use simulator::counts::{Board, Row};
use simulator::format::{MEMORY_LENGTH, MOST_PLANS, REPORT_FATES, REPORT_SUM};
use simulator::generate::{Batch, Change};
use simulator::pair::sum_of;
use simulator::Named;

use super::{ENDS, FATES};
use crate::batch::BatchVerdict;
use crate::call::{Call, Verdict};
use crate::pair::Pair;

const PAGE: usize = 256;
const PAGES: usize = MEMORY_LENGTH / PAGE;

/// How many of the bytes nobody named differ.
const BYTES: [&str; 6] = [
    "none, as every byte is named",
    "the only one that nobody named",
    "one of several",
    "some of several",
    "all of several",
    "all 2,048",
];

/// Where a byte that differs stands beside a named one.
const SIDES: [&str; 5] = [
    "right below it",
    "right above it",
    "between two",
    "right below it, in the page before",
    "right above it, in the page behind",
];

/// The page of a byte that differs.
const IN_PAGES: [&str; 4] = [
    "nobody names a byte of it",
    "its bytes are loaded alone",
    "stored into, and as it was",
    "commits have changed bytes of it",
];

const SECOND_SUMS: [&str; 3] = ["above the first", "below it", "equal, memories not"];

const BATCH_ANSWERS: [u32; 3] = [0, 11, 15];
const PLANS: [&str; 3] = ["finished", "stuck", "refused"];
const COUNTS: [&str; 3] = ["1", "several", "40"];

/// The rows.
pub const ROWS: [Row; 11] = [
    Row {
        name: "pair: answer",
        members: 15,
        named: |place| place.to_string(),
    },
    Row {
        name: "pair: end and change",
        members: ENDS.len() * Change::ALL.len(),
        named: |place| format!("{}, {:?}", ENDS[place / 6], Change::ALL[place % 6]),
    },
    Row {
        name: "pair: bytes nobody named that differ",
        members: BYTES.len(),
        named: |place| BYTES[place].to_string(),
    },
    Row {
        name: "pair: byte beside a named one",
        members: SIDES.len(),
        named: |place| SIDES[place].to_string(),
    },
    Row {
        name: "pair: end and page of a byte that differs",
        members: ENDS.len() * IN_PAGES.len(),
        named: |place| format!("{}, {}", ENDS[place / 4], IN_PAGES[place % 4]),
    },
    Row {
        name: "pair: byte at the edge of a page",
        members: 2 * PAGES,
        named: |place| format!("{} of page {}", ["first", "last"][place % 2], place / 2),
    },
    Row {
        name: "pair: second sum",
        members: SECOND_SUMS.len(),
        named: |place| SECOND_SUMS[place].to_string(),
    },
    Row {
        name: "pair: fate of a worker",
        members: FATES.len(),
        named: |place| FATES[place].to_string(),
    },
    Row {
        name: "pair of batches: answer",
        members: BATCH_ANSWERS.len(),
        named: |place| BATCH_ANSWERS[place].to_string(),
    },
    Row {
        name: "pair of batches: a plan's memories",
        members: 2 * PLANS.len(),
        named: |place| format!("{}, {}", PLANS[place / 2], ["equal", "not"][place % 2]),
    },
    Row {
        name: "pair of batches: accepted, plans",
        members: COUNTS.len(),
        named: |place| COUNTS[place].to_string(),
    },
];

/// Notes a pair by its second call and what the simulator says of that.
pub fn note(board: &mut Board, pair: &Pair<Call>, second: &Call, verdict: &Verdict) {
    board.count(0, (verdict.answer % 256) as usize);
    if verdict.answer != 0 {
        return;
    }
    let end = usize::from(verdict.report[0]);
    let change = Change::ALL.iter().position(|&each| each == pair.change);
    board.count(1, 6 * end + change.expect("a kind of change"));
    for &fate in &verdict.report[REPORT_FATES..REPORT_SUM] {
        if usize::from(fate) < FATES.len() {
            board.count(7, usize::from(fate));
        }
    }
    let memories = [&pair.first.lent[0][..], &second.lent[0]];
    let differs = |&at: &usize| memories[0][at] != memories[1][at];
    let differing: Vec<usize> = (0..MEMORY_LENGTH).filter(differs).collect();
    let named = Named::by(&second.file);
    board.count(2, how_many(differing.len(), named.unnamed().len()));
    for at in differing {
        note_sides(board, &named, at);
        if matches!(at % PAGE, 0 | 255) {
            board.count(5, 2 * (at / PAGE) + at % PAGE / 255);
        }
    }
    note_pages(board, memories, second, verdict);
    note_sums(board, memories);
}

fn how_many(differing: usize, unnamed: usize) -> usize {
    match (differing, unnamed) {
        (_, 0) => 0,
        (1, 1) => 1,
        (1, _) => 2,
        (_, MEMORY_LENGTH) if differing == MEMORY_LENGTH => 5,
        _ if differing == unnamed => 4,
        _ => 3,
    }
}

fn note_sides(board: &mut Board, named: &Named, at: usize) {
    let (above, below) = (named.has(at + 1), at > 0 && named.has(at - 1));
    let place = at % PAGE;
    let sides = [
        above,
        below,
        above && below,
        above && place == 255,
        below && place == 0,
    ];
    for (side, _) in sides.iter().enumerate().filter(|(_, holds)| **holds) {
        board.count(3, side);
    }
}

/// Notes each page in which the memories differ.
fn note_pages(board: &mut Board, memories: [&[u8]; 2], call: &Call, verdict: &Verdict) {
    let (named, stored) = (Named::by(&call.file), Named::by_stores(&call.file));
    let end = usize::from(verdict.report[0]);
    for page in 0..PAGES {
        let bytes = page * PAGE..(page + 1) * PAGE;
        if memories[0][bytes.clone()] == memories[1][bytes.clone()] {
            continue;
        }
        let any = |which: &Named| bytes.clone().any(|at| which.has(at));
        let committed = verdict.memory[bytes.clone()] != memories[1][bytes.clone()];
        let kind = match committed {
            true => 3,
            false if any(&stored) => 2,
            false => usize::from(any(&named)),
        };
        board.count(4, IN_PAGES.len() * end + kind);
    }
}

/// The sums differ as those of the memories do.
fn note_sums(board: &mut Board, [first, second]: [&[u8]; 2]) {
    match sum_of(second).cmp(&sum_of(first)) {
        Ordering::Greater => board.count(6, 0),
        Ordering::Less => board.count(6, 1),
        Ordering::Equal if first != second => board.count(6, 2),
        Ordering::Equal => {}
    }
}

/// Notes a pair of calls of several plans.
pub fn note_batch(board: &mut Board, first: &Batch, second: &Batch, verdict: &BatchVerdict) {
    let answer = BATCH_ANSWERS
        .iter()
        .position(|&each| each == verdict.answer);
    board.count(8, answer.expect("an answer of such a call"));
    if verdict.answer != 0 {
        return;
    }
    board.count(
        10,
        match first.count {
            1 => 0,
            MOST_PLANS => 2,
            _ => 1,
        },
    );
    let after = &verdict.after.lent;
    for place in 0..first.count {
        let memory = |call: &Batch| call.lent[0][place * MEMORY_LENGTH..][..MEMORY_LENGTH].to_vec();
        let plan = match after[3][place] {
            0 => usize::from(after[2][place * (REPORT_SUM + 4)] == 2),
            _ => 2,
        };
        board.count(9, 2 * plan + usize::from(memory(first) != memory(second)));
    }
}
