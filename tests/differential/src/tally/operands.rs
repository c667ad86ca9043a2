//! Operands that are refused just out of the range that an op allows, and
//! other limits of the steps of a file.

use simulator::counts::{Board, Row};
use simulator::format::{Record, OP_START};

use super::records::{self, Seen};

type Range = (u8, u8, Option<u16>, Option<u16>);

/// Each op, the first register and the first numbers that it does not allow,
/// below (none but a skip of 0) and above (none for a set). The numbers of a
/// start hang on n and have a row of their own.
const RANGES: [Range; 15] = [
    (16, 4, None, None),
    (17, 4, None, Some(2_047)),
    (18, 4, None, Some(2_047)),
    (19, 4, None, Some(4)),
    (20, 4, None, Some(4)),
    (21, 4, Some(0), Some(128)),
    (22, 4, Some(0), Some(128)),
    (32, 1, None, Some(16)),
    (33, 1, None, Some(16)),
    (34, 1, None, Some(8)),
    (35, 1, None, Some(8)),
    (36, 1, None, Some(8)),
    (37, 1, None, Some(8)),
    (38, 1, None, Some(1)),
    (OP_START, 1, None, None),
];

/// Lengths of files that are refused for them.
const LENGTHS: [usize; 7] = [0, 6, 8, 7_279, 7_281, 7_287, 65_543];

/// The rows.
pub const ROWS: [Row; 7] = [
    records::ROW,
    Row {
        name: "refusal 7, register one too high",
        members: RANGES.len(),
        named: |place| format!("op {}", RANGES[place].0),
    },
    Row {
        name: "refusal 7, number one too high or too low",
        members: 15,
        named: |place| format!("{:?}", wrong_numbers()[place]),
    },
    Row {
        name: "129th step",
        members: 8,
        named: |place| format!("worker {place}"),
    },
    Row {
        name: "barrier without a size",
        members: 8,
        named: |place| format!("barrier {place}"),
    },
    Row {
        name: "refusal 1, bytes in the file",
        members: LENGTHS.len(),
        named: |place| LENGTHS[place].to_string(),
    },
    Row {
        name: "refusal 7, start of worker n",
        members: 8,
        named: |place| format!("n = {}", place + 1),
    },
];

/// Each op with a number just out of its range.
fn wrong_numbers() -> Vec<(u8, u16)> {
    let of = |(op, _, below, above): Range| {
        let numbers = below.into_iter().chain(above);
        numbers.map(move |number| (op, number))
    };
    RANGES.into_iter().flat_map(of).collect()
}

/// Notes a refusal of a file.
pub fn note(board: &mut Board, file: &[u8], answer: u32) {
    if answer == 1 {
        let place = LENGTHS.iter().position(|&length| length == file.len());
        place.into_iter().for_each(|place| board.count(5, place));
    }
    let Some(seen) = Seen::new(file, answer) else {
        return;
    };
    records::note(board, 0, &seen);
    match seen.refusal {
        7 => note_operand(board, &seen.record, seen.workers),
        8 => board.count(3, usize::from(seen.record.worker)),
        9 => board.count(4, usize::from(seen.record.number)),
        _ => {}
    }
}

/// Notes an operand that is out of its range, the other one being in its.
fn note_operand(board: &mut Board, record: &Record, workers: u8) {
    let is_op = |row: &&Range| row.0 == record.op;
    let Some(&(op, register, below, above)) = RANGES.iter().find(is_op) else {
        return;
    };
    let workers = u16::from(workers);
    let above = above.or((op == OP_START).then_some(workers));
    let number_fits = below.is_none_or(|below| record.number > below)
        && above.is_none_or(|above| record.number < above);
    if record.register == register && number_fits {
        let place = RANGES.iter().position(|row| row.0 == op);
        place.into_iter().for_each(|place| board.count(1, place));
    }
    if record.register < register && op == OP_START && record.number == workers {
        board.count(6, usize::from(workers) - 1);
    }
    if record.register < register {
        let number = (op, record.number);
        let place = wrong_numbers().iter().position(|&each| each == number);
        place.into_iter().for_each(|place| board.count(2, place));
    }
}
