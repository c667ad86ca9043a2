//! Bytes that no load or store covers, with values worked out by hand from the
//! paper's seventh request. Such a byte keeps what it holds.

mod common;

use common::{end_of, front, report, run_call, Row};
use simulator::format::{LOG_LENGTH, MEMORY_LENGTH, REPORT_LENGTH, WORK_LENGTH};
use simulator::generate::draft::{step, Draft};
use simulator::generate::{Batch, Rng};
use simulator::{check_code, run, Named};

/// An address and a byte there.
type Cell = (usize, u8);

/// Round, worker, op, number and outcome of a log record.
type Entry = [u8; 5];

fn draft(rows: &[Row]) -> Draft {
    Draft::from_rows(&[], rows)
}

/// A byte everywhere: zeros, 255s, or one that differs from its neighbours.
fn others(kind: usize) -> Vec<Cell> {
    let byte = |address: usize| match kind {
        0 => 0,
        1 => 255,
        _ => (7 * address + address / 256 + 1) as u8,
    };
    (0..MEMORY_LENGTH)
        .map(|address| (address, byte(address)))
        .collect()
}

const KINDS: [usize; 3] = [0, 1, 2];

fn memory_of(cells: &[Cell]) -> Vec<u8> {
    let mut memory = vec![0; MEMORY_LENGTH];
    for &(address, byte) in cells {
        memory[address] = byte;
    }
    memory
}

fn log_of(entries: &[Entry]) -> Vec<u8> {
    let record = |&[round, worker, op, number, outcome]: &Entry| {
        [0x4D, 0x4C, round, 0, worker, op, number, outcome]
    };
    entries.iter().flat_map(record).collect()
}

/// The addresses of the bytes that are named.
fn named(file: &[u8]) -> Vec<usize> {
    let by = Named::by(file);
    (0..MEMORY_LENGTH)
        .filter(|&address| by.has(address))
        .collect()
}

/// The plan names just the bytes of `start`. From memories that have these and
/// others of each kind elsewhere both runs leave this log and the front of this
/// report, `left` in the named bytes that change, and each other byte as it was.
fn keeps(draft: &Draft, start: &[Cell], left: &[Cell], log: &[Entry], bytes: [u8; 16]) {
    let addresses: Vec<usize> = start.iter().map(|cell| cell.0).collect();
    assert_eq!(named(&draft.file()), addresses);
    assert!(left.iter().all(|cell| addresses.contains(&cell.0)));
    for kind in KINDS {
        let lent = [&others(kind)[..], start].concat();
        let outcome = end_of(draft, &lent);
        assert_eq!(outcome.memory, memory_of(&[&lent[..], left].concat()));
        assert_eq!(outcome.log, log_of(log));
        assert_eq!(front(&outcome), bytes);
    }
}

const EXIT: Entry = [1, 0, 38, 0, 255];

#[test]
fn a_file_and_all_that_it_leaves() {
    let file = [
        0x4D, 0x50, 1, 0, 0, 0, 0, // one worker
        0x4D, 0x50, 0, 16, 0, 1, 2, // set r0 to 0x0201
        0x4D, 0x50, 0, 18, 0, 3, 0, // store r0 at 3
    ];
    let plan = draft(&[&[(16, 0, 0x0201), (18, 0, 3)]]);
    assert_eq!(plan.file(), file);
    assert_eq!(named(&file), [3, 4]);
    // Bytes right below the word and right above it, in the same two words.
    let first = end_of(&plan, &[(2, 7), (5, 9)]);
    let second = end_of(&plan, &[(2, 8), (5, 10)]);
    assert_eq!(first.memory[..7], [0, 0, 7, 1, 2, 9, 0]);
    assert_eq!(second.memory[..7], [0, 0, 8, 1, 2, 10, 0]);
    for outcome in [&first, &second] {
        assert!(outcome.memory[7..].iter().all(|&byte| byte == 0));
        assert_eq!(outcome.log, [0x4D, 0x4C, 1, 0, 0, 38, 0, 255]);
        assert_eq!(front(outcome), report([1, 1], [4, 1, 1], &[1]));
    }
    // 7 + 256 and 2 + 9 × 256; 8 + 256 and 2 + 10 × 256. At first the sums are
    // 7 + 9 × 256 and 8 + 10 × 256, which are as far apart.
    assert_eq!((first.sum(), second.sum()), (2_569, 2_826));
    assert_eq!(first.report[16..], [0x09, 0x0A, 0, 0]);
    assert_eq!(second.report[16..], [0x0A, 0x0B, 0, 0]);
}

#[test]
fn a_load_and_a_store_cover_their_address_and_the_next() {
    for op in [17, 18] {
        for address in [0, 1, 254, 255, 256, 1_023, 2_045, 2_046] {
            let file = draft(&[&[(op, 2, address)]]).file();
            let address = usize::from(address);
            assert_eq!(named(&file), [address, address + 1]);
        }
    }
    // Other steps have numbers too, and name no byte.
    let others: Row = &[(21, 0, 1), (22, 0, 1), (16, 0, 9), (19, 0, 1), (20, 0, 2)];
    let points: Row = &[(32, 0, 3), (33, 0, 3), (35, 0, 7), (36, 0, 5), (39, 0, 1)];
    let plan = Draft::from_rows(&[(4, 1)], &[others, points, &[(37, 0, 4)]]).asleep(&[2]);
    assert_eq!(check_code(&plan.file()), 0);
    assert!(named(&plan.file()).is_empty());
}

#[test]
fn a_skipped_store_names_its_bytes() {
    let plan = draft(&[&[(21, 0, 1), (18, 1, 20)]]);
    // The skip, an arrival, the end.
    let bytes = report([1, 1], [3, 1, 1], &[1]);
    keeps(&plan, &[(20, 5), (21, 6)], &[], &[EXIT], bytes);
}

#[test]
fn steps_behind_an_exit_and_a_failure_name_theirs() {
    let plan = draft(&[&[(38, 0, 0), (18, 0, 300)]]);
    let bytes = report([1, 1], [2, 1, 1], &[1]);
    keeps(&plan, &[(300, 9), (301, 9)], &[], &[EXIT], bytes);
    let plan = draft(&[&[(33, 0, 4), (17, 0, 300)]]);
    let bytes = report([1, 1], [2, 1, 1], &[2]);
    let fails = [1, 0, 33, 4, 254];
    keeps(&plan, &[(300, 9), (301, 9)], &[], &[fails], bytes);
}

#[test]
fn a_sleeper_that_nobody_starts_names_its_bytes() {
    let stores: Row = &[(16, 0, 7), (18, 0, 40)];
    let sleeps: Row = &[(16, 0, 8), (18, 0, 50), (17, 0, 60)];
    let plan = draft(&[stores, sleeps]).asleep(&[1]);
    let start = [(40, 1), (41, 1), (50, 1), (51, 1), (60, 1), (61, 1)];
    let bytes = report([1, 2], [4, 1, 1], &[1, 5]);
    keeps(&plan, &start, &[(40, 7), (41, 0)], &[EXIT], bytes);
}

/// Loads r0 from 70; unless that is zero, 5 at 100 is skipped.
fn decides_by_a_load() -> Draft {
    draft(&[&[(17, 0, 70), (22, 0, 2), (16, 1, 5), (18, 1, 100)]])
}

#[test]
fn the_upper_byte_of_a_load_decides() {
    let plan = decides_by_a_load();
    // Load, skip, set, store, arrival, end; with 71 changed two of them less.
    let start = [(70, 0), (71, 0), (100, 3), (101, 3)];
    let bytes = report([1, 1], [6, 1, 1], &[1]);
    keeps(&plan, &start, &[(100, 5), (101, 0)], &[EXIT], bytes);
    let start = [(70, 0), (71, 1), (100, 3), (101, 3)];
    let bytes = report([1, 1], [4, 1, 1], &[1]);
    keeps(&plan, &start, &[], &[EXIT], bytes);
}

#[test]
fn at_both_ends_of_memory() {
    let bytes = report([1, 1], [4, 1, 1], &[1]);
    for at in [0, 2_046] {
        let plan = draft(&[&[(16, 0, 0x0201), (18, 0, at as u16)]]);
        let (start, left) = ([(at, 6), (at + 1, 6)], [(at, 1), (at + 1, 2)]);
        keeps(&plan, &start, &left, &[EXIT], bytes);
    }
}

#[test]
fn over_two_pages() {
    let bytes = report([1, 1], [4, 1, 1], &[1]);
    for at in [255, 511, 1_791] {
        let plan = draft(&[&[(16, 0, 0x0201), (18, 0, at as u16)]]);
        let (start, left) = ([(at, 6), (at + 1, 6)], [(at, 1), (at + 1, 2)]);
        keeps(&plan, &start, &left, &[EXIT], bytes);
        // One right below the border, and one right above it.
        let stores: Row = &[
            (16, 0, 0x0201),
            (18, 0, at as u16 - 1),
            (18, 0, at as u16 + 1),
        ];
        let start = [(at - 1, 6), (at, 6), (at + 1, 6), (at + 2, 6)];
        let left = [(at - 1, 1), (at, 2), (at + 1, 1), (at + 2, 2)];
        let bytes = report([1, 1], [5, 1, 1], &[1]);
        keeps(&draft(&[stores]), &start, &left, &[EXIT], bytes);
    }
}

/// Three workers copy one page and commit it one behind the other: either byte
/// of one word, and a word one byte further on.
fn races() -> Draft {
    draft(&[
        &[(16, 0, 0x0100), (18, 0, 300)],
        &[(16, 0, 1), (18, 0, 300)],
        &[(16, 0, 0x0909), (18, 0, 303)],
    ])
}

const RACED: [Cell; 4] = [(300, 0), (301, 0), (303, 0), (304, 0)];
const EXITS: [Entry; 3] = [EXIT, [1, 1, 38, 0, 255], [1, 2, 38, 0, 255]];

#[test]
fn in_a_race() {
    let left = [(300, 1), (301, 1), (303, 9), (304, 9)];
    let bytes = report([1, 3], [12, 1, 3], &[1, 1, 1]);
    keeps(&races(), &RACED, &left, &EXITS, bytes);
}

#[test]
fn under_way() {
    // All arrive in nine moves; then each exit commits. Turns of 1 and 2 pass
    // where 0 holds the token.
    let turns = [0, 0, 1, 1, 2, 2, 0, 1, 2, 2, 1, 0, 1, 2];
    let behind: [(usize, u16, &[Cell]); 5] = [
        (5, 5, &[]),
        (11, 9, &[]),
        (12, 10, &[(301, 1)]),
        (13, 11, &[(301, 1), (300, 1)]),
        (14, 12, &[(301, 1), (300, 1), (303, 9), (304, 9)]),
    ];
    for (length, moves, left) in behind {
        for kind in KINDS {
            let lent = [&others(kind)[..], &RACED].concat();
            let outcome = run_call(&races(), &turns[..length], &lent);
            assert_eq!(outcome.memory, memory_of(&[&lent[..], left].concat()));
            let records = usize::from(moves.saturating_sub(9));
            assert_eq!(outcome.log, log_of(&EXITS[..records]));
            assert_eq!(outcome.moving_turns(), moves);
            assert_eq!(outcome.end(), u8::from(length == 14));
        }
    }
}

#[test]
fn beside_lost_bytes() {
    let fails: Row = &[(16, 0, 0x0505), (18, 0, 600), (33, 0, 0)];
    let plan = draft(&[fails, &[(16, 0, 7), (18, 0, 604)]]);
    let start = [(600, 1), (601, 2), (604, 3), (605, 4)];
    let log = [[1, 0, 33, 0, 254], [1, 1, 38, 0, 255]];
    let bytes = report([1, 2], [8, 1, 2], &[2, 1]);
    keeps(&plan, &start, &[(604, 7), (605, 0)], &log, bytes);
}

#[test]
fn in_a_page_that_is_copied_again_and_again() {
    let adds: Row = &[
        (32, 0, 0),
        (17, 0, 800),
        (16, 1, 1),
        (19, 0, 1),
        (18, 0, 800),
        (33, 0, 0),
    ];
    let log = [
        [1, 0, 32, 0, 1],
        [1, 0, 33, 0, 0],
        [1, 1, 32, 0, 1],
        [1, 1, 33, 0, 0],
        [2, 0, 38, 0, 255],
        [2, 1, 38, 0, 255],
    ];
    // 254, 255, 256.
    let bytes = report([1, 2], [18, 2, 6], &[1, 1]);
    let (start, left) = ([(800, 254), (801, 0)], [(800, 0), (801, 1)]);
    keeps(&draft(&[adds, adds]), &start, &left, &log, bytes);
}

#[test]
fn in_a_plan_that_is_stuck() {
    let waits: Row = &[(32, 0, 0), (16, 0, 3), (18, 0, 10), (34, 0, 0)];
    let log = [[1, 0, 32, 0, 1], [1, 0, 34, 0, 255]];
    let bytes = report([2, 1], [5, 1, 2], &[3]);
    let (start, left) = ([(10, 4), (11, 4)], [(10, 3), (11, 0)]);
    keeps(&draft(&[waits]), &start, &left, &log, bytes);
}

/// Eight workers of 128 steps that cover all words at even addresses, but that
/// of a byte, whose other byte is covered by the step beside it.
fn all_but(byte: usize) -> Draft {
    let address = |word: usize| match byte / 2 == word {
        true if byte % 2 == 1 => byte - 2,
        true => byte + 1,
        false => 2 * word,
    };
    let own = |worker: usize| {
        let each = |place: usize| {
            let word = 128 * worker + place;
            step(17 + (word % 2) as u8, 0, address(word) as u16)
        };
        (0..128).map(each).collect()
    };
    Draft::new(&[], (0..8).map(own).collect())
}

#[test]
fn every_byte_and_every_byte_but_one() {
    // Only the word at 0 covers byte 0, and only that at 2,046 covers 2,047; so
    // neither 1 nor 2,046 can be the only one.
    for byte in [0, 2, 3, 254, 255, 256, 257, 1_000, 2_045, 2_047] {
        let plan = all_but(byte);
        assert_eq!(check_code(&plan.file()), 0);
        assert_eq!(Named::by(&plan.file()).unnamed(), [byte]);
        for kind in KINDS {
            let outcome = end_of(&plan, &others(kind));
            assert_eq!(outcome.memory[byte], others(kind)[byte].1);
        }
    }
    let every = all_but(MEMORY_LENGTH);
    assert_eq!(named(&every.file()).len(), MEMORY_LENGTH);
}

#[test]
fn no_byte_at_all() {
    let plan = draft(&[&[(16, 0, 5), (32, 0, 0), (33, 0, 0)]]);
    let log = [[1, 0, 32, 0, 1], [1, 0, 33, 0, 0], [2, 0, 38, 0, 255]];
    let bytes = report([1, 1], [6, 2, 3], &[1]);
    keeps(&plan, &[], &[], &log, bytes);
}

#[test]
fn refused_alike() {
    let good = draft(&[&[(18, 0, 10)], &[]]).file();
    let bad = draft(&[&[(18, 0, 10), (17, 0, 2_047)], &[]]).file();
    assert_eq!(named(&good), [10, 11]);
    let cases: [(&[u8], &[u8], usize, u32); 3] = [
        (&good, &[0, 1, 2], REPORT_LENGTH, 13),
        (&bad, &[0, 1], REPORT_LENGTH, 7 + 2 * 256),
        (&good, &[0, 1], 16, 11),
    ];
    for (file, turns, length, wanted) in cases {
        for kind in KINDS {
            let lent = memory_of(&others(kind));
            let mut memory = lent.clone();
            let mut log = vec![kind as u8 + 1; LOG_LENGTH];
            let mut report = vec![kind as u8 + 2; length];
            let mut work = vec![kind as u8 + 3; WORK_LENGTH];
            let answer = run(file, turns, &mut memory, &mut log, &mut report, &mut work);
            assert_eq!(answer, wanted);
            assert_eq!(memory, lent);
            assert!(log.iter().all(|&byte| byte == kind as u8 + 1));
            assert!(report.iter().all(|&byte| byte == kind as u8 + 2));
            assert!(work.iter().all(|&byte| byte == kind as u8 + 3));
        }
    }
}

/// Three plans in one call, the middle one refused: each keeps its own bytes.
#[test]
fn many_plans_in_one_call() {
    let stores: Row = &[(16, 0, 0x0201), (18, 0, 2_046)];
    let bad = draft(&[&[(17, 0, 2_047)]]).file();
    let files = [races().file(), bad, draft(&[stores]).file()];
    for kind in KINDS {
        let mut call = Batch::of(&mut Rng::new(7), &files);
        let raced = [&others(kind)[..], &RACED].concat();
        let lent = [raced, others(kind), others(2 - kind)];
        call.lent[0] = lent.iter().flat_map(|cells| memory_of(cells)).collect();
        assert_eq!(call.run(), 0);
        assert_eq!(call.lent[3], [0, 7, 0]);
        let left: [&[Cell]; 3] = [
            &[(300, 1), (301, 1), (303, 9), (304, 9)],
            &[],
            &[(2_046, 1), (2_047, 2)],
        ];
        let wanted = lent.iter().zip(left);
        let wanted = wanted.flat_map(|(lent, left)| memory_of(&[&lent[..], left].concat()));
        assert_eq!(call.lent[0], wanted.collect::<Vec<u8>>());
    }
}
