//! The report's sum of all words at even addresses, with values worked out by
//! hand from the paper's third request.

mod common;

use common::{end_of, front, report, run_call, sum_of, Row};
use simulator::format::{LOG_LENGTH, MEMORY_LENGTH, WORK_LENGTH};
use simulator::generate::draft::Draft;
use simulator::{check, play_rounds, play_turns, run};

/// A register that nobody sets, whose store writes zeros.
const ZERO: u8 = 3;

/// The sum after each beginning of a list of turns, the empty one first. All
/// turns move, and behind the last the plan has ended.
fn sums(draft: &Draft, turns: &[u8], start: &[(usize, u8)]) -> Vec<u32> {
    let outcomes: Vec<_> = (0..=turns.len())
        .map(|length| run_call(draft, &turns[..length], start))
        .collect();
    for (length, outcome) in outcomes.iter().enumerate() {
        assert_eq!(usize::from(outcome.moving_turns()), length);
        assert_eq!(outcome.end() != 0, length == turns.len());
    }
    assert_eq!(outcomes.last(), Some(&end_of(draft, start)));
    outcomes.iter().map(|outcome| outcome.sum()).collect()
}

/// Sums in runs: each with how often it comes on end.
fn runs(runs: &[(usize, u32)]) -> Vec<u32> {
    let each = |&(length, sum): &(usize, u32)| vec![sum; length];
    runs.iter().flat_map(each).collect()
}

fn draft(rows: &[Row]) -> Draft {
    Draft::from_rows(&[(0, 2), (1, 1)], rows)
}

/// Two workers store a word each and exit one behind the other: the sums at
/// first, behind the first exit and behind the second.
fn of_two(first: (u16, u16), second: (u16, u16), start: &[(usize, u8)]) -> [u32; 3] {
    let [one, two] = [first, second].map(|(address, word)| [(16, 0, word), (18, 0, address)]);
    let plan = draft(&[&one, &two]);
    let found = sums(&plan, &[0, 0, 1, 1, 1, 0, 0, 1], start);
    assert_eq!(found[..7], [found[0]; 7]);
    [found[6], found[7], found[8]]
}

#[test]
fn a_file_and_all_that_it_leaves() {
    let file = [
        0x4D, 0x50, 1, 0, 0, 0, 0, // one worker
        0x4D, 0x50, 0, 16, 0, 1, 2, // set r0 to 0x0201
        0x4D, 0x50, 0, 18, 0, 3, 0, // store r0 at 3
    ];
    let plan = Draft::from_rows(&[], &[&[(16, 0, 0x0201), (18, 0, 3)]]);
    assert_eq!(plan.file(), file);
    let outcome = end_of(&plan, &[(0, 10), (2_047, 3)]);
    // 10 at 0, 1 as the high byte of the word at 2, 2 as the low one of that at
    // 4, 3 as the high one of that at 2,046: 10 + 256 + 2 + 768.
    let no = 255;
    let bytes = [
        1, 1, 4, 0, 1, 0, 1, 0, 1, no, no, no, no, no, no, no, 12, 4, 0, 0,
    ];
    assert_eq!(outcome.report, bytes);
    assert_eq!(outcome.sum(), 1_036);
    assert_eq!(front(&outcome), report([1, 1], [4, 1, 1], &[1]));
}

#[test]
fn bytes_of_two_workers_in_one_word() {
    assert_eq!(of_two((0, 256), (0, 1), &[]), [0, 256, 257]);
    assert_eq!(of_two((0, 1), (0, 256), &[]), [0, 1, 257]);
    // The high byte of one word and the low byte of the next, and both again.
    assert_eq!(of_two((1, 5), (2, 7), &[]), [0, 1_280, 1_287]);
    assert_eq!(of_two((1, 0x0305), (2, 7), &[]), [0, 1_283, 1_287]);
    assert_eq!(of_two((2, 0x0907), (1, 0x0305), &[]), [0, 2_311, 3_587]);
}

#[test]
fn a_byte_over_another_commit() {
    let start = [(0, 5)];
    // The second commit moves the sum from what stands there, not from its
    // twin.
    assert_eq!(of_two((0, 7), (0, 9), &start), [5, 7, 9]);
    assert_eq!(of_two((0, 9), (0, 1), &start), [5, 9, 1]);
    // One value twice: the second commit writes it and the sum stays.
    assert_eq!(of_two((0, 7), (0, 7), &start), [5, 7, 7]);
    // A byte like its twin is not written, so the sum stays too.
    assert_eq!(of_two((0, 7), (0, 5), &start), [5, 7, 7]);
    let start = [(301, 5)];
    assert_eq!(
        of_two((301, 7), (300, 0x0900), &start),
        [1_280, 1_792, 2_304]
    );
    assert_eq!(
        of_two((301, 7), (300, 0x0700), &start),
        [1_280, 1_792, 1_792]
    );
    assert_eq!(
        of_two((301, 7), (300, 0x0500), &start),
        [1_280, 1_792, 1_792]
    );
}

#[test]
fn a_byte_that_is_as_its_twin_again() {
    // 0 commits 5, 1 locks, sees it and commits 0, then 2 commits over that 0.
    for (address, scale) in [(0, 1), (1, 256)] {
        let rows: [Row; 3] = [
            &[(16, 0, 5), (18, 0, address)],
            &[(32, 0, 0), (18, ZERO, address), (33, 0, 0)],
            &[(16, 0, 9), (18, 0, address)],
        ];
        let turns = [0, 0, 0, 1, 2, 2, 2, 0, 1, 1, 1, 2, 1, 1];
        let wanted = runs(&[(8, 0), (3, 5 * scale), (1, 0), (3, 9 * scale)]);
        assert_eq!(sums(&draft(&rows), &turns, &[]), wanted);
    }
}

#[test]
fn a_word_over_two_words() {
    let plan = draft(&[&[(16, 0, 0x0201), (18, 0, 3)]]);
    assert_eq!(sums(&plan, &[0; 4], &[]), [0, 0, 0, 0, 258]);
    assert_eq!(
        sums(&plan, &[0; 4], &[(2, 9), (3, 8), (4, 7), (5, 6)]),
        [3_600, 3_600, 3_600, 3_600, 1_803]
    );
}

#[test]
fn a_word_over_two_pages() {
    for address in [255, 511] {
        let plan = draft(&[&[(16, 0, 0x0201), (18, 0, address)]]);
        assert_eq!(sums(&plan, &[0; 4], &[]), [0, 0, 0, 0, 258]);
        let at = usize::from(address);
        let start = [(at, 9), (at + 1, 8)];
        let wanted = [2_312, 2_312, 2_312, 2_312, 258];
        assert_eq!(sums(&plan, &[0; 4], &start), wanted);
        // Two workers there: each has a byte that the other leaves alone.
        let start = [(at, 1), (at + 1, 1)];
        let found = of_two((address, 0x0102), (address, 0x0401), &start);
        assert_eq!(found, [257, 513, 516]);
    }
}

#[test]
fn the_greatest_sum() {
    let plan = draft(&[&[(18, ZERO, 2_046)]]);
    let read = check(&plan.file()).expect("an accepted plan");
    let full = [255; MEMORY_LENGTH];
    let none = play_turns(&read, &full, &[]);
    assert_eq!(none.sum(), 67_107_840);
    assert_eq!(none.report[16..], [0x00, 0xFC, 0xFF, 0x03]);
    assert_eq!(play_turns(&read, &full, &[0; 3]).sum(), 67_042_305);
    assert_eq!(play_rounds(&read, &full).sum(), 67_042_305);
    assert_eq!(sum_of(&full), 67_107_840);
}

/// Eight workers clear 128 words each: 65,535 times 128 less at each exit.
#[test]
fn from_the_greatest_sum_to_zero() {
    let row = |worker: u16| -> Vec<(u8, u8, u16)> {
        let address = |place: u16| 256 * worker + 2 * place;
        (0..128).map(|place| (18, ZERO, address(place))).collect()
    };
    let rows: Vec<Vec<(u8, u8, u16)>> = (0..8).map(row).collect();
    let rows: Vec<Row> = rows.iter().map(Vec::as_slice).collect();
    let read = check(&draft(&rows).file()).expect("an accepted plan");
    let full = [255; MEMORY_LENGTH];
    let mut turns = [0, 1, 2, 3, 4, 5, 6, 7].repeat(129);
    for left in (0..8).rev() {
        let before = play_turns(&read, &full, &turns);
        assert_eq!(before.sum(), (left + 1) * 8_388_480);
        turns.push(7 - left as u8);
    }
    let outcome = play_turns(&read, &full, &turns);
    assert_eq!((outcome.end(), outcome.sum()), (1, 0));
    assert_eq!(outcome, play_rounds(&read, &full));
}

#[test]
fn a_sum_that_falls_and_one_that_stays() {
    let start = [(0, 5), (1, 1), (4, 9)];
    let plan = draft(&[&[(18, ZERO, 0)]]);
    assert_eq!(sums(&plan, &[0; 3], &start), [270, 270, 270, 9]);
    // Two words change places.
    let swaps: Row = &[(17, 0, 0), (17, 1, 4), (18, 0, 4), (18, 1, 0)];
    let plan = draft(&[swaps]);
    assert_eq!(sums(&plan, &[0; 6], &start), [270; 7]);
    let outcome = end_of(&plan, &start);
    assert_eq!((outcome.word(0), outcome.word(4)), (9, 261));
}

/// A store of 7 at 0, in the middle of other steps.
fn with_store(before: Row, behind: Row) -> Vec<(u8, u8, u16)> {
    [before, &[(16, 0, 7), (18, 0, 0)], behind].concat()
}

/// Steps before a store and behind it, and the sums in runs.
type Case = (Row<'static>, Row<'static>, &'static [(usize, u32)]);

/// Each step that commits, alone behind a store: the sum moves with it and not
/// before.
#[test]
fn every_step_that_commits() {
    let cases: [Case; 12] = [
        (&[], &[(32, 0, 0), (33, 0, 0)], &[(4, 0), (4, 7)]),
        (&[(32, 0, 0)], &[(33, 0, 0)], &[(5, 0), (3, 7)]),
        (&[(32, 0, 0)], &[(34, 0, 0)], &[(5, 0), (1, 7)]),
        (&[], &[(35, 0, 0)], &[(4, 0), (3, 7)]),
        (&[(32, 0, 0)], &[(35, 0, 0), (33, 0, 0)], &[(5, 0), (4, 7)]),
        (&[], &[(36, 0, 0)], &[(4, 0), (3, 7)]),
        (&[(32, 0, 0)], &[(36, 0, 0), (33, 0, 0)], &[(5, 0), (4, 7)]),
        (&[], &[(37, 0, 0)], &[(4, 0), (1, 7)]),
        (&[], &[(37, 0, 1)], &[(4, 0), (3, 7)]),
        (&[], &[(38, 0, 0)], &[(4, 0), (1, 7)]),
        (&[], &[], &[(4, 0), (1, 7)]),
        (&[], &[(39, 0, 0)], &[(4, 0), (2, 7)]),
    ];
    for (before, behind, wanted) in cases {
        let plan = draft(&[&with_store(before, behind)]);
        let wanted = runs(wanted);
        let turns = vec![0; wanted.len() - 1];
        assert_eq!(sums(&plan, &turns, &[]), wanted, "{before:?}, {behind:?}");
    }
}

/// A start of a sleeper, with and without a count; the sleeper's own bytes come
/// with its exit.
#[test]
fn a_start_of_a_sleeper() {
    let stores: Row = &[(16, 0, 9), (18, 0, 2)];
    let plan = draft(&[&with_store(&[], &[(39, 0, 1)]), stores]).asleep(&[1]);
    let turns = [0, 0, 0, 0, 0, 1, 1, 1, 1];
    let wanted = runs(&[(4, 0), (5, 7), (1, 16)]);
    assert_eq!(sums(&plan, &turns, &[]), wanted);
    let own = with_store(&[(32, 0, 0)], &[(39, 0, 1), (18, 0, 4), (33, 0, 0)]);
    let plan = draft(&[&own, stores]).asleep(&[1]);
    // The sleeper stands before the caller in the list of round 2.
    let turns = [0, 0, 0, 0, 0, 0, 0, 1, 1, 0, 1, 1, 0];
    let wanted = runs(&[(5, 0), (2, 7), (5, 14), (2, 23)]);
    assert_eq!(sums(&plan, &turns, &[]), wanted);
}

/// A second lock and an unlock that leaves a count do not commit.
#[test]
fn inside_of_two_locks() {
    let own = with_store(
        &[(32, 0, 0)],
        &[(32, 0, 1), (33, 0, 1), (18, 0, 2), (33, 0, 0)],
    );
    let wanted = runs(&[(8, 0), (3, 14)]);
    assert_eq!(sums(&draft(&[&own]), &[0; 10], &[]), wanted);
}

#[test]
fn lost_bytes_do_not_show() {
    let fails: [(Row, Row); 5] = [
        (&[], &[(33, 0, 0)]),
        (&[], &[(34, 0, 0)]),
        (&[(32, 0, 0)], &[(37, 0, 1)]),
        (&[(32, 0, 0)], &[(38, 0, 0)]),
        (&[(32, 0, 0)], &[]),
    ];
    for (before, behind) in fails {
        let plan = draft(&[&with_store(before, behind)]);
        let turns = vec![0; before.len() + 4];
        let start = [(0, 1), (1, 2)];
        assert_eq!(sums(&plan, &turns, &start), vec![513; turns.len() + 1]);
        assert_eq!(end_of(&plan, &start).report[8], 2);
    }
    // What was committed before stays in the sum.
    let own = with_store(&[], &[(32, 0, 0), (18, 0, 2), (38, 0, 0)]);
    let wanted = runs(&[(4, 0), (3, 7)]);
    assert_eq!(sums(&draft(&[&own]), &[0; 6], &[]), wanted);
}

/// The one that waits has committed; when woken it adds to what the other one
/// has committed meanwhile.
#[test]
fn a_run_that_goes_on() {
    let waits: Row = &[
        (32, 0, 0),
        (16, 0, 3),
        (18, 0, 0),
        (34, 0, 0),
        (17, 0, 0),
        (19, 0, 0),
        (18, 0, 0),
        (33, 0, 0),
    ];
    let wakes: Row = &[(16, 0, 256), (18, 0, 0), (35, 0, 0)];
    let plan = draft(&[waits, wakes]);
    let turns = [0, 1, 1, 1, 0, 0, 0, 0, 1, 0, 0, 0, 0, 1, 0, 1, 0];
    // 3, then 3 + 256 and the double of it.
    let wanted = runs(&[(8, 0), (1, 3), (4, 259), (5, 518)]);
    assert_eq!(sums(&plan, &turns, &[]), wanted);
    let going = run_call(&plan, &turns[..9], &[]);
    assert_eq!(front(&going), report([0, 2], [9, 0, 3], &[0, 0]));
    assert_eq!(going.report[16..], [3, 1, 0, 0]);
    // Turns that pass leave the sum, and so do turns behind the end.
    let passing = run_call(&plan, &[0, 0, 1, 1, 1, 1, 0, 0, 0, 1, 1, 0, 0], &[]);
    assert_eq!((passing.end(), passing.sum()), (0, 3));
    let over = run_call(&plan, &[0, 1].repeat(60), &[]);
    assert_eq!((over.end(), over.sum()), (1, 518));
}

#[test]
fn a_report_has_twenty_bytes() {
    let file = draft(&[&[(16, 0, 7), (18, 0, 0)]]).file();
    for length in [0, 8, 15, 16, 17, 18, 19, 20, 21, 24, 32, 40] {
        let mut memory = vec![1; MEMORY_LENGTH];
        let mut log = vec![2; LOG_LENGTH];
        let mut lent = vec![3; length];
        let mut work = vec![4; WORK_LENGTH];
        let answer = run(&file, &[0; 4], &mut memory, &mut log, &mut lent, &mut work);
        assert_eq!(answer, if length == 20 { 0 } else { 11 });
        assert_eq!(lent.iter().all(|&byte| byte == 3), length != 20);
        assert_eq!(work.iter().all(|&byte| byte == 4), length != 20);
    }
}
