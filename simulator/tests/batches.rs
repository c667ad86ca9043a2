//! Several plans in one call, with bytes worked out by hand from the paper's
//! fourth request.

use simulator::batch::{run_separately, UNITS};
use simulator::format::{LOG_LENGTH, MEMORY_LENGTH, REPORT_LENGTH, WORK_LENGTH};
use simulator::generate::draft::{step, Draft};
use simulator::generate::{Batch, BatchKind, Batches, Rng};

/// Old contents of logs, reports, answers and work.
const OLD: [u8; 4] = [0xAA, 0xBB, 0xCC, 0xDD];

/// The fate of a worker that is not there.
const NO: u8 = 255;

/// One worker stores 0x0201 at 3.
const STORES: [u8; 21] = [
    0x4D, 0x50, 1, 0, 0, 0, 0, //
    0x4D, 0x50, 0, 16, 0, 1, 2, // set r0 to 0x0201
    0x4D, 0x50, 0, 18, 0, 3, 0, // store r0 at 3
];

/// One worker locks and waits.
const WAITS: [u8; 21] = [
    0x4D, 0x50, 1, 0, 0, 0, 0, //
    0x4D, 0x50, 0, 32, 0, 0, 0, // lock 0
    0x4D, 0x50, 0, 34, 0, 0, 0, // wait 0
];

/// One worker stores and fails.
const FAILS: [u8; 21] = [
    0x4D, 0x50, 1, 0, 0, 0, 0, //
    0x4D, 0x50, 0, 18, 0, 3, 0, // store r0 at 3
    0x4D, 0x50, 0, 33, 0, 0, 0, // unlock 0
];

/// The same as the first, but that its address is too high: 7 at record 2.
const TOO_HIGH: [u8; 21] = [
    0x4D, 0x50, 1, 0, 0, 0, 0, //
    0x4D, 0x50, 0, 16, 0, 1, 2, //
    0x4D, 0x50, 0, 18, 0, 255, 7, // store r0 at 2,047
];

/// A call of these files. All of the first memory is 1, of the next 2, and so on.
fn batch(files: &[&[u8]]) -> Batch {
    let files: Vec<Vec<u8>> = files.iter().map(|file| file.to_vec()).collect();
    let mut batch = Batch::of(&mut Rng::new(40), &files);
    for (place, memory) in batch.lent[0].chunks_mut(MEMORY_LENGTH).enumerate() {
        memory.fill(place as u8 + 1);
    }
    for (buffer, old) in batch.lent[1..].iter_mut().zip(OLD) {
        buffer.fill(old);
    }
    batch
}

/// What a call leaves: memories, logs and reports plan by plan, and answers.
struct Left {
    memories: Vec<Vec<u8>>,
    logs: Vec<Vec<u8>>,
    reports: Vec<Vec<u8>>,
    answers: Vec<u8>,
}

/// Runs a call that is not refused; work must be all zero, or as lent if no
/// plan was accepted.
fn left(mut batch: Batch) -> Left {
    assert_eq!(batch.run(), 0);
    let parts = |which: usize| {
        let all = batch.lent[which].chunks(UNITS[which]);
        all.map(<[u8]>::to_vec).collect()
    };
    let answers = batch.lent[3].clone();
    let work = if answers.contains(&0) { 0 } else { OLD[3] };
    assert_eq!(batch.lent[4], [work; WORK_LENGTH]);
    Left {
        memories: parts(0),
        logs: parts(1),
        reports: parts(2),
        answers,
    }
}

impl Left {
    /// The parts of this plan are as lent.
    fn untouched(&self, place: usize) {
        assert_eq!(self.memories[place], [place as u8 + 1; MEMORY_LENGTH]);
        assert_eq!(self.logs[place], [OLD[0]; LOG_LENGTH]);
        assert_eq!(self.reports[place], [OLD[1]; REPORT_LENGTH]);
    }

    /// The parts of this plan are what `STORES` leaves.
    fn stored(&self, place: usize) {
        let old = place as u8 + 1;
        let mut memory = [old; MEMORY_LENGTH];
        (memory[3], memory[4]) = (1, 2);
        assert_eq!(self.memories[place], memory);
        // 257 x old in each of 1,024 words, but 1 in the place of a high byte
        // and 2 in that of a low one.
        let old = u32::from(old);
        let sum = 1_024 * 257 * old + 256 - 256 * old + 2 - old;
        self.report(place, &[1, 1, 4, 0, 1, 0, 1, 0, 1], sum);
        self.log(place, &[[0x4D, 0x4C, 1, 0, 0, 38, 0, 255]]);
    }

    /// The report of a plan of one worker.
    fn report(&self, place: usize, front: &[u8; 9], sum: u32) {
        let fates = [NO; 7];
        let bytes = [&front[..], &fates, &sum.to_le_bytes()].concat();
        assert_eq!(self.reports[place], bytes);
    }

    fn log(&self, place: usize, records: &[[u8; 8]]) {
        let mut bytes = records.concat();
        bytes.resize(LOG_LENGTH, 0);
        assert_eq!(self.logs[place], bytes);
    }
}

/// The answer of a call that is refused and changes no byte.
fn refused(batch: &Batch) -> u32 {
    let mut after = batch.clone();
    let answer = after.run();
    assert!(answer != 0 && after == *batch, "answer {answer}");
    answer
}

#[test]
fn one_plan() {
    let left = left(batch(&[&STORES]));
    assert_eq!(left.answers, [0]);
    left.stored(0);
}

#[test]
fn two_plans_on_memories_of_their_own() {
    let left = left(batch(&[&STORES, &STORES]));
    assert_eq!(left.answers, [0, 0]);
    left.stored(0);
    left.stored(1);
}

#[test]
fn a_refused_plan_between_accepted_ones() {
    let left = left(batch(&[&STORES, &TOO_HIGH, &STORES]));
    // 7 without its record index, which is 2.
    assert_eq!(left.answers, [0, 7, 0]);
    left.stored(0);
    left.untouched(1);
    left.stored(2);
}

#[test]
fn a_refused_plan_first_and_last() {
    let first = left(batch(&[&TOO_HIGH, &STORES]));
    assert_eq!(first.answers, [7, 0]);
    first.untouched(0);
    first.stored(1);
    let last = left(batch(&[&STORES, &TOO_HIGH]));
    assert_eq!(last.answers, [0, 7]);
    last.stored(0);
    last.untouched(1);
}

#[test]
fn all_refused() {
    let mut unmarked = STORES;
    unmarked[8] = 0x4C;
    let left = left(batch(&[&TOO_HIGH, &unmarked, &STORES[7..], &STORES[..20]]));
    assert_eq!(left.answers, [7, 2, 3, 1]);
    (0..4).for_each(|place| left.untouched(place));
}

#[test]
fn finished_stuck_and_failed() {
    let left = left(batch(&[&WAITS, &STORES, &FAILS]));
    assert_eq!(left.answers, [0, 0, 0]);
    assert_eq!(left.memories[0], [1; MEMORY_LENGTH]);
    left.report(0, &[2, 1, 3, 0, 1, 0, 2, 0, 3], 1_024 * 257);
    let lock = [0x4D, 0x4C, 1, 0, 0, 32, 0, 1];
    let wait = [0x4D, 0x4C, 1, 0, 0, 34, 0, 255];
    left.log(0, &[lock, wait]);
    left.stored(1);
    assert_eq!(left.memories[2], [3; MEMORY_LENGTH]);
    left.report(2, &[1, 1, 3, 0, 1, 0, 1, 0, 2], 3 * 1_024 * 257);
    left.log(2, &[[0x4D, 0x4C, 1, 0, 0, 33, 0, 254]]);
}

#[test]
fn files_of_no_bytes() {
    let among = left(batch(&[&[], &STORES, &[], &STORES]));
    assert_eq!(among.answers, [1, 0, 1, 0]);
    among.untouched(0);
    among.stored(1);
    among.untouched(2);
    among.stored(3);
    // The lengths of no bytes add up to no bytes.
    let alone = left(batch(&[&[], &[]]));
    assert_eq!(alone.answers, [1, 1]);
    alone.untouched(0);
    alone.untouched(1);
}

#[test]
fn files_of_the_greatest_length_and_above() {
    let draft = Draft::new(
        &[0, 1, 2, 3, 4, 5, 6, 7].map(|barrier| (barrier, 1)),
        vec![vec![step(16, 0, 0); 128]; 8],
    );
    let longest = draft.asleep(&[1, 2, 3, 4, 5, 6, 7]).file();
    assert_eq!(longest.len(), 7_280);
    let longer = [&longest[..], &longest[7_273..]].concat();
    let left = left(batch(&[&longest, &longer, &longest[..7_279], &STORES]));
    assert_eq!(left.answers, [0, 1, 1, 0]);
    // One worker, the others sleep: 128 steps, an arrival and the end.
    assert_eq!(left.reports[0][..9], [1, 8, 130, 0, 1, 0, 1, 0, 1]);
    assert_eq!(left.reports[0][9..16], [5; 7]);
    left.untouched(1);
    left.untouched(2);
    left.stored(3);
}

#[test]
fn lengths_are_low_byte_first() {
    // A worker with 36 steps: 259 bytes.
    let long = Draft::new(&[], vec![vec![step(16, 0, 0); 36]]).file();
    let mut both = batch(&[&long, &STORES]);
    assert_eq!(both.lengths, [3, 1, 0, 0, 21, 0, 0, 0]);
    let left = left(both.clone());
    assert_eq!(left.answers, [0, 0]);
    left.report(0, &[1, 1, 38, 0, 1, 0, 1, 0, 1], 1_024 * 257);
    left.stored(1);
    both.lengths = vec![0, 0, 1, 3, 0, 0, 0, 21];
    assert_eq!(refused(&both), 15);
}

#[test]
fn lengths_that_cut_elsewhere() {
    // A record goes from the first file to the second, which begins with a
    // step then; the first has none but its set.
    let mut moved = batch(&[&STORES, &STORES]);
    moved.move_length(1, 0, 7);
    let cut = left(moved);
    assert_eq!(cut.answers, [0, 3]);
    assert_eq!(cut.memories[0], [1; MEMORY_LENGTH]);
    cut.report(0, &[1, 1, 3, 0, 1, 0, 1, 0, 1], 1_024 * 257);
    cut.untouched(1);
    // All of the first: a plan record behind the first is 3.
    let mut moved = batch(&[&STORES, &STORES]);
    moved.move_length(1, 0, 21);
    let whole = left(moved);
    assert_eq!(whole.answers, [1, 3]);
    // One byte: no multiple of 7.
    let mut moved = batch(&[&STORES, &STORES, &STORES]);
    moved.move_length(0, 1, 1);
    let byte = left(moved);
    assert_eq!(byte.answers, [1, 1, 0]);
    byte.stored(2);
}

#[test]
fn counts_of_1_to_40() {
    let files = vec![&STORES[..]; 40];
    let all = left(batch(&files));
    assert_eq!(all.answers, [0; 40]);
    (0..40).for_each(|place| all.stored(place));
    assert_eq!(refused(&batch(&[])), 15);
    assert_eq!(refused(&batch(&vec![&STORES[..]; 41])), 15);
    // Buffers for another count, or for a count's low bits.
    let two = batch(&[&STORES, &STORES]);
    let far = [1 << 8, 1 << 16, 1 << 32, 1 << 62, 1 << 63].map(|high: usize| 2 + high);
    for count in [&[0, 1, 3, 41, usize::MAX][..], &far].concat() {
        let mut wrong = two.clone();
        wrong.count = count;
        assert_eq!(refused(&wrong), 15, "count {count}");
    }
}

/// Each buffer but work and the files: its length, and a call with another.
fn with_buffer(which: usize, change: impl Fn(usize, usize) -> usize) -> Batch {
    let mut batch = batch(&[&STORES, &STORES, &[]]);
    let (buffer, unit) = match which {
        4 => (&mut batch.lengths, 4),
        _ => (&mut batch.lent[which], UNITS[which]),
    };
    buffer.resize(change(buffer.len(), unit), 0);
    batch
}

#[test]
fn buffers_that_are_not_count_times_their_unit() {
    for which in 0..5 {
        assert_eq!(with_buffer(which, |right, _| right).run(), 0);
        assert_eq!(refused(&with_buffer(which, |_, _| 0)), 15);
        assert_eq!(refused(&with_buffer(which, |right, _| right - 1)), 15);
        assert_eq!(refused(&with_buffer(which, |right, _| right + 1)), 15);
        // The last file has no bytes, so the lengths still add up.
        assert_eq!(refused(&with_buffer(which, |right, unit| right - unit)), 15);
        assert_eq!(refused(&with_buffer(which, |right, unit| right + unit)), 15);
        assert_eq!(refused(&with_buffer(which, |_, unit| unit)), 15);
        assert_eq!(refused(&with_buffer(which, |right, _| 2 * right)), 15);
    }
}

#[test]
fn lengths_that_do_not_add_up() {
    let two = batch(&[&STORES, &STORES]);
    for (first, second) in [(20, 21), (22, 21), (21, 20), (21, 22), (0, 0), (0, 21)] {
        let mut wrong = two.clone();
        wrong.set_length(0, first);
        wrong.set_length(1, second);
        assert_eq!(refused(&wrong), 15, "{first} and {second}");
    }
    for bytes in [0, 21, 41, 43, 63] {
        let mut wrong = two.clone();
        wrong.files.resize(bytes, 0);
        assert_eq!(refused(&wrong), 15, "{bytes} bytes");
    }
}

#[test]
fn lengths_that_add_up_only_modulo_2_to_the_32() {
    let lengths = [
        [21, u32::MAX - 6, 28],
        [u32::MAX, 21, 22],
        [1 << 31, (1 << 31) + 21, 21],
        [u32::MAX - 20, 42, 21],
    ];
    for [first, second, third] in lengths {
        let mut wrong = batch(&[&STORES, &STORES, &[]]);
        for (place, length) in [first, second, third].into_iter().enumerate() {
            wrong.set_length(place, length);
        }
        let sum = first.wrapping_add(second).wrapping_add(third);
        assert_eq!(sum, 42);
        assert_eq!(refused(&wrong), 15);
    }
}

#[test]
fn work_is_tested_first() {
    let wrong_work = |mut batch: Batch| {
        let answers = [0, 4, WORK_LENGTH - 1, WORK_LENGTH + 1, 2 * WORK_LENGTH].map(|length| {
            batch.lent[4].resize(length, 7);
            refused(&batch)
        });
        assert_eq!(answers, [11; 5]);
    };
    wrong_work(batch(&[&STORES, &TOO_HIGH]));
    wrong_work(batch(&[]));
    wrong_work(batch(&vec![&STORES[..]; 41]));
    (0..5).for_each(|which| wrong_work(with_buffer(which, |right, _| right - 1)));
    let mut sum = batch(&[&STORES]);
    sum.files.push(0);
    wrong_work(sum);
}

/// Random calls: an accepted one leaves what separate calls leave, a refused
/// one leaves all as it was, and every kind and answer comes up.
#[test]
fn calls_leave_what_separate_calls_leave() {
    let source = Batches::new();
    let mut met = std::collections::BTreeSet::new();
    for seed in 0..400 {
        let (kind, before) = source.of(seed);
        let mut after = before.clone();
        let answer = after.run();
        match kind {
            BatchKind::Whole | BatchKind::Moved => assert_eq!(answer, 0),
            BatchKind::Work => assert_eq!(answer, 11),
            _ => assert_eq!(answer, 15),
        }
        let mut apart = before.clone();
        if answer == 0 {
            let lent = apart.lent.each_mut().map(Vec::as_mut_slice);
            run_separately(&apart.files, &apart.lengths, lent);
            met.extend(&after.lent[3]);
        }
        assert!(after == apart, "seed {seed}, {kind:?}");
    }
    assert_eq!(met, (0..=10).chain([14]).collect());
}
