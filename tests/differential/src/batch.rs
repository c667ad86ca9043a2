//! One call of several plans, made on an engine and on the simulator, and what
//! differed.

use simulator::batch::{run_separately, total, UNITS};
use simulator::format::LENGTH_BYTES;
use simulator::generate::Batch;

use crate::call::{answer_differs, Difference, Guarded};
use crate::engine::{Engine, Told};

pub const NAMES: [&str; 7] = [
    "memories", "logs", "reports", "answers", "work", "files", "lengths",
];

/// Count of buffers of a call.
pub const BUFFERS: usize = NAMES.len();

/// The place of the files among the buffers.
const FILES: usize = 5;

/// What the simulator says of a call, and what it leaves.
pub struct BatchVerdict {
    pub answer: u32,
    pub after: Batch,
}

/// Runs a call on the simulator.
pub fn expected(batch: &Batch) -> BatchVerdict {
    let mut after = batch.clone();
    let answer = after.run();
    BatchVerdict { answer, after }
}

/// All buffers of a call, in the order of their names.
fn contents(batch: &Batch) -> [&[u8]; BUFFERS] {
    let [memories, logs, reports, answers, work] = &batch.lent;
    [
        memories,
        logs,
        reports,
        answers,
        work,
        &batch.files,
        &batch.lengths,
    ]
}

/// Whether buffers and lengths fit the count, but work perhaps.
pub fn fits(batch: &Batch) -> bool {
    let right =
        |which: usize| batch.count.checked_mul(UNITS[which]) == Some(batch.lent[which].len());
    batch.count.checked_mul(LENGTH_BYTES) == Some(batch.lengths.len())
        && (0..UNITS.len()).all(right)
        && total(&batch.lengths) == batch.files.len() as u64
}

/// Makes a call on an engine with lengths told as `tell` changes them: its
/// answer, and all buffers behind it.
pub fn make_told(
    engine: &Engine,
    batch: &Batch,
    shift: usize,
    tell: impl Fn(&mut [Told; BUFFERS]),
) -> (u32, [Guarded; BUFFERS]) {
    let mut all = contents(batch).map(|content| Guarded::new(content, shift));
    let mut told = all.each_mut().map(|buffer| buffer.told());
    tell(&mut told);
    let [memories, logs, reports, answers, work, files, lengths] = told;
    let lent = [memories, logs, reports, answers, work];
    let answer = engine.run_all(batch.count, files, lengths, lent);
    (answer, all)
}

/// Makes such a call and compares its answer and every byte.
fn compare_told(
    engine: &Engine,
    batch: &Batch,
    shift: usize,
    verdict: &BatchVerdict,
    tell: impl Fn(&mut [Told; BUFFERS]),
) -> Option<Difference> {
    let (got, all) = make_told(engine, batch, shift, tell);
    let mut difference = answer_differs(verdict.answer, got);
    let wanted = contents(&verdict.after);
    for (name, (buffer, content)) in NAMES.into_iter().zip(all.iter().zip(wanted)) {
        difference = difference.or_else(|| buffer.differs(name, content));
    }
    difference
}

/// Runs a call on both and compares the answers and every byte.
pub fn compare_batch(
    engine: &Engine,
    batch: &Batch,
    shift: usize,
) -> (BatchVerdict, Option<Difference>) {
    let verdict = expected(batch);
    let difference = compare_told(engine, batch, shift, &verdict, |_| ());
    (verdict, difference)
}

/// Compares what the simulator leaves of an accepted call with what one
/// separate call a plan leaves.
pub fn compare_separate(batch: &Batch, verdict: &BatchVerdict) -> Option<Difference> {
    let mut apart = batch.clone();
    let lent = apart.lent.each_mut().map(Vec::as_mut_slice);
    run_separately(&batch.files, &batch.lengths, lent);
    let mut buffers = NAMES.iter().zip(apart.lent.iter().zip(&verdict.after.lent));
    buffers.find_map(|(name, (apart, all))| Guarded::new(all, 0).differs(name, apart))
}

/// Runs a call with the length of one buffer told 4 GiB too long. The refusal
/// must come before any byte is read, and no byte may change.
pub fn compare_vast(engine: &Engine, batch: &Batch, which: usize) -> Option<Difference> {
    let answer = if NAMES[which] == "work" { 11 } else { 15 };
    let verdict = BatchVerdict {
        answer,
        after: batch.clone(),
    };
    let longer = |told: &mut [Told; BUFFERS]| told[which].length += 1 << 32;
    compare_told(engine, batch, 0, &verdict, longer)
}

/// Runs a call whose count times each unit is modulo 2^64 the length of a
/// buffer; that of the answers, whose unit is 1, is told as the count.
pub fn compare_wrapped(engine: &Engine, batch: &Batch) -> Option<Difference> {
    let verdict = expected(batch);
    let as_counted = |told: &mut [Told; BUFFERS]| told[3].length = batch.count;
    compare_told(engine, batch, 0, &verdict, as_counted)
}

/// Runs a call of a file and of others of no bytes, which are told to be so
/// long. Each of these is 1 before a byte of it is read, so that the lengths
/// may add up above 32 bits.
pub fn compare_far(engine: &Engine, batch: &Batch, others: &[u32]) -> Option<Difference> {
    let mut verdict = expected(batch);
    let mut far = batch.clone();
    for (place, &length) in others.iter().enumerate() {
        far.set_length(place + 1, length);
    }
    verdict.after.lengths.clone_from(&far.lengths);
    let more: usize = others.iter().map(|&length| length as usize).sum();
    let longer = |told: &mut [Told; BUFFERS]| told[FILES].length += more;
    compare_told(engine, &far, 0, &verdict, longer)
}
