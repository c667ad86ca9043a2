//! Refusals whose record index needs two bytes, up to the last record of the
//! longest file.

use simulator::format::{file_of, Record, MOST_STEPS};
use simulator::generate::draft::step;
use simulator::Step;

use super::{draft, played, Limit};

const INDICES: [usize; 4] = [255, 256, 257, 1_039];

pub fn all() -> Vec<Limit> {
    let mut files: Vec<Vec<u8>> = INDICES.into_iter().flat_map(single_faults).collect();
    files.extend(INDICES.map(step_129));
    files.extend([255, 256, 257, 1_038].into_iter().flat_map(bare_barriers));
    files.extend((0..8).map(step_129_of));
    files.extend((0..8).map(bare_barrier));
    files.extend((1..8).map(falling_barriers));
    files.extend((1..=8).map(start_of_nobody));
    files.extend((1..=8).flat_map(wrong_sleepers));
    files.extend(wrong_lengths());
    let refused = |file| Limit::new("a refused file", file, vec![0]);
    let mut all: Vec<Limit> = files.into_iter().map(refused).collect();
    all.extend(played("the longest file", &longest(8)));
    all
}

/// Eight workers with 128 steps, of which seven sleep, and so many barriers.
pub fn longest(barriers: u8) -> simulator::generate::Draft {
    let sizes: Vec<(u8, u16)> = (0..barriers).map(|barrier| (barrier, 8)).collect();
    let own: Vec<Step> = vec![step(16, 3, 65_535); MOST_STEPS];
    draft(&sizes, vec![own; 8]).asleep(&[1, 2, 3, 4, 5, 6, 7])
}

fn with(index: usize, change: impl Fn(&mut Record)) -> Vec<u8> {
    let mut records = longest(8).records();
    change(&mut records[index]);
    file_of(&records)
}

/// The longest file with each refusal but 8 and 9 at a record.
fn single_faults(index: usize) -> Vec<Vec<u8>> {
    vec![
        with(index, |record| record.mark[0] = 0x4C),
        with(index, |record| record.mark[1] = 0x4C),
        with(index, |record| record.op = 0),
        with(index, |record| record.op = 1),
        with(index, |record| record.op = 2),
        with(index, |record| record.op = 40),
        with(index, |record| record.worker = 8),
        with(index, |record| record.worker -= 1),
        with(index, |record| record.register = 4),
        with(index, |record| (record.op, record.number) = (18, 2_047)),
        with(index, |record| (record.op, record.number) = (21, 127)),
        with(index, |record| (record.op, record.number) = (22, 127)),
    ]
}

/// Full workers, one that is full but for the rest, and then one whose 129th
/// step stands at the index, the last record of the file.
fn step_129(index: usize) -> Vec<u8> {
    let before = index - 8 - 7 - 129;
    let mut plan = longest(8);
    let (full, rest) = (before / MOST_STEPS, before % MOST_STEPS);
    plan.steps[full].truncate(rest);
    plan.steps[full + 1].push(step(32, 0, 0));
    let mut records = plan.records();
    records.truncate(index + 1);
    file_of(&records)
}

/// A barrier without a size, with and without further records behind it.
fn bare_barriers(index: usize) -> [Vec<u8>; 2] {
    let mut records = longest(7).records();
    (records[index].op, records[index].register) = (37, 0);
    records[index].number = 7;
    let cut = file_of(&records[..=index]);
    records.push(Record::new(7, 16, 0, 0));
    [cut, file_of(&records)]
}

/// A 129th step of one of eight workers, the others having one.
fn step_129_of(worker: usize) -> Vec<u8> {
    let mut steps = vec![vec![step(16, 0, 0)]; 8];
    steps[worker] = vec![step(16, 0, 0); MOST_STEPS + 1];
    draft(&[], steps).file()
}

/// The only barrier without a size is met.
fn bare_barrier(barrier: u16) -> Vec<u8> {
    let others = (0..8).filter(|&each| u16::from(each) != barrier);
    let sizes: Vec<(u8, u16)> = others.map(|each| (each, 1)).collect();
    draft(&sizes, vec![vec![step(37, 0, barrier)]]).file()
}

/// Files whose length is just no multiple of seven, or just too long, and one
/// whose length would do in its low 16 bits.
fn wrong_lengths() -> Vec<Vec<u8>> {
    let mut longer = longest(8).file();
    longer.extend_from_within(7_273..);
    let short = [0, 6, 8].map(|length| longer[..length].to_vec());
    let long = [7_279, 7_281, 7_287].map(|length| longer[..length].to_vec());
    longer.resize(65_536 + 7, 0);
    [&short[..], &long, &[longer]].concat()
}

/// A barrier behind the one above it.
fn falling_barriers(barrier: u8) -> Vec<u8> {
    draft(&[(barrier, 1), (barrier - 1, 1)], vec![vec![]]).file()
}

/// A start of the worker n, n being so, behind one of the last worker.
fn start_of_nobody(workers: u16) -> Vec<u8> {
    let mut steps = vec![Vec::new(); usize::from(workers)];
    steps[0] = vec![step(39, 0, workers - 1), step(39, 0, workers)];
    draft(&[], steps).file()
}

/// Sleep records of a plan with so many workers: the first worker's, one of
/// the worker n, the last worker's twice and in front of the one below it,
/// with a register, with a number in either byte, and behind a step.
fn wrong_sleepers(workers: u8) -> Vec<Vec<u8>> {
    let plan = Record::new(workers, 0, 0, 0);
    let sleeps = |worker: u8| Record::new(worker, 2, 0, 0);
    let last = workers - 1;
    let below = sleeps(last.saturating_sub(1));
    let numbered = |register, number| Record::new(last, 2, register, number);
    let step = Record::new(0, 38, 0, 0);
    [
        vec![plan, sleeps(0)],
        vec![plan, sleeps(workers)],
        vec![plan, sleeps(last), sleeps(last)],
        vec![plan, sleeps(last), below],
        vec![plan, numbered(1, 0)],
        vec![plan, numbered(0, 1)],
        vec![plan, numbered(0, 256)],
        vec![plan, step, sleeps(last)],
        vec![plan, sleeps(last), Record::new(0, 1, 0, 1)],
    ]
    .map(|records| file_of(&records))
    .into()
}
