//! Calls that run several plans: accepted and refused ones side by side, and
//! calls that are refused as a whole.

use crate::batch::{run_all, UNITS};
use crate::format::{LENGTH_BYTES, MOST_PLANS, RECORD_LENGTH, WORK_LENGTH};
use crate::generate::buffers::{memory, noise};
use crate::generate::damage::{damaged_files, fuzzed, single_fault, Damaged};
use crate::generate::plans::{plan, PlanKind};
use crate::generate::rng::Rng;
use crate::generate::Draft;

/// All that is lent to one call, with old contents in every buffer.
#[derive(Clone, Debug, PartialEq, Eq)]
pub struct Batch {
    pub count: usize,
    pub files: Vec<u8>,
    pub lengths: Vec<u8>,
    /// Memories, logs, reports, answers and work.
    pub lent: [Vec<u8>; 5],
}

/// The lengths of files as they are lent.
pub fn lengths_of(files: &[Vec<u8>]) -> Vec<u8> {
    let four = |file: &Vec<u8>| (file.len() as u32).to_le_bytes();
    files.iter().flat_map(four).collect()
}

impl Batch {
    /// A call of these files, each buffer being of its right length.
    pub fn of(rng: &mut Rng, files: &[Vec<u8>]) -> Self {
        let count = files.len();
        let memories = (0..count).flat_map(|_| memory(rng)).collect();
        let [logs, reports, answers] = [1, 2, 3].map(|which| noise(rng, count * UNITS[which]));
        Batch {
            count,
            files: files.concat(),
            lengths: lengths_of(files),
            lent: [memories, logs, reports, answers, noise(rng, WORK_LENGTH)],
        }
    }

    /// Runs the call on its own buffers and gives its answer.
    pub fn run(&mut self) -> u32 {
        let lent = self.lent.each_mut().map(Vec::as_mut_slice);
        run_all(self.count, &self.files, &self.lengths, lent)
    }

    /// The length of a file, as it is lent.
    pub fn length(&self, place: usize) -> u32 {
        let four = &self.lengths[place * LENGTH_BYTES..][..LENGTH_BYTES];
        u32::from_le_bytes([four[0], four[1], four[2], four[3]])
    }

    /// Lends another length of a file.
    pub fn set_length(&mut self, place: usize, length: u32) {
        let four = &mut self.lengths[place * LENGTH_BYTES..][..LENGTH_BYTES];
        four.copy_from_slice(&length.to_le_bytes());
    }

    /// Adds so much to the length of one file and takes it from another, both
    /// modulo 2^32.
    pub fn move_length(&mut self, to: usize, from: usize, bytes: u32) {
        self.set_length(to, self.length(to).wrapping_add(bytes));
        self.set_length(from, self.length(from).wrapping_sub(bytes));
    }
}

/// What a random call is about.
#[derive(Clone, Copy, Debug, PartialEq, Eq)]
pub enum BatchKind {
    /// The files are cut where they end.
    Whole,
    /// The lengths add up, but two files are cut elsewhere.
    Moved,
    /// A count outside 1 to 40.
    Count,
    /// Lengths that do not add up.
    Sum,
    /// A buffer that is not count times its unit.
    Buffer,
    /// A wrong length of work, at times with something else wrong as well.
    Work,
}

impl BatchKind {
    /// Every kind.
    pub const ALL: [BatchKind; 6] = [
        BatchKind::Whole,
        BatchKind::Moved,
        BatchKind::Count,
        BatchKind::Sum,
        BatchKind::Buffer,
        BatchKind::Work,
    ];

    /// The kinds of calls that are 15.
    const WRONG: [BatchKind; 3] = [BatchKind::Count, BatchKind::Sum, BatchKind::Buffer];
}

/// Which plans of a call are refused.
#[derive(Clone, Copy)]
enum Refused {
    None,
    All,
    First,
    Last,
    Some,
}

impl Refused {
    fn at(self, rng: &mut Rng, place: usize, count: usize) -> bool {
        match self {
            Refused::None => false,
            Refused::All => true,
            Refused::First => place == 0,
            Refused::Last => place + 1 == count,
            Refused::Some => rng.chance(1, 3),
        }
    }
}

/// A source of calls; each is settled by its seed alone.
pub struct Batches {
    damaged: Vec<Damaged>,
}

impl Default for Batches {
    fn default() -> Self {
        Self::new()
    }
}

impl Batches {
    /// The source, with its damaged files made once.
    pub fn new() -> Self {
        let mut damaged = damaged_files(&mut Rng::new(0), 0);
        damaged.retain(|each| matches!(each.expected, Some(Err(_))));
        Batches { damaged }
    }

    /// The call of a seed. Two of three are accepted.
    pub fn of(&self, seed: u64) -> (BatchKind, Batch) {
        let mut rng = Rng::new(seed);
        let kind = match rng.below(16) {
            0..9 => BatchKind::Whole,
            9 | 10 => BatchKind::Moved,
            11 => BatchKind::Count,
            12 | 13 => BatchKind::Sum,
            14 => BatchKind::Buffer,
            _ => BatchKind::Work,
        };
        let files = self.files(&mut rng);
        let mut batch = Batch::of(&mut rng, &files);
        damage(&mut rng, kind, &mut batch);
        (kind, batch)
    }

    fn files(&self, rng: &mut Rng) -> Vec<Vec<u8>> {
        let count = count(rng);
        let refused = rng.pick(&[
            Refused::None,
            Refused::All,
            Refused::First,
            Refused::Last,
            Refused::Some,
            Refused::Some,
        ]);
        let mut files: Vec<Vec<u8>> = Vec::new();
        for place in 0..count {
            let file = match refused.at(rng, place, count) {
                true => self.refused_file(rng),
                // The same plan once more, on a memory of its own.
                false if place > 0 && rng.chance(1, 8) => files[place - 1].clone(),
                false => draft(rng, count).file(),
            };
            files.push(file);
        }
        files
    }

    /// A file that is refused; one with changed bytes may be accepted.
    fn refused_file(&self, rng: &mut Rng) -> Vec<u8> {
        let draft = small(rng);
        match rng.below(8) {
            0 => Vec::new(),
            1 => draft.file()[1..].to_vec(),
            2 => fuzzed(rng, &draft).file,
            3 | 4 => single_fault(rng, &draft).file,
            _ => self.damaged[rng.below(self.damaged.len())].file.clone(),
        }
    }
}

/// Few plans, mostly: a call costs as much as each of them does alone.
fn count(rng: &mut Rng) -> usize {
    match rng.below(16) {
        0 => MOST_PLANS,
        1 => MOST_PLANS - 1,
        2 => rng.between(6, MOST_PLANS),
        3..6 => 1,
        _ => rng.between(2, 6),
    }
}

/// A plan for a call of so many; long ones come where they are few.
fn draft(rng: &mut Rng, count: usize) -> Draft {
    match count < 4 && rng.chance(1, 24) {
        true => {
            let kind = rng.pick(&PlanKind::LONG);
            plan(rng, kind)
        }
        false => small(rng),
    }
}

fn small(rng: &mut Rng) -> Draft {
    loop {
        let kind = rng.pick(&PlanKind::SMALL);
        let draft = plan(rng, kind);
        if draft.step_count() <= 48 {
            return draft;
        }
    }
}

fn damage(rng: &mut Rng, kind: BatchKind, batch: &mut Batch) {
    match kind {
        BatchKind::Whole => {}
        BatchKind::Moved => cut_elsewhere(rng, batch),
        BatchKind::Count => wrong_count(rng, batch),
        BatchKind::Sum => wrong_sum(rng, batch),
        BatchKind::Buffer => wrong_buffer(rng, batch),
        BatchKind::Work => {
            if rng.chance(1, 2) {
                let kind = rng.pick(&BatchKind::WRONG);
                damage(rng, kind, batch);
            }
            let right = WORK_LENGTH;
            let wrong = [0, right - 4, right - 1, right + 1, right / 2, 2 * right];
            batch.lent[4].resize(rng.pick(&wrong), 0xC5);
        }
    }
}

/// The end of a file, or all of it, goes to the one behind it, or the
/// beginning of that one to it. A single file stays as it is.
fn cut_elsewhere(rng: &mut Rng, batch: &mut Batch) {
    if batch.count < 2 {
        return;
    }
    let first = rng.below(batch.count - 1);
    let (to, from) = match rng.chance(1, 2) {
        true => (first, first + 1),
        false => (first + 1, first),
    };
    let most = batch.length(from);
    let bytes = match rng.below(4) {
        0 => 1,
        1 => most,
        _ => RECORD_LENGTH as u32,
    };
    batch.move_length(to, from, bytes.min(most));
}

/// No plan, too many, or a count whose low bits alone would do.
fn wrong_count(rng: &mut Rng, batch: &mut Batch) {
    match rng.below(4) {
        0 => *batch = Batch::of(rng, &[]),
        1 => {
            let many = MOST_PLANS + rng.pick(&[1, 1, 2, 24]);
            let file = small(rng).file();
            *batch = Batch::of(rng, &vec![file; many]);
        }
        2 => batch.count += 1 << rng.pick(&[8, 16, 32, 62, 63]),
        _ => batch.count = rng.draw() as usize | 64,
    }
}

/// Lengths that add up to something else than the bytes of the files.
fn wrong_sum(rng: &mut Rng, batch: &mut Batch) {
    let place = rng.below(batch.count);
    let length = batch.length(place);
    match rng.below(5) {
        0 => batch.set_length(place, length + rng.pick(&[1, 7, 256, 65_536])),
        1 => batch.set_length(place, length.wrapping_sub(rng.pick(&[1, 7]))),
        2 => batch.files.push(0x4D),
        3 if !batch.files.is_empty() => drop(batch.files.pop()),
        // One length becomes 2^32 - 1, so that they add up modulo 2^32.
        4 if batch.count > 1 => batch.move_length((place + 1) % batch.count, place, length + 1),
        _ => batch.files.push(0x50),
    }
}

/// Lengths, memories, logs, reports or answers with another length.
fn wrong_buffer(rng: &mut Rng, batch: &mut Batch) {
    let which = rng.below(5);
    let (buffer, unit) = match which {
        4 => (&mut batch.lengths, LENGTH_BYTES),
        _ => (&mut batch.lent[which], UNITS[which]),
    };
    let right = buffer.len();
    let wrong = [
        0,
        right - 1,
        right + 1,
        right - unit,
        right + unit,
        2 * right,
    ];
    buffer.resize(rng.pick(&wrong), 0);
}
