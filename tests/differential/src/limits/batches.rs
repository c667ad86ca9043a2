//! Calls of several plans: every count, refused plans at every end of the row,
//! plans behind each other, and everything that the whole call is refused for.

use simulator::batch::UNITS;
use simulator::format::{LENGTH_BYTES, MOST_PLANS, RECORD_LENGTH, WORK_LENGTH};
use simulator::generate::draft::step;
use simulator::generate::locks::each_lock;
use simulator::generate::{Batch, Draft, Rng};

use super::{draft, refusals, some_locks, times};

/// A call at a limit.
pub struct BatchLimit {
    pub name: String,
    pub batch: Batch,
}

/// Counts of plans at which things go wrong.
const COUNTS: [usize; 3] = [1, 2, MOST_PLANS];

/// A plan record alone, which is a plan.
const ALONE: [u8; RECORD_LENGTH] = [0x4D, 0x50, 1, 0, 0, 0, 0];

/// All of them, those that are accepted first.
pub fn all() -> Vec<BatchLimit> {
    let mut maker = Maker::new();
    maker.counts();
    maker.patterns();
    maker.behind_each_other();
    maker.refused_files();
    maker.file_lengths();
    maker.cut_elsewhere();
    maker.wrong_counts();
    maker.wrong_buffers();
    maker.wrong_sums();
    maker.wrong_work();
    maker.all
}

/// Counts of 2^62 and more, for which every product but that with 1 is modulo
/// 2^64 the length of its buffer.
pub fn wrapped() -> Vec<Batch> {
    let mut rng = Rng::new(62);
    let mut all = Vec::new();
    for count in COUNTS {
        for bits in [62, 63] {
            let mut batch = Batch::of(&mut rng, &vec![ALONE.to_vec(); count]);
            batch.count += 1 << bits;
            all.push(batch);
        }
    }
    all
}

/// Lengths of files that are not there.
const FAR: [&[u32]; 7] = [
    &[65_536],
    &[16_777_216],
    &[1 << 31],
    &[u32::MAX],
    &[u32::MAX, 8],
    &[1 << 31, 1 << 31, 65_543],
    &[u32::MAX; MOST_PLANS - 1],
];

/// Calls of a plan and of files of no bytes, and the lengths that these are
/// told to have.
pub fn far() -> Vec<(Batch, &'static [u32])> {
    let mut rng = Rng::new(32);
    let plan = plans().swap_remove(1);
    let each = |others: &'static [u32]| {
        let mut files = vec![Vec::new(); others.len() + 1];
        files[0].clone_from(&plan);
        (Batch::of(&mut rng, &files), others)
    };
    FAR.into_iter().map(each).collect()
}

type Row = &'static [(u8, u8, u16)];

const ADDS: Row = &[
    (32, 0, 0),
    (17, 0, 0),
    (16, 1, 1),
    (19, 0, 1),
    (18, 0, 0),
    (33, 0, 0),
];
const RACES: Row = &[(17, 0, 0), (16, 1, 1), (19, 0, 1), (18, 0, 0)];
const STORES_AND_MEETS: Row = &[(16, 2, 513), (18, 2, 1_023), (37, 0, 3)];
const WAITS: Row = &[(16, 1, 9), (18, 1, 6), (32, 0, 1), (34, 0, 5), (33, 0, 1)];

/// Small plans that differ in how they end, in what they leave in queues and
/// copies, and in what they need of memory.
fn plans() -> Vec<Vec<u8>> {
    let rows = |barriers: &[(u8, u16)], rows: &[Row]| Draft::from_rows(barriers, rows);
    let all_pages = |word: u16| {
        let store = move |page: u16| step(18, 0, 256 * page + word % 250);
        [vec![step(16, 0, word)], (0..8).map(store).collect()].concat()
    };
    let all_locks = each_lock(32, &some_locks(16));
    let fails_late = [all_pages(7_000), times(1, 33, 0)].concat();
    let drafts = vec![
        rows(&[], &[&[]]),
        rows(
            &[],
            &[&[(17, 0, 2), (22, 0, 2), (16, 1, 1), (18, 1, 0)], ADDS],
        ),
        rows(&[], &[ADDS, ADDS, ADDS]),
        rows(&[], &[WAITS]),
        rows(&[], &[&[(16, 0, 3), (18, 0, 8), (33, 0, 0)]]),
        rows(&[(3, 2)], &[STORES_AND_MEETS, STORES_AND_MEETS]),
        rows(&[(3, 3)], &[STORES_AND_MEETS, STORES_AND_MEETS]),
        rows(&[], &[WAITS, WAITS, WAITS, &[(36, 0, 5)]]),
        rows(
            &[],
            &[WAITS, WAITS, WAITS, WAITS, WAITS, WAITS, WAITS, WAITS],
        ),
        rows(&[], &[&[(39, 0, 2), (18, 3, 4)], ADDS, ADDS]).asleep(&[1, 2]),
        draft(&[], (1..9).map(|word| all_pages(31 * word)).collect()),
        draft(&[], vec![fails_late, all_pages(9)]),
        draft(
            &[],
            vec![
                [all_locks.clone(), times(1, 32, 15)].concat(),
                times(128, 36, 0),
            ],
        ),
        draft(&[], vec![[all_locks, times(1, 34, 0)].concat()]),
        rows(&[], &[RACES; 8]),
        one_a_round(),
    ];
    drafts.iter().map(Draft::file).collect()
}

/// The most rounds: one worker after the other gives up the token 127 times and
/// starts the next, and the last one 128 times.
fn one_a_round() -> Draft {
    let turns = |worker: u16| match worker {
        7 => times(128, 35, 0),
        _ => [times(127, 35, 0), times(1, 39, worker + 1)].concat(),
    };
    draft(&[], (0..8).map(turns).collect()).asleep(&[1, 2, 3, 4, 5, 6, 7])
}

/// Files that are refused, most of them at a record behind the first.
fn bad_files() -> Vec<Vec<u8>> {
    let plan = plans().swap_remove(2);
    let with = |place: usize, byte: u8| {
        let mut file = plan.clone();
        file[place] = byte;
        file
    };
    vec![
        with(7 * 5 + 6, 8),
        Vec::new(),
        with(0, 0),
        with(7 * 3 + 3, 40),
        plan[1..].to_vec(),
        with(7 * 7 + 2, 3),
    ]
}

struct Maker {
    rng: Rng,
    plans: Vec<Vec<u8>>,
    bad: Vec<Vec<u8>>,
    all: Vec<BatchLimit>,
}

impl Maker {
    fn new() -> Self {
        Maker {
            rng: Rng::new(44),
            plans: plans(),
            bad: bad_files(),
            all: Vec::new(),
        }
    }

    fn push(&mut self, name: &str, batch: Batch) {
        self.all.push(BatchLimit {
            name: format!("at the limits: {name}"),
            batch,
        });
    }

    fn push_files(&mut self, name: &str, files: &[Vec<u8>]) {
        let batch = Batch::of(&mut self.rng, files);
        self.push(name, batch);
    }

    /// A plan by its place in a call of so many.
    fn plan(&self, place: usize, count: usize) -> Vec<u8> {
        self.plans[(place + count) % self.plans.len()].clone()
    }

    /// A call of so many accepted plans.
    fn accepted(&mut self, count: usize) -> Batch {
        let files: Vec<Vec<u8>> = (0..count).map(|place| self.plan(place, count)).collect();
        Batch::of(&mut self.rng, &files)
    }

    /// Every count, and the longest logs in as many plans as can be.
    fn counts(&mut self) {
        for count in 1..=MOST_PLANS {
            let batch = self.accepted(count);
            self.push("a count", batch);
        }
        let longest_log = draft(&[], vec![times(128, 36, 0); 8]).file();
        self.push_files("longest logs", &vec![longest_log; MOST_PLANS]);
    }

    /// Refused plans at either end, in between, all of them, all but one.
    fn patterns(&mut self) {
        for count in [1, 2, 3, MOST_PLANS - 1, MOST_PLANS] {
            let last = count - 1;
            for pattern in 0..8 {
                let refused = |place: usize| match pattern {
                    0 => place == 0,
                    1 => place == last,
                    2 => place == count / 2,
                    3 => true,
                    4 => place > 0,
                    5 => place < last,
                    _ => place % 2 == pattern % 2,
                };
                let file = |place: usize| match refused(place) {
                    true => self.bad[(place + pattern) % self.bad.len()].clone(),
                    false => self.plan(place, count + pattern),
                };
                let files: Vec<Vec<u8>> = (0..count).map(file).collect();
                self.push_files("refused plans", &files);
            }
        }
        for count in [1, MOST_PLANS] {
            self.push_files("no byte of a file", &vec![Vec::new(); count]);
        }
    }

    /// Each plan behind each, a refused one between them at times, and twice
    /// on equal memories.
    fn behind_each_other(&mut self) {
        for first in self.plans.clone() {
            for second in self.plans.clone() {
                self.push_files("two plans", &[first.clone(), second]);
            }
            let bad = self.bad[3].clone();
            self.push_files("a plan again", &[first.clone(), bad, first.clone()]);
            let mut equal = Batch::of(&mut self.rng, &[first.clone(), first]);
            equal.lent[0].copy_within(..UNITS[0], UNITS[0]);
            self.push("equal memories", equal);
        }
    }

    /// Every refusal at records of one byte and of two, between two plans.
    fn refused_files(&mut self) {
        for limit in refusals::all() {
            let files = [self.plans[2].clone(), limit.file, self.plans[3].clone()];
            self.push_files("a refused file", &files);
        }
    }

    /// Lengths in each of their four bytes, in front of a plan.
    fn file_lengths(&mut self) {
        let longest = refusals::longest(8).file();
        let cuts = [1, 6, 7, 8, 7_273, 7_279, 7_280];
        let mut files: Vec<Vec<u8>> = cuts.map(|length| longest[..length].to_vec()).into();
        let longer = [&longest[..], &longest[7_273..]].concat();
        files.extend([7_281, 7_287].map(|length| longer[..length].to_vec()));
        files.extend([65_543, 16_777_223].map(|length| vec![0x4D; length]));
        for file in files {
            let behind = self.plans[1].clone();
            self.push_files("a file's length", &[file, behind]);
        }
    }

    /// The lengths add up, but the files are cut elsewhere: by a byte, by a
    /// record, and with all of a file in its neighbour.
    fn cut_elsewhere(&mut self) {
        let files = [1, 2, 5].map(|place| self.plans[place].clone());
        for (to, from) in [(0, 1), (1, 0), (1, 2), (2, 1), (0, 2)] {
            for bytes in [1, 7, files[from].len() as u32] {
                let mut batch = Batch::of(&mut self.rng, &files);
                batch.move_length(to, from, bytes);
                self.push("files cut elsewhere", batch);
            }
        }
    }

    /// Counts outside 1 to 40 with buffers for them, counts of which only the
    /// low bits fit, and other counts than the buffers are for.
    fn wrong_counts(&mut self) {
        for count in [0, 41, 42, 64, 255, 256, 257, 296] {
            self.push_files("a wrong count", &vec![ALONE.to_vec(); count]);
        }
        for count in COUNTS {
            let high = [8, 16, 32, 62, 63].map(|bits| count + (1_usize << bits));
            let near = [0, count - 1, count + 1, 41, usize::MAX];
            for wrong in [&high[..], &near].concat() {
                let mut batch = self.accepted(count);
                batch.count = wrong;
                self.push("a count for other buffers", batch);
            }
        }
    }

    /// Each buffer but work shorter and longer. The last file has no bytes at
    /// times, so that the lengths add up without theirs.
    fn wrong_buffers(&mut self) {
        for count in COUNTS {
            for which in 0..5 {
                for how in 0..7 {
                    let mut batch = self.accepted(count);
                    make_wrong(&mut batch, which, how);
                    self.push("a buffer's length", batch);
                    let mut files = vec![ALONE.to_vec(); count];
                    files[count - 1].clear();
                    let mut batch = Batch::of(&mut self.rng, &files);
                    make_wrong(&mut batch, which, how);
                    self.push("a buffer's length, the last file empty", batch);
                }
            }
        }
    }

    /// Lengths that add up to something else.
    fn wrong_sums(&mut self) {
        for count in COUNTS {
            for how in 0..12 {
                let mut batch = self.accepted(count);
                make_sum_wrong(&mut batch, how);
                self.push("a sum of lengths", batch);
            }
        }
        for lengths in MODULO {
            let file = self.plans[1].clone();
            let bytes = file.len() as u32;
            let mut batch = Batch::of(&mut self.rng, &[file, vec![], vec![]]);
            for (place, &length) in lengths.iter().enumerate() {
                batch.set_length(place + 1, length);
            }
            // The first file stays whole where the others add up to 2^32.
            let rest = lengths[0].wrapping_add(lengths[1]);
            batch.set_length(0, bytes.wrapping_sub(rest));
            self.push("a sum modulo 2^32", batch);
        }
    }

    /// A wrong length of work with refused plans, which nobody runs, alone, and
    /// with each thing that is 15.
    fn wrong_work(&mut self) {
        let right = WORK_LENGTH;
        let longer = [right + 1, 2 * right, right + 65_536];
        for length in [&longer[..], &[right - 1, right - 4, 18_432, 1, 0]].concat() {
            for other in 0..10 {
                let mut batch = self.accepted(2);
                match other {
                    0 => batch = Batch::of(&mut self.rng, &self.bad[..2]),
                    1 => {}
                    2 => batch = Batch::of(&mut self.rng, &[]),
                    3 => batch = Batch::of(&mut self.rng, &vec![ALONE.to_vec(); 41]),
                    4 => make_sum_wrong(&mut batch, 0),
                    _ => make_wrong(&mut batch, other - 5, 3),
                }
                batch.lent[4].resize(length, 0x77);
                self.push("work's length", batch);
            }
        }
    }
}

/// Second and third lengths of three that add up modulo 2^32 only. The last is
/// no multiple of 7, so that whoever accepts them reads no file from afar.
const MODULO: [[u32; 2]; 5] = [
    [u32::MAX - 7, 8],
    [u32::MAX, 1],
    [1 << 31, 1 << 31],
    [u32::MAX, 15],
    [u32::MAX - 65_535, 65_536],
];

/// Gives memories, logs, reports, answers or lengths another length. Longer
/// ones come first, so that whoever accepts them writes what is there.
fn make_wrong(batch: &mut Batch, which: usize, how: usize) {
    let (buffer, unit) = match which {
        4 => (&mut batch.lengths, LENGTH_BYTES),
        _ => (&mut batch.lent[which], UNITS[which]),
    };
    let right = buffer.len();
    let length = match how {
        0 => right + 1,
        1 => right + unit,
        2 => 2 * right,
        3 => right - 1,
        4 => right - unit,
        5 => 0,
        _ => right + 65_536,
    };
    buffer.resize(length, 0);
}

/// Changes a length or the bytes of the files.
fn make_sum_wrong(batch: &mut Batch, how: usize) {
    let last = batch.count - 1;
    let (first_length, last_length) = (batch.length(0), batch.length(last));
    match how {
        0 => batch.set_length(0, first_length + 1),
        1 => batch.set_length(0, first_length - 1),
        2 => batch.set_length(last, last_length + 1),
        3 => batch.set_length(last, last_length - 1),
        4 => batch.set_length(last, last_length + 7),
        5 => batch.set_length(last, last_length + 65_536),
        6 => batch
            .lengths
            .chunks_mut(LENGTH_BYTES)
            .for_each(<[u8]>::reverse),
        7 => batch.files.push(0),
        8 => drop(batch.files.pop()),
        9 => batch.files.clear(),
        10 => batch.lengths.fill(0),
        _ => batch.files.extend([0x4D; 65_536]),
    }
}
