//! Inputs of several plans. tests/fuzz/batch.c says how they are laid out.

use simulator::format::{MOST_PLANS, RECORD_LENGTH};
use simulator::generate::damage::{showcase, single_fault};
use simulator::generate::{plan, Draft, PlanKind, Rng};

/// Flags of an input: several plans, each part is a file, numbers are added to
/// two lengths, memories of many values, memories of 255s.
const SEVERAL: u8 = 0xD0;
const FILE: u8 = 1;
const ADDED: u8 = 2;
const VALUES: u8 = 4;
const FULL: u8 = 8;

/// Names no wrong length of a buffer.
const RIGHT_LENGTHS: u8 = 255;
/// Buffers that can be wrong, and ways in which each can.
const WRONG_LENGTHS: u8 = 7 * 4;
const SHORT_WORK: u8 = 4 * 4 + 1;
/// Ways to lift a count above its low bits.
const LIFTS: u8 = 5;

/// An input before it is written down.
struct Input {
    flags: u8,
    wrong: u8,
    count: u8,
    lift: u8,
    added: [u32; 2],
    parts: Vec<Vec<u8>>,
}

impl Input {
    fn of(flags: u8, parts: &[Vec<u8>]) -> Self {
        Input {
            flags: SEVERAL | flags,
            wrong: RIGHT_LENGTHS,
            count: parts.len() as u8,
            lift: 0,
            added: [0; 2],
            parts: parts.to_vec(),
        }
    }

    fn bytes(&self) -> Vec<u8> {
        let mut bytes = vec![self.flags, self.wrong, self.count, self.lift];
        if self.flags & ADDED != 0 {
            bytes.extend(self.added.iter().flat_map(|number| number.to_le_bytes()));
        }
        for part in &self.parts {
            bytes.extend((part.len() as u16).to_le_bytes());
            bytes.extend(part);
        }
        bytes
    }
}

/// All of them.
pub fn all() -> Vec<Vec<u8>> {
    let mut rng = Rng::new(40);
    let mut all = plans(&mut rng);
    all.extend(counts());
    let two = [small(&mut rng), small(&mut rng)];
    all.extend(lengths(&two));
    all.extend(sums(&two));
    all.extend(short_work(&two));
    all.extend(made());
    all.iter().map(Input::bytes).collect()
}

fn small(rng: &mut Rng) -> Vec<u8> {
    loop {
        let kind = rng.pick(&PlanKind::SMALL);
        let file = plan(rng, kind).file();
        if file.len() <= 24 * RECORD_LENGTH {
            return file;
        }
    }
}

/// Two to five plans from each kind of memory, of which none, one or several
/// are refused.
fn plans(rng: &mut Rng) -> Vec<Input> {
    let each = |number: usize| {
        let count = 2 + number % 4;
        let file = |place: usize| match (number / 4 + place) % 4 {
            0 if number >= 4 => single_fault(rng, &showcase()).file,
            1 if number >= 16 => Vec::new(),
            _ => small(rng),
        };
        let files: Vec<Vec<u8>> = (0..count).map(file).collect();
        Input::of(FILE | [0, VALUES, FULL][number % 3], &files)
    };
    (0..24).map(each).collect()
}

/// Counts at their limits, with and without a byte of a file, and counts whose
/// low bits alone would do.
fn counts() -> Vec<Input> {
    let alone = Draft::from_rows(&[], &[&[]]).file();
    let mut all = Vec::new();
    for count in [0, 1, MOST_PLANS - 1, MOST_PLANS, MOST_PLANS + 1] {
        all.push(Input::of(FILE, &vec![alone.clone(); count]));
        all.push(Input::of(FILE | VALUES, &vec![Vec::new(); count]));
    }
    for lift in 1..=LIFTS {
        let mut input = Input::of(FILE, &[alone.clone(), alone.clone()]);
        input.lift = lift;
        all.push(input);
    }
    all
}

/// Each buffer wrong in each way.
fn lengths(two: &[Vec<u8>; 2]) -> Vec<Input> {
    let each = |wrong: u8| {
        let mut input = Input::of(FILE | VALUES, two);
        input.wrong = wrong;
        input
    };
    (0..WRONG_LENGTHS).map(each).collect()
}

/// Work is one byte short, and the count is lifted or the lengths do not add up
/// as well.
fn short_work(two: &[Vec<u8>; 2]) -> [Input; 2] {
    let mut lifted = Input::of(FILE, two);
    let mut added = Input::of(FILE | ADDED, two);
    (lifted.wrong, added.wrong) = (SHORT_WORK, SHORT_WORK);
    lifted.lift = LIFTS;
    added.added = [0, 7];
    [lifted, added]
}

/// Lengths that do not add up, that do so modulo 2^32, and that do so but cut
/// the files elsewhere.
fn sums(two: &[Vec<u8>; 2]) -> Vec<Input> {
    let first = two[0].len() as u32;
    let minus = |number: u32| number.wrapping_neg();
    let added = [
        [1, 0],
        [minus(1), 0],
        [0, 7],
        [0, minus(7)],
        [65_536, 0],
        [0, 1 << 24],
        [minus(first + 1), first + 1],
        [1 << 31, 1 << 31],
        [7, minus(7)],
        [minus(7), 7],
        [minus(first), first],
        [1, minus(1)],
    ];
    let each = |added: [u32; 2]| {
        let mut input = Input::of(FILE | ADDED, two);
        input.added = added;
        input
    };
    added.into_iter().map(each).collect()
}

/// Steps from which the target makes files: two workers that lock and store, a
/// part that is too short for a file, one that waits.
fn made() -> Vec<Input> {
    let next_worker = 128;
    let (set, store, lock, unlock, wait) = (0, 2, 7, 8, 9);
    let head = |workers: u8| [workers - 1, 0, 0, 0, 0, 0, 0, 0, 0];
    let locks = [
        [lock, 0, 1, 0],
        [set, 1, 7, 2],
        [store, 1, 255, 0],
        [unlock, 0, 1, 0],
        [next_worker | lock, 0, 1, 0],
        [store, 0, 254, 0],
        [unlock, 0, 1, 0],
    ];
    let waits = [[lock, 0, 1, 0], [wait, 0, 3, 0]];
    let parts = [
        [&head(2)[..], &locks.concat()].concat(),
        vec![0; 5],
        [&head(1)[..], &waits.concat()].concat(),
    ];
    let of = |flags: u8| Input::of(flags, &parts);
    vec![of(0), of(VALUES), of(FULL)]
}
