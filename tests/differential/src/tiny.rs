//! Tiny plans, each to be played under every turn list up to a length.

use simulator::generate::Draft;

type Row = &'static [(u8, u8, u16)];
/// Barriers with their sizes, and the steps of so many workers.
type Sketch<const WORKERS: usize> = (&'static [(u8, u16)], [Row; WORKERS]);
/// Workers that sleep at first, and the steps of so many.
type Sleeping<const WORKERS: usize> = (&'static [u8], [Row; WORKERS]);

/// A tiny plan, turns that always come first, and the length up to which all
/// lists behind them are played.
pub struct Tiny {
    pub file: Vec<u8>,
    pub workers: usize,
    pub first: &'static [u8],
    pub length: usize,
}

const STORE: Row = &[(16, 0, 258), (18, 0, 255)];
const STORE_BESIDE: Row = &[(16, 0, 772), (18, 0, 254)];
const LOCKED_STORE: Row = &[(32, 0, 0), (16, 0, 258), (18, 0, 254), (33, 0, 0)];
const SECTION: Row = &[(32, 0, 0), (33, 0, 0)];
const WAITER: Row = &[(32, 0, 3), (34, 0, 2), (33, 0, 3)];
const WAKER: Row = &[(35, 0, 2)];
const LOCKED_WAKER: Row = &[(32, 0, 0), (36, 0, 2), (33, 0, 0)];
const BROADCASTER: Row = &[(36, 0, 2)];
const MEETING: Row = &[(37, 0, 1)];
const FAILING: Row = &[(18, 0, 0), (33, 0, 0)];
const SKIPPING: Row = &[(21, 0, 1), (38, 0, 0)];
const ADDING: Row = &[(17, 0, 0), (16, 1, 1), (19, 0, 1), (18, 0, 0)];
const STARTS_1: Row = &[(39, 0, 1)];
const STARTS_2: Row = &[(39, 0, 2)];
const STARTS_TWICE: Row = &[(39, 0, 1), (39, 0, 1)];
const STARTS_ITSELF: Row = &[(18, 0, 255), (39, 0, 0), (35, 0, 2)];
const LOCKED_START: Row = &[(32, 0, 0), (39, 0, 1), (33, 0, 0)];
const START_AND_LOCK: Row = &[(39, 0, 1), (18, 1, 0), (32, 0, 0), (33, 0, 0)];
const START_AND_SIGNAL: Row = &[(39, 0, 1), (35, 0, 2)];
const START_AND_MEET: Row = &[(39, 0, 2), (37, 0, 1)];
const SIGNAL_AND_ALL: Row = &[(32, 0, 0), (35, 0, 2), (36, 0, 2), (33, 0, 0)];
const WAITS_AND_WAKES: Row = &[(32, 0, 0), (34, 0, 2), (36, 0, 3), (34, 0, 2), (33, 0, 0)];
const WAKES_AND_WAITS: Row = &[(32, 0, 0), (36, 0, 2), (34, 0, 3), (35, 0, 2), (33, 0, 0)];
const CROSSED: Row = &[(32, 0, 4), (32, 0, 9), (33, 0, 4), (33, 0, 9)];
const NESTED: Row = &[(32, 0, 9), (32, 0, 4), (33, 0, 4), (33, 0, 9)];
const WRONG_UNLOCK: Row = &[(32, 0, 4), (18, 0, 255), (33, 0, 9)];
const LOCKED_TWICE: Row = &[(32, 0, 4), (18, 0, 255), (32, 0, 4)];
const KEEPS_TWO: Row = &[(32, 0, 3), (32, 0, 4), (34, 0, 2), (33, 0, 3), (33, 0, 4)];
const TAKES_THE_SAME: Row = &[(32, 0, 3), (35, 0, 2), (33, 0, 3)];
const KEEPS_AND_SLIPS: Row = &[(32, 0, 3), (32, 0, 4), (34, 0, 2), (33, 0, 5)];

/// Behind these turns the first of two, or of three the first two, wait in
/// round 1.
const ONE_WAITS: &[u8] = &[0, 1, 0, 0];
const TWO_WAIT: &[u8] = &[0, 1, 2, 0, 0, 1, 1];

/// The same where each takes two locks before it waits.
const TWO_KEEP: &[u8] = &[0, 1, 2, 0, 0, 0, 1, 1, 1];

/// The plans.
pub fn plans() -> Vec<Tiny> {
    let pairs: [Sketch<2>; 14] = [
        (&[], [&[], &[]]),
        (&[], [STORE, STORE]),
        (&[], [STORE, STORE_BESIDE]),
        (&[], [LOCKED_STORE, STORE]),
        (&[], [ADDING, &[]]),
        (&[], [SECTION, SECTION]),
        (&[], [WAITER, WAKER]),
        (&[], [WAKER, WAITER]),
        (&[], [LOCKED_WAKER, WAITER]),
        (&[(1, 2)], [MEETING, MEETING]),
        (&[(1, 1)], [MEETING, SECTION]),
        (&[(1, 3)], [MEETING, STORE]),
        (&[], [FAILING, STORE]),
        (&[], [SKIPPING, WAKER]),
    ];
    let triples: [Sketch<3>; 4] = [
        (&[], [&[], &[], &[]]),
        (&[(1, 2)], [MEETING, &[], MEETING]),
        (&[], [WAKER, SECTION, &[]]),
        (&[], [FAILING, WAKER, &[]]),
    ];
    let mut all = vec![tiny(&[], &[ADDING], 12)];
    all.extend(pairs.map(|(sizes, rows)| tiny(sizes, &rows, 12)));
    all.extend(triples.map(|(sizes, rows)| tiny(sizes, &rows, 8)));
    all.extend(sleeping());
    all.extend(broadcasts());
    all.extend(names());
    all
}

/// Plans with broadcasts. In the first of them it is the eighth move, and two
/// are woken.
fn broadcasts() -> [Tiny; 5] {
    [
        tiny(&[], &[WAITER, WAITER, BROADCASTER], 8),
        tiny(&[], &[WAITER, WAITER, BROADCASTER], 8).behind(TWO_WAIT),
        tiny(&[], &[WAITER, WAITER, SIGNAL_AND_ALL], 8).behind(TWO_WAIT),
        tiny(&[], &[WAITER, BROADCASTER], 12),
        tiny(&[], &[WAITS_AND_WAKES, WAKES_AND_WAITS], 12).behind(ONE_WAITS),
    ]
}

/// Plans with several locks.
fn names() -> Vec<Tiny> {
    let pairs = [
        [CROSSED, NESTED],
        [WRONG_UNLOCK, LOCKED_STORE],
        [LOCKED_TWICE, STORE],
        [KEEPS_TWO, TAKES_THE_SAME],
        [KEEPS_AND_SLIPS, WAKER],
    ];
    let mut all: Vec<Tiny> = pairs.map(|rows| tiny(&[], &rows, 12)).into();
    all.push(tiny(&[], &[KEEPS_TWO, KEEPS_TWO, BROADCASTER], 8).behind(TWO_KEEP));
    all
}

/// Plans with sleepers.
fn sleeping() -> Vec<Tiny> {
    let pairs: [Sleeping<2>; 8] = [
        (&[1], [SECTION, STORE]),
        (&[1], [STARTS_1, STORE]),
        (&[1], [STARTS_TWICE, SECTION]),
        (&[1], [STARTS_ITSELF, STORE]),
        (&[1], [LOCKED_START, STARTS_1]),
        (&[1], [START_AND_LOCK, STORE]),
        (&[1], [START_AND_SIGNAL, WAKER]),
        (&[], [STARTS_1, WAKER]),
    ];
    let triples: [Sleeping<3>; 4] = [
        (&[1, 2], [STARTS_1, STARTS_2, &[]]),
        (&[2], [MEETING, START_AND_MEET, &[]]),
        (&[2], [STARTS_2, STARTS_2, &[]]),
        (&[1], [START_AND_SIGNAL, &[], &[]]),
    ];
    let mut all = Vec::new();
    all.extend(pairs.map(|(sleepers, rows)| asleep(sleepers, &rows, 12)));
    all.extend(triples.map(|(sleepers, rows)| asleep(sleepers, &rows, 8)));
    all
}

fn tiny(sizes: &[(u8, u16)], rows: &[Row], length: usize) -> Tiny {
    let draft = Draft::from_rows(sizes, rows);
    of_draft(&draft, length)
}

/// A plan with sleepers; its barrier is one of two workers.
fn asleep(sleepers: &[u8], rows: &[Row], length: usize) -> Tiny {
    let draft = Draft::from_rows(&[(1, 2)], rows).asleep(sleepers);
    of_draft(&draft, length)
}

fn of_draft(draft: &Draft, length: usize) -> Tiny {
    Tiny {
        file: draft.file(),
        workers: draft.workers(),
        first: &[],
        length,
    }
}

impl Tiny {
    /// The plan with turns that always come first.
    fn behind(mut self, first: &'static [u8]) -> Self {
        self.first = first;
        self
    }

    /// Every turn list up to the length, the shortest first.
    pub fn lists(&self) -> impl Iterator<Item = Vec<u8>> + '_ {
        (0..=self.length).flat_map(move |length| {
            let lists = self.workers.pow(length as u32);
            (0..lists).map(move |number| self.list(number, length))
        })
    }

    /// The digits of a number, in the base of the count of workers, behind
    /// the first turns.
    fn list(&self, mut number: usize, length: usize) -> Vec<u8> {
        let mut list = self.first.to_vec();
        for _ in 0..length {
            list.push((number % self.workers) as u8);
            number /= self.workers;
        }
        list
    }
}
