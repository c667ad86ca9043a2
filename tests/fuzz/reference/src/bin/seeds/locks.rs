//! Inputs about locks by name.

use simulator::format::{LOG_RECORD_LENGTH, MEMORY_LENGTH, RECORD_LENGTH};
use simulator::generate::last_turn::cut_moves;
use simulator::generate::{plan, Draft, PlanKind, Rng};
use simulator::{check, play_rounds};

use crate::{input, turns, Named, Row, FILE, FULL, VALUES};

/// Steps of one worker behind a lock, and what they come to: the same lock,
/// another one given back, two given back in either order, one taken again,
/// what fails with two.
const BEHIND_LOCK_3: [Row; 9] = [
    &[(32, 0, 3)],
    &[(33, 0, 4)],
    &[(32, 0, 4), (33, 0, 3), (33, 0, 4)],
    &[(32, 0, 4), (33, 0, 4), (33, 0, 3)],
    &[(32, 0, 4), (33, 0, 3), (32, 0, 3), (33, 0, 4), (33, 0, 3)],
    &[(32, 0, 4), (33, 0, 3), (33, 0, 3)],
    &[(32, 0, 4), (37, 0, 0)],
    &[(32, 0, 4), (38, 0, 0)],
    &[(32, 0, 4), (34, 0, 0), (33, 0, 3), (33, 0, 4)],
];

/// Plans by hand, then small random ones of which every third slips, from
/// memories of zeros, of many values and of 255s, to the end and cut anywhere.
pub fn all() -> Vec<Vec<u8>> {
    let mut rng = Rng::new(44);
    let mut all: Vec<Vec<u8>> = by_hand()
        .iter()
        .map(|draft| played(&mut rng, draft))
        .collect();
    let random = all.len() + 48;
    while all.len() < random {
        let kind = rng.pick(&[PlanKind::Names, PlanKind::Names, PlanKind::Deep]);
        let draft = plan(&mut rng, kind);
        let file = draft.file();
        if file.len() > 70 * RECORD_LENGTH || slips(&file) != all.len().is_multiple_of(3) {
            continue;
        }
        let list = match all.len() % 2 {
            0 => turns(&mut rng, &file, 400),
            _ => cut_moves(&mut rng, &draft, &[0; MEMORY_LENGTH]),
        };
        let memory = [0, VALUES, FULL][all.len() / 2 % 3];
        all.push(input(FILE | memory, &file, &list));
    }
    all
}

/// Each of the rows beside a worker that signals, and beside one that uses the
/// same lock; and all sixteen locks.
fn by_hand() -> Vec<Draft> {
    let others: [Row; 2] = [
        &[(35, 0, 1), (35, 0, 0)],
        &[(32, 0, 3), (36, 0, 0), (33, 0, 3)],
    ];
    let mut all = Vec::new();
    for behind in BEHIND_LOCK_3 {
        let own = [&[(32, 0, 3), (16, 0, 0x0201), (18, 0, 255)], behind].concat();
        all.extend(others.map(|other| Draft::from_rows(&[(0, 1)], &[&own, other])));
    }
    let of_all = |op: u8| (0..16).map(move |lock| (op, 0, lock));
    let first: Vec<(u8, u8, u16)> = of_all(32).chain(of_all(33)).collect();
    let last: Vec<(u8, u8, u16)> = of_all(32).chain(of_all(33).rev()).collect();
    all.extend([first, last].map(|own| Draft::from_rows(&[], &[&own])));
    all
}

fn played(rng: &mut Rng, draft: &Draft) -> Vec<u8> {
    let file = draft.file();
    let list = turns(rng, &file, 400);
    input(FILE, &file, &list)
}

/// Whether a plan fails at a lock or at an unlock.
fn slips(file: &[u8]) -> bool {
    let plan = check(file).expect("an accepted plan");
    let log = play_rounds(&plan, &[0; MEMORY_LENGTH]).log;
    let slip = |record: &[u8]| matches!((record[5], record[7]), (32 | 33, 254));
    log.chunks_exact(LOG_RECORD_LENGTH).any(slip)
}

/// Three workers and no barrier: the first waits with two locks, the second
/// takes one of them and wakes it, the third gives back one that it has not.
pub fn made() -> Named {
    let head = [2, 0, 0, 0, 0, 0, 0, 0, 0];
    let next_worker = 128;
    // Op by its place in the target's table, register, number.
    let (store, lock, unlock, wait, signal) = (2, 7, 8, 9, 10);
    let steps = [
        [lock, 0, 3, 0],
        [lock, 0, 4, 0],
        [wait, 0, 6, 0],
        [unlock, 0, 3, 0],
        [store, 1, 255, 0],
        [unlock, 0, 4, 0],
        [next_worker | lock, 0, 3, 0],
        [signal, 0, 6, 0],
        [unlock, 0, 3, 0],
        [next_worker | lock, 0, 5, 0],
        [unlock, 0, 4, 0],
    ];
    let plan = [&head[..], &steps.concat()].concat();
    let bytes = input(VALUES, &plan, &[0, 1, 2].repeat(16));
    ("made-names".to_string(), bytes)
}
