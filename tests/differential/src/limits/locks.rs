//! Locks by name: each of them by each worker, each beside each other one,
//! taken again, kept over a wait, and held by several workers at once.

use simulator::generate::draft::step;
use simulator::generate::locks::each_lock;
use simulator::generate::Draft;
use simulator::Step;

use super::{draft, played, some_locks, Limit};

/// The condition on which others wait with locks held.
const CALLED: u16 = 4;

pub fn all() -> Vec<Limit> {
    let mut all = Vec::new();
    for lock in 0..16 {
        for op in [32, 33] {
            let plan = by_every_worker(lock, op);
            all.extend(played("a lock of every worker", &plan));
        }
        all.extend(beside(lock));
        all.extend(played("all but one lock", &all_but(lock)));
        all.extend(played("a lock taken again", &again(lock)));
        all.extend((1..8).flat_map(|others| held_by(others, lock)));
        all.extend((0..15).flat_map(|way| of_another(way, lock)));
    }
    all.extend([1, 2, 15, 16].into_iter().flat_map(kept));
    all
}

/// Steps that show in memory what is committed behind them.
fn store(worker: usize, place: u16) -> [Step; 2] {
    let address = 256 * worker as u16 + 2 * place;
    [step(16, 0, 0x0302 + place), step(18, 0, address)]
}

/// Each of eight workers takes the lock, gives it back and takes it again; then
/// it takes it twice (op 32) or gives it back twice (op 33).
fn by_every_worker(lock: u16, op: u8) -> Draft {
    let (takes, gives) = (step(32, 0, lock), step(33, 0, lock));
    let row = |worker: usize| {
        let mut own = vec![takes, gives, takes];
        own.extend(store(worker, lock));
        if op == gives.op {
            own.push(gives);
            own.extend(store(worker, lock + 16));
        }
        own.push(step(op, 0, lock));
        own
    };
    draft(&[], (0..8).map(row).collect())
}

/// With one lock held, the lock and the unlock of each, eight to a plan. Where
/// it does not fail, what is held behind it is given back in the order in which
/// it was taken, and the first once more.
fn beside(held: u16) -> Vec<Limit> {
    let row = |worker: usize, op: u8, lock: u16| {
        let mut own = vec![step(32, 0, held)];
        own.extend(store(worker, lock));
        own.push(step(op, 0, lock));
        own.extend(store(worker, lock + 16));
        own.push(step(33, 0, held));
        own.extend(store(worker, lock + 32));
        own.extend([step(33, 0, lock), step(33, 0, held)]);
        own
    };
    let mut all = Vec::new();
    for half in 0..4 {
        let (op, first) = (32 + half / 2, 8 * u16::from(half % 2));
        let rows = (0..8).map(|worker| row(worker, op, first + worker as u16));
        let plan = draft(&[], rows.collect());
        all.extend(played("a lock beside another", &plan));
    }
    all
}

/// All locks but one: its unlock fails, it can be taken, and any other cannot.
fn all_but(lock: u16) -> Draft {
    let others: Vec<u16> = (0..16).filter(|&each| each != lock).collect();
    let mut rows = vec![each_lock(32, &others); 3];
    for (worker, own) in rows.iter_mut().enumerate() {
        own.extend(store(worker, lock));
    }
    rows[0].push(step(33, 0, lock));
    rows[1].push(step(32, 0, others[usize::from(lock) * 7 % 15]));
    rows[2].push(step(32, 0, lock));
    rows[2].extend(each_lock(33, &others));
    rows[2].extend([step(33, 0, lock), step(33, 0, lock)]);
    draft(&[], rows)
}

/// A lock that is given back and taken again, with none, one and all others
/// held meanwhile.
fn again(lock: u16) -> Draft {
    let twice = [step(32, 0, lock), step(33, 0, lock)].repeat(2);
    let other = (lock + 5) % 16;
    let one = [vec![step(32, 0, other)], twice.clone()].concat();
    let others: Vec<u16> = (0..16).filter(|&each| each != lock).collect();
    let all = [each_lock(32, &others), twice.clone()].concat();
    let steps = vec![
        twice,
        [one, vec![step(33, 0, other)]].concat(),
        [all, each_lock(33, &others)].concat(),
    ];
    draft(&[], steps)
}

/// So many wait with the lock held, each with another one beside it, when one
/// more takes it, wakes them and gives it back before they do.
fn held_by(others: usize, lock: u16) -> Vec<Limit> {
    let row = |worker: usize| {
        let beside = (lock + 1 + worker as u16) % 16;
        let mut own = vec![step(32, 0, beside), step(32, 0, lock)];
        own.push(step(34, 0, CALLED));
        own.extend(store(worker, lock));
        own.extend([step(33, 0, lock), step(33, 0, beside)]);
        own
    };
    let mut steps: Vec<Vec<Step>> = (0..others).map(row).collect();
    let mut own = vec![step(32, 0, lock), step(36, 0, CALLED)];
    own.extend(store(others, lock));
    own.extend([step(33, 0, lock), step(33, 0, lock)]);
    steps.push(own);
    played("a lock that others hold", &draft(&[], steps))
}

/// Another one holds the lock: it waits, has failed, or has been woken by this
/// holder; and then each of five things is tried. The other one goes on if it
/// can, and finds its locks as they were.
fn of_another(way: u16, lock: u16) -> Vec<Limit> {
    let (place, what) = (way % 3, way / 3);
    let beside = (lock + 3) % 16;
    let both = [step(32, 0, lock), step(32, 0, beside)];
    let mut other = both.to_vec();
    other.push(match place {
        1 => step(32, 0, lock),
        _ => step(34, 0, CALLED),
    });
    other.extend(store(0, lock));
    other.extend([step(33, 0, lock), step(33, 0, beside)]);
    let held = step(32, 0, (lock + 9) % 16);
    let mut own = match (place, what) {
        (2, _) => vec![held, step(35, 0, CALLED)],
        (_, 4) => Vec::new(),
        _ => vec![held],
    };
    own.extend(store(1, lock));
    own.extend(tried(what, lock));
    own.extend(store(1, lock + 16));
    own.push(step(33, 0, held.number));
    let waker = vec![step(35, 0, CALLED)];
    played("another holds it", &draft(&[], vec![other, own, waker]))
}

/// A lock, an unlock behind it, a lock twice, and an unlock alone.
fn tried(what: u16, lock: u16) -> Vec<Step> {
    let (takes, gives) = (step(32, 0, lock), step(33, 0, lock));
    match what {
        0 => vec![takes],
        1 => vec![takes, gives],
        2 => vec![takes, takes],
        _ => vec![gives],
    }
}

/// A wait keeps so many locks; behind it each of them is given back, one is
/// taken once more, and one that is not among them is given back or taken.
fn kept(count: usize) -> Vec<Limit> {
    let locks = some_locks(count);
    let other = (0..16).find(|lock| !locks.contains(lock));
    let other = other.unwrap_or(locks[0]);
    let waits = [each_lock(32, &locks), vec![step(34, 0, CALLED)]].concat();
    let backs = each_lock(33, &locks);
    let behind = [
        backs.clone(),
        vec![step(32, 0, locks[count / 2])],
        vec![step(33, 0, other), step(33, 0, other)],
        [vec![step(32, 0, other)], backs, vec![step(33, 0, other)]].concat(),
    ];
    let mut steps = vec![step(32, 0, locks[0]), step(36, 0, CALLED)];
    steps.extend(each_lock(33, &locks[..1]));
    let mut rows: Vec<Vec<Step>> = Vec::new();
    for (worker, behind) in behind.into_iter().enumerate() {
        let own = [waits.clone(), store(worker, 5).to_vec(), behind];
        rows.push(own.concat());
    }
    rows.push(steps);
    played("locks kept over a wait", &draft(&[], rows))
}
