//! How many locks a worker holds, up to all sixteen.

use simulator::generate::draft::step;
use simulator::generate::locks::each_lock;
use simulator::generate::Draft;
use simulator::Step;

use super::{draft, played, some_locks, Limit};

/// Every count: failures with it, signals within it, waits that keep it,
/// unlocks from it.
pub fn all() -> Vec<Limit> {
    let failing = (1..=16).map(|count| ("a failure with locks held", failures(count)));
    let slipping = (1..=16).map(|count| ("a slip with locks held", slips(count)));
    let waking = (1..=16).map(|count| ("signals with locks held", signals(count)));
    let waiting = (1..=16).map(|count| ("a wait with locks held", waits(count)));
    let unlocking = (1..=16).map(|count| ("unlocks in any order", unlocks(count)));
    let first = failing.chain(slipping).chain(waking);
    let plans = first.chain(waiting).chain(unlocking);
    plans
        .flat_map(|(name, draft)| played(name, &draft))
        .collect()
}

fn locked(count: usize, behind: &[Step]) -> Vec<Step> {
    locked_over(2 * count as u16, count, behind)
}

/// So many locks and the steps behind them. A store stands before the last
/// lock, which must not commit it unless it is the only one.
fn locked_over(address: u16, count: usize, behind: &[Step]) -> Vec<Step> {
    let mut own = each_lock(32, &some_locks(count));
    own.insert(count - 1, step(18, 0, address));
    own.extend_from_slice(behind);
    own
}

/// The end of the steps, an exit and a barrier with locks held, and a wait
/// behind as many unlocks.
fn failures(count: usize) -> Draft {
    let mut free = locked(count, &each_lock(33, &some_locks(count)));
    free.push(step(34, 0, 2));
    let steps = vec![
        locked(count, &[]),
        locked(count, &[step(38, 0, 0)]),
        locked(count, &[step(37, 0, 7)]),
        free,
    ];
    draft(&[(7, 1)], steps)
}

/// The first and the last of the locks taken once more, the unlock of a lock
/// that is none of them, and each unlock twice, the last one with none held.
/// With all sixteen held no unlock is wrong.
fn slips(count: usize) -> Draft {
    let locks = some_locks(count);
    let (first, last) = (locks[0], locks[count - 1]);
    let other = |lock: &u16| !locks.contains(lock);
    let wrong = (0..16).find(other).unwrap_or(first);
    let too_many = [each_lock(33, &locks), vec![step(33, 0, last)]].concat();
    let at_once = [step(33, 0, first), step(33, 0, first)];
    let steps = vec![
        locked(count, &[step(32, 0, first)]),
        locked(count, &[step(32, 0, last)]),
        locked(count, &[step(33, 0, wrong)]),
        locked(count, &too_many),
        locked(count, &at_once),
    ];
    draft(&[], steps)
}

/// A holder with locks wakes workers and keeps the token. What is stored
/// before a signal or a broadcast alone is committed by nothing else: each
/// worker has an address of its own.
fn signals(count: usize) -> Draft {
    let waiter = vec![step(32, 0, 0), step(34, 0, 1), step(33, 0, 0)];
    let mut workers = vec![waiter; 2];
    let holders: [&[u8]; 4] = [&[35, 36], &[36, 35], &[35], &[36]];
    for (ops, page) in holders.into_iter().zip(0..) {
        let wakes = ops.iter().zip(1..).map(|(&op, c)| step(op, 0, c));
        let behind: Vec<Step> = wakes.collect();
        workers.push(locked_over(
            256 * page + 2 * count as u16 - 1,
            count,
            &behind,
        ));
    }
    draft(&[], workers)
}

/// A worker waits with locks held, is woken in the same round and gives them
/// back, the first one first; a second one gives them back the other way, and
/// a third one is left waiting.
fn waits(count: usize) -> Draft {
    let mut locks = some_locks(count);
    let waits = locked(count, &[step(34, 0, 3)]);
    let first = [waits.clone(), each_lock(33, &locks)].concat();
    locks.reverse();
    let last = [waits, each_lock(33, &locks)].concat();
    let left = locked(count, &[step(34, 0, 4)]);
    let waker = vec![step(35, 0, 3), step(36, 0, 3)];
    draft(&[], vec![first, last, left, waker])
}

/// So many locks, and unlocks in several orders with a store behind each; the
/// last one commits what the others left. One worker keeps a lock, and loses
/// the stored bytes.
fn unlocks(count: usize) -> Draft {
    let locks = some_locks(count);
    let row = |(worker, order): (u16, Vec<u16>)| {
        let mut own = each_lock(32, &locks);
        for (place, lock) in order.into_iter().enumerate() {
            own.push(step(16, 0, 0x101 * (place as u16 + 1)));
            own.push(step(18, 0, 256 * worker + 2 * place as u16));
            own.push(step(33, 0, lock));
        }
        own
    };
    let reversed = locks.iter().rev().copied().collect();
    let mut rotated = locks.clone();
    rotated.rotate_left(count / 2);
    let kept = locks[..count - 1].to_vec();
    let orders = [locks.clone(), reversed, rotated, kept];
    draft(&[], (0..).zip(orders).map(row).collect())
}
