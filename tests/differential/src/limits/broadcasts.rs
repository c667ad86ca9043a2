//! Broadcasts: any number of woken workers in front of any rest of the list,
//! beside waiters on other conditions, behind wakings of the same holder, and
//! by turns within one round as long as the steps last.

use std::collections::VecDeque;

use simulator::generate::draft::step;
use simulator::generate::locks::each_lock;
use simulator::generate::Draft;
use simulator::Step;

use super::{draft, played, some_locks, times, Limit};

/// The condition that is broadcast.
const CALLED: u16 = 2;

/// A condition on which nobody waits; a signal of it takes a round.
const IDLE: u16 = 7;

/// Orders of arrival of waiters.
const ORDERS: [[usize; 7]; 3] = [
    [6, 5, 4, 3, 2, 1, 0],
    [3, 4, 5, 6, 0, 1, 2],
    [1, 0, 3, 2, 6, 4, 5],
];

/// Locks around a wait or a broadcast.
const COUNTS: [usize; 6] = [1, 2, 7, 8, 15, 16];

pub fn all() -> Vec<Limit> {
    let mut all = Vec::new();
    for held in [false, true] {
        for woken in 0..8 {
            all.extend((0..8 - woken).flat_map(|behind| into_list(woken, behind, held)));
            all.extend((1..8 - woken).flat_map(|others| beside(woken, others, held)));
        }
        all.extend((2..8).flat_map(|count| out_of_order(count, held)));
        all.extend((2..=8).flat_map(|workers| wait_again(workers, held)));
        all.extend(played("sleepers that wait", &sleepers_wait(held)));
    }
    for waiters in [(3, 3), (2, 1), (1, 2), (1, 1)] {
        all.extend((0..64).flat_map(|wakings| in_one_hold(waiters, wakings)));
    }
    for workers in 2..=8 {
        all.extend(played("signals by turns", &signals_by_turns(workers)));
        all.extend(played("broadcasts by turns", &broadcasts_by_turns(workers)));
    }
    let counted = COUNTS.map(counted);
    all.extend(
        counted
            .iter()
            .flat_map(|draft| played("counts kept", draft)),
    );
    all
}

/// Waits with a lock. When woken it doubles a word that all share and adds a
/// number of its own, so that memory shows who came when.
fn waiter(worker: usize, condition: u16) -> Vec<Step> {
    vec![
        step(32, 0, 1),
        step(34, 0, condition),
        step(17, 0, 255),
        step(19, 0, 0),
        step(16, 1, worker as u16 + 1),
        step(19, 0, 1),
        step(18, 0, 255),
        step(33, 0, 1),
    ]
}

/// These wakings, with a store in front of them that they must commit, and one
/// behind that comes with the next commit.
fn waker(wakings: &[Step], held: bool) -> Vec<Step> {
    let mut own: Vec<Step> = held.then(|| step(32, 0, 9)).into_iter().collect();
    own.extend([step(16, 0, 0x1122), step(18, 0, 255)]);
    own.extend(wakings);
    own.extend([step(16, 0, 0x3344), step(18, 0, 254)]);
    own.extend(held.then(|| step(33, 0, 9)));
    own
}

fn broadcast(condition: u16) -> Step {
    step(36, 0, condition)
}

/// So many are woken, with so many behind the holder in the list; of eight
/// workers the others have left.
fn into_list(woken: usize, behind: usize, held: bool) -> Vec<Limit> {
    let mut steps = vec![Vec::new(); 7 - woken - behind];
    steps.extend((0..woken).map(|worker| waiter(worker, CALLED)));
    steps.push(waker(&[broadcast(CALLED)], held));
    steps.extend(vec![vec![step(32, 0, 0), step(33, 0, 0)]; behind]);
    played("a broadcast into a list", &draft(&[], steps))
}

/// Waiters on the condition and on others by turns: on one other condition,
/// or each on one of its own. They are woken too, all of them later.
fn beside(woken: usize, others: usize, held: bool) -> Vec<Limit> {
    let mut all = Vec::new();
    for spread in [0, 1] {
        let other = |place: usize| (CALLED + 1 + (spread * place) as u16) % 8;
        let mut conditions: Vec<u16> = (0..others).map(other).collect();
        for place in 0..woken {
            conditions.insert((2 * place).min(conditions.len()), CALLED);
        }
        let each = |(worker, &condition)| waiter(worker, condition);
        let mut steps: Vec<Vec<Step>> = conditions.iter().enumerate().map(each).collect();
        let mut own = waker(&[broadcast(CALLED)], held);
        own.extend((0..others).map(|place| broadcast(other(place))));
        steps.push(own);
        all.extend(played("other conditions", &draft(&[], steps)));
    }
    all
}

/// The first so many of each order wait, each a round behind the one before.
fn out_of_order(count: usize, held: bool) -> Vec<Limit> {
    let of_order = |order: &[usize; 7]| {
        let mut steps = vec![Vec::new(); 8];
        for (late, &worker) in order[..count].iter().enumerate() {
            steps[worker] = times(late, 35, IDLE);
            steps[worker].extend(waiter(worker, CALLED));
        }
        steps[7] = times(count, 35, IDLE);
        steps[7].extend(waker(&[broadcast(CALLED)], held));
        played("waiters out of order", &draft(&[], steps))
    };
    ORDERS.iter().flat_map(of_order).collect()
}

/// All but one wait three times with one lock. Between two broadcasts the
/// first is woken by a signal and waits again, behind the others.
fn wait_again(workers: usize, held: bool) -> Vec<Limit> {
    let mut waits = times(3, 34, CALLED);
    waits.insert(0, step(32, 0, 0));
    waits.push(step(33, 0, 0));
    let mut steps = vec![waits; workers - 1];
    let mut own = waker(&[broadcast(CALLED)], held);
    own.extend(waker(&[step(35, 0, CALLED)], held));
    own.extend(times(3, 36, CALLED));
    steps.push(own);
    played("waits again", &draft(&[], steps))
}

/// The first worker starts all others, which wait, and broadcasts later.
fn sleepers_wait(held: bool) -> Draft {
    let mut own: Vec<Step> = (1..8).rev().map(|sleeper| step(39, 0, sleeper)).collect();
    own.extend(times(2, 35, IDLE));
    own.extend(waker(&[broadcast(CALLED)], held));
    let mut steps = vec![own];
    steps.extend((1..8).map(|worker| waiter(worker, CALLED)));
    draft(&[], steps).asleep(&[1, 2, 3, 4, 5, 6, 7])
}

/// Three wakings of one holder, each a signal or a broadcast of either of two
/// conditions, on which so many wait; one worker is behind it in the list.
fn in_one_hold(waiters: (usize, usize), wakings: u8) -> Vec<Limit> {
    let other = CALLED + 3;
    let mut conditions = vec![CALLED; waiters.0];
    conditions.extend(vec![other; waiters.1]);
    let each = |(worker, &condition)| waiter(worker, condition);
    let mut steps: Vec<Vec<Step>> = conditions.iter().enumerate().map(each).collect();
    let waking = |place: u8| {
        let choice = wakings >> (2 * place) & 3;
        step(35 + choice % 2, 0, [CALLED, other][usize::from(choice / 2)])
    };
    steps.push(waker(&[0, 1, 2].map(waking), true));
    steps.push(vec![step(36, 0, CALLED), step(36, 0, other)]);
    played("wakings of one holder", &draft(&[], steps))
}

/// Each waits on a condition of its own and signals that of the next worker,
/// as long as its steps last; the last one signals first.
fn signals_by_turns(workers: u16) -> Draft {
    let row = |worker: u16| {
        let pair = [step(34, 0, worker), step(35, 0, (worker + 1) % workers)];
        let skipped = usize::from(worker + 1 == workers);
        let mut own = vec![step(32, 0, 0)];
        own.extend(pair.into_iter().cycle().skip(skipped).take(126));
        own.push(step(33, 0, 0));
        own
    };
    draft(&[], (0..workers).map(row).collect())
}

/// All but one wait. That one broadcasts and waits, those woken wait again but
/// for the last, which does the same, as long as the steps last. At the end
/// all unlock.
fn broadcasts_by_turns(workers: u16) -> Draft {
    let mut order: VecDeque<usize> = (0..usize::from(workers)).collect();
    let mut steps = vec![vec![step(32, 0, 0)]; order.len()];
    let all_but_last = order.len() - 1;
    let mut again = 0;
    while steps.iter().all(|own| own.len() < 124) {
        for &worker in order.range(again..all_but_last) {
            steps[worker].push(step(34, 0, CALLED));
        }
        let holder = order[all_but_last];
        steps[holder].extend([broadcast(CALLED), step(34, 0, CALLED)]);
        order.rotate_right(1);
        again = 1;
    }
    for &worker in order.range(1..all_but_last) {
        steps[worker].push(step(34, 0, CALLED));
    }
    steps[order[all_but_last]].push(broadcast(CALLED));
    for own in &mut steps {
        own.push(step(33, 0, 0));
    }
    draft(&[], steps)
}

/// Three wait with so many locks, the same ones, and give them back, in front
/// of a broadcast of one that holds them too.
fn counted(count: usize) -> Draft {
    let locks = some_locks(count);
    let around = |inside: Step| [each_lock(32, &locks), vec![inside], each_lock(33, &locks)];
    let waits = around(step(34, 0, CALLED)).concat();
    let own = around(broadcast(CALLED)).concat();
    draft(&[], vec![waits.clone(), waits.clone(), waits, own])
}
