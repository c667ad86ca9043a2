//! Queues of up to eight workers that come in another order than their own.

use simulator::generate::draft::step;
use simulator::generate::Draft;
use simulator::Step;

use super::{draft, played, times, Limit};

/// Orders of arrival of eight workers.
const ORDERS: [[usize; 8]; 4] = [
    [7, 6, 5, 4, 3, 2, 1, 0],
    [3, 4, 5, 6, 7, 0, 1, 2],
    [1, 3, 5, 7, 0, 2, 4, 6],
    [4, 0, 6, 2, 7, 1, 5, 3],
];

/// How waiters are woken: op, and whether under a lock.
const WAKINGS: [(u8, bool); 4] = [(35, false), (36, false), (35, true), (36, true)];

pub fn all() -> Vec<Limit> {
    let numbers = (0..8).flat_map(of_number);
    let again = WAKINGS.into_iter().flat_map(again);
    let barriers = (2..=8).flat_map(|count| played("several barriers", &several_barriers(count)));
    let conditions = (2..=8).flat_map(at_several);
    let all = numbers.chain(again).chain(barriers).chain(conditions);
    all.collect()
}

/// Queues of the condition and of the barrier of this number.
fn of_number(number: u16) -> Vec<Limit> {
    let mut all = played("seven at a barrier", &one_short(number));
    for order in ORDERS {
        all.extend(at_condition(number, order));
        all.extend((1..=8).flat_map(|size| at_barrier(number, size, order)));
    }
    all
}

fn again((op, locked): (u8, bool)) -> Vec<Limit> {
    let drafts = (1..=6).map(|others| waits_again(others, op, locked));
    let each = |draft| played("a wait behind others again", &draft);
    drafts.flat_map(each).collect()
}

fn at_several(conditions: u16) -> Vec<Limit> {
    let drafts = ORDERS.map(|order| several(conditions, order));
    let each = |draft| played("several conditions", draft);
    drafts.iter().flat_map(each).collect()
}

/// Signals that wake nobody; each takes a round, so that workers with more of
/// them come later. Nobody waits on this condition.
fn rounds(count: usize, beside: u16) -> Vec<Step> {
    times(count, 35, (beside + 1) % 8)
}

/// So many signals of a condition, or broadcasts, of which the first wakes
/// all, in rounds or in one hold.
fn wakes(count: usize, condition: u16, op: u8, locked: bool) -> Vec<Step> {
    let mut steps = times(count, op, condition);
    if locked {
        steps.insert(0, step(32, 0, 5));
        steps.push(step(33, 0, 5));
    }
    steps
}

fn at_condition(condition: u16, order: [usize; 8]) -> Vec<Limit> {
    let each = |(op, locked)| seven_waiters(condition, order, op, locked);
    let woken = WAKINGS.map(each);
    let named = |draft| played("seven waiters", draft);
    let mut all: Vec<Limit> = woken.iter().flat_map(named).collect();
    all.extend(played("eight waiters", &eight_waiters(condition, order)));
    all
}

/// The worker of the condition's number wakes the others, which come in this
/// order.
fn seven_waiters(condition: u16, order: [usize; 8], op: u8, locked: bool) -> Draft {
    let waker = usize::from(condition);
    let waiters = order.into_iter().filter(|&worker| worker != waker);
    let mut steps = vec![Vec::new(); 8];
    for (late, worker) in waiters.enumerate() {
        steps[worker] = rounds(late, condition);
        steps[worker].extend([step(32, 0, 1), step(34, 0, condition), step(33, 0, 1)]);
    }
    steps[waker] = rounds(8, condition);
    steps[waker].extend(wakes(7, condition, op, locked));
    draft(&[], steps)
}

fn eight_waiters(condition: u16, order: [usize; 8]) -> Draft {
    let mut steps = vec![Vec::new(); 8];
    for (late, worker) in order.into_iter().enumerate() {
        steps[worker] = rounds(late, condition);
        steps[worker].extend([step(32, 0, 1), step(34, 0, condition)]);
    }
    draft(&[], steps)
}

/// Eight workers come to a barrier twice, the first time in this order. What
/// they do behind it shows the order in which they are freed.
fn at_barrier(barrier: u16, size: u16, order: [usize; 8]) -> Vec<Limit> {
    let mut steps = vec![Vec::new(); 8];
    for (late, worker) in order.into_iter().enumerate() {
        steps[worker] = rounds(late, barrier);
        steps[worker].extend([step(37, 0, barrier), step(36, 0, 7), step(37, 0, barrier)]);
    }
    played(
        "a barrier of a size",
        &draft(&[(barrier as u8, size)], steps),
    )
}

/// Seven workers come to a barrier of eight, and one exits.
fn one_short(exiting: u16) -> Draft {
    let row = |worker| match worker == exiting {
        true => vec![step(38, 0, 0)],
        false => vec![step(37, 0, 7 - exiting)],
    };
    draft(&[(7 - exiting as u8, 8)], (0..8).map(row).collect())
}

/// The first waiter waits again, behind so many others if it was woken by a
/// signal, and alone if they were all woken.
fn waits_again(others: usize, op: u8, locked: bool) -> Draft {
    let waits = [step(32, 0, 0), step(34, 0, 2), step(33, 0, 0)];
    let again = [
        step(32, 0, 0),
        step(34, 0, 2),
        step(34, 0, 2),
        step(33, 0, 0),
    ];
    let mut waker = rounds(others + 2, 2);
    waker.extend(wakes(1, 2, op, false));
    waker.extend(wakes(others + 1, 2, op, locked));
    let mut steps = vec![waker];
    for late in (1..=others).rev() {
        let mut own = rounds(late, 2);
        own.extend(waits);
        steps.push(own);
    }
    steps.push(again.to_vec());
    draft(&[], steps)
}

/// Workers wait on so many conditions by turns, in this order; while there
/// are less than eight conditions the last worker in the order wakes them.
/// As all conditions are in use, a barrier of one worker takes the rounds.
fn several(conditions: u16, order: [usize; 8]) -> Draft {
    let waiters = if conditions == 8 { 8 } else { 7 };
    let mut steps = vec![Vec::new(); 8];
    for (late, &worker) in order[..waiters].iter().enumerate() {
        let condition = late as u16 % conditions;
        steps[worker] = times(late, 37, 0);
        steps[worker].extend([step(32, 0, 1), step(34, 0, condition), step(33, 0, 1)]);
    }
    if conditions < 8 {
        let waker = &mut steps[order[7]];
        *waker = times(8, 37, 0);
        let woken = (0..14).map(|turn| step(35 + turn % 2, 0, u16::from(turn) % conditions));
        waker.extend(woken);
    }
    draft(&[(0, 1)], steps)
}

/// So many workers come to a barrier of two each, the highest numbers being
/// in use; the others come to these barriers a round later, in another order.
fn several_barriers(barriers: usize) -> Draft {
    let name = |place: usize| (8 - barriers + place) as u16;
    let mut steps = vec![Vec::new(); 8];
    for (worker, own) in steps.iter_mut().enumerate() {
        match worker < barriers {
            true => own.push(step(37, 0, name(worker))),
            false => own.extend([step(36, 0, 0), step(37, 0, name((7 - worker) % barriers))]),
        }
    }
    let sizes: Vec<(u8, u16)> = (8 - barriers..8)
        .map(|barrier| (barrier as u8, 2))
        .collect();
    draft(&sizes, steps)
}
