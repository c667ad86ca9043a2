//! Every worker, count of workers, register and number that a step can have.

use simulator::generate::draft::step;
use simulator::generate::Draft;
use simulator::Step;

use super::{draft, played, times, Limit};

pub fn all() -> Vec<Limit> {
    let mut all: Vec<Limit> = (1..=8).flat_map(by_workers).collect();
    all.extend((0..16).flat_map(|number| played("a lock's number", &lock(number))));
    all.extend((0..8).flat_map(by_number));
    all.extend(played("registers never set", &never_set()));
    all.extend(played("sums by registers", &sums([65_535, 1], [0, 1])));
    all.extend(played("sums by registers", &sums([40_000, 30_000], [5, 9])));
    all.extend(played("numbers that are set", &set_numbers()));
    all
}

/// Plans of so many workers.
fn by_workers(workers: usize) -> Vec<Limit> {
    let none = draft(&[], vec![vec![]; workers]);
    let mut all = played("every op", &every_op(workers));
    all.extend(played("none has steps", &none));
    all.extend(played("stuck at a barrier", &too_large(workers)));
    all
}

/// Plans with the condition and the barrier of this number.
fn by_number(number: u16) -> Vec<Limit> {
    let mut all = played("a number met in failing", &failing(number));
    all.extend(played("a condition's number", &nobody_waits(number)));
    all
}

/// Each worker carries out every op but a wait, on addresses of its own; it
/// starts the next worker and itself, and nobody sleeps.
fn every_op(workers: usize) -> Draft {
    let row = |worker: u16| {
        let at = 250 * worker;
        let mut own = vec![step(16, 0, 1_000 + worker), step(17, 1, at + 20)];
        own.extend([step(19, 0, 1), step(18, 0, at + 40), step(20, 1, 0)]);
        own.extend([step(18, 1, at + 60), step(21, 1, 1), step(18, 0, at + 80)]);
        own.extend([step(22, 0, 1), step(18, 0, at + 90)]);
        own.extend([
            step(32, 0, worker),
            step(35, 0, worker),
            step(33, 0, worker),
        ]);
        let next = (worker + 1) % workers as u16;
        own.extend([step(39, 0, next), step(18, 1, at + 70), step(39, 0, worker)]);
        own.extend([step(36, 0, worker), step(37, 0, worker), step(38, 0, 0)]);
        own
    };
    let sizes: Vec<(u8, u16)> = (0..8).map(|barrier| (barrier, 1)).collect();
    draft(&sizes, (0..workers as u16).map(row).collect())
}

/// A barrier of eight, which fewer workers never fill; the first of eight
/// workers exits.
fn too_large(workers: usize) -> Draft {
    let mut steps = vec![vec![step(37, 0, 3)]; workers];
    if workers == 8 {
        steps[0] = vec![step(38, 0, 0)];
    }
    draft(&[(3, 8)], steps)
}

/// A lock and its unlock, a lock that fails, and unlocks that fail, behind the
/// right one and alone.
fn lock(number: u16) -> Draft {
    let section = [times(1, 32, number), times(2, 33, number)].concat();
    let steps = vec![section, times(2, 32, number), times(1, 33, number)];
    draft(&[], steps)
}

/// A wait without a count and a barrier with one.
fn failing(number: u16) -> Draft {
    let barrier = vec![step(32, 0, 0), step(37, 0, number)];
    draft(&[(number as u8, 2)], vec![times(1, 34, number), barrier])
}

fn nobody_waits(condition: u16) -> Draft {
    draft(&[], vec![times(1, 35, condition), times(1, 36, condition)])
}

/// Each of eight workers stores its registers as it finds them, and what an
/// unknown one adds and takes away.
fn never_set() -> Draft {
    let row = |worker: u16| {
        let at = 256 * worker;
        let found = (0..4).map(|register| step(18, register, at + 10 * u16::from(register)));
        let mut own: Vec<Step> = found.collect();
        own.extend([step(16, 0, 7), step(19, 0, 1), step(18, 0, at + 50)]);
        own.extend([step(20, 0, 2), step(18, 0, at + 60)]);
        own.extend([step(22, 3, 1), step(18, 0, at + 70)]);
        own
    };
    draft(&[], (0..8).map(row).collect())
}

/// Adds and subtracts every register to and from every one, each of the two
/// pairs of values being given in turn, and stores what comes out.
fn sums(add: [u16; 2], subtract: [u16; 2]) -> Draft {
    let each = |(op, values): (u8, [u16; 2])| {
        let pair = move |place: u16| {
            let (own, other) = (place as u8 / 4, place as u8 % 4);
            let at = 40 * place + 700 * u16::from(op - 19);
            let set = [step(16, own, values[0]), step(16, other, values[1])];
            [set, [step(op, own, u16::from(other)), step(18, own, at)]].concat()
        };
        (0..16).flat_map(pair)
    };
    let own = [(19, add), (20, subtract)].into_iter().flat_map(each);
    draft(&[], vec![own.collect()])
}

/// Numbers around each byte's limits, stored as they are set.
fn set_numbers() -> Draft {
    let numbers = [
        0, 1, 127, 128, 255, 256, 257, 32_767, 32_768, 65_534, 65_535,
    ];
    let each = |(place, number)| [step(16, 3, number), step(18, 3, 10 * place as u16)];
    let own = numbers.into_iter().enumerate().flat_map(each);
    draft(&[], vec![own.collect()])
}
