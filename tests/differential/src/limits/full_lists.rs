//! Turn lists of 65,534, 65,535 and 65,536 turns, and other ones whose last
//! turn has a number at a limit; turns that name nobody.

use simulator::generate::Draft;
use simulator::{Machine, Plan};

use super::{memory, moving_turns, plan_of, rising, Limit};

/// Full lists whose last turn is each move of a plan; ones that fill up at
/// each place where some turn passes; misnamed ones.
pub fn all() -> Vec<Limit> {
    let draft = meeting();
    let (file, plan) = (draft.file(), plan_of(&draft));
    let moves = moving_turns(&plan, &rising(&plan));
    let whole = moves.len();
    let idle = |at: &usize| passing(&plan, &moves[..*at]).is_some();
    let places: Vec<usize> = (0..whole).filter(idle).collect();
    let ends = |cut| (cut, places[0], 65_535);
    let fills = |&at| (whole, at, 65_535);
    let mut lists: Vec<_> = (places[0] + 1..=whole).map(ends).collect();
    lists.extend(places.iter().map(fills));
    lists.extend((whole - 2..=whole).map(|cut| (cut, places[0], 65_534)));
    lists.push((whole, places[0], 65_536));
    let lengths = [255, 256, 257, 32_767, 32_768, 32_769];
    lists.extend(lengths.map(|length| (whole, places[0], length)));
    let list = |(cut, at, length)| {
        let turns = padded(&plan, &moves[..cut], at, length);
        Limit::new("a full list", file.clone(), turns)
    };
    let mut all: Vec<Limit> = lists.into_iter().map(list).collect();
    all.extend(misnamed_in_full_lists(&file));
    all.extend((1..=8).flat_map(misnamed));
    all
}

/// Two workers that lock, wait, signal and have steps of their own.
fn meeting() -> Draft {
    let waiter = [
        (16, 1, 258),
        (32, 0, 0),
        (34, 0, 6),
        (18, 1, 255),
        (33, 0, 0),
    ];
    let waker = [
        (18, 2, 600),
        (16, 2, 7),
        (35, 0, 6),
        (17, 0, 255),
        (18, 0, 2_046),
    ];
    Draft::from_rows(&[], &[&waiter, &waker])
}

/// A worker whose turn passes behind these moves.
fn passing(plan: &Plan, moves: &[u8]) -> Option<u8> {
    let mut machine = Machine::new(plan, &memory());
    for &turn in moves {
        machine.turn(usize::from(turn));
    }
    let passes = |worker: &u8| !machine.clone().turn(usize::from(*worker));
    rising(plan).into_iter().find(passes)
}

/// These moves with turns that pass put in behind `at` of them, so that the
/// list gets its length.
fn padded(plan: &Plan, moves: &[u8], at: usize, length: usize) -> Vec<u8> {
    let idle = passing(plan, &moves[..at]).expect("a place where a turn passes");
    let between = vec![idle; length - moves.len()];
    [&moves[..at], &between, &moves[at..]].concat()
}

fn misnamed_in_full_lists(file: &[u8]) -> Vec<Limit> {
    let list = |place: usize| {
        let mut turns = vec![1; 65_535];
        turns[place] = 2;
        Limit::new("a full list with a wrong turn", file.to_vec(), turns)
    };
    [0, 1, 32_768, 65_533, 65_534].map(list).into()
}

/// The greatest turns that a plan of so many workers allows, and greater.
fn misnamed(workers: u8) -> Vec<Limit> {
    let rows: Vec<&[(u8, u8, u16)]> = vec![&[]; usize::from(workers)];
    let file = Draft::from_rows(&[], &rows).file();
    let list = |turn: u8| Limit::new("the turn n", file.clone(), vec![0, turn, 0]);
    [workers - 1, workers, 128, 255].map(list).into()
}
