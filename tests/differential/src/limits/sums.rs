//! Commits and the sum of all words at even addresses. Each plan is cut behind
//! each of its moves, so that a commit that leaves the sum behind shows before
//! another one can hide it.

use simulator::format::MEMORY_LENGTH;
use simulator::generate::draft::step;
use simulator::generate::Draft;
use simulator::Step;

use super::{draft, every_beginning, memory, played, Limit};
use crate::tally::SUMS;

/// A register that nobody sets, so that its store writes zeros.
const UNSET: u8 = 3;

/// A barrier of two, at which one queues, and one of one, which is full.
const SIZES: [(u8, u16); 2] = [(0, 2), (1, 1)];

pub fn all() -> Vec<Limit> {
    let mut all = Vec::new();
    for writes in writings() {
        all.extend(committing(&writes).iter().flat_map(alone_and_beside));
        all.extend(failing(&writes).iter().flat_map(alone_and_beside));
    }
    all.extend(single_stores());
    all.extend(pairs_of_stores());
    all.extend([6, 7, 255, 256].into_iter().flat_map(as_the_twin_again));
    all.extend((0..7).flat_map(over_border));
    all.extend(SUMS.into_iter().flat_map(at_sum));
    all.extend(far_moves());
    all
}

fn store(word: u16, address: u16) -> Vec<Step> {
    vec![step(16, 0, word), step(18, 0, address)]
}

/// Steps on memory by which the sum rises, falls, and stays, at an even
/// address, an odd one and over a page border. No byte of memory is 0, and the
/// words that change places differ.
fn writings() -> Vec<Vec<Step>> {
    let mut all = Vec::new();
    for address in [6, 9, 255] {
        all.push(store(65_535, address));
        all.push(vec![step(18, UNSET, address)]);
        let other = address + 20;
        all.push(vec![
            step(17, 0, address),
            step(17, 1, other),
            step(18, 0, other),
            step(18, 1, address),
        ]);
    }
    all
}

/// A row of one worker, in a plan with these sleepers.
struct Case {
    steps: Vec<Step>,
    sleepers: Vec<u8>,
}

fn case(parts: &[&[Step]], sleepers: &[u8]) -> Case {
    Case {
        steps: parts.concat(),
        sleepers: sleepers.to_vec(),
    }
}

/// Every step that commits, behind these writes: with count 0, then inside a
/// lock.
fn committing(writes: &[Step]) -> Vec<Case> {
    let (lock, unlock) = ([step(32, 0, 4)], [step(33, 0, 4)]);
    let free = [[35, 0], [36, 0], [37, 0], [37, 1], [38, 0], [39, 0]];
    let held = [[35, 0], [36, 0], [39, 0]];
    let op = |[op, number]: [u16; 2]| [step(op as u8, 0, number)];
    let start = op([39, 1]);
    let mut all = vec![
        case(&[writes], &[]),
        case(&[writes, &lock, &unlock], &[]),
        case(&[&lock, writes, &unlock], &[]),
        case(&[&lock, writes, &op([34, 0])], &[]),
        case(&[writes, &start], &[1]),
        case(&[&lock, writes, &start, &unlock], &[1]),
    ];
    all.extend(free.map(|each| case(&[writes, &op(each)], &[])));
    all.extend(held.map(|each| case(&[&lock, writes, &op(each), &unlock], &[])));
    all
}

/// Every failure behind these writes, and one behind a commit.
fn failing(writes: &[Step]) -> Vec<Case> {
    let lock = [step(32, 0, 4)];
    let op = |op: u8, number: u16| [step(op, 0, number)];
    vec![
        case(&[writes, &op(33, 4)], &[]),
        case(&[&lock, writes, &op(33, 5)], &[]),
        case(&[&lock, writes, &op(32, 4)], &[]),
        case(&[writes, &op(34, 0)], &[]),
        case(&[&lock, writes, &op(37, 1)], &[]),
        case(&[&lock, writes, &op(38, 0)], &[]),
        case(&[&lock, writes], &[]),
        case(&[&store(0x0102, 300), &lock, writes, &op(38, 0)], &[]),
    ]
}

/// A row with no other that writes, and with one before it and one behind it
/// that write over the same words.
fn alone_and_beside(case: &Case) -> Vec<Limit> {
    let name = "a commit alone behind a store";
    let sleeper = store(0x5A5B, 500);
    let alone = match case.sleepers.is_empty() {
        true => vec![case.steps.clone()],
        false => vec![case.steps.clone(), sleeper],
    };
    let others = [store(0x0203, 8), store(0x0405, 255), store(0x0306, 6)];
    let mut beside = alone.clone();
    beside.push(others.concat());
    let plans = [alone, beside].map(|steps| draft(&SIZES, steps).asleep(&case.sleepers));
    let cut = |plan: &Draft| every_beginning(name, plan, &memory());
    plans.iter().flat_map(cut).collect()
}

/// Memories of the least sum, of the greatest one, and one in between.
fn memories() -> [Vec<u8>; 3] {
    [vec![0; MEMORY_LENGTH], vec![255; MEMORY_LENGTH], memory()]
}

/// One store each at an even and at an odd address, of words that change
/// either byte by the least and by the most.
fn single_stores() -> Vec<Limit> {
    let words = [0, 1, 255, 256, 65_280, 65_535, 0xFFFE, 0xFEFF, 0xFEFE];
    let mut all = Vec::new();
    for start in memories() {
        for address in [6, 7, 255, 2_045, 2_046] {
            let plans = words.map(|word| draft(&[], vec![store(word, address)]));
            let cut = |plan: &Draft| every_beginning("one store", plan, &start);
            all.extend(plans.iter().flat_map(cut));
        }
    }
    all
}

/// Two workers store a word each at the same address or beside it, and a third
/// one adds what it sees, on every kind of memory.
fn pairs_of_stores() -> Vec<Limit> {
    let mut all = Vec::new();
    for place in 0..3 * 3 * 4 * 4 {
        let (one, other) = (place % 3, place / 3 % 3);
        let words = [0, 0x0100, 0x0201, 65_535];
        let [first, second] = [words[place / 9 % 4], words[place / 36]];
        let sees = [
            step(32, 0, 0),
            step(17, 0, 254),
            step(18, 0, 2),
            step(33, 0, 0),
        ];
        let steps = vec![
            store(first, 254 + one as u16),
            store(second, 254 + other as u16),
            sees.to_vec(),
        ];
        let plan = draft(&[], steps);
        let cut = |start: Vec<u8>| every_beginning("two stores", &plan, &start);
        all.extend(memories().into_iter().flat_map(cut));
    }
    all
}

/// One commits a word, a second one sees it and commits zeros, which the third
/// one, having copied zeros, writes over.
fn as_the_twin_again(address: u16) -> Vec<Limit> {
    let clears = vec![step(32, 0, 0), step(18, UNSET, address), step(33, 0, 0)];
    let steps = vec![store(0x0505, address), clears, store(0x0909, address)];
    let plan = draft(&[], steps);
    every_beginning("as its twin again", &plan, &[0; MEMORY_LENGTH])
}

/// A store over the border behind a page that changes neither byte, either, and
/// both; then the same word behind another worker's store of it.
fn over_border(page: u16) -> Vec<Limit> {
    let border = 256 * page + 255;
    let at = usize::from(border);
    let start = memory();
    let (low, high) = (u16::from(start[at]), u16::from(start[at + 1]));
    let mut all = Vec::new();
    for changed in 0..4 {
        let low = low ^ (changed & 1);
        let high = high ^ (changed >> 1);
        let own = store(low + 256 * high, border);
        let other = store(0x4142, border);
        for steps in [vec![own.clone()], vec![other, own]] {
            let plan = draft(&[], steps);
            all.extend(every_beginning("a border", &plan, &start));
        }
    }
    all
}

/// A memory of this sum: words of 65,535 from address 0 on, and the rest.
fn memory_of(sum: u32) -> Vec<u8> {
    let word = |place: u32| {
        let left = sum.saturating_sub(65_535 * place);
        left.min(65_535) as u16
    };
    (0..MEMORY_LENGTH as u32 / 2)
        .flat_map(|place| word(place).to_le_bytes())
        .collect()
}

/// A sum from the start on, and one that a commit reaches from the number below
/// it and from the number above.
fn at_sum(sum: u32) -> Vec<Limit> {
    let name = "a sum";
    let still = draft(&[], vec![Vec::new()]);
    let mut all = every_beginning(name, &still, &memory_of(sum));
    let moves = |op: u8, from: u32| {
        let address = 2 * (from.min(sum) / 65_535) as u16;
        let own = vec![
            step(17, 0, address),
            step(16, 1, 1),
            step(op, 0, 1),
            step(18, 0, address),
        ];
        every_beginning(name, &draft(&[], vec![own]), &memory_of(from))
    };
    if sum > 0 {
        all.extend(moves(19, sum - 1));
    }
    if sum < SUMS[SUMS.len() - 1] {
        all.extend(moves(20, sum + 1));
    }
    all
}

/// The farthest that one commit can move the sum; and eight workers that lead
/// from the greatest sum to zero, and nearly from zero to the greatest.
fn far_moves() -> Vec<Limit> {
    let row = |worker: u16, register: u8| -> Vec<Step> {
        let at = |place: u16| 256 * worker + 2 * place;
        (0..128)
            .map(|place| step(18, register, at(place)))
            .collect()
    };
    let rises = |worker: u16| {
        let mut own = row(worker, 0);
        own[0] = step(16, 0, 65_535);
        own
    };
    let [empty, full, _] = memories();
    let falls = draft(&[], (0..8).map(|worker| row(worker, UNSET)).collect());
    let rises = draft(&[], (0..8).map(rises).collect());
    let mut all = Vec::new();
    for (plan, start) in [(falls, full), (rises, empty)] {
        all.extend(
            played("far moves", &plan)
                .into_iter()
                .map(|each| each.on(&start)),
        );
        let cut = every_beginning("far moves", &plan, &start);
        all.extend(cut.into_iter().rev().take(10));
    }
    all
}
