//! Plans that name bytes at every border, all bytes, all but one, and none, and
//! plans whose workers copy and commit pages of which they name a part. Each is
//! run from memories that differ in the bytes nobody named.

use simulator::format::{MEMORY_LENGTH, MOST_TURNS};
use simulator::generate::draft::step;
use simulator::generate::{Batch, Draft, Rng};
use simulator::Step;

use super::batches::BatchLimit;
use super::{draft, every_beginning, memory, played, refusals, Limit};

/// A register that nobody sets, so that its store writes zeros.
const UNSET: u8 = 3;

pub fn all() -> Vec<Limit> {
    let mut all: Vec<Limit> = edges().into_iter().flat_map(one_word).collect();
    all.extend(
        not_executed().iter().flat_map(|plan| {
            every_beginning("named by a step that is not executed", plan, &memory())
        }),
    );
    all.extend((0..8).flat_map(|page| played("every third byte unnamed", &thirds(page))));
    all.extend(
        shared_pages().iter().flat_map(|plan| {
            every_beginning("unnamed bytes in a page of several", plan, &memory())
        }),
    );
    all.extend(played("unnamed bytes in all pages", &all_pages()));
    for byte in ONLY_ONES {
        all.extend(played("every byte named but one", &all_but(byte)));
    }
    all.extend(played("every byte named", &all_but(MEMORY_LENGTH)));
    all.extend(
        none_named()
            .iter()
            .flat_map(|plan| played("no byte named", plan)),
    );
    all
}

/// Every refusal of a file, a list that is too long, and a turn of nobody.
pub fn refused() -> Vec<Limit> {
    let file = all_pages().file();
    let mut all = refusals::all();
    all.push(Limit::new("refused", file.clone(), vec![0; MOST_TURNS + 1]));
    all.push(Limit::new("refused", file, vec![0, 7, 8]));
    all
}

/// Calls of several plans: the last byte of one memory is beside the first of
/// the next, and a refused plan's is beside both.
pub fn batches() -> Vec<BatchLimit> {
    let store = |address: u16| {
        let own = vec![step(16, 0, 0xB1A2), step(18, 0, address)];
        draft(&[], vec![own]).file()
    };
    let [first, last, bad] = [0, 2_046, 2_047].map(store);
    let [none, other] = none_named().map(|plan| plan.file());
    let calls = [
        vec![store(1_000)],
        vec![last.clone(), none.clone()],
        vec![none, first.clone()],
        vec![last.clone(), first.clone()],
        vec![first, bad.clone(), last.clone(), bad.clone(), other],
        vec![bad; 3],
        vec![last; 40],
    ];
    let mut rng = Rng::new(77);
    let name = "at the limits: unnamed bytes of several plans".to_string();
    let limit = |files: Vec<Vec<u8>>| BatchLimit {
        name: name.clone(),
        batch: Batch::of(&mut rng, &files),
    };
    calls.into_iter().map(limit).collect()
}

/// Addresses at both edges of every page, the last ones of memory included.
fn edges() -> Vec<u16> {
    let of_page = |page: u16| [0, 1, 253, 254, 255].map(|place| 256 * page + place);
    let all = (0..8).flat_map(of_page);
    all.filter(|&address| address <= 2_046).collect()
}

/// A word at an address, loaded and kept elsewhere, or stored, or both. A second
/// worker has a copy of the page from before and commits another byte of it.
fn one_word(address: u16) -> Vec<Limit> {
    let middle = address / 256 * 256 + 100;
    let stores = vec![step(16, 0, 0xB1A2), step(18, 0, address)];
    let loads = vec![step(17, 0, address), step(18, 0, middle)];
    let adds = [
        &[step(32, 0, 0), step(17, 0, address), step(19, 0, 0)][..],
        &[step(18, 0, address), step(33, 0, 0)],
    ];
    let beside = vec![step(16, 1, 0xC0D1), step(18, 1, middle + 3)];
    let plans = [stores, loads, adds.concat()].map(|own| draft(&[], vec![own, beside.clone()]));
    let played = |plan: &Draft| played("a named word at an edge", plan);
    plans.iter().flat_map(played).collect()
}

/// Loads and stores that are skipped, that stand behind an exit or a failure or
/// a wait for ever, and those of a sleeper whom nobody starts. One worker
/// commits a word beside theirs, and has loaded one from another page.
fn not_executed() -> Vec<Draft> {
    let commits = vec![step(17, 2, 1_300), step(16, 0, 0x1718), step(18, 0, 703)];
    let before: [&[Step]; 5] = [
        &[step(21, 0, 2)],
        &[step(38, 0, 0)],
        &[step(18, 1, 709), step(33, 0, 4)],
        &[step(32, 0, 4), step(34, 0, 1)],
        &[],
    ];
    let theirs = [step(18, UNSET, 700), step(17, 1, 706)];
    let plan = |own: &[Step]| draft(&[], vec![commits.clone(), [own, &theirs].concat()]);
    let mut plans: Vec<Draft> = before.into_iter().map(plan).collect();
    let sleeping = plans.pop().expect("the last of them");
    plans.push(sleeping.asleep(&[1]));
    plans
}

/// In one page words with a byte between each that nobody names. Three workers
/// store them at once, each another third of them.
fn thirds(page: u16) -> Draft {
    let own = |worker: u16| {
        let words = (0..85).filter(move |word| word % 3 == worker);
        let store = move |word: u16| step(18, (word % 4) as u8, 256 * page + 3 * word);
        let set = |register: u16| step(16, register as u8, 0x0101 * (5 * worker + register));
        (0..4).map(set).chain(words.map(store)).collect()
    };
    draft(&[], (0..3).map(own).collect())
}

/// A race with a failure that loses its bytes, and one whose page is copied,
/// committed and copied again, by locks, a wait, a signal, a barrier and a start.
fn shared_pages() -> [Draft; 4] {
    let store = |word: u16, address: u16| vec![step(16, 0, word), step(18, 0, address)];
    let fails = [store(0x0505, 600), vec![step(33, 0, 0)]].concat();
    let adds = |address: u16| {
        let add = [step(17, 0, address), step(16, 1, 1), step(19, 0, 1)];
        let locked = [step(18, 0, address), step(33, 0, 0)];
        [&[step(32, 0, 0)][..], &add, &locked].concat()
    };
    let meets = |own: Vec<Step>| [own, vec![step(37, 0, 0)], store(0x0A0B, 609)].concat();
    let waits = [
        store(7, 600),
        vec![step(32, 0, 0), step(34, 0, 0), step(18, 0, 603)],
    ]
    .concat();
    let wakes = [store(9, 606), vec![step(35, 0, 0), step(18, 0, 600)]].concat();
    let starts = [store(3, 603), vec![step(39, 0, 1), step(18, 0, 606)]].concat();
    [
        draft(&[], vec![fails, store(0x0100, 602), store(1, 602)]),
        draft(&[], vec![adds(600), adds(603), adds(600)]),
        draft(&[(0, 2)], vec![meets(store(1, 600)), meets(adds(603))]),
        draft(&[], vec![[starts, wakes].concat(), waits]).asleep(&[1]),
    ]
}

/// Eight workers store a word in each page, all before the first commit.
fn all_pages() -> Draft {
    let own = |worker: u16| {
        let store = move |page: u16| step(18, 0, 256 * page + 32 * worker + page);
        let set = step(16, 0, 0x2122 + 0x0101 * worker);
        [set].into_iter().chain((0..8).map(store)).collect()
    };
    draft(&[], (0..8).map(own).collect())
}

/// Only the word at 0 covers byte 0, and only that at 2,046 covers byte 2,047; so
/// neither 1 nor 2,046 can be the only byte that nobody names.
const ONLY_ONES: [usize; 8] = [0, 2, 255, 256, 511, 1_000, 2_045, 2_047];

/// The longest plan, whose steps cover all words at even addresses, but that of
/// a byte, whose other byte is covered by the step beside it.
fn all_but(byte: usize) -> Draft {
    let address = |word: usize| match byte / 2 == word {
        true if byte % 2 == 1 => byte - 2,
        true => byte + 1,
        false => 2 * word,
    };
    let own = |worker: usize| {
        let each = |place: usize| {
            let word = 128 * worker + place;
            step(17 + (word % 2) as u8, 0, address(word) as u16)
        };
        (0..128).map(each).collect()
    };
    draft(&[], (0..8).map(own).collect())
}

/// Plans without loads and stores: one without steps, and one with others.
fn none_named() -> [Draft; 2] {
    let own = vec![
        step(16, 0, 2_046),
        step(32, 0, 0),
        step(36, 0, 7),
        step(33, 0, 0),
        step(37, 0, 5),
    ];
    [draft(&[], vec![Vec::new()]), draft(&[(5, 1)], vec![own; 8])]
}
