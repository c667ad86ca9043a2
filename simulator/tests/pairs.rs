//! Runs of one plan under one turn list, from memories that differ only in bytes
//! nobody named: what is promised of them, on both of the simulator's runs, and
//! that the test of it is able to fail.

use simulator::format::{records_of, MEMORY_LENGTH};
use simulator::generate::buffers::memory;
use simulator::generate::last_turn::cut_moves;
use simulator::generate::{changed, plan, turns, Batches, Change, Draft, PlanKind, Rng, TurnKind};
use simulator::pair::{parting, Left, Parting};
use simulator::{check, play_rounds, play_turns, run_all, Named, Outcome, Plan};

const PAGE: usize = 256;

fn left<'a>(lent: &'a [u8], outcome: &'a Outcome) -> Left<'a> {
    Left {
        lent,
        memory: &outcome.memory,
        log: &outcome.log,
        report: &outcome.report,
    }
}

/// A plan with its file and the memories of a pair.
struct Pair<'a> {
    plan: &'a Plan,
    file: &'a [u8],
    lent: [&'a [u8]; 2],
}

impl Pair<'_> {
    /// Plays both the same way. They may not part.
    fn play(&self, run: &dyn Fn(&Plan, &[u8]) -> Outcome) -> [Outcome; 2] {
        let outcomes = self.lent.map(|lent| run(self.plan, lent));
        let each = |which: usize| left(self.lent[which], &outcomes[which]);
        let [first, second] = [0, 1].map(each);
        assert_eq!(parting(&Named::by(self.file), &first, &second), None);
        outcomes
    }

    /// A page in which commits have changed bytes, and in which a byte that
    /// nobody named differs.
    fn beside_commits(&self, outcome: &Outcome) -> bool {
        let [first, second] = self.lent;
        (0..MEMORY_LENGTH).step_by(PAGE).any(|at| {
            let page = at..at + PAGE;
            let committed = outcome.memory[page.clone()] != first[page.clone()];
            committed && first[page.clone()] != second[page]
        })
    }
}

/// How many runs of pairs there were, of each end and with each of these.
#[derive(Debug, Default)]
struct Seen {
    ends: [usize; 3],
    beside_commits: [usize; 3],
    failed: usize,
    asleep: usize,
    equal_sums: usize,
    nothing_to_change: usize,
}

impl Seen {
    fn note(&mut self, pair: &Pair, [first, second]: &[Outcome; 2]) {
        let end = usize::from(first.end());
        self.ends[end] += 1;
        self.beside_commits[end] += usize::from(pair.beside_commits(first));
        self.failed += usize::from(first.report[8..16].contains(&2));
        self.asleep += usize::from(first.report[8..16].contains(&5));
        let differ = pair.lent[0] != pair.lent[1];
        self.equal_sums += usize::from(differ && first.sum() == second.sum());
        self.nothing_to_change += usize::from(!differ);
    }

    /// One plan from a memory and others by each kind of change, under lists
    /// of several kinds and without turns.
    fn plan(&mut self, rng: &mut Rng, draft: &Draft) {
        let file = draft.file();
        let plan = check(&file).expect("an accepted plan");
        let start = memory(rng);
        let lists = lists(rng, draft, &start);
        for change in Change::ALL {
            let other = changed(rng, change, &file, &start);
            let pair = Pair {
                plan: &plan,
                file: &file,
                lent: [&start, &other],
            };
            self.note(&pair, &pair.play(&play_rounds));
            for list in &lists {
                let by_turns = |plan: &Plan, lent: &[u8]| play_turns(plan, lent, list);
                self.note(&pair, &pair.play(&by_turns));
            }
        }
    }
}

/// Shuffled turns, some of them only, and moves alone that are cut anywhere.
fn lists(rng: &mut Rng, draft: &Draft, start: &[u8]) -> [Vec<u8>; 3] {
    let (workers, steps) = (draft.workers(), draft.step_count());
    let kind = rng.pick(&TurnKind::CHEAP);
    [
        turns(rng, TurnKind::Shuffled, workers, steps),
        turns(rng, kind, workers, steps),
        cut_moves(rng, draft, start),
    ]
}

fn seen(seed: u64, kinds: &[PlanKind], count: usize) -> Seen {
    let mut rng = Rng::new(seed);
    let mut seen = Seen::default();
    for round in 0..count {
        let draft = plan(&mut rng, kinds[round % kinds.len()]);
        seen.plan(&mut rng, &draft);
    }
    seen
}

#[test]
fn small_plans() {
    let seen = seen(71, &PlanKind::SMALL, 400);
    assert!(seen.ends.iter().all(|&count| count > 500), "{seen:?}");
    let beside = seen.beside_commits;
    assert!(beside.iter().all(|&count| count > 150), "{seen:?}");
    assert!(seen.failed > 500 && seen.asleep > 200, "{seen:?}");
    assert!(seen.equal_sums > 200, "{seen:?}");
}

#[test]
fn plans_about_sums() {
    let seen = seen(72, &[PlanKind::Sums], 250);
    let beside = seen.beside_commits;
    assert!(beside.iter().all(|&count| count > 250), "{seen:?}");
}

#[test]
fn long_plans() {
    let kinds = [PlanKind::Longest, PlanKind::FullLog, PlanKind::LongQueues];
    let seen = seen(73, &kinds, 9);
    assert!(seen.ends[1] + seen.ends[2] > 50, "{seen:?}");
}

/// A plan that names every byte leaves nothing to change.
#[test]
fn plans_that_name_every_byte() {
    let own = |worker: u16| {
        let each = |place: u16| simulator::generate::draft::step(18, 0, 256 * worker + 2 * place);
        (0..128).map(each).collect()
    };
    let draft = Draft::new(&[], (0..8).map(own).collect());
    let mut seen = Seen::default();
    seen.plan(&mut Rng::new(74), &draft);
    let all: usize = seen.ends.iter().sum();
    assert_eq!((seen.nothing_to_change, seen.beside_commits), (all, [0; 3]));
}

/// Plans that are tried with changed bytes. Few of them load what they skip by.
const PLANS: usize = 4_000;

/// What a change of named bytes makes of plans: how many there were, and how
/// many then had another log, another report in front of the sum, another byte
/// of memory elsewhere, and any of these.
#[derive(Debug, Default)]
struct Contrast {
    plans: usize,
    logs: usize,
    reports: usize,
    memories: usize,
    any: usize,
}

impl Contrast {
    /// Plans by rounds, with all bytes changed that `pick` gives for a file.
    fn of(seed: u64, pick: &dyn Fn(&[u8]) -> Vec<usize>) -> Self {
        let mut rng = Rng::new(seed);
        let mut contrast = Contrast::default();
        for round in 0..PLANS {
            let kind = PlanKind::SMALL[round % PlanKind::SMALL.len()];
            let file = plan(&mut rng, kind).file();
            let start = memory(&mut rng);
            let mut other = start.clone();
            for address in pick(&file) {
                other[address] ^= 1 + rng.below(255) as u8;
            }
            contrast.note(&file, [&start, &other]);
        }
        contrast
    }

    fn note(&mut self, file: &[u8], lent: [&[u8]; 2]) {
        let plan = check(file).expect("an accepted plan");
        let [first, second] = lent.map(|lent| play_rounds(&plan, lent));
        let alike = |&address: &usize| lent[0][address] == lent[1][address];
        let parts = |address: usize| first.memory[address] != second.memory[address];
        let found = [
            first.log != second.log,
            first.report[..16] != second.report[..16],
            (0..MEMORY_LENGTH).filter(alike).any(parts),
        ];
        self.plans += 1;
        self.logs += usize::from(found[0]);
        self.reports += usize::from(found[1]);
        self.memories += usize::from(found[2]);
        self.any += usize::from(found.contains(&true));
        let runs = [left(lent[0], &first), left(lent[1], &second)];
        let seen = parting(&Named::by(file), &runs[0], &runs[1]).is_some();
        assert!(seen || !found.contains(&true));
    }
}

/// The addresses of loads and stores.
fn addresses(file: &[u8]) -> Vec<usize> {
    let steps = records_of(file).into_iter();
    let covering = steps.filter(|record| matches!(record.op, 17 | 18));
    covering.map(|record| usize::from(record.number)).collect()
}

/// The bytes that would seem free if a step covered its address alone.
fn seemingly_free(file: &[u8]) -> Vec<usize> {
    let own = addresses(file);
    (0..MEMORY_LENGTH).filter(|at| !own.contains(at)).collect()
}

#[test]
fn without_the_next_address_pairs_part() {
    let contrast = Contrast::of(75, &seemingly_free);
    assert!(contrast.any > 50 && contrast.memories > 30, "{contrast:?}");
}

#[test]
fn without_the_address_itself_pairs_part() {
    let only_next = |file: &[u8]| {
        let next: Vec<usize> = addresses(file).iter().map(|at| at + 1).collect();
        (0..MEMORY_LENGTH).filter(|at| !next.contains(at)).collect()
    };
    let contrast = Contrast::of(76, &only_next);
    assert!(
        contrast.any > 300 && contrast.memories > 300,
        "{contrast:?}"
    );
}

#[test]
fn named_bytes_matter() {
    let contrast = Contrast::of(77, &addresses);
    assert!(contrast.logs > 4 && contrast.reports > 10, "{contrast:?}");
    assert!(contrast.memories > 300, "{contrast:?}");
    // Bytes nobody named matter to none of the same plans.
    let contrast = Contrast::of(77, &|file| Named::by(file).unnamed());
    assert_eq!((contrast.plans, contrast.any), (PLANS, 0));
}

/// One byte changed in what a run leaves: the log, the report, the sum, memory.
fn spoiled(outcome: &Outcome, what: usize, place: usize) -> Outcome {
    let mut other = outcome.clone();
    let bytes = match what {
        0 => &mut other.log[..],
        1 => &mut other.report[..],
        _ => &mut other.memory[..],
    };
    bytes[place] ^= 1;
    other
}

/// A plan that stores a word at 10, from two memories that differ in all bytes
/// but those two, and what it leaves of both.
struct Stored {
    named: Named,
    lent: [Vec<u8>; 2],
    left: [Outcome; 2],
}

impl Stored {
    fn new() -> Self {
        let file = Draft::from_rows(&[], &[&[(16, 0, 0x0201), (18, 0, 10)]]).file();
        let plan = check(&file).expect("an accepted plan");
        let lent = [0, 9].map(|byte| {
            let mut lent = vec![byte; MEMORY_LENGTH];
            lent[10..12].fill(4);
            lent
        });
        Stored {
            named: Named::by(&file),
            left: lent.each_ref().map(|lent| play_rounds(&plan, lent)),
            lent,
        }
    }

    fn parting(&self, first: &Outcome, second: &Outcome) -> Option<Parting> {
        let [one, other] = &self.lent;
        parting(&self.named, &left(one, first), &left(other, second))
    }
}

#[test]
fn each_parting_is_seen() {
    let stored = Stored::new();
    let [first, second] = &stored.left;
    assert_eq!(stored.parting(first, second), None);
    let cases = [
        (0, 7, Parting::Log { place: 7 }),
        (1, 0, Parting::Report { place: 0 }),
        (1, 15, Parting::Report { place: 15 }),
        (2, 10, Parting::Memory { address: 10 }),
        (2, 11, Parting::Memory { address: 11 }),
    ];
    for (what, place, wanted) in cases {
        let [one, other] = [first, second].map(|left| spoiled(left, what, place));
        assert_eq!(stored.parting(&one, second), Some(wanted));
        assert_eq!(stored.parting(first, &other), Some(wanted));
    }
    for address in [0, 9, 12, 2_047] {
        let [one, other] = [first, second].map(|left| spoiled(left, 2, address));
        let unnamed = |run| Some(Parting::Unnamed { run, address });
        assert_eq!(stored.parting(&one, second), unnamed(0));
        assert_eq!(stored.parting(first, &other), unnamed(1));
    }
    let mut shorter = second.clone();
    shorter.log.clear();
    let wanted = Some(Parting::Log { place: 0 });
    assert_eq!(stored.parting(first, &shorter), wanted);
}

#[test]
fn another_sum_is_seen() {
    let stored = Stored::new();
    let [first, second] = &stored.left;
    // 9 in both bytes of 1,023 words.
    let lent = 1_023 * (9 + 9 * 256);
    let above = |one: &Outcome, other: &Outcome| i64::from(other.sum()) - i64::from(one.sum());
    assert_eq!(above(first, second), lent);
    for place in 16..20 {
        let one = spoiled(first, 1, place);
        let left = above(&one, second);
        assert_eq!((left - lent).abs(), 1 << (8 * (place - 16)));
        let wanted = Some(Parting::Sum { left, lent });
        assert_eq!(stored.parting(&one, second), wanted);
    }
}

/// The addresses that a change of this kind has changed.
fn changes(change: Change, file: &[u8], memory: &[u8]) -> Vec<usize> {
    let other = changed(&mut Rng::new(78), change, file, memory);
    let differs = |&at: &usize| other[at] != memory[at];
    (0..memory.len()).filter(differs).collect()
}

#[test]
fn changes_are_of_their_kind() {
    let file = Draft::from_rows(&[], &[&[(18, 0, 10), (17, 0, 511)]]).file();
    let memory: Vec<u8> = (0..MEMORY_LENGTH).map(|at| (at / 2) as u8).collect();
    let by = |change| changes(change, &file, &memory);
    assert_eq!(by(Change::Beside), [9, 12, 510, 513]);
    assert_eq!(by(Change::One).len(), 1);
    assert_eq!(by(Change::All), Named::by(&file).unnamed());
    assert_eq!(by(Change::All).len(), MEMORY_LENGTH - 4);
    let page: Vec<usize> = (0..PAGE).filter(|at| !matches!(at, 10 | 11)).collect();
    assert_eq!(by(Change::Copied), page);
    let some = by(Change::Some).len();
    assert!((400..1_000).contains(&some), "{some}");
    let two = by(Change::Exchanged);
    assert!(two.len() == 2 && two[0] % 2 == two[1] % 2, "{two:?}");
    // With no store nothing is copied, and with no named byte nothing is beside
    // one: all are changed then. Buffers of another length have what they have.
    let bare = Draft::from_rows(&[], &[&[]]).file();
    for change in [Change::Beside, Change::Copied] {
        assert_eq!(changes(change, &bare, &memory).len(), MEMORY_LENGTH);
    }
    assert_eq!(changes(Change::All, &file, &memory[..12]).len(), 10);
    assert!(changes(Change::All, &file, &[]).is_empty());
}

/// Calls of several plans: each plan's pair is one of its own.
#[test]
fn many_plans_in_one_call() {
    let source = Batches::new();
    let mut accepted = 0;
    for seed in 0..400 {
        let (_, first) = source.of(seed);
        let mut rng = Rng::new(!seed);
        let mut calls = [first.clone(), first.clone()];
        if calls[0].run() != 0 {
            continue;
        }
        let files = simulator::batch::cut(&first.files, &first.lengths);
        let lent = |place: usize| &first.lent[0][place * MEMORY_LENGTH..][..MEMORY_LENGTH];
        let others: Vec<Vec<u8>> = (0..files.len())
            .map(|place| changed(&mut rng, Change::All, files[place], lent(place)))
            .collect();
        calls[1].lent[0] = others.concat();
        let buffers = calls[1].lent.each_mut().map(Vec::as_mut_slice);
        assert_eq!(
            run_all(first.count, &first.files, &first.lengths, buffers),
            0
        );
        assert_eq!(calls[0].lent[3], calls[1].lent[3]);
        for (place, file) in files.iter().enumerate() {
            let memories = [lent(place), &others[place]];
            accepted += usize::from(parts_of_a_plan(&calls, place, memories, file));
        }
    }
    assert!(accepted > 500, "{accepted}");
}

/// Holds a plan's parts in two calls against each other; says whether it is
/// accepted. A refused one's memory is as it was lent.
fn parts_of_a_plan(
    calls: &[simulator::generate::Batch; 2],
    place: usize,
    lent: [&[u8]; 2],
    file: &[u8],
) -> bool {
    let part = |call: usize, which: usize| {
        let unit = simulator::batch::UNITS[which];
        &calls[call].lent[which][place * unit..][..unit]
    };
    let runs = [0, 1].map(|call: usize| Left {
        lent: lent[call],
        memory: part(call, 0),
        log: part(call, 1),
        report: part(call, 2),
    });
    if calls[0].lent[3][place] != 0 {
        assert!(runs.iter().all(|run| run.memory == run.lent));
        return false;
    }
    assert_eq!(parting(&Named::by(file), &runs[0], &runs[1]), None);
    true
}
