//! Writes plans as one data file, and the listing of each as text.
//!
//! `vectors DATA TEXT [--seed N]`. DATA is the count of plans and then, for
//! each, the length of its file and its bytes; count and lengths are two
//! bytes, low byte first. TEXT has for each plan a line `plan K`, counted
//! from 0, behind it the plan's listing and, for an accepted plan, a line
//! `memory S`: the sum over all addresses of (address + 1) × the byte that
//! the run leaves there. The program ends with 1 and writes nothing if an op,
//! a refusal of a file, a rule with its outcome, an end or a fate is missing.

#[path = "vectors/names.rs"]
mod names;

use std::collections::BTreeSet;
use std::process::ExitCode;
use std::{env, fs};

use simulator::counts::{Board, ROWS};
use simulator::format::{REPORT_FATES, REPORT_SUM};
use simulator::generate::damage::{
    barrier_damages, border_files, fault_pairs, single_faults, sleep_damages, start_damages,
};
use simulator::generate::faults::{faults, Fault, Field};
use simulator::generate::{damaged_files, plan, showcase, Draft, PlanKind, Rng};
use simulator::listing::{listing_turns, play_listed};
use simulator::{check, check_code, listing, Machine};

use names::names;

fn main() -> ExitCode {
    match write_all(&env::args().skip(1).collect::<Vec<_>>()) {
        Ok(count) => {
            println!("{count} plans");
            ExitCode::SUCCESS
        }
        Err(complaint) => {
            eprintln!("vectors: {complaint}");
            ExitCode::FAILURE
        }
    }
}

fn write_all(words: &[String]) -> Result<usize, String> {
    let (data, text, seed) = match words {
        [data, text] => (data, text, 1),
        [data, text, flag, seed] if flag == "--seed" => {
            (data, text, seed.parse().map_err(|_| "no number")?)
        }
        _ => return Err("wants DATA TEXT [--seed N]".to_string()),
    };
    let files = files(&mut Rng::new(seed));
    nothing_missing(&files)?;
    let write = |path: &String, bytes: &[u8]| {
        fs::write(path, bytes).map_err(|error| format!("{path}: {error}"))
    };
    write(data, &framed(&files))?;
    write(text, told(&files).as_bytes())?;
    Ok(files.len())
}

fn framed(files: &[Vec<u8>]) -> Vec<u8> {
    let two_bytes = |number: usize| u16::try_from(number).expect("a number of two bytes");
    let mut bytes = two_bytes(files.len()).to_le_bytes().to_vec();
    for file in files {
        bytes.extend(two_bytes(file.len()).to_le_bytes());
        bytes.extend(file);
    }
    bytes
}

fn told(files: &[Vec<u8>]) -> String {
    let each = |(number, file): (usize, &Vec<u8>)| {
        format!("plan {number}\n{}{}", listing(file), memory_line(file))
    };
    files.iter().enumerate().map(each).collect()
}

/// The line on the memory that a file leaves; nothing for a refused file.
fn memory_line(file: &[u8]) -> String {
    match play_listed(file) {
        Ok(outcome) => format!("memory {}\n", memory_sum(&outcome.memory)),
        Err(_) => String::new(),
    }
}

fn memory_sum(memory: &[u8]) -> u64 {
    let bytes = memory.iter().map(|&byte| u64::from(byte));
    bytes.zip(1..).map(|(byte, place)| place * byte).sum()
}

/// The paper's cases, those of its first two requests, the borders, runs of
/// every kind, refused files, and behind them the plans of the third request
/// and of the fifth.
fn files(rng: &mut Rng) -> Vec<Vec<u8>> {
    let mut files = Vec::new();
    files.extend(cases());
    files.extend(starts());
    files.extend(broadcasts());
    files.extend(borders(rng));
    for kind in PlanKind::SMALL {
        files.extend((0..11).map(|_| plan(rng, kind).file()));
    }
    for kind in PlanKind::LONG {
        files.push(plan(rng, kind).file());
    }
    files.extend(refused(rng));
    files.extend(sums());
    files.extend((0..7).map(|_| plan(rng, PlanKind::Sums).file()));
    files.extend(names());
    files.extend((0..7).map(|_| plan(rng, PlanKind::Names).file()));
    files.extend((0..3).map(|_| plan(rng, PlanKind::Deep).file()));
    files
}

type Row<'a> = &'a [(u8, u8, u16)];

/// Cases 1 to 9 in the paper's order, case 3 with its starting memory stored
/// in front of a barrier. Then case 9 with a broadcast in place of its signal,
/// and with either outside of a lock, and two waiting workers with one broadcast
/// and with two signals.
fn cases() -> Vec<Vec<u8>> {
    let adds: Row = &[(17, 0, 0), (16, 1, 1), (19, 0, 1), (18, 0, 0)];
    let locked = [&[(32, 0, 0)][..], adds, &[(33, 0, 0)]].concat();
    let waits: Row = &[(32, 0, 0), (34, 0, 0), (33, 0, 0)];
    let signals: Row = &[(32, 0, 0), (35, 0, 0), (33, 0, 0)];
    let broadcasts: Row = &[(32, 0, 0), (36, 0, 0), (33, 0, 0)];
    let race: [Row; 2] = [
        &[(17, 0, 2), (22, 0, 2), (16, 1, 1), (18, 1, 0)],
        &[(17, 0, 0), (22, 0, 2), (16, 1, 1), (18, 1, 2)],
    ];
    let stores: [Row; 2] = [&[(16, 0, 256), (18, 0, 0)], &[(16, 0, 1), (18, 0, 0)]];
    let five: Row = &[(16, 0, 5), (18, 0, 0)];
    let seven: Row = &[(16, 0, 7), (18, 0, 0)];
    let meets: Row = &[(37, 0, 0)];
    let none: &[(u8, u16)] = &[];
    let pair: &[(u8, u16)] = &[(0, 2)];
    let plans = [
        Draft::from_rows(none, &race),
        Draft::from_rows(none, &stores),
        Draft::from_rows(
            pair,
            &[&[five, meets, seven].concat(), &[meets, five].concat()],
        ),
        Draft::from_rows(none, &[&locked, &locked]),
        Draft::from_rows(none, &[adds, adds]),
        Draft::from_rows(none, &[&waits[..2]]),
        Draft::from_rows(none, &[&[(16, 0, 9), (18, 0, 0), (33, 0, 0)]]),
        Draft::from_rows(pair, &[meets, meets]),
        Draft::from_rows(none, &[waits, signals]),
        Draft::from_rows(none, &[waits, broadcasts]),
        Draft::from_rows(none, &[waits, &signals[1..2]]),
        Draft::from_rows(none, &[waits, &broadcasts[1..2]]),
        Draft::from_rows(none, &[waits, waits, broadcasts]),
        Draft::from_rows(none, &[waits, waits, &[signals, signals].concat()]),
    ];
    plans.iter().map(Draft::file).collect()
}

/// A plan of the first request, with a barrier of two workers.
fn sleeping(rows: &[Row], sleepers: &[u8]) -> Draft {
    Draft::from_rows(&[(0, 2)], rows).asleep(sleepers)
}

const ONE: Row = &[(16, 0, 0x0107), (18, 0, 0)];
const TWO: Row = &[(16, 0, 0x0209), (18, 0, 0)];

/// Nobody is ever started; one is started twice; a started worker starts
/// another; a start in a lock, with own steps and a barrier behind it, and
/// with a lock that commits again.
fn starts() -> Vec<Vec<u8>> {
    let sees: Row = &[(17, 1, 0), (18, 1, 4)];
    let locked = [
        &[(32, 0, 3)],
        ONE,
        &[(39, 0, 1), (18, 0, 2), (33, 0, 3)][..],
    ];
    let again = [
        ONE,
        &[(39, 0, 1), (18, 0, 2), (32, 0, 0)],
        TWO,
        &[(38, 0, 0)],
    ];
    let meets = [&[(39, 0, 2)], ONE, &[(37, 0, 0)]].concat();
    let plans = [
        sleeping(&[ONE, TWO], &[1]),
        sleeping(&[&[(39, 0, 1), (39, 0, 1)], TWO], &[1]),
        sleeping(&[&[(39, 0, 1)], &[(39, 0, 2)], TWO], &[1, 2]),
        sleeping(&[&locked.concat(), sees], &[1]),
        sleeping(&[&again.concat(), sees], &[1]),
        sleeping(&[&[(37, 0, 0)], &meets, sees], &[2]),
        sleeping(&[&meets, &[], sees], &[2]),
    ];
    let mut files: Vec<Vec<u8>> = plans.iter().map(Draft::file).collect();
    files.extend(starts_among_many());
    files
}

/// Starts of one that failed, exited, waits, queues, gave up the token, is the
/// caller or comes behind it; and those started, freed and done with the token
/// in one list.
fn starts_among_many() -> [Vec<u8>; 2] {
    let everybody = [0, 1, 2, 3, 4, 5, 6, 7].map(|target| (39, 0, target));
    let found: [Row; 8] = [
        &[(33, 0, 0)],
        &[],
        &[(32, 0, 0), (34, 0, 0)],
        &[(37, 0, 0)],
        &[(35, 0, 1)],
        &everybody,
        &everybody,
        TWO,
    ];
    let joined: [Row; 6] = [
        &[(35, 0, 0)],
        &[(37, 0, 0)],
        &[(39, 0, 5), (35, 0, 0)],
        &[(39, 0, 4), (37, 0, 0)],
        ONE,
        TWO,
    ];
    let found = sleeping(&found, &[7]);
    let joined = sleeping(&joined, &[4, 5]);
    [found.file(), joined.file()]
}

const LOCK: (u8, u8, u16) = (32, 0, 0);
const UNLOCK: (u8, u8, u16) = (33, 0, 0);
const WAIT: (u8, u8, u16) = (34, 0, 0);
const WAIT_ON_1: (u8, u8, u16) = (34, 0, 1);
const SIGNAL: (u8, u8, u16) = (35, 0, 0);
const SIGNAL_1: (u8, u8, u16) = (35, 0, 1);
const ALL: (u8, u8, u16) = (36, 0, 0);
const ALL_ON_1: (u8, u8, u16) = (36, 0, 1);

/// A wait on condition 0, and on condition 1, inside a lock.
const WAITS: Row = &[LOCK, WAIT, UNLOCK];
const OTHER: Row = &[LOCK, WAIT_ON_1, UNLOCK];

/// Plans of the second request. First each broadcast inside a lock and without
/// one: beside a waiter on another condition, with seven waiters, with nobody
/// waiting yet or nobody on this condition.
fn broadcasts() -> Vec<Vec<u8>> {
    let mut plans = Vec::new();
    for own in [&[ALL][..], &[LOCK, ALL, UNLOCK]] {
        plans.push(vec![WAITS, OTHER, WAITS, WAITS, own]);
        plans.push([&[WAITS; 7][..], &[own]].concat());
        plans.push(vec![own, WAITS, &[ALL]]);
        plans.push(vec![OTHER, own]);
    }
    plans.extend(of_one_holder());
    plans.extend(back_and_forth());
    let files = plans.iter().map(|rows| Draft::from_rows(&[], rows).file());
    files.chain(broadcasts_on_memory()).collect()
}

/// A signal and a broadcast of one holder, either first, and two broadcasts;
/// then waiters that came in another order than their own.
fn of_one_holder() -> [Vec<Row<'static>>; 4] {
    let section: Row = &[LOCK, UNLOCK];
    let signal_first: Row = &[LOCK, SIGNAL, ALL, UNLOCK];
    let signal_last: Row = &[LOCK, ALL, SIGNAL_1, UNLOCK];
    let both: Row = &[LOCK, ALL, ALL_ON_1, ALL, UNLOCK];
    let late: Row = &[SIGNAL_1, LOCK, WAIT, UNLOCK];
    [
        vec![WAITS, WAITS, WAITS, signal_first, section],
        vec![WAITS, WAITS, OTHER, signal_last],
        vec![WAITS, OTHER, WAITS, OTHER, both],
        vec![late, WAITS, &[SIGNAL_1, SIGNAL_1, ALL]],
    ]
}

/// Workers that wake each other by turns, so that more come into the list of
/// round 1 than the plan has.
fn back_and_forth() -> [Vec<Row<'static>>; 2] {
    let signals = vec![
        &[LOCK, WAIT, SIGNAL_1, WAIT, SIGNAL_1, UNLOCK][..],
        &[LOCK, SIGNAL, WAIT_ON_1, SIGNAL, WAIT_ON_1, UNLOCK],
    ];
    let broadcasts = vec![
        &[LOCK, WAIT, WAIT, ALL, UNLOCK][..],
        &[LOCK, WAIT, ALL, WAIT, UNLOCK],
        &[LOCK, ALL, WAIT, WAIT, UNLOCK],
    ];
    [signals, broadcasts]
}

/// The woken show in memory in which order they came, and what the holder had
/// committed; then counts that are kept, and a start in the same hold.
fn broadcasts_on_memory() -> [Vec<u8>; 4] {
    let doubles = [
        &[LOCK, WAIT, (17, 0, 0), (19, 0, 0), (18, 0, 0)],
        &[UNLOCK][..],
    ]
    .concat();
    let load: Row = &[LOCK, WAIT, (17, 0, 0), (16, 1, 1)];
    let adds = [load, &[(19, 0, 1), (18, 0, 0), UNLOCK]].concat();
    let free = [ONE, &[ALL], TWO].concat();
    let locked = [&[LOCK], ONE, &[ALL], TWO, &[UNLOCK]].concat();
    let twice: Row = &[LOCK, (32, 0, 1), WAIT, UNLOCK, (33, 0, 1)];
    let starts: Row = &[(39, 0, 4), ALL];
    let plans: [(&[Row], &[u8]); 4] = [
        (&[&doubles, &adds, &doubles, &free], &[]),
        (&[&doubles, &adds, &doubles, &locked], &[]),
        (&[twice, &[LOCK, WAIT], &[LOCK, WAIT, WAIT], &[ALL]], &[]),
        (&[WAITS, &[(37, 0, 0)], WAITS, starts, TWO], &[4]),
    ];
    plans.map(|(rows, sleepers)| sleeping(rows, sleepers).file())
}

/// Plans of the third request, each with two workers that write one word or
/// neighbours: a byte of it each, one byte with another value and with the same
/// one, words at odd addresses and over page borders; a byte that is zero again
/// when a third worker writes over it; two words that change places; bytes that
/// a failure loses, and some that an exit commits.
fn sums() -> Vec<Vec<u8>> {
    let stores = |word: u16, address: u16| [(16, 0, word), (18, 0, address)];
    let pairs = [
        [stores(256, 6), stores(1, 6)],
        [stores(7, 6), stores(9, 6)],
        [stores(0x0707, 6), stores(0x0708, 6)],
        [stores(0x0305, 7), stores(0x0906, 8)],
        [stores(0x0201, 255), stores(0x0403, 255)],
        [stores(0x0201, 511), stores(0x0403, 510)],
        [stores(0x0201, 2_045), stores(0x0403, 2_046)],
    ];
    let mut files: Vec<Vec<u8>> = pairs
        .iter()
        .map(|[one, two]| Draft::from_rows(&[], &[one, two]).file())
        .collect();
    let (five, nine) = (stores(5, 1), stores(9, 1));
    let clears: Row = &[LOCK, (18, 3, 1), UNLOCK];
    let swaps: Row = &[(17, 0, 0), (17, 1, 4), (18, 0, 4), (18, 1, 0)];
    let swapped = [&stores(258, 0)[..], &stores(772, 4), &[SIGNAL], swaps].concat();
    let lost = [&five[..], &[LOCK], &nine, &[(37, 0, 0)]].concat();
    let exits = [&five[..], &[(38, 0, 0)], &nine].concat();
    let plans: [&[Row]; 4] = [
        &[&five, clears, &nine],
        &[&swapped],
        &[&lost, &nine],
        &[&exits, &nine],
    ];
    files.extend(plans.map(|rows| sleeping(rows, &[]).file()));
    files
}

/// Case 11: what just passes and what just does not.
fn borders(rng: &mut Rng) -> Vec<Vec<u8>> {
    let one = |row: Row| Draft::from_rows(&[], &[row]).file();
    let empty = |count: usize| Draft::from_rows(&[], &vec![&[][..]; count]).file();
    let mut files = vec![
        one(&[(17, 0, 2_046)]),
        one(&[(18, 0, 2_046)]),
        one(&[(17, 0, 2_047)]),
        one(&[(18, 0, 2_047)]),
        empty(8),
        empty(9),
        one(&[(21, 0, 1), (16, 0, 0)]),
        one(&[(21, 0, 2), (16, 0, 0)]),
    ];
    let mut longer = plan(rng, PlanKind::Longest).file();
    files.push(longer.clone());
    let last = longer[longer.len() - 7..].to_vec();
    longer.extend(last);
    files.push(longer);
    let short = |file: &Vec<u8>| file.len() < 200;
    let at_limits = border_files(rng).into_iter().map(|each| each.file);
    files.extend(at_limits.filter(short));
    files
}

/// A file for every worker, register and number, and every barrier and sleep
/// record, that a plan with each op may not have. Last a skip too far, which the fault
/// behind it comes before.
fn refused_operands() -> Vec<Vec<u8>> {
    let own: Row = &[
        (16, 0, 1),
        (17, 1, 2_046),
        (18, 2, 255),
        (19, 3, 0),
        (20, 0, 3),
        (21, 1, 2),
        (22, 2, 1),
    ];
    let synchronising: Row = &[
        (32, 0, 15),
        (34, 0, 7),
        (33, 0, 15),
        (35, 0, 7),
        (36, 0, 0),
        (37, 0, 4),
        (39, 0, 1),
        (38, 0, 0),
    ];
    let sizes: [(u8, u16); 2] = [(1, 2), (4, 8)];
    let every_op = Draft::from_rows(&sizes, &[own, synchronising, &[]]).asleep(&[1, 2]);
    let in_operand =
        |fault: &Fault| matches!(fault.field, Field::Worker | Field::Register | Field::Number);
    let all = faults(&every_op).into_iter().zip(single_faults(&every_op));
    let operands = all
        .filter(|(fault, _)| in_operand(fault))
        .map(|each| each.1);
    let places = barrier_damages(&every_op).into_iter();
    let sleepers = sleep_damages(&every_op).into_iter().chain(start_damages());
    let damaged = operands.chain(places).chain(sleepers);
    let mut files: Vec<Vec<u8>> = damaged.map(|each| each.file).collect();
    files.push(Draft::from_rows(&[], &[&[(16, 0, 0), (21, 0, 127), (16, 4, 0)]]).file());
    files
}

/// Refused files: any field of any kind of record, two faults at once, and
/// the other ways of damage.
fn refused(rng: &mut Rng) -> Vec<Vec<u8>> {
    let small = Draft::from_rows(
        &[(1, 2), (4, 8)],
        &[
            &[(16, 0, 1), (22, 0, 1), (37, 0, 1)],
            &[(18, 3, 2_046), (32, 0, 15), (33, 0, 15), (38, 0, 0)],
            &[(39, 0, 1)],
        ],
    )
    .asleep(&[1, 2]);
    let mut files: Vec<Vec<u8>> = Vec::new();
    let picked = |count: usize, from: Vec<Vec<u8>>, rng: &mut Rng| -> Vec<Vec<u8>> {
        let each = (0..count).map(|_| from[rng.below(from.len())].clone());
        each.collect()
    };
    let bytes = |all: Vec<simulator::generate::Damaged>| -> Vec<Vec<u8>> {
        all.into_iter().map(|each| each.file).collect()
    };
    files.extend(refused_operands());
    files.extend(picked(50, bytes(single_faults(&small)), rng));
    files.extend(picked(30, bytes(fault_pairs(&small)), rng));
    let others = bytes(damaged_files(rng, 60));
    let short: Vec<Vec<u8>> = others.iter().filter(|f| f.len() < 400).cloned().collect();
    files.extend(picked(40, short, rng));
    for number in [1, 8, 10] {
        let of_number = |file: &&Vec<u8>| check_code(file) % 256 == number;
        files.extend(others.iter().filter(of_number).take(4).cloned());
    }
    files.push(showcase().file());
    files
}

/// What came up over all files.
struct Seen {
    counts: simulator::Counts,
    limits: Board,
    answers: BTreeSet<u32>,
    rules: BTreeSet<Rule>,
    ends: BTreeSet<u8>,
    fates: BTreeSet<u8>,
}

impl Seen {
    fn new() -> Self {
        Seen {
            counts: Default::default(),
            limits: Board::new(&ROWS),
            answers: BTreeSet::new(),
            rules: BTreeSet::new(),
            ends: BTreeSet::new(),
            fates: BTreeSet::new(),
        }
    }

    fn add(&mut self, file: &[u8]) {
        self.answers.insert(check_code(file) % 256);
        let Ok(plan) = check(file) else { return };
        let mut machine = Machine::new(&plan, &[0; 2_048]);
        for turn in listing_turns(&plan) {
            machine.turn(usize::from(turn));
        }
        self.counts.add(machine.counts());
        for &(limit, member) in &machine.counts().limits.met {
            self.limits.count(limit as usize, usize::from(member));
        }
        let outcome = machine.outcome();
        self.ends.insert(outcome.end());
        self.fates.extend(&outcome.report[REPORT_FATES..REPORT_SUM]);
        self.rules.extend(rules(&outcome.log));
    }
}

/// A rule as a log record shows it: the op, whether the worker held a lock
/// before, and the outcome, whoever a signal woke being 0.
type Rule = (u8, bool, u8);

fn rules(log: &[u8]) -> Vec<Rule> {
    let mut held = [0_u8; 8];
    let each = |record: &[u8]| {
        let (worker, op, outcome) = (usize::from(record[4]), record[5], record[7]);
        let held_one = held[worker] > 0;
        if op == 32 || op == 33 {
            held[worker] = outcome;
        }
        let woke = op == 35 && outcome < 8;
        (op, held_one, if woke { 0 } else { outcome })
    };
    log.chunks_exact(8).map(each).collect()
}

/// What commits come upon and which steps commit; the sum of the words cannot
/// fall in so many ways, since it is zero at first.
fn of_commits(name: &str) -> bool {
    let written = ["byte written by a commit", "word with bytes of two workers"];
    let rises = name.starts_with("commit that changes memory") && name.ends_with("rises");
    rises || written.iter().any(|row| name.starts_with(row))
}

/// How many locks are held behind each lock and unlock, what a lock or an
/// unlock comes to, and what of it others hold.
fn of_locks(name: &str) -> bool {
    let rows = [
        "lock, locks held behind it",
        "unlock, locks held behind it",
        "unlock with several locks held",
        "behind a wait with locks kept",
    ];
    rows.iter().any(|row| name.starts_with(row))
}

/// Every op executed, every refusal of a file, every rule with its outcomes,
/// every end and every fate that a plan that has ended can have, every step that
/// commits and what its bytes come upon, and what becomes of locks.
fn nothing_missing(files: &[Vec<u8>]) -> Result<(), String> {
    let mut seen = Seen::new();
    for file in files {
        seen.add(file);
    }
    let counts = seen.counts.rows();
    if let Some((name, _)) = counts.iter().find(|(_, count)| *count == 0) {
        return Err(format!("never came up: {name}"));
    }
    if seen.answers != (0..=10).chain([14]).collect() {
        return Err(format!("answers {:?}", seen.answers));
    }
    if seen.ends != BTreeSet::from([1, 2]) {
        return Err(format!("ends {:?}", seen.ends));
    }
    if seen.fates != BTreeSet::from([1, 2, 3, 4, 5, 255]) {
        return Err(format!("fates {:?}", seen.fates));
    }
    if let Some(name) = seen
        .limits
        .missing()
        .into_iter()
        .find(|name| of_commits(name) || of_locks(name))
    {
        return Err(format!("never came up: {name}"));
    }
    let missing = WANTED.iter().find(|rule| !seen.rules.contains(rule));
    missing.map_or(Ok(()), |rule| Err(format!("no record {rule:?}")))
}

/// What some plan must show.
const WANTED: [Rule; 35] = [
    (32, false, 1),
    (32, true, 2),
    (32, true, 16),
    (32, true, 254),
    (33, true, 0),
    (33, true, 1),
    (33, false, 254),
    (33, true, 15),
    (33, true, 254),
    (34, true, 255),
    (34, false, 254),
    (35, false, 0),
    (35, true, 0),
    (35, false, 255),
    (35, true, 255),
    (36, false, 0),
    (36, true, 0),
    (36, false, 1),
    (36, true, 1),
    (36, false, 2),
    (36, true, 2),
    (36, false, 3),
    (36, true, 3),
    (36, false, 7),
    (36, true, 7),
    (37, false, 0),
    (37, false, 1),
    (37, false, 2),
    (37, true, 254),
    (38, false, 255),
    (38, true, 254),
    (39, false, 1),
    (39, true, 1),
    (39, false, 253),
    (39, true, 253),
];
