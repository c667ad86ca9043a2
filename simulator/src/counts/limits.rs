//! The limits of the paper that neither log nor report of a run shows, or
//! not without the plan beside them.

use crate::counts::board::Row;
use crate::counts::locks::{
    beside_one, given_back, kept_lock, of_other, of_worker, taken_again, BESIDE, LOCKS,
};
use crate::counts::sums::{
    border_store, byte_over, commit_by, lost, odd_store, uncommitted, word_of_two, COMMITS, MOVED,
};
use crate::counts::waking::{above_all, beside, into, woken_before, CAME, INTO};
use crate::counts::{PLAIN, SYNCHRONISING};

/// A row of limits.
#[derive(Clone, Copy, Debug, PartialEq, Eq)]
pub enum Limit {
    OpsOfEight,
    LastStep,
    NoStep,
    Border,
    Edge,
    PageStore,
    AllCopied,
    UnknownRegister,
    Sum,
    ExactWrap,
    Skip,
    SkipToEnd,
    Lock,
    Unlock,
    FailedBarrier,
    FailedExit,
    FailedEnd,
    Wait,
    Waking,
    WokenInto,
    LastTurn,
    TurnBeforeLast,
    Set,
    OpsByRegister,
    CountedSignal,
    Address,
    TurnNumber,
    RecordIndex,
    Committed,
    Start,
    StartFound,
    StartedBy,
    StartedInHold,
    StartedBehind,
    BehindStart,
    StoredBehindStart,
    Joined,
    Broadcast,
    BroadcastInto,
    BroadcastBeside,
    WokenBefore,
    Came,
    CameAboveAll,
    CommitBy,
    SumMoved,
    ByteOver,
    WordOfTwo,
    OddStore,
    BorderStore,
    Uncommitted,
    Lost,
    FailedLock,
    FailedUnlock,
    LockOfWorker,
    LockBeside,
    GivenBack,
    TakenAgain,
    KeptLock,
    LockOfOther,
    LockOfOthers,
    HeldByTwo,
}

/// A row and the place in it of a limit that was met.
pub type Met = (Limit, u16);

const fn row(
    limit: Limit,
    name: &'static str,
    members: usize,
    named: fn(usize) -> String,
) -> (Limit, Row) {
    let row = Row {
        name,
        members,
        named,
    };
    (limit, row)
}

const COUNT: usize = 61;

/// Count of ops: 16 to 22 and 32 to 39.
pub const OPS: usize = PLAIN.len() + SYNCHRONISING.len();

/// Each row with its limit, in the order of `Limit`.
const TABLE: [(Limit, Row); COUNT] = [
    row(
        Limit::OpsOfEight,
        "step by op and worker, eight workers",
        OPS * 8,
        op_and_worker,
    ),
    row(Limit::LastStep, "128th step", 8, worker),
    row(Limit::NoStep, "end without a step", 8, worker),
    row(Limit::Border, "word over a page border", 56, border),
    row(Limit::Edge, "first or last byte of a page", 32, edge),
    row(
        Limit::PageStore,
        "store by page and worker",
        64,
        page_and_worker,
    ),
    row(
        Limit::AllCopied,
        "eight pages of eight workers copied at once",
        1,
        itself,
    ),
    row(
        Limit::UnknownRegister,
        "store of a register never set",
        32,
        register_and_worker,
    ),
    row(Limit::Sum, "sum or difference by registers", 32, registers),
    row(Limit::ExactWrap, "65,535 + 1 or 0 - 1", 2, exact_wrap),
    row(
        Limit::Skip,
        "skip by op, distance and whether taken",
        506,
        skip,
    ),
    row(
        Limit::SkipToEnd,
        "skip just behind the last step, taken",
        2,
        skip_op,
    ),
    row(Limit::Lock, "lock, locks held behind it", LOCKS, from_one),
    row(
        Limit::Unlock,
        "unlock, locks held behind it",
        LOCKS,
        from_zero,
    ),
    row(
        Limit::FailedBarrier,
        "barrier failed, locks held",
        LOCKS,
        from_one,
    ),
    row(
        Limit::FailedExit,
        "exit failed, locks held",
        LOCKS,
        from_one,
    ),
    row(
        Limit::FailedEnd,
        "end of steps failed, locks held",
        LOCKS,
        from_one,
    ),
    row(Limit::Wait, "wait, locks kept", LOCKS, from_one),
    row(Limit::Waking, "woken, locks kept", LOCKS, from_one),
    row(
        Limit::WokenInto,
        "woken into a list, workers in it before",
        7,
        from_one,
    ),
    row(Limit::LastTurn, "65,535th turn moved", 4, last_turn),
    row(
        Limit::TurnBeforeLast,
        "65,534th turn moved, the last one",
        1,
        itself,
    ),
    row(Limit::Set, "number set", SET.len(), |place| {
        SET[place].to_string()
    }),
    row(
        Limit::OpsByRegister,
        "own step by op and register",
        28,
        op_and_register,
    ),
    row(
        Limit::CountedSignal,
        "signal or broadcast, locks held",
        2 * LOCKS,
        signal_and_count,
    ),
    row(Limit::Address, "load or store at address", 4_094, address),
    row(
        Limit::TurnNumber,
        "moving turn of number",
        TURNS.len(),
        |place| TURNS[place].to_string(),
    ),
    row(
        Limit::RecordIndex,
        "step of record",
        RECORDS.len(),
        |place| RECORDS[place].to_string(),
    ),
    row(
        Limit::Committed,
        "bytes written by a commit",
        COMMITTED.len(),
        |place| COMMITTED[place].to_string(),
    ),
    row(
        Limit::Start,
        "start by outcome and locks held",
        2 * (LOCKS + 1),
        start,
    ),
    row(
        Limit::StartFound,
        "start of one that does not sleep",
        16,
        found,
    ),
    row(
        Limit::StartedBy,
        "sleeper by who started it",
        49,
        started_by,
    ),
    row(
        Limit::StartedInHold,
        "sleepers started in one hold",
        7,
        from_one,
    ),
    row(
        Limit::StartedBehind,
        "sleeper started, workers in the next list before",
        7,
        from_zero,
    ),
    row(
        Limit::BehindStart,
        "synchronising step behind a start in one hold",
        18,
        behind_start,
    ),
    row(
        Limit::StoredBehindStart,
        "the same with bytes stored behind the start",
        18,
        behind_start,
    ),
    row(Limit::Joined, "joins the next list behind one", 8, joined),
    row(
        Limit::Broadcast,
        "broadcast by woken and count",
        16,
        broadcast,
    ),
    row(
        Limit::BroadcastInto,
        "broadcast by woken and workers behind the holder",
        INTO,
        into,
    ),
    row(
        Limit::BroadcastBeside,
        "broadcast beside other conditions",
        13,
        beside,
    ),
    row(
        Limit::WokenBefore,
        "woken in front of others that the holder woke",
        9,
        woken_before,
    ),
    row(
        Limit::Came,
        "workers come into one round's list",
        CAME.len(),
        |place| CAME[place].to_string(),
    ),
    row(
        Limit::CameAboveAll,
        "more come into one round's list than the plan has",
        14,
        above_all,
    ),
    row(
        Limit::CommitBy,
        "commit that changes memory",
        COMMITS,
        commit_by,
    ),
    row(
        Limit::SumMoved,
        "commit that moves the sum by",
        MOVED.len(),
        |place| MOVED[place].to_string(),
    ),
    row(Limit::ByteOver, "byte written by a commit", 8, byte_over),
    row(
        Limit::WordOfTwo,
        "word with bytes of two workers",
        4,
        word_of_two,
    ),
    row(
        Limit::OddStore,
        "store at an odd address, committed",
        4,
        odd_store,
    ),
    row(
        Limit::BorderStore,
        "store over a page border, committed",
        28,
        border_store,
    ),
    row(
        Limit::Uncommitted,
        "bytes that would move the sum, not committed at the end of the list",
        5,
        uncommitted,
    ),
    row(
        Limit::Lost,
        "bytes that would move the sum, lost by a failure",
        7,
        lost,
    ),
    row(
        Limit::FailedLock,
        "lock failed, being held, locks held",
        LOCKS,
        from_one,
    ),
    row(
        Limit::FailedUnlock,
        "unlock failed, locks held",
        LOCKS,
        from_zero,
    ),
    row(
        Limit::LockOfWorker,
        "lock or unlock by number and worker",
        4 * LOCKS * 8,
        of_worker,
    ),
    row(
        Limit::LockBeside,
        "lock or unlock with one lock held",
        2 * LOCKS * LOCKS,
        beside_one,
    ),
    row(
        Limit::GivenBack,
        "unlock with several locks held",
        3,
        given_back,
    ),
    row(
        Limit::TakenAgain,
        "lock that was given back before",
        2 * LOCKS,
        taken_again,
    ),
    row(
        Limit::KeptLock,
        "behind a wait with locks kept",
        8,
        kept_lock,
    ),
    row(
        Limit::LockOfOther,
        "lock or unlock of one that another holds",
        BESIDE,
        of_other,
    ),
    row(
        Limit::LockOfOthers,
        "lock that others hold, how many",
        7,
        from_one,
    ),
    row(
        Limit::HeldByTwo,
        "lock held by two workers at once",
        LOCKS,
        from_zero,
    ),
];

/// The rows; that each stands at its limit's place is seen by the compiler.
pub const ROWS: [Row; COUNT] = {
    let mut rows = [TABLE[0].1; COUNT];
    let mut place = 0;
    while place < COUNT {
        assert!(TABLE[place].0 as usize == place);
        rows[place] = TABLE[place].1;
        place += 1;
    }
    rows
};

/// Numbers at the limits of a byte, of a sign and of a register.
pub const SET: [u16; 7] = [0, 255, 256, 32_767, 32_768, 65_534, 65_535];

/// Counts of bytes; 128 steps store no more than 256.
pub const COMMITTED: [usize; 5] = [0, 1, 2, 255, 256];

/// Numbers of turns, the first being 1.
pub const TURNS: [usize; 8] = [255, 256, 257, 32_767, 32_768, 32_769, 65_534, 65_535];

/// Indices of records, the plan record being 0.
pub const RECORDS: [usize; 8] = [255, 256, 257, 511, 512, 1_023, 1_024, 1_039];

fn itself(_: usize) -> String {
    "not met".to_string()
}

fn from_zero(place: usize) -> String {
    place.to_string()
}

fn from_one(place: usize) -> String {
    (place + 1).to_string()
}

fn worker(place: usize) -> String {
    format!("worker {place}")
}

/// Names of the ops 16 to 22 and 32 to 39.
fn op_and_worker(place: usize) -> String {
    let ops = [&PLAIN[..], &SYNCHRONISING].concat();
    format!("{}, worker {}", ops[place % OPS], place / OPS)
}

fn op_and_register(place: usize) -> String {
    format!("{}, register {}", PLAIN[place / 4], place % 4)
}

fn signal_and_count(place: usize) -> String {
    let op = SYNCHRONISING[3 + place / LOCKS];
    format!("{op}, {}", place % LOCKS + 1)
}

const LOAD_STORE: [&str; 2] = ["load", "store"];
const COPIED: [&str; 4] = ["neither", "the lower", "the upper", "both"];

fn border(place: usize) -> String {
    let address = 255 + 256 * (place / 4 % 7);
    let op = LOAD_STORE[place / 28];
    format!("{op} at {address}, copied: {}", COPIED[place % 4])
}

fn address(place: usize) -> String {
    format!("{} at {}", LOAD_STORE[place / 2_047], place % 2_047)
}

fn edge(place: usize) -> String {
    let address = place / 2 % 8 * 256 + place % 2 * 255;
    format!("{} of byte {address}", LOAD_STORE[place / 16])
}

fn page_and_worker(place: usize) -> String {
    format!("page {}, worker {}", place % 8, place / 8)
}

fn register_and_worker(place: usize) -> String {
    format!("register {}, worker {}", place % 4, place / 4)
}

fn registers(place: usize) -> String {
    let op = PLAIN[3 + place / 16];
    format!("{op}, registers {} and {}", place / 4 % 4, place % 4)
}

fn exact_wrap(place: usize) -> String {
    ["65,535 + 1", "0 - 1"][place].to_string()
}

/// Only a first step can skip 127, and it finds zero in every register.
fn skip(place: usize) -> String {
    let (which, place) = (place / 253, place % 253);
    let far = place / 2 + 1;
    let taken = if far == 127 {
        which == 0
    } else {
        place % 2 == 1
    };
    let taken = if taken { "taken" } else { "not taken" };
    format!("{}, {far}, {taken}", PLAIN[5 + which])
}

fn skip_op(place: usize) -> String {
    PLAIN[5 + place].to_string()
}

fn last_turn(place: usize) -> String {
    let names = [
        "an own step",
        "an arrival",
        "a synchronising step, the plan goes on",
        "a synchronising step, the plan has ended",
    ];
    names[place].to_string()
}

const HELD: [&str; 2] = ["count 0", "count above 0"];

fn start(place: usize) -> String {
    let whom = ["a sleeper", "no sleeper"][place / (LOCKS + 1)];
    format!("{whom}, {}", place % (LOCKS + 1))
}

/// In the order of `Found`.
fn found(place: usize) -> String {
    let names = [
        "itself",
        "one behind it in the list",
        "one that stands in the next list",
        "one started in this round",
        "one that exited",
        "one that failed",
        "one on a condition",
        "one at a barrier",
    ];
    format!("{}, {}", names[place / 2], HELD[place % 2])
}

fn started_by(place: usize) -> String {
    let (sleeper, other) = (place / 7 + 1, place % 7);
    let caller = other + usize::from(other >= sleeper);
    format!("worker {sleeper} by worker {caller}")
}

fn behind_start(place: usize) -> String {
    let name = SYNCHRONISING.get(place / 2).unwrap_or(&"end of steps");
    format!("{name}, {}", HELD[place % 2])
}

fn broadcast(place: usize) -> String {
    format!("{} woken, {}", place / 2, HELD[place % 2])
}

fn joined(place: usize) -> String {
    let names = [
        "started, started",
        "started, freed",
        "started, gave up the token",
        "gave up the token, started",
        "gave up the token, freed",
        "gave up the token, gave up the token",
        "freed, freed",
        "freed, gave up the token",
    ];
    names[place].to_string()
}
