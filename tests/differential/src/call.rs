//! One call, made on an engine and on the simulator, and what differed.

use simulator::format::REPORT_SUM;
use simulator::pair::Parting;
use simulator::{check_code, run_counted, Counts};

use crate::engine::{Engine, Told};

/// Bytes that stand in front of and behind every buffer.
const GUARD: usize = 64;
const GUARD_BYTE: u8 = 0xA7;

/// All that is lent to one run.
#[derive(Clone, Debug, PartialEq, Eq)]
pub struct Call {
    pub file: Vec<u8>,
    pub turns: Vec<u8>,
    /// Memory, log, report and work with their old contents.
    pub lent: [Vec<u8>; 4],
}

pub const NAMES: [&str; 6] = ["memory", "log", "report", "work", "file", "turns"];

/// Where an engine and the simulator part, or two calls of a pair.
#[derive(Clone, Debug, PartialEq, Eq)]
pub enum Difference {
    Answer {
        expected: u32,
        got: u32,
    },
    /// A byte of a buffer; a place below 0 or behind the end is a guard byte.
    Byte {
        buffer: &'static str,
        place: isize,
        expected: u8,
        got: u8,
    },
    /// What two accepted calls leave, which differ in bytes nobody named.
    Pair(Parting),
}

/// What the simulator says of a call.
pub struct Verdict {
    pub answer: u32,
    pub counts: Counts,
    pub memory: Vec<u8>,
    pub log: Vec<u8>,
    pub report: Vec<u8>,
}

impl Verdict {
    /// The report's count of log records.
    pub fn log_records(&self) -> usize {
        usize::from(u16::from_le_bytes([self.report[6], self.report[7]]))
    }

    /// The report's sum.
    pub fn sum(&self) -> u32 {
        let four = &self.report[REPORT_SUM..];
        u32::from_le_bytes([four[0], four[1], four[2], four[3]])
    }
}

/// A buffer between guard bytes, at any alignment.
pub struct Guarded {
    bytes: Vec<u8>,
    start: usize,
    length: usize,
}

impl Guarded {
    pub fn new(content: &[u8], shift: usize) -> Self {
        let start = GUARD + shift;
        let mut bytes = vec![GUARD_BYTE; start + content.len() + GUARD];
        bytes[start..start + content.len()].copy_from_slice(content);
        Guarded {
            bytes,
            start,
            length: content.len(),
        }
    }

    pub fn told(&mut self) -> Told {
        Told {
            start: self.bytes[self.start..].as_mut_ptr(),
            length: self.length,
        }
    }

    pub fn content(&self) -> &[u8] {
        &self.bytes[self.start..][..self.length]
    }

    pub fn differs(&self, buffer: &'static str, content: &[u8]) -> Option<Difference> {
        let wanted = Guarded::new(content, self.start - GUARD);
        if self.bytes == wanted.bytes {
            return None;
        }
        let mut pairs = self.bytes.iter().zip(&wanted.bytes);
        let at = pairs.position(|(got, expected)| got != expected)?;
        Some(Difference::Byte {
            buffer,
            place: at as isize - self.start as isize,
            expected: wanted.bytes[at],
            got: self.bytes[at],
        })
    }
}

/// Runs a call on the simulator.
pub fn expected(call: &Call) -> (Verdict, [Vec<u8>; 4]) {
    let mut after = call.lent.clone();
    let [memory, log, report, work] = &mut after;
    let (answer, counts) = run_counted(&call.file, &call.turns, [memory, log, report, work]);
    let verdict = Verdict {
        answer,
        counts,
        memory: after[0].clone(),
        log: after[1].clone(),
        report: after[2].clone(),
    };
    (verdict, after)
}

/// A call as an engine has made it: its answer, and all buffers behind it.
pub struct Made {
    pub answer: u32,
    pub lent: [Guarded; 4],
    file: Guarded,
    turns: Guarded,
}

/// Makes a call on an engine.
pub fn make(engine: &Engine, call: &Call, shift: usize) -> Made {
    let mut made = Made {
        answer: 0,
        lent: [0, 1, 2, 3].map(|which: usize| Guarded::new(&call.lent[which], shift)),
        file: Guarded::new(&call.file, shift),
        turns: Guarded::new(&call.turns, shift),
    };
    let told = made.lent.each_mut().map(|buffer| buffer.told());
    made.answer = engine.run(made.file.told(), made.turns.told(), told);
    made
}

/// Runs a call on both and compares the answers and every byte.
pub fn compare_run(engine: &Engine, call: &Call, shift: usize) -> (Verdict, Option<Difference>) {
    let (verdict, after) = expected(call);
    let made = make(engine, call, shift);
    let mut difference = answer_differs(verdict.answer, made.answer);
    for which in 0..4 {
        difference = difference.or_else(|| made.lent[which].differs(NAMES[which], &after[which]));
    }
    let difference = difference
        .or_else(|| made.file.differs(NAMES[4], &call.file))
        .or_else(|| made.turns.differs(NAMES[5], &call.turns));
    (verdict, difference)
}

/// Compares the simulator's own two runs of an accepted call whose turns
/// reach the end: turn by turn, and round by round.
pub fn compare_rounds(call: &Call) -> Option<Difference> {
    let plan = simulator::check(&call.file).ok()?;
    let full = simulator::play_rounds(&plan, &call.lent[0]);
    let mut log = full.log;
    log.resize(call.lent[1].len(), 0);
    let (_, after) = expected(call);
    let whole = [&full.memory[..], &log, &full.report];
    let mut buffers = NAMES.iter().zip(whole.into_iter().zip(&after));
    buffers.find_map(|(name, (rounds, turns))| Guarded::new(turns, 0).differs(name, rounds))
}

/// Checks a file on both and compares.
pub fn compare_check(engine: &Engine, file: &[u8], shift: usize) -> (u32, Option<Difference>) {
    let expected = check_code(file);
    let mut guarded = Guarded::new(file, shift);
    let got = engine.check(guarded.told());
    let difference = answer_differs(expected, got).or_else(|| guarded.differs(NAMES[4], file));
    (expected, difference)
}

pub fn answer_differs(expected: u32, got: u32) -> Option<Difference> {
    (expected != got).then_some(Difference::Answer { expected, got })
}

/// Runs a call whose lengths are told wrong by 4 GiB. The refusal must come
/// before any byte is read, and no byte may change. `which` is 0 to 3 for the
/// lent buffers, 4 for the file and 5 for the turns.
pub fn compare_vast(engine: &Engine, call: &Call, which: usize) -> Option<Difference> {
    let contents: Vec<&[u8]> = call.lent.iter().map(Vec::as_slice).collect();
    let contents = [&contents[..], &[&call.file, &call.turns]].concat();
    let mut all: Vec<Guarded> = contents.iter().map(|each| Guarded::new(each, 0)).collect();
    let mut told: Vec<Told> = all.iter_mut().map(Guarded::told).collect();
    told[which].length += 1 << 32;
    let expected = [11, 11, 11, 11, 1, 12][which];
    let got = engine.run(told[4], told[5], [told[0], told[1], told[2], told[3]]);
    let mut difference = answer_differs(expected, got);
    for (name, (buffer, content)) in NAMES.iter().zip(all.iter().zip(contents)) {
        difference = difference.or_else(|| buffer.differs(name, content));
    }
    difference
}

/// Checks a file whose length is told wrong by 4 GiB, which is 1.
pub fn compare_vast_check(engine: &Engine, file: &[u8]) -> Option<Difference> {
    let mut guarded = Guarded::new(file, 0);
    let mut told = guarded.told();
    told.length += 1 << 32;
    answer_differs(1, engine.check(told)).or_else(|| guarded.differs(NAMES[4], file))
}
