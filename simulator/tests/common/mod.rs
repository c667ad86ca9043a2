//! Runs of hand-made drafts, for the tests that know their bytes.

use simulator::format::{
    LOG_LENGTH, LOG_RECORD_LENGTH, MEMORY_LENGTH, REPORT_LENGTH, REPORT_SUM, WORK_LENGTH,
};
use simulator::generate::draft::Draft;
use simulator::listing::listing_turns;
use simulator::{check, play_rounds, run, Outcome};

/// Steps of one worker: op, register, number.
pub type Row<'a> = &'a [(u8, u8, u16)];

/// The fate of a worker that is not there.
pub const NO: u8 = 255;

/// Runs a draft by the call, on old contents, and cuts the log to its records.
pub fn run_call(draft: &Draft, turns: &[u8], start: &[(usize, u8)]) -> Outcome {
    let mut memory = vec![0; MEMORY_LENGTH];
    for &(address, byte) in start {
        memory[address] = byte;
    }
    let mut log = vec![0xAA; LOG_LENGTH];
    let mut report = [0xBB; REPORT_LENGTH];
    let mut work = vec![0xCC; WORK_LENGTH];
    let file = draft.file();
    let answer = run(&file, turns, &mut memory, &mut log, &mut report, &mut work);
    assert_eq!(answer, 0);
    assert!(work.iter().all(|&byte| byte == 0));
    let used = usize::from(u16::from_le_bytes([report[6], report[7]])) * LOG_RECORD_LENGTH;
    assert!(log[used..].iter().all(|&byte| byte == 0));
    log.truncate(used);
    let outcome = Outcome {
        memory,
        log,
        report,
    };
    assert_eq!(outcome.sum(), sum_of(&outcome.memory));
    outcome
}

/// The sum of all words at even addresses.
pub fn sum_of(memory: &[u8]) -> u32 {
    let each = |address: usize| u32::from(memory[address]) + 256 * u32::from(memory[address + 1]);
    (0..MEMORY_LENGTH).step_by(2).map(each).sum()
}

/// Runs a draft with the listing's turns; the round-by-round run must agree.
pub fn end_of(draft: &Draft, start: &[(usize, u8)]) -> Outcome {
    let plan = check(&draft.file()).expect("an accepted plan");
    let outcome = run_call(draft, &listing_turns(&plan), start);
    let mut memory = vec![0; MEMORY_LENGTH];
    for &(address, byte) in start {
        memory[address] = byte;
    }
    assert_eq!(outcome, play_rounds(&plan, &memory));
    outcome
}

/// The report in front of its sum.
pub fn front(outcome: &Outcome) -> [u8; REPORT_SUM] {
    let mut bytes = [0; REPORT_SUM];
    bytes.copy_from_slice(&outcome.report[..REPORT_SUM]);
    bytes
}

/// A report in front of its sum, from its end and n, its three tallies and the
/// fates.
pub fn report(head: [u8; 2], tallies: [u16; 3], fates: &[u8]) -> [u8; REPORT_SUM] {
    let mut bytes = head.to_vec();
    for tally in tallies {
        bytes.extend(tally.to_le_bytes());
    }
    bytes.extend(fates);
    bytes.resize(REPORT_SUM, NO);
    bytes.try_into().expect("sixteen bytes")
}
