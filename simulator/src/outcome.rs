//! What a run leaves.

use crate::format::{REPORT_LENGTH, REPORT_SUM};

/// Memory, log (its records alone) and report after a run.
#[derive(Clone, Debug, PartialEq, Eq)]
pub struct Outcome {
    pub memory: Vec<u8>,
    pub log: Vec<u8>,
    pub report: [u8; REPORT_LENGTH],
}

impl Outcome {
    /// The report's first byte: 0 going, 1 finished, 2 stuck.
    pub fn end(&self) -> u8 {
        self.report[0]
    }

    /// The report's moving turns.
    pub fn moving_turns(&self) -> u16 {
        u16::from_le_bytes([self.report[2], self.report[3]])
    }

    /// The report's completed rounds.
    pub fn rounds(&self) -> u16 {
        u16::from_le_bytes([self.report[4], self.report[5]])
    }

    /// The report's sum of all words at even addresses.
    pub fn sum(&self) -> u32 {
        let mut bytes = [0; 4];
        bytes.copy_from_slice(&self.report[REPORT_SUM..]);
        u32::from_le_bytes(bytes)
    }

    /// The word at an address of the memory.
    pub fn word(&self, address: usize) -> u16 {
        u16::from_le_bytes([self.memory[address], self.memory[address + 1]])
    }
}
