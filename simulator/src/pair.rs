//! What is promised of two runs of one file and one turn list, from memories
//! that differ only in bytes nobody named.

use crate::format::REPORT_SUM;
use crate::named::Named;

/// An accepted run: the memory that it was lent, and what it left.
#[derive(Clone, Copy)]
pub struct Left<'a> {
    pub lent: &'a [u8],
    pub memory: &'a [u8],
    pub log: &'a [u8],
    pub report: &'a [u8],
}

/// Where two runs part though they may not.
#[derive(Clone, Copy, Debug, PartialEq, Eq)]
pub enum Parting {
    /// A byte of the log.
    Log { place: usize },
    /// A byte of the report in front of its sum.
    Report { place: usize },
    /// A byte of memory that was lent to both alike.
    Memory { address: usize },
    /// A byte nobody named that one of the two, 0 or 1, has not left as it was
    /// lent.
    Unnamed { run: usize, address: usize },
    /// What the second sum is above the first one, and what it is above it in
    /// the memories that were lent.
    Sum { left: i64, lent: i64 },
}

/// The first parting of two runs.
pub fn parting(named: &Named, first: &Left, second: &Left) -> Option<Parting> {
    let log = first_difference(first.log, second.log);
    let fronts = [first, second].map(|each| &each.report[..REPORT_SUM]);
    let report = first_difference(fronts[0], fronts[1]);
    log.map(|place| Parting::Log { place })
        .or_else(|| report.map(|place| Parting::Report { place }))
        .or_else(|| elsewhere(first, second))
        .or_else(|| unnamed_changed(named, 0, first))
        .or_else(|| unnamed_changed(named, 1, second))
        .or_else(|| sums_part(first, second))
}

/// The first place at which two rows differ, the end of the shorter included.
fn first_difference(one: &[u8], other: &[u8]) -> Option<usize> {
    let common = one.len().min(other.len());
    let place = (0..common).find(|&place| one[place] != other[place]);
    place.or((one.len() != other.len()).then_some(common))
}

fn elsewhere(first: &Left, second: &Left) -> Option<Parting> {
    let alike = |&address: &usize| first.lent[address] == second.lent[address];
    let parts = |&address: &usize| first.memory[address] != second.memory[address];
    let mut addresses = (0..first.memory.len()).filter(alike);
    let address = addresses.find(parts)?;
    Some(Parting::Memory { address })
}

fn unnamed_changed(named: &Named, run: usize, left: &Left) -> Option<Parting> {
    let changed = |&address: &usize| left.memory[address] != left.lent[address];
    let address = named.unnamed().into_iter().find(changed)?;
    Some(Parting::Unnamed { run, address })
}

fn sums_part(first: &Left, second: &Left) -> Option<Parting> {
    let left = told_sum(second.report) - told_sum(first.report);
    let lent = i64::from(sum_of(second.lent)) - i64::from(sum_of(first.lent));
    (left != lent).then_some(Parting::Sum { left, lent })
}

/// The sum that a report tells.
fn told_sum(report: &[u8]) -> i64 {
    let four = &report[REPORT_SUM..];
    i64::from(u32::from_le_bytes([four[0], four[1], four[2], four[3]]))
}

/// The sum of all words at even addresses.
pub fn sum_of(memory: &[u8]) -> u32 {
    let word = |two: &[u8]| u32::from(u16::from_le_bytes([two[0], two[1]]));
    memory.chunks_exact(2).map(word).sum()
}
