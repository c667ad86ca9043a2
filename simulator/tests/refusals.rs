//! Refusals: each at every kind of record, in the paper's order, and none of
//! them changes a byte.

use std::collections::BTreeSet;

use simulator::generate::buffers::{noise, LENGTHS};
use simulator::generate::damage::{damaged_files, fault_pairs, showcase};
use simulator::generate::Rng;
use simulator::{check, check_code, run, Refusal};

#[test]
fn damaged_files_are_refused_as_made() {
    let mut met = BTreeSet::new();
    for damaged in damaged_files(&mut Rng::new(30), 1_500) {
        let answer = check(&damaged.file).map(|_| ());
        if let Some(expected) = damaged.expected {
            assert_eq!(answer, expected, "{}", damaged.label);
        }
        met.insert(answer.map_or_else(|refusal| refusal.number, |_| 0));
    }
    assert_eq!(met, (0..=10).chain([14]).collect());
}

#[test]
fn the_first_of_two_faults_decides() {
    let pairs = fault_pairs(&showcase());
    assert!(pairs.len() > 10_000, "{}", pairs.len());
    for damaged in pairs {
        let answer = check(&damaged.file).map(|_| ());
        let expected = damaged.expected.expect("a plain answer");
        assert_eq!(answer, expected, "{}", damaged.label);
    }
}

#[test]
fn refusals_as_one_number() {
    assert_eq!(Refusal::at(10, 1_032).code(), 10 + 256 * 1_032);
    assert_eq!(check_code(&[]), 1);
    assert_eq!(check_code(&showcase().file()), 0);
}

/// Runs on buffers of these lengths and says the answer; a refusal must
/// leave every byte.
fn answer(file: &[u8], turns: &[u8], lengths: [usize; 4]) -> u32 {
    let mut rng = Rng::new(31);
    let old = lengths.map(|length| noise(&mut rng, length));
    let mut new = old.clone();
    let [memory, log, report, work] = &mut new;
    let answer = run(file, turns, memory, log, report, work);
    assert_eq!(answer != 0, old == new);
    answer
}

#[test]
fn a_run_tests_in_order() {
    let good = showcase().file();
    let mut bad = good.clone();
    bad[7] = 0;
    let named = vec![0; 65_535];
    let long = vec![9; 65_536];
    let misnamed = [0, 1, 2, 3];
    assert_eq!(answer(&good, &named, LENGTHS), 0);
    assert_eq!(answer(&good, &misnamed, LENGTHS), 13);
    assert_eq!(answer(&bad, &misnamed, LENGTHS), 2 + 256);
    assert_eq!(answer(&bad, &long, LENGTHS), 12);
    for place in 0..4 {
        for wrong in [0, LENGTHS[place] - 1, LENGTHS[place] + 1] {
            let mut lengths = LENGTHS;
            lengths[place] = wrong;
            assert_eq!(answer(&good, &[], lengths), 11);
            assert_eq!(answer(&bad, &long, lengths), 11);
        }
    }
}

#[test]
fn a_turn_behind_the_end_is_tested() {
    let mut turns = [0, 1, 2].repeat(300);
    assert_eq!(answer(&showcase().file(), &turns, LENGTHS), 0);
    turns.push(3);
    assert_eq!(answer(&showcase().file(), &turns, LENGTHS), 13);
}
