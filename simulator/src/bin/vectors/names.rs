//! Plans of the fifth request.

use crate::{sleeping, Row, ALL, LOCK, SIGNAL, UNLOCK, WAIT};

const TAKE_3: (u8, u8, u16) = (32, 0, 3);
const TAKE_9: (u8, u8, u16) = (32, 0, 9);
const GIVE_3: (u8, u8, u16) = (33, 0, 3);
const GIVE_9: (u8, u8, u16) = (33, 0, 9);

/// Plans of one worker: two locks given back in either order, one of them taken
/// again, the wrong one and the same one, with bytes that are lost, and what
/// fails with two locks. Then those of several workers.
pub fn names() -> Vec<Vec<u8>> {
    let store: Row = &[(16, 0, 0x0305), (18, 0, 6)];
    let ways: [Row; 9] = [
        &[TAKE_9, GIVE_3, (18, 0, 8), GIVE_9],
        &[TAKE_9, GIVE_9, (18, 0, 8), GIVE_3],
        &[
            TAKE_9, GIVE_9, TAKE_9, GIVE_3, SIGNAL, GIVE_9, TAKE_3, GIVE_3,
        ],
        &[GIVE_9, (18, 0, 8)],
        &[TAKE_3, (18, 0, 8)],
        &[TAKE_9, SIGNAL, (18, 0, 8), TAKE_3],
        &[TAKE_9, GIVE_3, GIVE_3],
        &[TAKE_9, (37, 0, 0)],
        &[TAKE_9, ALL, (18, 0, 8), (38, 0, 0)],
    ];
    let alone = |way: Row| sleeping(&[&[&[TAKE_3], store, way].concat()], &[]).file();
    let mut files: Vec<Vec<u8>> = ways.into_iter().map(alone).collect();
    files.extend(names_of_several());
    files.extend(all_sixteen());
    files
}

/// Waits with locks, given back in either order behind them, or with what fails
/// there; the same lock held by several; nobody gives back another's lock or is
/// kept from it; a started worker holds nothing of its starter's. All have
/// something to store from the beginning.
fn names_of_several() -> Vec<Vec<u8>> {
    let keeps: Row = &[TAKE_3, TAKE_9, WAIT, GIVE_3, (18, 1, 4), GIVE_9];
    let back: Row = &[TAKE_9, TAKE_3, WAIT, GIVE_3, (18, 1, 4), GIVE_9];
    let same: Row = &[TAKE_3, TAKE_9, WAIT, (18, 0, 6), TAKE_3];
    let wrong: Row = &[TAKE_3, TAKE_9, WAIT, (18, 0, 6), UNLOCK];
    let more: Row = &[TAKE_3, TAKE_9, WAIT, LOCK, GIVE_3, UNLOCK, GIVE_9];
    let one_more: Row = &[TAKE_3, WAIT, TAKE_9, GIVE_3, GIVE_9];
    let takes: Row = &[TAKE_3, SIGNAL, (18, 0, 8), GIVE_3, GIVE_3];
    let starts: Row = &[TAKE_3, (39, 0, 1), GIVE_3];
    let plans: [(&[Row], &[u8]); 9] = [
        (&[keeps, &[SIGNAL]], &[]),
        (&[keeps, back, &[ALL], &[TAKE_3, GIVE_3]], &[]),
        (&[same, wrong, more, &[ALL]], &[]),
        (
            &[
                &[TAKE_3, WAIT, TAKE_3],
                &[TAKE_3, WAIT, GIVE_9],
                one_more,
                &[ALL],
            ],
            &[],
        ),
        (&[keeps, takes], &[]),
        (&[keeps, &[GIVE_3], &[ALL]], &[]),
        (&[keeps, &[TAKE_9, GIVE_3], &[ALL]], &[]),
        (&[&[TAKE_3, TAKE_3], &[TAKE_3, GIVE_3]], &[]),
        (&[starts, &[GIVE_3]], &[1]),
    ];
    let set: Row = &[(16, 0, 0x0109), (16, 1, 0x0107)];
    let file = |(rows, sleepers): (&[Row], &[u8])| {
        let rows: Vec<_> = rows.iter().map(|row| [set, row].concat()).collect();
        let rows: Vec<Row> = rows.iter().map(Vec::as_slice).collect();
        sleeping(&rows, sleepers).file()
    };
    plans.into_iter().map(file).collect()
}

/// All locks, given back the first one first and the last one first, and one of
/// them taken once more; and a wait with all of them.
fn all_sixteen() -> [Vec<u8>; 4] {
    let takes = (0..16).map(|lock| (32, 0, lock));
    let takes: Vec<(u8, u8, u16)> = takes.collect();
    let gives = (0..16).map(|lock| (33, 0, lock));
    let first: Vec<(u8, u8, u16)> = gives.clone().collect();
    let last: Vec<(u8, u8, u16)> = gives.rev().collect();
    let waits = [&takes[..], &[WAIT], &first].concat();
    [
        sleeping(&[&[&takes[..], &first].concat()], &[]).file(),
        sleeping(&[&[&takes[..], &last].concat()], &[]).file(),
        sleeping(&[&[&takes[..], &[TAKE_9]].concat()], &[]).file(),
        sleeping(&[&waits, &[&takes[..], &[SIGNAL], &last].concat()], &[]).file(),
    ]
}
