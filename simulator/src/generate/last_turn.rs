//! Turn lists whose last turn moves: of the greatest length, and of moves alone.

use crate::check::check;
use crate::format::MOST_TURNS;
use crate::generate::draft::Draft;
use crate::generate::rng::Rng;
use crate::turn_machine::{End, Machine};

/// Moves of a plan, and the turns found to pass, each with the count of moves
/// before it.
struct Found {
    moves: Vec<u8>,
    passes: Vec<(usize, u8)>,
}

/// All moves of a plan, or a part of them, and among them so many turns of a
/// worker that cannot move there that the list has 65,535 turns or one less.
/// A plan in which every turn moves has no such list.
pub fn last_turn_moves(rng: &mut Rng, draft: &Draft, memory: &[u8]) -> Option<Vec<u8>> {
    let found = find(rng, draft, memory)?;
    let cut = match rng.chance(1, 2) {
        true => found.moves.len(),
        false => rng.between(1, found.moves.len()),
    };
    let before = |&&(place, _): &&(usize, u8)| place < cut;
    let passes: Vec<(usize, u8)> = found.passes.iter().filter(before).copied().collect();
    if passes.is_empty() {
        return None;
    }
    let (place, idle) = rng.pick(&passes);
    let length = MOST_TURNS - usize::from(rng.chance(1, 4));
    let between = vec![idle; length - cut];
    Some([&found.moves[..place], &between, &found.moves[place..cut]].concat())
}

/// Moves of a plan up to any of them, or none, so that the list ends within a
/// round, mostly.
pub fn cut_moves(rng: &mut Rng, draft: &Draft, memory: &[u8]) -> Vec<u8> {
    let found = find(rng, draft, memory);
    let mut moves = found.map_or_else(Vec::new, |found| found.moves);
    moves.truncate(rng.below(moves.len() + 1));
    moves
}

/// Plays turns of any worker to the end.
fn find(rng: &mut Rng, draft: &Draft, memory: &[u8]) -> Option<Found> {
    let plan = check(&draft.file()).ok()?;
    let mut machine = Machine::new(&plan, memory);
    let mut found = Found {
        moves: Vec::new(),
        passes: Vec::new(),
    };
    while machine.end() == End::Going {
        let worker = rng.below(plan.workers());
        match machine.turn(worker) {
            true => found.moves.push(worker as u8),
            false => found.passes.push((found.moves.len(), worker as u8)),
        }
    }
    Some(found)
}
