//! Pairs of calls that differ in bytes nobody named: one file and turn list, or
//! the same files. What an engine leaves of both is held against each other,
//! whatever the simulator says of either.

use simulator::batch::{cut, UNITS};
use simulator::format::{MEMORY_LENGTH, WORK_LENGTH};
use simulator::generate::buffers::noise;
use simulator::generate::{changed, Batch, Change, Rng};
use simulator::pair::{parting, Left};
use simulator::Named;

use crate::batch::{self, fits, make_told, BUFFERS};
use crate::call::{self, answer_differs, make, Call, Difference, Guarded};
use crate::engine::Engine;

/// The first call of a pair, and how the second one is made from it.
#[derive(Clone)]
pub struct Pair<T> {
    pub first: T,
    pub change: Change,
    pub seed: u64,
}

impl<T: Clone> Pair<T> {
    /// The pair with another first call, for each kind of change.
    pub fn on(&self, first: &T) -> [Pair<T>; Change::ALL.len()] {
        Change::ALL.map(|change| Pair {
            first: first.clone(),
            change,
            seed: self.seed,
        })
    }
}

impl Pair<Call> {
    /// The second call: its memory differs in bytes nobody named, and log,
    /// report and work hold something else before it.
    pub fn second(&self) -> Call {
        let mut rng = Rng::new(self.seed);
        let mut second = self.first.clone();
        let memory = &self.first.lent[0];
        second.lent[0] = changed(&mut rng, self.change, &self.first.file, memory);
        for buffer in &mut second.lent[1..] {
            *buffer = noise(&mut rng, buffer.len());
        }
        second
    }
}

impl Pair<Batch> {
    /// The second call, in which the memory of one plan or of all differs. Where
    /// the buffers do not fit no plan is read and no byte named.
    pub fn second(&self) -> Batch {
        let mut rng = Rng::new(self.seed);
        let mut second = self.first.clone();
        for buffer in &mut second.lent[1..] {
            *buffer = noise(&mut rng, buffer.len());
        }
        if !fits(&self.first) {
            second.lent[0] = noise(&mut rng, self.first.lent[0].len());
            return second;
        }
        let files = cut(&self.first.files, &self.first.lengths);
        let only = rng.chance(1, 2).then(|| rng.below(files.len().max(1)));
        for (place, file) in files.into_iter().enumerate() {
            if only.is_none_or(|only| only == place) {
                let memory = &mut second.lent[0][place * MEMORY_LENGTH..][..MEMORY_LENGTH];
                let other = changed(&mut rng, self.change, file, memory);
                memory.copy_from_slice(&other);
            }
        }
        second
    }
}

/// How far the buffers of the two calls are shifted.
const SHIFTS: [usize; 2] = [0, 5];

/// Makes both calls on an engine: both are refused alike, with all buffers as
/// lent, or both leave what is promised of them.
pub fn compare_pair(engine: &Engine, pair: &Pair<Call>) -> Option<Difference> {
    let calls = [pair.first.clone(), pair.second()];
    let made = [0, 1].map(|which: usize| make(engine, &calls[which], SHIFTS[which]));
    let answers = answer_differs(made[0].answer, made[1].answer);
    if answers.is_some() {
        return answers;
    }
    if made[0].answer != 0 {
        let mut each = calls.iter().zip(&made);
        return each.find_map(|(lent, made)| as_lent(&call::NAMES, &made.lent, &lent.lent));
    }
    let zero = [0; WORK_LENGTH];
    let work = made
        .iter()
        .find_map(|made| made.lent[3].differs("work", &zero));
    let left = [0, 1].map(|which: usize| Left {
        lent: &calls[which].lent[0],
        memory: made[which].lent[0].content(),
        log: made[which].lent[1].content(),
        report: made[which].lent[2].content(),
    });
    let parting = parting(&Named::by(&pair.first.file), &left[0], &left[1]);
    parting.map(Difference::Pair).or(work)
}

/// The first byte that is not as it was lent.
fn as_lent(names: &[&'static str], buffers: &[Guarded], lent: &[Vec<u8>]) -> Option<Difference> {
    let mut all = names.iter().zip(buffers.iter().zip(lent));
    all.find_map(|(name, (buffer, lent))| buffer.differs(name, lent))
}

/// A call of several plans as an engine has made it.
struct MadeBatch<'a> {
    call: &'a Batch,
    answer: u32,
    buffers: [Guarded; BUFFERS],
}

impl MadeBatch<'_> {
    fn answers(&self) -> &[u8] {
        self.buffers[3].content()
    }

    /// The part of a plan in memories, logs or reports.
    fn part(&self, which: usize, place: usize) -> &[u8] {
        &self.buffers[which].content()[place * UNITS[which]..][..UNITS[which]]
    }

    fn left(&self, place: usize) -> Left<'_> {
        Left {
            lent: &self.call.lent[0][place * MEMORY_LENGTH..][..MEMORY_LENGTH],
            memory: self.part(0, place),
            log: self.part(1, place),
            report: self.part(2, place),
        }
    }

    /// A part of a refused plan that is not as it was lent.
    fn changed_parts(&self, place: usize) -> Option<Difference> {
        let lent = |which: usize| &self.call.lent[which][place * UNITS[which]..][..UNITS[which]];
        (0..3).find_map(|which| {
            let part = Guarded::new(self.part(which, place), 0);
            part.differs(batch::NAMES[which], lent(which))
        })
    }

    /// Work is all zero if a plan was accepted, and else as it was lent.
    fn wrong_work(&self) -> Option<Difference> {
        match self.answers().contains(&0) {
            true => self.buffers[4].differs("work", &[0; WORK_LENGTH]),
            false => self.buffers[4].differs("work", &self.call.lent[4]),
        }
    }
}

/// The same for a pair of calls of several plans, plan by plan.
pub fn compare_batch_pair(engine: &Engine, pair: &Pair<Batch>) -> Option<Difference> {
    let calls = [pair.first.clone(), pair.second()];
    let made = [0, 1].map(|which: usize| {
        let call = &calls[which];
        let (answer, buffers) = make_told(engine, call, SHIFTS[which], |_| ());
        MadeBatch {
            call,
            answer,
            buffers,
        }
    });
    let mut each = made.iter();
    match made[0].answer {
        answer if answer != made[1].answer => answer_differs(answer, made[1].answer),
        0 => compare_plans(&pair.first, &made).or_else(|| each.find_map(MadeBatch::wrong_work)),
        _ => each.find_map(|made| as_lent(&batch::NAMES, &made.buffers, &made.call.lent)),
    }
}

fn compare_plans(first: &Batch, [one, other]: &[MadeBatch; 2]) -> Option<Difference> {
    let mut files = cut(&first.files, &first.lengths).into_iter().enumerate();
    let of_plan = |(place, file): (usize, &[u8])| {
        if one.answers()[place] != 0 {
            let mut both = [one, other].into_iter();
            return both.find_map(|made| made.changed_parts(place));
        }
        let parting = parting(&Named::by(file), &one.left(place), &other.left(place));
        parting.map(Difference::Pair)
    };
    let answers = other.buffers[3].differs("answers", one.answers());
    answers.or_else(|| files.find_map(of_plan))
}
