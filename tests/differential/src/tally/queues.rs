//! Limits of the queues, seen by going along a log.

use simulator::counts::{Board, Row};

const WAKERS: [&str; 2] = ["signal", "broadcast"];

/// The rows.
pub const ROWS: [Row; 11] = [
    Row {
        name: "waiters on a condition",
        members: 64,
        named: |place| format!("{} on condition {}", place % 8 + 1, place / 8),
    },
    Row {
        name: "woken from a queue out of worker order",
        members: 12,
        named: |place| format!("{} on {}", WAKERS[place / 6], place % 6 + 2),
    },
    Row {
        name: "woken worker",
        members: 16,
        named: |place| format!("{}, worker {}", WAKERS[place / 8], place % 8),
    },
    Row {
        name: "full barrier by size",
        members: 64,
        named: |place| format!("barrier {}, size {}", place / 8, place % 8 + 1),
    },
    Row {
        name: "full barrier, queued out of worker order",
        members: 6,
        named: |place| format!("size {}", place + 3),
    },
    Row {
        name: "barrier full a second time",
        members: 8,
        named: |place| format!("barrier {place}"),
    },
    Row {
        name: "woken worker waits again, waiters before it",
        members: 6,
        named: |place| (place + 1).to_string(),
    },
    Row {
        name: "conditions with waiters at once",
        members: 7,
        named: |place| (place + 2).to_string(),
    },
    Row {
        name: "waits on conditions by turns",
        members: 1,
        named: |_| "not met".to_string(),
    },
    Row {
        name: "woken by one holder in one round",
        members: 6,
        named: |place| (place + 2).to_string(),
    },
    Row {
        name: "barriers with queued workers at once",
        members: 7,
        named: |place| (place + 2).to_string(),
    },
];

/// The queues as a log leaves them.
#[derive(Default)]
pub struct Walk {
    waiting: [Vec<u8>; 8],
    meeting: [Vec<u8>; 8],
    filled: [bool; 8],
    /// The condition that each worker was last woken from.
    woken: [Option<usize>; 8],
    last_wait: Option<usize>,
    /// Whoever woke last, in which round, and how many on end.
    holder: (u8, [u8; 2], usize),
}

fn out_of_order(queue: &[u8]) -> bool {
    !queue.is_sorted()
}

/// Count of queues with somebody in them.
fn in_use(queues: &[Vec<u8>; 8]) -> usize {
    queues.iter().filter(|queue| !queue.is_empty()).count()
}

impl Walk {
    /// Goes on by a log record.
    pub fn note(&mut self, board: &mut Board, record: &[u8]) {
        let (worker, number) = (record[4], usize::from(record[6]));
        match (record[5], record[7]) {
            (34..=37, 254) => {}
            (34, _) => self.wait(board, worker, number),
            (35, 255) => {}
            (35 | 36, _) => self.wake(board, record),
            (37, 0) => self.meet(board, worker, number),
            (37, size) => self.fill(board, number, usize::from(size)),
            _ => {}
        }
    }

    fn wait(&mut self, board: &mut Board, worker: u8, condition: usize) {
        let before = self.waiting[condition].len();
        self.waiting[condition].push(worker);
        board.count(0, 8 * condition + before);
        if self.woken[usize::from(worker)] == Some(condition) && before > 0 {
            board.count(6, before.min(6) - 1);
        }
        if before > 0 && self.last_wait.is_some_and(|last| last != condition) {
            board.count(8, 0);
        }
        self.last_wait = Some(condition);
        let at_once = in_use(&self.waiting);
        if at_once > 1 {
            board.count(7, at_once - 2);
        }
    }

    fn meet(&mut self, board: &mut Board, worker: u8, barrier: usize) {
        self.meeting[barrier].push(worker);
        let at_once = in_use(&self.meeting);
        if at_once > 1 {
            board.count(10, at_once - 2);
        }
    }

    /// A signal wakes whom its record names, a broadcast the whole queue.
    fn wake(&mut self, board: &mut Board, record: &[u8]) {
        let (which, condition) = (usize::from(record[5] - 35), usize::from(record[6]));
        let queue = &mut self.waiting[condition];
        if out_of_order(queue) {
            board.count(1, 6 * which + queue.len() - 2);
        }
        let is_woken = |each: &u8| which == 1 || *each == record[7];
        let (woken, left): (Vec<u8>, Vec<u8>) = queue.iter().partition(|each| is_woken(each));
        *queue = left;
        for worker in woken.into_iter().map(usize::from) {
            board.count(2, 8 * which + worker);
            self.woken[worker] = Some(condition);
            self.hold(board, record[4], [record[2], record[3]]);
        }
    }

    /// One more is woken by this holder in this round.
    fn hold(&mut self, board: &mut Board, worker: u8, round: [u8; 2]) {
        let (last, last_round, on_end) = self.holder;
        let on_end = match (last, last_round) == (worker, round) {
            true => on_end + 1,
            false => 1,
        };
        self.holder = (worker, round, on_end);
        if on_end > 1 {
            board.count(9, on_end.min(7) - 2);
        }
    }

    fn fill(&mut self, board: &mut Board, barrier: usize, size: usize) {
        let queue = std::mem::take(&mut self.meeting[barrier]);
        board.count(3, 8 * barrier + size - 1);
        if out_of_order(&queue) {
            board.count(4, size - 3);
        }
        if self.filled[barrier] {
            board.count(5, barrier);
        }
        self.filled[barrier] = true;
    }
}
