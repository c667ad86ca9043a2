//! Limits that are alike stand in one row, counted one by one.

/// A row: a name for all its limits, how many they are, and the name of each.
#[derive(Clone, Copy)]
pub struct Row {
    pub name: &'static str,
    pub members: usize,
    pub named: fn(usize) -> String,
}

/// How often each limit of each row was met.
#[derive(Clone)]
pub struct Board {
    rows: &'static [Row],
    counts: Vec<Vec<u64>>,
}

impl Board {
    /// A board on which nothing is counted yet.
    pub fn new(rows: &'static [Row]) -> Self {
        Board {
            rows,
            counts: rows.iter().map(|row| vec![0; row.members]).collect(),
        }
    }

    /// Counts a limit of a row.
    pub fn count(&mut self, row: usize, member: usize) {
        self.counts[row][member] += 1;
    }

    /// For each row its name, with the count of its limits where it has
    /// several, and the count of the limit that came up least.
    pub fn least(&self) -> Vec<(String, u64)> {
        let each = |(row, counts): (&Row, &Vec<u64>)| {
            let least = counts.iter().min().copied();
            let name = match row.members {
                1 => row.name.to_string(),
                members => format!("{}, least of {members}", row.name),
            };
            (name, least.unwrap_or(0))
        };
        self.rows.iter().zip(&self.counts).map(each).collect()
    }

    /// Names of the limits that never came up.
    pub fn missing(&self) -> Vec<String> {
        let of_row = |(row, counts): (&Row, &Vec<u64>)| {
            let zero = (0..row.members).filter(|&member| counts[member] == 0);
            let name = |member| format!("{}: {}", row.name, (row.named)(member));
            zero.map(name).collect::<Vec<_>>()
        };
        self.rows
            .iter()
            .zip(&self.counts)
            .flat_map(of_row)
            .collect()
    }
}
