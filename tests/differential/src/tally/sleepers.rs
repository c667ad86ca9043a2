//! How many of the accepted random plans have sleepers.

/// Counts over the random calls whose file a check accepts.
#[derive(Default)]
pub struct Share {
    accepted: u64,
    sleeping: u64,
}

impl Share {
    /// The file of a random call.
    pub fn note(&mut self, file: &[u8]) {
        let Ok(plan) = simulator::check(file) else {
            return;
        };
        self.accepted += 1;
        self.sleeping += u64::from(!plan.sleepers.is_empty());
    }

    pub fn rows(&self) -> [(String, u64); 2] {
        [
            ("random plan: accepted".to_string(), self.accepted),
            (
                "random plan: accepted, with sleepers".to_string(),
                self.sleeping,
            ),
        ]
    }

    /// Says so if less than a third have sleepers.
    pub fn too_small(&self) -> Option<String> {
        let small = 3 * self.sleeping < self.accepted;
        small.then(|| "sleepers in a third of the random plans".to_string())
    }
}
