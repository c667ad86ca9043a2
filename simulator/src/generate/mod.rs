//! Seeded random plans, turn lists, buffers and damaged files.
//!
//! Everything here is settled by the seed alone, so a test that finds a
//! difference can name the seed and find it again.

pub mod batches;
pub mod broadcasts;
pub mod buffers;
pub mod damage;
pub mod deep;
pub mod draft;
pub mod faults;
pub mod last_turn;
pub mod locks;
pub mod long_queues;
pub mod names;
pub mod pairs;
pub mod plans;
pub mod rng;
pub mod scenario;
pub mod script;
pub mod starts;
pub mod sums;
pub mod turns;

pub use batches::{Batch, BatchKind, Batches};
pub use damage::{damaged_files, showcase, Damaged};
pub use draft::Draft;
pub use pairs::{changed, Change};
pub use plans::{plan, PlanKind};
pub use rng::Rng;
pub use scenario::{ListKind, Scenario, Scenarios};
pub use turns::{turns, TurnKind};
