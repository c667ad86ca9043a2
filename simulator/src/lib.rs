//! A simulator of the plan engine, written from its paper alone.
//!
//! Two runs live here side by side and share only the checked plan, the list
//! of ops that synchronise and the shape of their answer: [`turn_machine`]
//! plays a list of turns, one turn at a time, and [`round_run`] plays whole
//! rounds without turns. They keep their state in different structures on
//! purpose, so that a slip in one of them shows as a difference between the
//! two. A slip in what they share does not; tests know it by hand.

pub mod batch;
pub mod calls;
pub mod check;
pub mod counts;
pub mod format;
pub mod generate;
pub mod listing;
pub mod named;
pub mod outcome;
pub mod pair;
pub mod round_run;
pub mod turn_machine;

pub use batch::run_all;
pub use calls::{check_code, run, run_counted};
pub use check::{check, Plan, Refusal, Step};
pub use counts::Counts;
pub use listing::listing;
pub use named::Named;
pub use outcome::Outcome;
pub use round_run::play_rounds;
pub use turn_machine::{play_turns, Machine};
