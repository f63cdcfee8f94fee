//! A safe face over the proved scheduler: earliest and latest starts, mobility, list schedules,
//! a checker, peak use, all lawful schedules, and views of two channels' tables.
//!
//! The answers come from the proved library, linked or through a proved program that asks it
//! ([`face`]); what stands above it here (the names, the words of a refusal, the C boundary's
//! declarations) is plain Rust.
//!
//! ```
//! use pedal::{Finding, GraphBuilder};
//!
//! # fn main() -> Result<(), Box<dyn std::error::Error>> {
//! let mut builder = GraphBuilder::new();
//! builder.kind("mul")?.kind("alu")?;
//! builder.operation("a", "mul", 2)?.operation("b", "mul", 2)?;
//! builder.operation("sum", "alu", 1)?;
//! builder.edge("a", "sum")?.edge("b", "sum")?;
//! let graph = builder.build();
//!
//! let schedule = graph.list(&[1, 1])?;
//! assert_eq!(schedule.starts, [1, 3, 5]);
//! assert_eq!(schedule.latency, 5);
//! assert_eq!(graph.check(&[1, 1], 5, &schedule.starts)?, Finding::Lawful);
//! let all: Result<Vec<Vec<u16>>, pedal::Error> = graph.schedules(&[1, 1], 5)?.collect();
//! assert_eq!(all?, [[1, 3, 5], [3, 1, 5]]);
//!
//! let error = graph.alap(2).unwrap_err();
//! assert_eq!(error.to_string(), "refusal 9: the bound 2 is below the ASAP latency 3");
//! assert_eq!(error.refusal().map(|refusal| refusal.number), Some(9));
//! # Ok(())
//! # }
//! ```

#![warn(missing_docs)]
#![deny(unsafe_code)]

pub mod face;
pub mod ffi;

mod broken;
mod builder;
mod error;
mod graph;
mod limits;
mod process;
#[cfg(test)]
mod process_tests;
mod questions;
mod refusal;
mod schedules;
mod start;
mod state;
#[cfg(test)]
mod tests;
mod view;

pub use broken::Broken;
pub use builder::{GraphBuilder, NameError};
pub use error::Error;
pub use graph::Graph;
pub use limits::{
    LAST_REFUSAL, LAST_STEP, LONGEST_DELAY, MOST_EDGES, MOST_KINDS, MOST_OPERATIONS, MOST_ROWS,
};
pub use questions::{Finding, Schedule};
pub use refusal::Refusal;
pub use schedules::Schedules;
pub use state::State;
pub use view::view;
