//! Random numbers and random graphs, for programs that try or time many.
//!
//! Nothing here has limits of its own or answers a question: whoever wants a graph says how large
//! it may be, and asks about it elsewhere.

#![forbid(unsafe_code)]
#![warn(missing_docs)]

mod graph;
mod random;
mod rows;
mod shapes;
#[cfg(test)]
mod tests;

pub use graph::{Graph, Size};
pub use random::Xorshift;
pub use rows::{bytes, in_order, overwrite, shuffled, words};
pub use shapes::{eleven, ladder, tangle};
