//! The limits: how much there may be of anything, each number once.
//!
//! The two that the header also has stand in `ffi`, which a test holds against the header.

use crate::ffi;

/// The most operations of a graph, and the starts of a state.
pub const MOST_OPERATIONS: usize = ffi::PEDAL_OPERATIONS;
/// The most edges of a graph.
pub const MOST_EDGES: usize = 256;
/// The most types of a graph, and the peaks of an answer.
pub const MOST_KINDS: usize = ffi::PEDAL_KINDS;
/// The longest delay of an operation; the shortest is 1.
pub const LONGEST_DELAY: u8 = 16;
/// The largest latency bound, and the last step at which a state can be advanced.
pub const LAST_STEP: usize = 1024;
/// The largest product of (mobility + 1) that the lister takes on.
pub const MOST_ROWS: usize = 1_000_000;
/// The largest number of a refusal.
pub const LAST_REFUSAL: usize = 13;

/// A list schedule of the largest graph ends within the steps that there are.
const _: () = assert!(MOST_OPERATIONS * LONGEST_DELAY as usize <= LAST_STEP);
