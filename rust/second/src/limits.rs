//! The limits of the scope paper, each number once.

/// The largest number of operations in a graph.
pub const MOST_OPERATIONS: usize = 64;
/// The largest number of edges in a graph.
pub const MOST_EDGES: usize = 256;
/// The largest number of types.
pub const MOST_KINDS: usize = 4;
/// The longest delay of an operation; the shortest is 1.
pub const LONGEST_DELAY: u8 = 16;
/// The largest latency bound, and the last step at which a state can be advanced.
pub const LAST_STEP: usize = 1024;
/// The largest product of (mobility + 1) that the lister takes on.
pub const MOST_ROWS: usize = 1_000_000;

/// A set of operations where speed counts: a bit for each.
pub(crate) type Set = u64;

/// Every operation has a bit.
const _: () = assert!(MOST_OPERATIONS <= Set::BITS as usize);
