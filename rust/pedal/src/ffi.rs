//! The declarations of `include/pedal.h`, word for word. A test holds every one against the
//! header.
//!
//! The functions are there where the library is linked. Calling them is unsafe for one reason: a
//! row is a pointer and a length, and the two must belong to memory that is there. Whatever
//! numbers that memory holds, every function answers. `face` calls them, and nothing else does.

/// The starts of a state, and the most operations of a graph.
pub const PEDAL_OPERATIONS: usize = 64;
/// The most types of a graph, and the peaks that `pedal_peak` gives.
pub const PEDAL_KINDS: usize = 4;

/// What `pedal_check` finds in a lawful schedule.
pub const PEDAL_LAWFUL: usize = 0;
/// A start of 0 or a finish past the bound: `first` is the operation.
pub const PEDAL_UNTIMELY: usize = 1;
/// An edge whose end starts too early: `first` is the edge.
pub const PEDAL_BROKEN: usize = 2;
/// More running than there are units: `first` is the step, `second` the type.
pub const PEDAL_OVER_USE: usize = 3;

/// A question that fills a row.
#[repr(C)]
#[derive(Clone, Copy, Debug, PartialEq, Eq)]
pub struct Filled {
    /// The refusal, 0 where answered.
    pub refusal: usize,
    /// The refusal's place.
    pub place: usize,
}

/// The list schedule; the latency is 0 when refused.
#[repr(C)]
#[derive(Clone, Copy, Debug, PartialEq, Eq)]
pub struct Scheduled {
    /// The refusal, 0 where answered.
    pub refusal: usize,
    /// The refusal's place.
    pub place: usize,
    /// The last step in which anything runs.
    pub latency: usize,
}

/// The advance: the step that the state now has.
#[repr(C)]
#[derive(Clone, Copy, Debug, PartialEq, Eq)]
pub struct Advanced {
    /// The refusal, 0 where answered.
    pub refusal: usize,
    /// The refusal's place.
    pub place: usize,
    /// The state's step.
    pub step: usize,
}

/// The checker's verdict; finding, first and second are 0 when refused.
#[repr(C)]
#[derive(Clone, Copy, Debug, PartialEq, Eq)]
pub struct Verdict {
    /// The refusal, 0 where answered.
    pub refusal: usize,
    /// The refusal's place.
    pub place: usize,
    /// One of the four findings.
    pub finding: usize,
    /// The operation, edge or step at fault.
    pub first: usize,
    /// The type at fault, where a step is.
    pub second: usize,
}

/// Peak use: for each type the most operations running at any one step, zeros when refused.
#[repr(C)]
#[derive(Clone, Copy, Debug, PartialEq, Eq)]
pub struct Peaks {
    /// The refusal, 0 where answered.
    pub refusal: usize,
    /// The refusal's place.
    pub place: usize,
    /// One number for each type.
    pub peak: [usize; PEDAL_KINDS],
}

/// The lister: found is 1 where a schedule was written, 0 where none is left or refused.
#[repr(C)]
#[derive(Clone, Copy, Debug, PartialEq, Eq)]
pub struct Listed {
    /// The refusal, 0 where answered.
    pub refusal: usize,
    /// The refusal's place.
    pub place: usize,
    /// Whether a schedule was written.
    pub found: usize,
}

/// A view: where it starts in the chosen table and how many entries it has; both 0 when refused.
#[repr(C)]
#[derive(Clone, Copy, Debug, PartialEq, Eq)]
pub struct Part {
    /// The refusal, 0 where answered.
    pub refusal: usize,
    /// The part's first entry.
    pub start: usize,
    /// The part's number of entries.
    pub length: usize,
}

#[cfg(linked)]
extern "C" {
    /// Earliest starts under precedence alone. Refusals 1 to 5 and 7.
    pub fn pedal_asap(
        delays: *const u8,
        delays_len: usize,
        types: *const u8,
        types_len: usize,
        kinds: usize,
        from: *const u16,
        from_len: usize,
        to: *const u16,
        to_len: usize,
        out: *mut u16,
        out_len: usize,
    ) -> Filled;

    /// Latest starts under precedence and the bound. Refusals 1 to 5 and 7 to 9.
    pub fn pedal_alap(
        delays: *const u8,
        delays_len: usize,
        types: *const u8,
        types_len: usize,
        kinds: usize,
        from: *const u16,
        from_len: usize,
        to: *const u16,
        to_len: usize,
        bound: usize,
        out: *mut u16,
        out_len: usize,
    ) -> Filled;

    /// Latest less earliest starts. Refusals 1 to 5 and 7 to 9.
    pub fn pedal_mobility(
        delays: *const u8,
        delays_len: usize,
        types: *const u8,
        types_len: usize,
        kinds: usize,
        from: *const u16,
        from_len: usize,
        to: *const u16,
        to_len: usize,
        bound: usize,
        out: *mut u16,
        out_len: usize,
    ) -> Filled;

    /// The list schedule under unit counts, one byte for each type. Refusals 1 to 7.
    pub fn pedal_list(
        delays: *const u8,
        delays_len: usize,
        types: *const u8,
        types_len: usize,
        kinds: usize,
        from: *const u16,
        from_len: usize,
        to: *const u16,
        to_len: usize,
        units: *const u8,
        units_len: usize,
        out: *mut u16,
        out_len: usize,
    ) -> Scheduled;

    /// One step of the list schedule; the starts are changed in place. Refusals 1 to 4, 6, 7
    /// and 11.
    pub fn pedal_advance(
        delays: *const u8,
        delays_len: usize,
        types: *const u8,
        types_len: usize,
        kinds: usize,
        from: *const u16,
        from_len: usize,
        to: *const u16,
        to_len: usize,
        units: *const u8,
        units_len: usize,
        step: usize,
        starts: *mut u16,
        starts_len: usize,
    ) -> Advanced;

    /// Whether a schedule is lawful for the units and the bound, or its first fault. Refusals 1
    /// to 4 and 6 to 8.
    pub fn pedal_check(
        delays: *const u8,
        delays_len: usize,
        types: *const u8,
        types_len: usize,
        kinds: usize,
        from: *const u16,
        from_len: usize,
        to: *const u16,
        to_len: usize,
        units: *const u8,
        units_len: usize,
        bound: usize,
        starts: *const u16,
        starts_len: usize,
    ) -> Verdict;

    /// Peak use of any row of n starts. Refusals 1 to 4 and 7.
    pub fn pedal_peak(
        delays: *const u8,
        delays_len: usize,
        types: *const u8,
        types_len: usize,
        kinds: usize,
        from: *const u16,
        from_len: usize,
        to: *const u16,
        to_len: usize,
        starts: *const u16,
        starts_len: usize,
    ) -> Peaks;

    /// The least lawful schedule, rows compared as words. Refusals 1 to 10.
    pub fn pedal_first(
        delays: *const u8,
        delays_len: usize,
        types: *const u8,
        types_len: usize,
        kinds: usize,
        from: *const u16,
        from_len: usize,
        to: *const u16,
        to_len: usize,
        units: *const u8,
        units_len: usize,
        bound: usize,
        out: *mut u16,
        out_len: usize,
    ) -> Listed;

    /// The least lawful schedule after any row of n numbers. Refusals 1 to 10.
    pub fn pedal_next(
        delays: *const u8,
        delays_len: usize,
        types: *const u8,
        types_len: usize,
        kinds: usize,
        from: *const u16,
        from_len: usize,
        to: *const u16,
        to_len: usize,
        units: *const u8,
        units_len: usize,
        bound: usize,
        after: *const u16,
        after_len: usize,
        out: *mut u16,
        out_len: usize,
    ) -> Listed;

    /// A part of channel A's (0) or B's (1) table: its start and length there. Refusals 12 and
    /// 13.
    pub fn pedal_view(
        a: *const u16,
        a_len: usize,
        b: *const u16,
        b_len: usize,
        channel: usize,
        first: usize,
        count: usize,
    ) -> Part;
}
