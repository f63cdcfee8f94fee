//! Every question answered by the most direct method: clarity comes before speed.
//!
//! Cycles come from the transitive closure, starts from relaxing every edge n times, the
//! scheduling rule from sorting its candidates, and the lister numbers the rows of starts
//! within the operations' windows and tries them one after another.

use std::cmp::Reverse;

use crate::limits::{LAST_STEP, LONGEST_DELAY, MOST_EDGES, MOST_KINDS, MOST_OPERATIONS, MOST_ROWS};
pub use crate::{Finding, Graph, Refusal, State};

// ---------------------------------------------------------------------------------------
// The questions
// ---------------------------------------------------------------------------------------

/// Writes the least starts under precedence alone.
pub fn asap(graph: &Graph, out: &mut [u16]) -> Result<(), Refusal> {
    check_form(graph, &[])?;
    check_room(graph, out)?;
    check_acyclic_showing(graph, out)?;
    fill(out, &earliest(graph));
    Ok(())
}

/// Writes the greatest starts under precedence and the bound.
pub fn alap(graph: &Graph, bound: usize, out: &mut [u16]) -> Result<(), Refusal> {
    check_bounded_tables(graph, bound, out)?;
    fill(out, &latest(graph, bound));
    Ok(())
}

/// Writes the greatest starts less the least.
pub fn mobility(graph: &Graph, bound: usize, out: &mut [u16]) -> Result<(), Refusal> {
    check_bounded_tables(graph, bound, out)?;
    fill(out, &slack(graph, bound));
    Ok(())
}

/// Writes the list schedule's starts and gives its latency.
pub fn list_schedule(graph: &Graph, units: &[u8], out: &mut [u16]) -> Result<usize, Refusal> {
    check_form(graph, &[(units.len(), graph.kinds)])?;
    check_room(graph, out)?;
    check_units(graph, units)?;
    check_acyclic_showing(graph, out)?;
    let starts = follow_rule(graph, units);
    fill(out, &starts);
    Ok(latency(graph, &starts))
}

/// Applies the scheduling rule at the state's step and hands the state back one step further on.
pub fn advance(state: State, graph: &Graph, units: &[u8]) -> (Result<(), Refusal>, State) {
    match check_advance(&state, graph, units) {
        Ok(()) => (Ok(()), one_step_on(state, graph, units)),
        Err(refusal) => (Err(refusal), state),
    }
}

/// Finds the first fault of a schedule: in time, then in precedence, then in the use of units.
pub fn check(
    graph: &Graph,
    units: &[u8],
    bound: usize,
    starts: &[u16],
) -> Result<Finding, Refusal> {
    let lengths = [
        (units.len(), graph.kinds),
        (starts.len(), graph.delays.len()),
    ];
    check_form(graph, &lengths)?;
    check_units(graph, units)?;
    check_acyclic(graph)?;
    check_bound(bound)?;
    Ok(first_fault(graph, units, bound, &widen(starts)))
}

/// Gives for each type the largest number of operations running at any one step.
pub fn peak_use(graph: &Graph, starts: &[u16]) -> Result<[usize; MOST_KINDS], Refusal> {
    check_form(graph, &[(starts.len(), graph.delays.len())])?;
    check_acyclic(graph)?;
    let starts = widen(starts);
    Ok(std::array::from_fn(|kind| peak_of(graph, &starts, kind)))
}

/// Writes the least lawful schedule and says true, or says false if there is none.
pub fn first(graph: &Graph, units: &[u8], bound: usize, out: &mut [u16]) -> Result<bool, Refusal> {
    check_lister(graph, units, bound, &[], out)?;
    let rows = Rows::within(graph, bound);
    Ok(write_least(graph, units, bound, &rows, 0, out))
}

/// Writes the least lawful schedule strictly greater than a row, or says false if there is none.
pub fn next(
    graph: &Graph,
    units: &[u8],
    bound: usize,
    after: &[u16],
    out: &mut [u16],
) -> Result<bool, Refusal> {
    let lengths = [(after.len(), graph.delays.len())];
    check_lister(graph, units, bound, &lengths, out)?;
    let rows = Rows::within(graph, bound);
    let from = rows.first_beyond(&widen(after));
    Ok(write_least(graph, units, bound, &rows, from, out))
}

/// Gives the start and length of the part asked for within the channel's own table.
pub fn view(
    channel: usize,
    first: usize,
    count: usize,
    a_len: usize,
    b_len: usize,
) -> Result<(usize, usize), Refusal> {
    refuse_at(12, (channel > 1).then_some(0))?;
    let table = if channel == 0 { a_len } else { b_len };
    let fits = first.checked_add(count).is_some_and(|end| end <= table);
    refuse_at(13, (!fits).then_some(0))?;
    Ok((first, count))
}

// ---------------------------------------------------------------------------------------
// The checks, by their numbers
// ---------------------------------------------------------------------------------------

/// Refuses by a number at the place at fault, if there is one.
fn refuse_at(number: usize, fault: Option<usize>) -> Result<(), Refusal> {
    match fault {
        Some(place) => Err(Refusal { number, place }),
        None => Ok(()),
    }
}

/// Checks 1 to 4, with the pairs of lengths that this question also needs to match.
fn check_form(graph: &Graph, lengths: &[(usize, usize)]) -> Result<(), Refusal> {
    check_sizes(graph)?;
    check_lengths(graph, lengths)?;
    check_operations(graph)?;
    check_edges(graph)
}

/// Check 1: too many operations, edges or types.
fn check_sizes(graph: &Graph) -> Result<(), Refusal> {
    let too_large = graph.delays.len() > MOST_OPERATIONS
        || graph.from.len() > MOST_EDGES
        || graph.kinds > MOST_KINDS;
    refuse_at(1, too_large.then_some(0))
}

/// Check 2: rows that must match differ in length.
fn check_lengths(graph: &Graph, lengths: &[(usize, usize)]) -> Result<(), Refusal> {
    let differ = graph.delays.len() != graph.types.len()
        || graph.from.len() != graph.to.len()
        || lengths.iter().any(|(one, other)| one != other);
    refuse_at(2, differ.then_some(0))
}

/// Check 3: a delay outside 1 to the longest, or a type not below the number of types.
fn check_operations(graph: &Graph) -> Result<(), Refusal> {
    let at_fault = |&operation: &usize| {
        let delay = graph.delays[operation];
        !(1..=LONGEST_DELAY).contains(&delay) || kind_of(graph, operation) >= graph.kinds
    };
    refuse_at(3, operations(graph).find(at_fault))
}

/// Check 4: an edge end that is no operation.
fn check_edges(graph: &Graph) -> Result<(), Refusal> {
    let count = graph.delays.len();
    refuse_at(4, edges(graph).position(|(i, j)| i >= count || j >= count))
}

/// Check 5: an output row shorter than the number of operations.
fn check_room(graph: &Graph, out: &[u16]) -> Result<(), Refusal> {
    refuse_at(5, (out.len() < graph.delays.len()).then_some(0))
}

/// Check 6: a type in use that has no unit.
fn check_units(graph: &Graph, units: &[u8]) -> Result<(), Refusal> {
    let in_use = |kind: usize| operations(graph).any(|i| kind_of(graph, i) == kind);
    let lacking = |&kind: &usize| units[kind] == 0 && in_use(kind);
    refuse_at(6, (0..graph.kinds).find(lacking))
}

/// Check 7: a cycle, whose length is the place.
fn check_acyclic(graph: &Graph) -> Result<(), Refusal> {
    let length = shown_cycle(graph).len();
    refuse_at(7, (length > 0).then_some(length))
}

/// Check 7 where an output row is lent: a cycle is also written there.
fn check_acyclic_showing(graph: &Graph, out: &mut [u16]) -> Result<(), Refusal> {
    fill(out, &shown_cycle(graph));
    check_acyclic(graph)
}

/// Check 8: a bound above the largest.
fn check_bound(bound: usize) -> Result<(), Refusal> {
    refuse_at(8, (bound > LAST_STEP).then_some(0))
}

/// Check 9: a bound below the latency of the least starts.
fn check_reach(graph: &Graph, bound: usize) -> Result<(), Refusal> {
    let least = latency(graph, &earliest(graph));
    refuse_at(9, (bound < least).then_some(0))
}

/// Check 10: too many rows within the windows.
fn check_row_count(graph: &Graph, bound: usize) -> Result<(), Refusal> {
    let rows = Rows::within(graph, bound);
    refuse_at(10, (rows.count() > MOST_ROWS).then_some(0))
}

/// Check 11: an operation unplaced and the step out of range.
fn check_step(state: &State, graph: &Graph) -> Result<(), Refusal> {
    let in_range = (1..=LAST_STEP).contains(&state.step);
    let at_fault = !all_placed(state, graph) && !in_range;
    refuse_at(11, at_fault.then_some(0))
}

/// The checks of latest starts and mobility: 1 to 5 and 7 to 9.
fn check_bounded_tables(graph: &Graph, bound: usize, out: &mut [u16]) -> Result<(), Refusal> {
    check_form(graph, &[])?;
    check_room(graph, out)?;
    check_acyclic_showing(graph, out)?;
    check_bound(bound)?;
    check_reach(graph, bound)
}

/// The checks of the advance: 1 to 4, 6, 7 and 11.
fn check_advance(state: &State, graph: &Graph, units: &[u8]) -> Result<(), Refusal> {
    check_form(graph, &[(units.len(), graph.kinds)])?;
    check_units(graph, units)?;
    check_acyclic(graph)?;
    check_step(state, graph)
}

/// The checks of the lister: 1 to 10.
fn check_lister(
    graph: &Graph,
    units: &[u8],
    bound: usize,
    lengths: &[(usize, usize)],
    out: &mut [u16],
) -> Result<(), Refusal> {
    let all_lengths = [&[(units.len(), graph.kinds)], lengths].concat();
    check_form(graph, &all_lengths)?;
    check_room(graph, out)?;
    check_units(graph, units)?;
    check_acyclic_showing(graph, out)?;
    check_bound(bound)?;
    check_reach(graph, bound)?;
    check_row_count(graph, bound)
}

// ---------------------------------------------------------------------------------------
// Reading the rows
// ---------------------------------------------------------------------------------------

/// The numbers of the operations.
fn operations(graph: &Graph) -> std::ops::Range<usize> {
    0..graph.delays.len()
}

/// The edges in order, as pairs of operation numbers.
fn edges<'a>(graph: &Graph<'a>) -> impl Iterator<Item = (usize, usize)> + 'a {
    let ends = graph.from.iter().zip(graph.to);
    ends.map(|(&i, &j)| (usize::from(i), usize::from(j)))
}

/// The type of an operation.
fn kind_of(graph: &Graph, operation: usize) -> usize {
    usize::from(graph.types[operation])
}

/// The delay of an operation.
fn delay_of(graph: &Graph, operation: usize) -> usize {
    usize::from(graph.delays[operation])
}

/// The first step after an operation has ended.
fn finish(graph: &Graph, starts: &[usize], operation: usize) -> usize {
    starts[operation] + delay_of(graph, operation)
}

/// A row of 16-bit numbers as wide ones.
fn widen(row: &[u16]) -> Vec<usize> {
    row.iter().map(|&number| usize::from(number)).collect()
}

/// Writes numbers, none above 65,535, into the first entries of a row.
fn fill(out: &mut [u16], numbers: &[usize]) {
    for (entry, &number) in out.iter_mut().zip(numbers) {
        *entry = number as u16;
    }
}

// ---------------------------------------------------------------------------------------
// Cycles
// ---------------------------------------------------------------------------------------

/// For each pair of operations, whether a path of one edge or more leads from one to the other.
fn closure(graph: &Graph) -> Vec<Vec<bool>> {
    let count = graph.delays.len();
    let mut reaches = vec![vec![false; count]; count];
    for (i, j) in edges(graph) {
        reaches[i][j] = true;
    }
    for through in 0..count {
        for i in 0..count {
            for j in 0..count {
                reaches[i][j] |= reaches[i][through] && reaches[through][j];
            }
        }
    }
    reaches
}

/// For each operation, whether it can be reached from an operation on a cycle.
fn kept_operations(graph: &Graph) -> Vec<bool> {
    let reaches = closure(graph);
    let from_cycle = |i: usize| operations(graph).any(|c| reaches[c][c] && reaches[c][i]);
    operations(graph).map(from_cycle).collect()
}

/// The lowest kept operation with an edge to this one.
fn lowest_kept_predecessor(graph: &Graph, kept: &[bool], operation: usize) -> Option<usize> {
    let predecessors = edges(graph).filter(|&(i, j)| j == operation && kept[i]);
    predecessors.map(|(i, _)| i).min()
}

/// The cycle that a refusal shows, in edge direction from its lowest number; empty if none.
fn shown_cycle(graph: &Graph) -> Vec<usize> {
    let kept = kept_operations(graph);
    let mut walk: Vec<usize> = Vec::new();
    let mut here = operations(graph).find(|&operation| kept[operation]);
    while let Some(operation) = here {
        if let Some(met) = walk.iter().position(|&earlier| earlier == operation) {
            return in_edge_direction(&walk[met..]);
        }
        walk.push(operation);
        here = lowest_kept_predecessor(graph, &kept, operation);
    }
    Vec::new()
}

/// Turns a cycle that was walked against its edges, and lets it begin with its lowest number.
fn in_edge_direction(walked: &[usize]) -> Vec<usize> {
    let mut cycle: Vec<usize> = walked.iter().rev().copied().collect();
    let lowest = cycle.iter().min().copied();
    let place = cycle
        .iter()
        .position(|&operation| Some(operation) == lowest);
    cycle.rotate_left(place.unwrap_or(0));
    cycle
}

// ---------------------------------------------------------------------------------------
// Starts under precedence
// ---------------------------------------------------------------------------------------

/// The least starts of an acyclic graph: every edge pushes its second end, n times over.
fn earliest(graph: &Graph) -> Vec<usize> {
    let mut starts = vec![1; graph.delays.len()];
    for _ in operations(graph) {
        for (i, j) in edges(graph) {
            starts[j] = starts[j].max(starts[i] + delay_of(graph, i));
        }
    }
    starts
}

/// For each operation of an acyclic graph, the weight of the heaviest chain from it to the end.
fn heaviest_to_end(graph: &Graph, weights: &[usize]) -> Vec<usize> {
    let mut heaviest = weights.to_vec();
    for _ in operations(graph) {
        for (i, j) in edges(graph) {
            heaviest[i] = heaviest[i].max(weights[i] + heaviest[j]);
        }
    }
    heaviest
}

/// The greatest starts: what follows an operation, itself included, just fits under the bound.
fn latest(graph: &Graph, bound: usize) -> Vec<usize> {
    let delays: Vec<usize> = operations(graph).map(|i| delay_of(graph, i)).collect();
    let to_end = heaviest_to_end(graph, &delays);
    to_end
        .iter()
        .map(|steps| (bound + 1).saturating_sub(*steps))
        .collect()
}

/// The greatest starts less the least.
fn slack(graph: &Graph, bound: usize) -> Vec<usize> {
    let pairs = latest(graph, bound).into_iter().zip(earliest(graph));
    pairs
        .map(|(late, early)| late.saturating_sub(early))
        .collect()
}

/// The last step in which anything runs, 0 if there is nothing to run.
fn latency(graph: &Graph, starts: &[usize]) -> usize {
    let last = operations(graph).map(|i| finish(graph, starts, i)).max();
    last.map_or(0, |end| end.saturating_sub(1))
}

// ---------------------------------------------------------------------------------------
// The use of units
// ---------------------------------------------------------------------------------------

/// Whether an operation runs at a step.
fn runs_at(graph: &Graph, starts: &[usize], operation: usize, step: usize) -> bool {
    starts[operation] <= step && step < finish(graph, starts, operation)
}

/// How many operations of a type run at a step, a start of 0 counting like any other.
fn use_at(graph: &Graph, starts: &[usize], kind: usize, step: usize) -> usize {
    let counts = |&i: &usize| kind_of(graph, i) == kind && runs_at(graph, starts, i, step);
    operations(graph).filter(counts).count()
}

/// The largest use of a type over all steps in which one of its operations runs.
fn peak_of(graph: &Graph, starts: &[usize], kind: usize) -> usize {
    let of_kind = operations(graph).filter(|&i| kind_of(graph, i) == kind);
    let steps = of_kind.flat_map(|i| starts[i]..finish(graph, starts, i));
    let uses = steps.map(|step| use_at(graph, starts, kind, step));
    uses.max().unwrap_or(0)
}

// ---------------------------------------------------------------------------------------
// The scheduling rule
// ---------------------------------------------------------------------------------------

/// For each operation, the number of operations on the longest chain from it to the end.
fn labels(graph: &Graph) -> Vec<usize> {
    heaviest_to_end(graph, &vec![1; graph.delays.len()])
}

/// Whether an operation is unplaced and all its predecessors have ended by the step.
fn is_candidate(graph: &Graph, starts: &[usize], operation: usize, step: usize) -> bool {
    let ended = |i: usize| starts[i] != 0 && finish(graph, starts, i) <= step;
    starts[operation] == 0 && edges(graph).all(|(i, j)| j != operation || ended(i))
}

/// The candidates of a type at a step: larger labels first, then lower numbers.
fn ranked_candidates(graph: &Graph, starts: &[usize], kind: usize, step: usize) -> Vec<usize> {
    let labels = labels(graph);
    let chosen = |&i: &usize| kind_of(graph, i) == kind && is_candidate(graph, starts, i, step);
    let mut candidates: Vec<usize> = operations(graph).filter(chosen).collect();
    candidates.sort_by_key(|&i| (Reverse(labels[i]), i));
    candidates
}

/// How many placed operations of a type run at a step.
fn placed_use_at(graph: &Graph, starts: &[usize], kind: usize, step: usize) -> usize {
    let counts =
        |&i: &usize| starts[i] != 0 && kind_of(graph, i) == kind && runs_at(graph, starts, i, step);
    operations(graph).filter(counts).count()
}

/// Starts, for each type, the best candidates that its free units can take at a step.
fn apply_rule(graph: &Graph, units: &[u8], step: usize, starts: &mut [usize]) {
    for (kind, &count) in units.iter().enumerate() {
        let busy = placed_use_at(graph, starts, kind, step);
        let free = usize::from(count).saturating_sub(busy);
        let candidates = ranked_candidates(graph, starts, kind, step);
        for operation in candidates.into_iter().take(free) {
            starts[operation] = step;
        }
    }
}

/// The starts that the rule gives from nothing placed, step after step.
fn follow_rule(graph: &Graph, units: &[u8]) -> Vec<usize> {
    let mut starts = vec![0; graph.delays.len()];
    for step in 1..=LAST_STEP {
        if starts.contains(&0) {
            apply_rule(graph, units, step, &mut starts);
        }
    }
    starts
}

/// Whether no operation of the graph is unplaced.
fn all_placed(state: &State, graph: &Graph) -> bool {
    operations(graph).all(|operation| state.starts[operation] != 0)
}

/// The state after the rule at its step; unchanged if all are placed.
fn one_step_on(state: State, graph: &Graph, units: &[u8]) -> State {
    if all_placed(&state, graph) {
        return state;
    }
    let mut wide = widen(&state.starts);
    apply_rule(graph, units, state.step, &mut wide);
    let mut onward = state;
    fill(&mut onward.starts, &wide);
    onward.step += 1;
    onward
}

// ---------------------------------------------------------------------------------------
// The checker
// ---------------------------------------------------------------------------------------

/// The first fault of a row of starts, kind by kind.
fn first_fault(graph: &Graph, units: &[u8], bound: usize, starts: &[usize]) -> Finding {
    if let Some(operation) = operations(graph).find(|&i| !is_timely(graph, bound, starts, i)) {
        return Finding::Untimely(operation);
    }
    if let Some(edge) = edges(graph).position(|edge| !keeps_edge(graph, starts, edge)) {
        return Finding::Broken(edge);
    }
    match first_over_use(graph, units, bound, starts) {
        Some((step, kind)) => Finding::OverUse { step, kind },
        None => Finding::Lawful,
    }
}

/// Whether an operation starts at 1 or later and ends within the bound.
fn is_timely(graph: &Graph, bound: usize, starts: &[usize], operation: usize) -> bool {
    starts[operation] >= 1 && finish(graph, starts, operation) <= bound + 1
}

/// Whether an edge's second operation starts only after its first has ended.
fn keeps_edge(graph: &Graph, starts: &[usize], (i, j): (usize, usize)) -> bool {
    starts[j] >= finish(graph, starts, i)
}

/// The earliest step, and at that step the lowest type, with more running than there are units.
fn first_over_use(
    graph: &Graph,
    units: &[u8],
    bound: usize,
    starts: &[usize],
) -> Option<(usize, usize)> {
    let kinds = graph.kinds;
    let places = (1..=bound).flat_map(|step| (0..kinds).map(move |kind| (step, kind)));
    let over_used = |&(step, kind): &(usize, usize)| {
        use_at(graph, starts, kind, step) > usize::from(units[kind])
    };
    places.into_iter().find(over_used)
}

// ---------------------------------------------------------------------------------------
// The lister
// ---------------------------------------------------------------------------------------

/// Whether a row of starts is lawful, word for word.
fn is_lawful(graph: &Graph, units: &[u8], bound: usize, starts: &[usize]) -> bool {
    let within_units = |kind: usize| peak_of(graph, starts, kind) <= usize::from(units[kind]);
    operations(graph).all(|i| is_timely(graph, bound, starts, i))
        && edges(graph).all(|edge| keeps_edge(graph, starts, edge))
        && (0..graph.kinds).all(within_units)
}

/// All rows with every start in its operation's window, numbered from 0 in the order of words.
struct Rows {
    /// The first start of each window.
    first: Vec<usize>,
    /// The number of starts in each window.
    size: Vec<usize>,
}

impl Rows {
    /// The rows between the least and the greatest starts, where every lawful schedule lies.
    fn within(graph: &Graph, bound: usize) -> Rows {
        Rows {
            first: earliest(graph),
            size: slack(graph, bound).iter().map(|free| free + 1).collect(),
        }
    }

    /// How many rows there are, or the largest number if they are more than that.
    fn count(&self) -> usize {
        self.size.iter().fold(1, |rows, &s| rows.saturating_mul(s))
    }

    /// The row of a number: its digits, the last operation's counting single rows.
    fn row(&self, number: usize) -> Vec<usize> {
        let mut row = self.first.clone();
        let mut rest = number;
        for operation in (0..row.len()).rev() {
            row[operation] += rest % self.size[operation];
            rest /= self.size[operation];
        }
        row
    }

    /// The number of the first row strictly greater than a given one, by halving.
    fn first_beyond(&self, after: &[usize]) -> usize {
        let (mut low, mut high) = (0, self.count());
        while low < high {
            let middle = low + (high - low) / 2;
            if self.row(middle).as_slice() > after {
                high = middle;
            } else {
                low = middle + 1;
            }
        }
        low
    }
}

/// Writes the first lawful row from a number on and says true, or leaves all as it was.
fn write_least(
    graph: &Graph,
    units: &[u8],
    bound: usize,
    rows: &Rows,
    from: usize,
    out: &mut [u16],
) -> bool {
    let mut candidates = (from..rows.count()).map(|number| rows.row(number));
    match candidates.find(|row| is_lawful(graph, units, bound, row)) {
        Some(row) => {
            fill(out, &row);
            true
        }
        None => false,
    }
}
