//! Making random inputs.

use pedal::{LAST_STEP, LONGEST_DELAY, MOST_EDGES, MOST_KINDS, MOST_OPERATIONS, MOST_ROWS};
use samples::{bytes, overwrite, Size, Xorshift};
use second::{direct, Graph, State};

use crate::damage::damage;
use crate::Input;

/// A bound, and a start, not far past the last step.
pub(crate) const PAST_LAST_STEP: usize = LAST_STEP + 76;
/// How far above the least bound the lister mostly refuses.
const FAR: usize = 300;
/// Units for all operations of a border case.
const PLENTY: u8 = 20;

/// Makes an input, good or damaged.
pub fn make(rng: &mut Xorshift) -> Input {
    let mut input = if rng.once_in(300) {
        border(rng)
    } else {
        good(rng)
    };
    fill_views(rng, &mut input);
    if rng.once_in(2) {
        damage(rng, &mut input);
    }
    settle_bound(rng, &mut input);
    input
}

/// An input that is well formed, with now and then a cycle.
fn good(rng: &mut Xorshift) -> Input {
    let size = Size {
        operations: operations(rng),
        longest_delay: longest_delay(rng),
        kinds: rng.between(1, MOST_KINDS),
        edges: MOST_EDGES,
    };
    let mut input = Input::from(samples::Graph::random(rng, size));
    input.null = rng.once_in(2);
    fill_units(rng, &mut input);
    fill_bound(rng, &mut input);
    fill_rows(rng, &mut input);
    fill_state(rng, &mut input);
    input
}

/// Independent operations with units for all, whose windows hold about as many rows as the
/// lister takes on.
fn border(rng: &mut Xorshift) -> Input {
    let counts = [2, 3, 6, 19, usize::from(PLENTY)];
    let count = counts[rng.below(counts.len())];
    let mut input = Input {
        delays: vec![1; count],
        types: vec![0; count],
        kinds: 1,
        units: vec![PLENTY],
        bound: root(count as u32) + rng.below(2),
        ..Input::default()
    };
    fill_rows(rng, &mut input);
    fill_state(rng, &mut input);
    input
}

/// The most starts that each of some operations can have before the lister refuses.
fn root(count: u32) -> usize {
    let fits = |&side: &usize| {
        let rows = side.checked_pow(count);
        rows.is_some_and(|rows| rows <= MOST_ROWS)
    };
    (1..=LAST_STEP).take_while(fits).last().unwrap_or(0)
}

/// A start: often small, now and then the least, the greatest, or near the last step.
pub(crate) fn entry(rng: &mut Xorshift, small: usize) -> u16 {
    match rng.below(8) {
        0 => 0,
        1 => u16::MAX,
        2 => rng.bits() as u16,
        3 => rng.between(LAST_STEP - 24, PAST_LAST_STEP) as u16,
        _ => rng.below(small + 1) as u16,
    }
}

/// A row of such numbers.
pub(crate) fn entries(rng: &mut Xorshift, length: usize, small: usize) -> Vec<u16> {
    (0..length).map(|_| entry(rng, small)).collect()
}

/// The number of operations: mostly few.
fn operations(rng: &mut Xorshift) -> usize {
    match rng.below(1000) {
        0..=399 => rng.between(0, 4),
        400..=799 => rng.between(5, 9),
        800..=979 => rng.between(10, 24),
        _ => rng.between(25, MOST_OPERATIONS),
    }
}

/// The longest delay: mostly short.
fn longest_delay(rng: &mut Xorshift) -> usize {
    match rng.below(4) {
        0 => usize::from(LONGEST_DELAY),
        _ => rng.between(1, 3),
    }
}

/// Unit counts: few, or one for every operation.
fn fill_units(rng: &mut Xorshift, input: &mut Input) {
    let most = match rng.below(6) {
        0 => input.delays.len().max(1),
        1 => usize::from(u8::MAX),
        _ => rng.between(1, 3),
    };
    input.units = bytes(rng, input.kinds, 1, most);
}

/// The earliest starts, if the graph has some.
fn earliest(graph: &Graph) -> Option<Vec<u16>> {
    let mut out = vec![0; graph.delays.len()];
    direct::asap(graph, &mut out).ok()?;
    Some(out)
}

/// The last step in which anything runs.
fn latency(graph: &Graph, starts: &[u16]) -> usize {
    let ends = starts.iter().zip(graph.delays);
    let end = ends.map(|(&t, &d)| usize::from(t) + usize::from(d)).max();
    end.map_or(0, |end| end - 1)
}

/// A bound: mostly near the earliest latency.
fn fill_bound(rng: &mut Xorshift, input: &mut Input) {
    let least = earliest(&input.graph()).map_or(0, |starts| latency(&input.graph(), &starts));
    input.bound = match rng.below(40) {
        0 => least.saturating_sub(1),
        1 => rng.below(least + 1),
        2 => rng.below(PAST_LAST_STEP),
        3 => LAST_STEP,
        _ => least + rng.below(4),
    };
}

/// The starts to look at, the row to go on from, and the output row.
fn fill_rows(rng: &mut Xorshift, input: &mut Input) {
    input.starts = schedule(rng, input);
    input.after = schedule(rng, input);
    let room = input.delays.len() + if rng.once_in(3) { rng.below(5) } else { 0 };
    input.out = entries(rng, room, 20);
}

/// A row of starts: a schedule of some kind, a neighbour of one, or any row.
fn schedule(rng: &mut Xorshift, input: &Input) -> Vec<u16> {
    let count = input.delays.len();
    let mut row = match rng.below(6) {
        0 => entries(rng, count, input.bound.min(2 * LAST_STEP) + 2),
        1 => vec![rng.below(3) as u16; count],
        2 => some_first(input).unwrap_or_default(),
        3 => earliest(&input.graph()).unwrap_or_default(),
        4 => in_windows(rng, input).unwrap_or_default(),
        _ => listed(input).unwrap_or_default(),
    };
    row.resize(count, 1);
    if rng.once_in(4) {
        let other = entry(rng, input.bound.min(2 * LAST_STEP) + 1);
        overwrite(rng, &mut row, other);
    }
    row
}

/// The list schedule, if there is one.
fn listed(input: &Input) -> Option<Vec<u16>> {
    let mut out = vec![0; input.delays.len()];
    direct::list_schedule(&input.graph(), &input.units, &mut out).ok()?;
    Some(out)
}

/// The least lawful schedule, if it is soon found.
fn some_first(input: &Input) -> Option<Vec<u16>> {
    let mut out = vec![0; input.delays.len()];
    let soon = freedom(input, input.bound).is_some_and(|rows| rows <= patience(input));
    let found = soon && direct::first(&input.graph(), &input.units, input.bound, &mut out).ok()?;
    found.then_some(out)
}

/// A row with each start between the earliest and the latest.
fn in_windows(rng: &mut Xorshift, input: &Input) -> Option<Vec<u16>> {
    let mut row = earliest(&input.graph())?;
    let mut free = vec![0; row.len()];
    direct::mobility(&input.graph(), input.bound, &mut free).ok()?;
    for (start, free) in row.iter_mut().zip(free) {
        *start += rng.below(usize::from(free) + 1) as u16;
    }
    Some(row)
}

/// A state: fresh, on its way, or any.
fn fill_state(rng: &mut Xorshift, input: &mut Input) {
    let mut state = State {
        step: 1,
        starts: [0; MOST_OPERATIONS],
    };
    match rng.below(3) {
        0 => {
            for _ in 0..rng.below(12) {
                state = direct::advance(state, &input.graph(), &input.units).1;
            }
        }
        1 => {
            state.step = rng.between(1, 40);
            for start in &mut state.starts {
                *start = entry(rng, 40);
            }
        }
        _ => {
            let last = [LAST_STEP - 1, LAST_STEP, LAST_STEP + 1];
            let steps = [&last[..], &[0, 1, 2, 65536, usize::MAX]].concat();
            state.step = steps[rng.below(steps.len())];
            scatter(rng, &mut state);
        }
    }
    input.step = state.step;
    input.state = state.starts.to_vec();
}

/// Places about half of a state's operations near its step, or all of them.
fn scatter(rng: &mut Xorshift, state: &mut State) {
    let all = rng.once_in(3);
    for start in &mut state.starts {
        if all || rng.once_in(2) {
            let near = state.step.min(usize::from(u16::MAX)) as u16;
            *start = near
                .saturating_sub(rng.below(20) as u16)
                .max(u16::from(all));
        }
    }
}

/// Two tables and a part of one, which may lie outside.
fn fill_views(rng: &mut Xorshift, input: &mut Input) {
    let lengths = (rng.below(20), rng.below(20));
    input.a = entries(rng, lengths.0, 20);
    input.b = entries(rng, lengths.1, 20);
    input.channel = match rng.below(8) {
        0 => [2, 3, usize::MAX][rng.below(3)],
        _ => rng.below(2),
    };
    input.first = extent(rng);
    input.count = extent(rng);
}

/// A place or a length in a table, now and then a huge one.
fn extent(rng: &mut Xorshift) -> usize {
    match rng.below(16) {
        0 => usize::MAX - rng.below(3),
        1 => rng.bits() as usize,
        _ => rng.below(10),
    }
}

/// How many rows the windows hold under a bound, if the lister gets that far.
fn freedom(input: &Input, bound: usize) -> Option<usize> {
    let mut out = vec![0; input.delays.len()];
    direct::mobility(&input.graph(), bound, &mut out).ok()?;
    let rows = out.iter().map(|&free| usize::from(free) + 1);
    Some(rows.fold(1, usize::saturating_mul))
}

/// How many rows the second opinion can try within reason.
fn patience(input: &Input) -> usize {
    match input.delays.len() {
        0..=9 => 3000,
        10..=24 => 500,
        _ => 50,
    }
}

/// Whether the second opinion would try too many rows: neither few nor past the lister's limit.
fn is_slow(input: &Input) -> bool {
    let loose = input.from.is_empty() && input.units.iter().all(|&units| units >= PLENTY);
    let rows = freedom(input, input.bound);
    !loose && rows.is_some_and(|rows| rows > patience(input) && rows <= MOST_ROWS)
}

/// Changes a bound at which the second opinion would be slow: to the least, to one at which the
/// lister refuses, or to one below the least.
fn settle_bound(rng: &mut Xorshift, input: &mut Input) {
    if !is_slow(input) {
        return;
    }
    let starts = earliest(&input.graph()).unwrap_or_default();
    let least = latency(&input.graph(), &starts);
    let bounds = match rng.below(2) {
        0 => [least, least + FAR, least.saturating_sub(1), LAST_STEP + 1],
        _ => [least + FAR, least, LAST_STEP, LAST_STEP + 1],
    };
    for bound in bounds {
        input.bound = bound;
        if !is_slow(input) {
            return;
        }
    }
}
