//! Damaging inputs, so that every refusal is met.

use pedal::{LAST_STEP, LONGEST_DELAY, MOST_EDGES, MOST_KINDS, MOST_OPERATIONS};
use samples::{bytes, overwrite, Xorshift};

use crate::make::{entries, entry, PAST_LAST_STEP};
use crate::Input;

/// Does one to three kinds of damage.
pub fn damage(rng: &mut Xorshift, input: &mut Input) {
    let times = if rng.once_in(4) { rng.between(2, 3) } else { 1 };
    for _ in 0..times {
        damage_once(rng, input);
    }
}

/// Does one kind of damage.
fn damage_once(rng: &mut Xorshift, input: &mut Input) {
    match rng.below(13) {
        0 => enlarge(rng, input),
        1 | 2 => mislength(rng, input),
        3 | 4 => spoil_operation(rng, input),
        5 => spoil_edge(rng, input),
        6 => shorten_output(rng, input),
        7 => take_units(rng, input),
        8 => close_cycle(rng, input),
        9 => spoil_bound(rng, input),
        10 => input.bound = rng.below(PAST_LAST_STEP + 1),
        11 => spoil_state(rng, input),
        _ => input.kinds = rng.below(MOST_KINDS + 3),
    }
}

/// Too many operations, edges or types, with all else in proportion.
fn enlarge(rng: &mut Xorshift, input: &mut Input) {
    match rng.below(4) {
        0 => {
            let most = MOST_OPERATIONS * [1, 6][rng.below(2)] + 6;
            let count = rng.between(MOST_OPERATIONS + 1, most);
            input.delays = bytes(rng, count, 1, usize::from(LONGEST_DELAY));
            input.types.resize(count, 0);
            input.starts.resize(count, 1);
            input.after.resize(count, 1);
            input.out.resize(count, 9);
        }
        1 => {
            let count = rng.between(MOST_EDGES + 1, 2 * MOST_EDGES);
            input.from.resize(count, 0);
            input.to.resize(count, 1);
        }
        2 => {
            input.kinds = rng.between(MOST_KINDS + 1, MOST_KINDS + 2);
            input.units.resize(input.kinds, 1);
        }
        _ => input.kinds = usize::MAX - rng.below(2),
    }
}

/// Makes a row one entry longer or shorter.
fn stretch<T>(rng: &mut Xorshift, row: &mut Vec<T>, more: T) {
    if rng.once_in(2) {
        row.push(more);
    } else {
        row.pop();
    }
}

/// Makes a row's length wrong.
fn mislength(rng: &mut Xorshift, input: &mut Input) {
    match rng.below(8) {
        0 => stretch(rng, &mut input.delays, 1),
        1 => stretch(rng, &mut input.types, 0),
        2 => stretch(rng, &mut input.from, 0),
        3 => stretch(rng, &mut input.to, 0),
        4 => stretch(rng, &mut input.units, 1),
        5 => stretch(rng, &mut input.starts, 1),
        6 => stretch(rng, &mut input.after, 1),
        _ => {
            let lengths = [
                0,
                input.delays.len(),
                MOST_OPERATIONS - 1,
                MOST_OPERATIONS + 1,
                MOST_OPERATIONS + 6,
            ];
            let length = lengths[rng.below(lengths.len())];
            input.state = entries(rng, length, 20);
        }
    }
}

/// A delay that is none, the longest or too long, or a type that may not be there.
fn spoil_operation(rng: &mut Xorshift, input: &mut Input) {
    let long = [LONGEST_DELAY, LONGEST_DELAY + 1, LONGEST_DELAY + 2];
    let delay = [0, long[rng.below(long.len())], u8::MAX][rng.below(3)];
    let kind = [rng.below(MOST_KINDS + 3) as u8, u8::MAX][rng.below(2)];
    if rng.once_in(2) {
        overwrite(rng, &mut input.delays, delay);
    } else {
        overwrite(rng, &mut input.types, kind);
    }
}

/// An edge to or from nowhere, or to somewhere else.
fn spoil_edge(rng: &mut Xorshift, input: &mut Input) {
    let count = input.delays.len();
    let end = match rng.below(3) {
        0 => count.min(usize::from(u16::MAX)) as u16,
        1 => u16::MAX,
        _ => entry(rng, count + 2),
    };
    if rng.once_in(2) {
        overwrite(rng, &mut input.from, end);
    } else {
        overwrite(rng, &mut input.to, end);
    }
}

/// An output row that may be too short.
fn shorten_output(rng: &mut Xorshift, input: &mut Input) {
    let room = rng.below(input.out.len() + 1);
    input.out.truncate(room);
}

/// A type, or every type, without units.
fn take_units(rng: &mut Xorshift, input: &mut Input) {
    if rng.once_in(3) {
        input.units.fill(0);
    } else {
        overwrite(rng, &mut input.units, 0);
    }
}

/// Edges around a ring of operations, now and then of one alone.
fn close_cycle(rng: &mut Xorshift, input: &mut Input) {
    let count = input.delays.len();
    let length = if rng.once_in(4) { 1 } else { rng.between(1, 9) };
    let ring: Vec<u16> = (0..length).map(|_| rng.below(count) as u16).collect();
    if count > 0 && input.from.len() + length <= MOST_EDGES {
        input.from.extend(&ring);
        input.to.extend(ring[1..].iter().chain(&ring[..1]));
    }
}

/// A bound above every bound.
fn spoil_bound(rng: &mut Xorshift, input: &mut Input) {
    let bounds = [LAST_STEP + 1, PAST_LAST_STEP, 65536, usize::MAX];
    input.bound = bounds[rng.below(bounds.len())];
}

/// A step outside of all steps, with an operation unplaced or not.
fn spoil_state(rng: &mut Xorshift, input: &mut Input) {
    let steps = [0, LAST_STEP + 1, 65535, 65536, usize::MAX];
    input.step = steps[rng.below(steps.len())];
    if rng.once_in(2) {
        overwrite(rng, &mut input.state, 0);
    }
}
