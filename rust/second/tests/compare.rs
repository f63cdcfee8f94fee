//! Random trials: the quick answers against the direct ones, and the direct ones against the
//! scope paper's definitions.

use samples::{bytes, overwrite, words, Size, Xorshift};
use second::{direct, quick, Finding, Graph, State};
use second::{LAST_STEP, LONGEST_DELAY, MOST_EDGES, MOST_KINDS, MOST_OPERATIONS};

/// What an output row holds before a question.
const FILLER: u16 = 7777;

/// One input for every question.
#[derive(Debug)]
struct Sample {
    /// The graph.
    rows: samples::Graph,
    /// The unit counts.
    units: Vec<u8>,
    /// The latency bound.
    bound: usize,
    /// A row of starts.
    starts: Vec<u16>,
    /// How many entries an output row has.
    room: usize,
}

/// How large the parts of a sample may be.
struct Limits {
    /// The most operations.
    operations: usize,
    /// The longest delay.
    delay: usize,
    /// The most edges.
    edges: usize,
    /// The most types.
    kinds: usize,
    /// The most units of a type.
    units: usize,
    /// The largest bound.
    bound: usize,
}

/// Limits under which whole lists stay short.
const SMALL: Limits = Limits {
    operations: 5,
    delay: 3,
    edges: 5,
    kinds: 3,
    units: 2,
    bound: 8,
};

/// Limits under which every row can be tried.
const TINY: Limits = Limits {
    operations: 3,
    delay: 2,
    edges: 3,
    kinds: 2,
    units: 2,
    bound: 4,
};

/// The limits of the scope paper.
const LARGE: Limits = Limits {
    operations: MOST_OPERATIONS,
    delay: LONGEST_DELAY as usize,
    edges: MOST_EDGES,
    kinds: MOST_KINDS,
    units: 9,
    bound: LAST_STEP,
};

impl Sample {
    /// Makes a well-formed sample; its graph has cycles now and then.
    fn new(rng: &mut Xorshift, limits: &Limits) -> Sample {
        let size = Size {
            operations: rng.between(0, limits.operations),
            longest_delay: limits.delay,
            kinds: rng.between(1, limits.kinds),
            edges: limits.edges,
        };
        let fewest = usize::from(!rng.once_in(12));
        let last = rng.between(1, limits.bound + 1);
        Sample {
            rows: samples::Graph::random(rng, size),
            units: bytes(rng, size.kinds, fewest, limits.units),
            bound: rng.between(0, limits.bound),
            starts: words(rng, size.operations, 0, last),
            room: size.operations + rng.below(3),
        }
    }

    /// Does one kind of damage.
    fn spoil(&mut self, rng: &mut Xorshift) {
        match rng.below(12) {
            0 => self.rows.delays.push(rng.bits() as u8),
            1 => self.rows.types.push(rng.bits() as u8),
            2 => self.rows.from.push(rng.below(MOST_OPERATIONS + 6) as u16),
            3 => self.rows.to.push(rng.bits() as u16),
            4 => self.units.push(rng.bits() as u8),
            5 => self.starts.push(rng.bits() as u16),
            6 => self.rows.kinds = rng.below(MOST_KINDS + 3),
            7 => self.bound = rng.bits() as usize,
            8 => self.room = rng.below(self.rows.operations() + 1),
            9 => {
                let delay = rng.below(usize::from(LONGEST_DELAY) + 2) as u8;
                overwrite(rng, &mut self.rows.delays, delay);
            }
            10 => {
                let kind = rng.below(MOST_KINDS + 2) as u8;
                overwrite(rng, &mut self.rows.types, kind);
            }
            _ => self.spoil_edges(rng),
        }
    }

    /// Damages the edges: an end anywhere, an edge the other way, or very many of them.
    fn spoil_edges(&mut self, rng: &mut Xorshift) {
        let edge = rng.below(self.rows.from.len());
        match (
            rng.below(3),
            self.rows.from.get_mut(edge),
            self.rows.to.get_mut(edge),
        ) {
            (0, Some(i), _) => *i = rng.below(MOST_OPERATIONS + 6) as u16,
            (1, Some(i), Some(j)) => std::mem::swap(i, j),
            _ => {
                self.rows.from.resize(MOST_EDGES + 44, 0);
                self.rows.to.resize(MOST_EDGES + 44, 0);
            }
        }
    }

    /// Lends the graph.
    fn graph(&self) -> Graph<'_> {
        Graph {
            delays: &self.rows.delays,
            types: &self.rows.types,
            kinds: self.rows.kinds,
            from: &self.rows.from,
            to: &self.rows.to,
        }
    }

    /// Every schedule, by the direct method; empty if the lister refuses.
    fn all(&self) -> Vec<Vec<u16>> {
        let (graph, mut found) = (self.graph(), Vec::new());
        let mut out = vec![0; self.rows.operations()];
        let mut more = direct::first(&graph, &self.units, self.bound, &mut out);
        while more == Ok(true) {
            found.push(out.clone());
            let after = out.clone();
            more = direct::next(&graph, &self.units, self.bound, &after, &mut out);
        }
        found
    }
}

/// A fresh row, the answer of a question that writes there, and what the row then holds.
fn ask<T>(room: usize, question: impl Fn(&mut [u16]) -> T) -> (T, Vec<u16>) {
    let mut out = vec![FILLER; room];
    let answer = question(&mut out);
    (answer, out)
}

/// Demands the same tables, findings and peaks from both.
fn compare_schedules(sample: &Sample) {
    let (graph, units, room) = (sample.graph(), &sample.units, sample.room);
    assert_eq!(
        ask(room, |out| quick::asap(&graph, out)),
        ask(room, |out| direct::asap(&graph, out)),
        "{sample:?}"
    );
    assert_eq!(
        ask(room, |out| quick::list_schedule(&graph, units, out)),
        ask(room, |out| direct::list_schedule(&graph, units, out)),
        "{sample:?}"
    );
    compare_findings(sample, sample.bound, &sample.starts);
    let count = sample.rows.operations();
    let (_, listed) = ask(count, |out| quick::list_schedule(&graph, units, out));
    compare_findings(sample, sample.bound, &listed);
    let (_, early) = ask(count, |out| quick::asap(&graph, out));
    compare_findings(sample, LAST_STEP, &early);
}

/// Demands the same finding and the same peaks of a row from both.
fn compare_findings(sample: &Sample, bound: usize, starts: &[u16]) {
    let (graph, units) = (sample.graph(), &sample.units);
    assert_eq!(
        quick::check(&graph, units, bound, starts),
        direct::check(&graph, units, bound, starts),
        "{sample:?}"
    );
    assert_eq!(
        quick::peak_use(&graph, starts),
        direct::peak_use(&graph, starts),
        "{sample:?}"
    );
}

/// Demands the same first schedule, and the same next one after a row, from both.
fn compare_steps(sample: &Sample, after: &[u16]) {
    let (graph, units, bound) = (sample.graph(), &sample.units, sample.bound);
    assert_eq!(
        ask(sample.room, |out| quick::first(&graph, units, bound, out)),
        ask(sample.room, |out| direct::first(&graph, units, bound, out)),
        "{sample:?}"
    );
    assert_eq!(
        ask(sample.room, |out| quick::next(
            &graph, units, bound, after, out
        )),
        ask(sample.room, |out| direct::next(
            &graph, units, bound, after, out
        )),
        "{sample:?} after {after:?}"
    );
}

/// Demands the same whole list and the same count from both, and the same refusal if refused.
fn compare_lists(sample: &Sample) {
    let (graph, units, bound) = (sample.graph(), &sample.units, sample.bound);
    let all = sample.all();
    for schedule in &all {
        compare_steps(sample, schedule);
    }
    let counted = quick::all_once(&graph, units, bound);
    let (asked, _) = ask(MOST_OPERATIONS, |out| {
        direct::first(&graph, units, bound, out)
    });
    assert_eq!(counted, asked.map(|_| all.len()), "{sample:?}");
}

/// Small graphs: both give the same tables and whole lists.
#[test]
fn quick_equals_direct_on_small_graphs() {
    let mut rng = Xorshift::new(0x5eed_0001);
    for _ in 0..1500 {
        let sample = Sample::new(&mut rng, &SMALL);
        compare_schedules(&sample);
        compare_steps(&sample, &sample.starts);
        compare_lists(&sample);
    }
}

/// Large graphs: both give the same tables, findings and refusals.
#[test]
fn quick_equals_direct_on_large_graphs() {
    let mut rng = Xorshift::new(0x5eed_0002);
    for _ in 0..300 {
        let mut sample = Sample::new(&mut rng, &LARGE);
        compare_schedules(&sample);
        for place in 0..sample.starts.len() {
            sample.starts[place] = rng.bits() as u16;
        }
        compare_findings(&sample, sample.bound, &sample.starts);
    }
}

/// Large graphs with little room between the bound and the least latency: the same steps.
#[test]
fn quick_equals_direct_on_tight_bounds() {
    let mut rng = Xorshift::new(0x5eed_0003);
    for _ in 0..200 {
        let mut sample = Sample::new(&mut rng, &LARGE);
        let (_, early) = ask(sample.rows.operations(), |out| {
            direct::asap(&sample.graph(), out)
        });
        let ends = early.iter().zip(&sample.rows.delays);
        let end = ends.map(|(&t, &d)| usize::from(t) + usize::from(d)).max();
        sample.bound = (end.unwrap_or(1) - 1 + rng.below(2)).min(LAST_STEP);
        sample.units = vec![30; sample.rows.kinds];
        compare_steps(&sample, &early);
    }
}

/// Damaged inputs: neither panics, and both refuse alike.
#[test]
fn quick_equals_direct_on_damaged_inputs() {
    let mut rng = Xorshift::new(0x5eed_0004);
    for _ in 0..6000 {
        let mut sample = Sample::new(&mut rng, &SMALL);
        for _ in 0..rng.between(1, 3) {
            sample.spoil(&mut rng);
        }
        compare_schedules(&sample);
        compare_steps(&sample, &sample.starts);
    }
}

/// The next row in the order of words with all numbers up to a limit, or none after the last.
fn next_row(row: &[u16], limit: u16) -> Option<Vec<u16>> {
    let mut row = row.to_vec();
    let place = row.iter().rposition(|&number| number < limit)?;
    row[place] += 1;
    row[place + 1..].fill(0);
    Some(row)
}

/// Every row with numbers up to a limit, in the order of words.
fn every_row(length: usize, limit: u16) -> Vec<Vec<u16>> {
    let first = Some(vec![0; length]);
    std::iter::successors(first, |row| next_row(row, limit)).collect()
}

/// Whether a sample passes all the lister's checks.
fn is_listed(sample: &Sample) -> bool {
    let (graph, units) = (sample.graph(), &sample.units);
    let question = |out: &mut [u16]| direct::first(&graph, units, sample.bound, out);
    ask(sample.rows.operations(), question).0.is_ok()
}

/// The whole list is every row that the checker finds lawful, and after any row comes the least
/// of them that is greater.
#[test]
fn lister_gives_every_lawful_row() {
    let mut rng = Xorshift::new(0x5eed_0005);
    for _ in 0..400 {
        let sample = Sample::new(&mut rng, &TINY);
        let (graph, units, bound) = (sample.graph(), &sample.units, sample.bound);
        if !is_listed(&sample) {
            continue;
        }
        let rows = every_row(sample.rows.operations(), bound as u16 + 2);
        let is_lawful =
            |row: &&Vec<u16>| direct::check(&graph, units, bound, row) == Ok(Finding::Lawful);
        let lawful: Vec<Vec<u16>> = rows.iter().filter(is_lawful).cloned().collect();
        assert_eq!(sample.all(), lawful, "{sample:?}");
        for after in &rows {
            let (found, out) = ask(after.len(), |out| {
                direct::next(&graph, units, bound, after, out)
            });
            let least = lawful.iter().find(|&row| row > after);
            assert_eq!(found == Ok(true), least.is_some(), "{sample:?}");
            assert!(least.is_none_or(|row| *row == out), "{sample:?}");
        }
    }
}

/// With units for all, the least and the greatest start of each operation over all schedules are
/// its ASAP and ALAP starts, and mobility lies between.
#[test]
fn tables_bound_all_schedules() {
    let mut rng = Xorshift::new(0x5eed_0006);
    for _ in 0..400 {
        let mut sample = Sample::new(&mut rng, &TINY);
        sample.units = vec![9; sample.rows.kinds];
        if !is_listed(&sample) {
            continue;
        }
        let (graph, bound, count) = (sample.graph(), sample.bound, sample.rows.operations());
        let all = sample.all();
        let starts = |i: usize| all.iter().map(move |row| row[i]);
        let low: Vec<u16> = (0..count).map(|i| starts(i).min().unwrap()).collect();
        let high: Vec<u16> = (0..count).map(|i| starts(i).max().unwrap()).collect();
        let free: Vec<u16> = (0..count).map(|i| high[i] - low[i]).collect();
        assert_eq!(ask(count, |out| direct::asap(&graph, out)), (Ok(()), low));
        let late = ask(count, |out| direct::alap(&graph, bound, out));
        assert_eq!(late, (Ok(()), high));
        let mobility = ask(count, |out| direct::mobility(&graph, bound, out));
        assert_eq!(mobility, (Ok(()), free));
    }
}

/// The number of operations on the longest chain from one to the end, by following every chain.
fn label(graph: &Graph, operation: usize) -> usize {
    let edges = graph.from.iter().zip(graph.to);
    let successors = edges.filter(|(&i, _)| usize::from(i) == operation);
    let chains = successors.map(|(_, &j)| label(graph, usize::from(j)));
    1 + chains.max().unwrap_or(0)
}

/// The best candidate that a unit is free for, looking at all types at once.
fn best_candidate(state: &State, graph: &Graph, units: &[u8]) -> Option<usize> {
    let end = |i: usize| usize::from(state.starts[i]) + usize::from(graph.delays[i]);
    let begun = |i: usize| (1..=state.step).contains(&usize::from(state.starts[i]));
    let ended = |i: usize| state.starts[i] != 0 && end(i) <= state.step;
    let open = |j: usize| {
        let mut edges = graph.from.iter().zip(graph.to);
        state.starts[j] == 0 && edges.all(|(&i, &k)| usize::from(k) != j || ended(usize::from(i)))
    };
    let free = |j: usize| {
        let same = (0..graph.delays.len()).filter(|&i| graph.types[i] == graph.types[j]);
        let busy = same.filter(|&i| begun(i) && !ended(i)).count();
        busy < usize::from(units[usize::from(graph.types[j])])
    };
    let candidates = (0..graph.delays.len()).filter(|&j| open(j) && free(j));
    candidates.max_by_key(|&j| (label(graph, j), std::cmp::Reverse(j)))
}

/// From any state, reachable or not, an advance places one best candidate after another.
#[test]
fn advance_follows_the_rule_from_any_state() {
    let mut rng = Xorshift::new(0x5eed_0007);
    for _ in 0..3000 {
        let sample = Sample::new(&mut rng, &SMALL);
        let mut state = State {
            step: rng.between(1, 6),
            starts: std::array::from_fn(|_| rng.below(7).saturating_sub(2) as u16),
        };
        let graph = sample.graph();
        let (answer, onward) = direct::advance(state, &graph, &sample.units);
        let unplaced = state.starts[..sample.rows.operations()].contains(&0);
        if answer.is_ok() && unplaced {
            while let Some(operation) = best_candidate(&state, &graph, &sample.units) {
                state.starts[operation] = state.step as u16;
            }
            state.step += 1;
        }
        assert_eq!(onward, state, "{sample:?}");
    }
}

/// From the fresh state an advance for every step gives the list schedule, which is lawful at its latency.
#[test]
fn advances_give_the_list_schedule() {
    let mut rng = Xorshift::new(0x5eed_0008);
    for _ in 0..40 {
        let sample = Sample::new(&mut rng, &SMALL);
        let (graph, units, count) = (sample.graph(), &sample.units, sample.rows.operations());
        let (answer, out) = ask(count, |out| direct::list_schedule(&graph, units, out));
        let Ok(latency) = answer else { continue };
        let mut state = State {
            step: 1,
            starts: [0; MOST_OPERATIONS],
        };
        for _ in 0..LAST_STEP {
            state = direct::advance(state, &graph, units).1;
        }
        assert_eq!(state.starts[..count], out);
        let finding = direct::check(&graph, units, latency, &out);
        assert_eq!(finding, Ok(Finding::Lawful));
        let total: usize = sample.rows.delays.iter().map(|&d| usize::from(d)).sum();
        assert!(latency <= total);
    }
}

/// A cycle shown is a cycle of the graph that begins with its lowest number.
#[test]
fn cycles_shown_are_cycles() {
    let mut rng = Xorshift::new(0x5eed_0009);
    let mut seen = 0;
    for _ in 0..2000 {
        let sample = Sample::new(&mut rng, &SMALL);
        let (graph, count) = (sample.graph(), sample.rows.operations());
        let (answer, out) = ask(count, |out| direct::asap(&graph, out));
        let Err(refusal) = answer else { continue };
        let cycle = &out[..refusal.place];
        for (place, &i) in cycle.iter().enumerate() {
            let j = cycle[(place + 1) % cycle.len()];
            let mut edges = graph.from.iter().zip(graph.to);
            assert!(edges.any(|edge| edge == (&i, &j)), "{sample:?}");
            assert!(place == 0 || cycle[0] < i, "{sample:?}");
        }
        seen += 1;
    }
    assert!(seen > 50, "only {seen} cycles");
}

/// The trials are no idle ones: damaged inputs meet every refusal of the lister, a schedule
/// found, and none left.
#[test]
fn trials_meet_every_answer() {
    let mut rng = Xorshift::new(0x5eed_000a);
    let (mut refusals, mut found, mut none) = ([0; 11], 0, 0);
    for _ in 0..6000 {
        let mut sample = Sample::new(&mut rng, &SMALL);
        if rng.once_in(2) {
            sample.spoil(&mut rng);
            sample.bound += 30 * rng.below(2);
        }
        let (graph, units) = (sample.graph(), &sample.units);
        match ask(sample.room, |out| {
            quick::first(&graph, units, sample.bound, out)
        })
        .0
        {
            Ok(true) => found += 1,
            Ok(false) => none += 1,
            Err(refusal) => refusals[refusal.number] += 1,
        }
    }
    let seen = format!("{refusals:?} refused, {found} found, {none} without");
    println!("{seen}");
    assert!(refusals[1..].iter().all(|&times| times > 10), "{seen}");
    assert!(found > 500 && none > 50, "{seen}");
}
