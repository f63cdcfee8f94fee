//! Works the scope paper's fourteen cases by the direct method and prints the answers.

use second::direct;
use second::{Finding, Graph, Refusal, State, MOST_OPERATIONS};

/// The edges of the eleven-operation graph, numbered from 0.
const ELEVEN_EDGES: [(u16, u16); 8] = [
    (0, 2),
    (1, 2),
    (2, 3),
    (3, 4),
    (5, 6),
    (6, 4),
    (7, 8),
    (9, 10),
];
/// The types of the eleven-operation graph.
const ELEVEN_TYPES: [u8; 11] = [0, 0, 0, 1, 1, 0, 0, 0, 1, 1, 1];

/// A graph that owns its rows, and the units for its types.
struct Example {
    delays: Vec<u8>,
    types: Vec<u8>,
    from: Vec<u16>,
    to: Vec<u16>,
    units: Vec<u8>,
}

impl Example {
    /// Makes an example whose number of types is the number of unit counts.
    fn new(delays: &[u8], types: &[u8], edges: &[(u16, u16)], units: &[u8]) -> Example {
        Example {
            delays: delays.to_vec(),
            types: types.to_vec(),
            from: edges.iter().map(|edge| edge.0).collect(),
            to: edges.iter().map(|edge| edge.1).collect(),
            units: units.to_vec(),
        }
    }

    /// Makes operations of one type and one delay.
    fn uniform(count: usize, delay: u8, edges: &[(u16, u16)], units: u8) -> Example {
        Example::new(&vec![delay; count], &vec![0; count], edges, &[units])
    }

    /// The eleven-operation graph with a delay for each of its two types.
    fn eleven(type_delays: [u8; 2], units: [u8; 2]) -> Example {
        let delays = ELEVEN_TYPES.map(|kind| type_delays[usize::from(kind)]);
        Example::new(&delays, &ELEVEN_TYPES, &ELEVEN_EDGES, &units)
    }

    /// Lends the rows.
    fn graph(&self) -> Graph<'_> {
        Graph {
            delays: &self.delays,
            types: &self.types,
            kinds: self.units.len(),
            from: &self.from,
            to: &self.to,
        }
    }

    /// An output row with room for every operation.
    fn row(&self) -> Vec<u16> {
        vec![0; self.delays.len()]
    }

    /// The least schedule, or the least after a row.
    fn step_on(&self, bound: usize, after: Option<&[u16]>) -> Result<Option<Vec<u16>>, Refusal> {
        let mut out = self.row();
        let found = match after {
            None => direct::first(&self.graph(), &self.units, bound, &mut out)?,
            Some(row) => direct::next(&self.graph(), &self.units, bound, row, &mut out)?,
        };
        Ok(found.then_some(out))
    }

    /// All schedules: the first, and then the next after each.
    fn all(&self, bound: usize) -> Result<Vec<Vec<u16>>, Refusal> {
        let mut schedules: Vec<Vec<u16>> = Vec::new();
        loop {
            let last = schedules.last().map(Vec::as_slice);
            match self.step_on(bound, last)? {
                Some(schedule) => schedules.push(schedule),
                None => return Ok(schedules),
            }
        }
    }
}

/// Numbers separated by single spaces.
fn spaced<T: ToString>(numbers: &[T]) -> String {
    let words: Vec<String> = numbers.iter().map(T::to_string).collect();
    words.join(" ")
}

/// A schedule in round brackets.
fn bracketed(schedule: &[u16]) -> String {
    let words: Vec<String> = schedule.iter().map(u16::to_string).collect();
    format!("({})", words.join(","))
}

/// A refusal's number and place.
fn refused(refusal: Refusal) -> String {
    format!("refused {} at {}", refusal.number, refusal.place)
}

/// A refusal, with the cycle if that is why.
fn refused_showing(refusal: Refusal, out: &[u16]) -> String {
    if refusal.number == 7 {
        return format!("{}: {}", refused(refusal), spaced(&out[..refusal.place]));
    }
    refused(refusal)
}

/// The answer of a question that fills a table.
fn table_text(answer: Result<(), Refusal>, out: &[u16]) -> String {
    match answer {
        Ok(()) => spaced(out),
        Err(refusal) => refused_showing(refusal, out),
    }
}

/// The least starts of an example.
fn asap_text(example: &Example) -> String {
    let mut out = example.row();
    table_text(direct::asap(&example.graph(), &mut out), &out)
}

/// The greatest starts of an example.
fn alap_text(example: &Example, bound: usize) -> String {
    let mut out = example.row();
    table_text(direct::alap(&example.graph(), bound, &mut out), &out)
}

/// The mobility of an example.
fn mobility_text(example: &Example, bound: usize) -> String {
    let mut out = example.row();
    table_text(direct::mobility(&example.graph(), bound, &mut out), &out)
}

/// The list schedule of an example.
fn list_text(example: &Example) -> String {
    let mut out = example.row();
    match direct::list_schedule(&example.graph(), &example.units, &mut out) {
        Ok(latency) => format!("latency {latency}: {}", spaced(&out)),
        Err(refusal) => refused_showing(refusal, &out),
    }
}

/// The state one advance after the fresh one.
fn advance_text(example: &Example) -> String {
    let fresh = State {
        step: 1,
        starts: [0; MOST_OPERATIONS],
    };
    let (answer, state) = direct::advance(fresh, &example.graph(), &example.units);
    match answer {
        Ok(()) => {
            let starts = &state.starts[..example.delays.len()];
            format!("step {}: {}", state.step, spaced(starts))
        }
        Err(refusal) => refused(refusal),
    }
}

/// The whole list of schedules.
fn all_text(example: &Example, bound: usize) -> String {
    match example.all(bound) {
        Ok(schedules) => {
            let mut words: Vec<String> = schedules.iter().map(|s| bracketed(s)).collect();
            words.push("none left".to_string());
            words.join(" ")
        }
        Err(refusal) => refused(refusal),
    }
}

/// The first schedule, or the next after a row.
fn step_text(example: &Example, bound: usize, after: Option<&[u16]>) -> String {
    match example.step_on(bound, after) {
        Ok(Some(schedule)) => bracketed(&schedule),
        Ok(None) => "none left".to_string(),
        Err(refusal) => refused(refusal),
    }
}

/// What the checker says of a row of starts.
fn check_text(example: &Example, bound: usize, starts: &[u16]) -> String {
    match direct::check(&example.graph(), &example.units, bound, starts) {
        Ok(Finding::Lawful) => "lawful".to_string(),
        Ok(Finding::Untimely(operation)) => format!("untimely {operation}"),
        Ok(Finding::Broken(edge)) => format!("broken {edge}"),
        Ok(Finding::OverUse { step, kind }) => format!("over-use at step {step} type {kind}"),
        Err(refusal) => refused(refusal),
    }
}

/// The peak use of a row of starts.
fn peak_text(example: &Example, starts: &[u16]) -> String {
    match direct::peak_use(&example.graph(), starts) {
        Ok(peaks) => spaced(&peaks),
        Err(refusal) => refused(refusal),
    }
}

/// The number of schedules and a checksum over all their starts in order.
fn count_text(example: &Example, bound: usize) -> String {
    match example.all(bound) {
        Ok(schedules) => {
            let add = |sum: u64, start: &u16| (sum * 31 + u64::from(*start)) % 1_000_000_007;
            let sum = schedules.iter().flatten().fold(0, add);
            format!("{} schedules, checksum {sum}", schedules.len())
        }
        Err(refusal) => refused(refusal),
    }
}

/// Cases 1 to 5: tables and list schedules of the eleven-operation graph.
fn print_eleven() {
    let eleven = Example::eleven([1, 1], [2, 2]);
    println!("1 asap: {}", asap_text(&eleven));
    for bound in [4, 3] {
        println!("2 alap {bound}: {}", alap_text(&eleven, bound));
        println!("2 mobility {bound}: {}", mobility_text(&eleven, bound));
    }
    println!("3 list: {}", list_text(&eleven));
    println!("3 advance: {}", advance_text(&eleven));
    println!("4 list: {}", list_text(&Example::eleven([2, 1], [3, 1])));
    let one_type = Example::uniform(11, 1, &ELEVEN_EDGES, 3);
    println!("5 list: {}", list_text(&one_type));
}

/// Cases 6 and 7: cycles.
fn print_cycles() {
    let ring = Example::uniform(3, 1, &[(0, 1), (1, 2), (2, 0)], 1);
    println!("6 asap: {}", asap_text(&ring));
    let tailed = Example::uniform(3, 1, &[(1, 2), (2, 1), (1, 0)], 1);
    println!("7 asap: {}", asap_text(&tailed));
}

/// Cases 8 to 11: whole lists.
fn print_lists() {
    println!("8 all: {}", all_text(&Example::uniform(0, 1, &[], 1), 0));
    for units in [1, 2] {
        let pair = Example::uniform(2, 1, &[], units);
        println!("9 all {units}: {}", all_text(&pair, 2));
    }
    let chain = Example::uniform(2, 1, &[(0, 1)], 2);
    println!("10 all: {}", all_text(&chain, 3));
    for after in [[1, 3], [0, 9], [65535, 65535]] {
        let answer = step_text(&chain, 3, Some(&after));
        println!("10 next {}: {answer}", spaced(&after));
    }
    println!("11 all: {}", all_text(&Example::uniform(3, 1, &[], 1), 2));
}

/// Cases 12 and 13: the checker and peak use.
fn print_checks() {
    let single = Example::uniform(1, 2, &[], 1);
    for bound in [2, 1] {
        println!("12 check {bound}: {}", check_text(&single, bound, &[1]));
    }
    let pair = Example::uniform(2, 2, &[], 1);
    for starts in [[1, 2], [1, 3]] {
        let answer = check_text(&pair, 4, &starts);
        println!("13 check {}: {answer}", spaced(&starts));
    }
    println!("13 peak 1 2: {}", peak_text(&pair, &[1, 2]));
}

/// Case 14, and the count of the eleven-operation graph's schedules.
fn print_sizes() {
    for count in [19u8, 20] {
        let apart = Example::uniform(usize::from(count), 1, &[], count);
        println!("14 first {count}: {}", step_text(&apart, 2, None));
    }
    let eleven = Example::eleven([1, 1], [2, 2]);
    println!("eleven all 5: {}", count_text(&eleven, 5));
}

/// Works the cases in their order.
fn main() {
    print_eleven();
    print_cycles();
    print_lists();
    print_checks();
    print_sizes();
}
