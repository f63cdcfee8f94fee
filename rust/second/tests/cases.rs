//! The scope paper's cases, and its refusals in their order.

use second::{direct, Finding, Graph, Refusal, State};
use second::{LAST_STEP, LONGEST_DELAY, MOST_EDGES, MOST_OPERATIONS};
use std::process::Command;

/// The lines that the program of cases has to print.
const LINES: &str = "\
1 asap: 1 1 2 3 4 1 2 1 2 1 2
2 alap 4: 1 1 2 3 4 2 3 3 4 3 4
2 mobility 4: 0 0 0 0 0 1 1 2 2 2 2
2 alap 3: refused 9 at 0
2 mobility 3: refused 9 at 0
3 list: latency 4: 1 1 2 3 4 2 3 3 4 1 2
3 advance: step 2: 1 1 0 0 0 0 0 0 0 1 0
4 list: latency 7: 1 1 3 5 6 1 3 3 7 1 2
5 list: latency 4: 1 1 2 3 4 1 2 2 3 3 4
6 asap: refused 7 at 3: 0 1 2
7 asap: refused 7 at 2: 1 2
8 all: () none left
9 all 1: (1,2) (2,1) none left
9 all 2: (1,1) (1,2) (2,1) (2,2) none left
10 all: (1,2) (1,3) (2,3) none left
10 next 1 3: (2,3)
10 next 0 9: (1,2)
10 next 65535 65535: none left
11 all: none left
12 check 2: lawful
12 check 1: untimely 0
13 check 1 2: over-use at step 2 type 0
13 check 1 3: lawful
13 peak 1 2: 2 0 0 0
14 first 19: (1,1,1,1,1,1,1,1,1,1,1,1,1,1,1,1,1,1,1)
14 first 20: refused 10 at 0
";

/// The program of cases prints what the scope paper worked by hand, and 880 schedules.
#[test]
fn program_prints_the_cases() {
    let run = Command::new(env!("CARGO_BIN_EXE_cases")).output().unwrap();
    let printed = String::from_utf8(run.stdout).unwrap();
    assert!(run.status.success());
    let last = printed.strip_prefix(LINES).expect("the worked cases");
    assert!(last.starts_with("eleven all 5: 880 schedules, checksum "));
    assert_eq!(last.lines().count(), 1);
}

/// An input with every fault from some number on.
struct Faulty {
    delays: Vec<u8>,
    types: Vec<u8>,
    from: Vec<u16>,
    to: Vec<u16>,
    units: Vec<u8>,
    bound: usize,
    room: usize,
    state: State,
}

impl Faulty {
    /// Makes an input of three operations in which the faults below a number are mended.
    fn from_number(number: usize) -> Faulty {
        let mut input = Faulty {
            delays: vec![1, 2, if number <= 3 { LONGEST_DELAY + 1 } else { 3 }],
            types: vec![0, 1, 1],
            from: vec![0, 1, if number <= 7 { 1 } else { 0 }],
            to: vec![1, if number <= 4 { 3 } else { 2 }, 0],
            units: vec![1, u8::from(number > 6)],
            bound: bound_for(number),
            room: if number <= 5 { 2 } else { 5 },
            state: State {
                step: LAST_STEP + usize::from(number <= 11),
                starts: [0; MOST_OPERATIONS],
            },
        };
        if number > 7 {
            input.from.pop();
            input.to.pop();
        }
        if number <= 2 {
            input.types.push(0);
        }
        if number <= 1 {
            input.from = vec![0; MOST_EDGES + 1];
        }
        input
    }

    /// Lends the graph.
    fn graph(&self) -> Graph<'_> {
        Graph {
            delays: &self.delays,
            types: &self.types,
            kinds: self.units.len(),
            from: &self.from,
            to: &self.to,
        }
    }

    /// An output row of the room there is, filled so that a write shows.
    fn out(&self) -> Vec<u16> {
        vec![999; self.room]
    }
}

/// A bound at fault by check 8, 9 or 10, or by none.
fn bound_for(number: usize) -> usize {
    match number {
        0..=8 => LAST_STEP + 1,
        9 => 5,
        10 => LAST_STEP,
        _ => 8,
    }
}

/// The lowest number among a question's checks that is still at fault.
fn expected(checks: &[usize], number: usize) -> Option<usize> {
    checks.iter().copied().find(|&check| check >= number)
}

/// Demands that a question is refused by just its own checks and in their order, and that an
/// output row holds a cycle, an answer, or what it held.
fn try_question<T>(
    checks: &[usize],
    ask: impl Fn(&Faulty, &mut [u16]) -> Result<T, Refusal>,
    lends_row: bool,
) {
    for number in 1..=12 {
        let input = Faulty::from_number(number);
        let mut out = input.out();
        let refusal = ask(&input, &mut out).err();
        assert_eq!(refusal.map(|r| r.number), expected(checks, number));
        match refusal.map(|r| r.number) {
            Some(3) => assert_eq!(refusal.unwrap().place, 2),
            Some(4) | Some(6) => assert_eq!(refusal.unwrap().place, 1),
            Some(7) => assert_eq!(refusal.unwrap().place, 2),
            Some(_) => assert_eq!(refusal.unwrap().place, 0),
            None => {}
        }
        match refusal.map(|r| r.number) {
            Some(7) if lends_row => assert_eq!(out, [0, 1, 999, 999, 999]),
            None if lends_row => assert_eq!(out[3..], [999, 999]),
            _ => assert_eq!(out, input.out()),
        }
    }
}

/// The tables take checks 1 to 5 and 7, and with a bound 8 and 9.
#[test]
fn tables_refuse_in_order() {
    try_question(
        &[1, 2, 3, 4, 5, 7],
        |i, out| direct::asap(&i.graph(), out),
        true,
    );
    try_question(
        &[1, 2, 3, 4, 5, 7, 8, 9],
        |i, out| direct::alap(&i.graph(), i.bound, out),
        true,
    );
    try_question(
        &[1, 2, 3, 4, 5, 7, 8, 9],
        |i, out| direct::mobility(&i.graph(), i.bound, out),
        true,
    );
}

/// The list schedule takes checks 1 to 7; the advance 1 to 4, 6, 7 and 11.
#[test]
fn scheduling_refuses_in_order() {
    try_question(
        &[1, 2, 3, 4, 5, 6, 7],
        |i, out| direct::list_schedule(&i.graph(), &i.units, out),
        true,
    );
    try_question(
        &[1, 2, 3, 4, 6, 7, 11],
        |i, _| {
            let (answer, state) = direct::advance(i.state, &i.graph(), &i.units);
            assert_eq!(answer.is_err(), state == i.state);
            answer
        },
        false,
    );
}

/// The checker takes checks 1 to 4 and 6 to 8; peak use 1 to 4 and 7.
#[test]
fn checking_refuses_in_order() {
    try_question(
        &[1, 2, 3, 4, 6, 7, 8],
        |i, _| direct::check(&i.graph(), &i.units, i.bound, &[0, 0, 0]),
        false,
    );
    try_question(
        &[1, 2, 3, 4, 7],
        |i, _| direct::peak_use(&i.graph(), &[0, 0, 0]),
        false,
    );
}

/// The lister takes checks 1 to 10.
#[test]
fn lister_refuses_in_order() {
    let checks = [1, 2, 3, 4, 5, 6, 7, 8, 9, 10];
    try_question(
        &checks,
        |i, out| direct::first(&i.graph(), &i.units, i.bound, out),
        true,
    );
    try_question(
        &checks,
        |i, out| direct::next(&i.graph(), &i.units, i.bound, &[0, 0, 0], out),
        true,
    );
}

/// A lent row of starts must be as long as the row of delays, the units as many as the types.
#[test]
fn rows_lent_beside_the_graph_must_match() {
    let input = Faulty::from_number(12);
    let (graph, units, bound) = (input.graph(), &input.units, input.bound);
    let differ = Refusal {
        number: 2,
        place: 0,
    };
    let mut out = input.out();
    for row in [&[1u16; 4][..2], &[1; 4]] {
        assert_eq!(direct::check(&graph, units, bound, row), Err(differ));
        assert_eq!(direct::peak_use(&graph, row), Err(differ));
        let answer = direct::next(&graph, units, bound, row, &mut out);
        assert_eq!(answer, Err(differ));
    }
    for units in [&[1u8; 3][..1], &[1; 3]] {
        let starts = [1, 2, 4];
        assert_eq!(direct::check(&graph, units, bound, &starts), Err(differ));
        let answer = direct::list_schedule(&graph, units, &mut out);
        assert_eq!(answer, Err(differ));
        assert_eq!(direct::first(&graph, units, bound, &mut out), Err(differ));
        let (answer, state) = direct::advance(input.state, &graph, units);
        assert_eq!((answer, state), (Err(differ), input.state));
    }
    assert_eq!(out, input.out());
}

/// A state with all placed is left alone whatever its step, and entries from n on stay.
#[test]
fn advance_leaves_what_is_not_its_own() {
    let input = Faulty::from_number(12);
    let mut state = input.state;
    state.starts = [9; MOST_OPERATIONS];
    for step in [0, 1, 7, LAST_STEP + 1, usize::MAX] {
        state.step = step;
        let answer = direct::advance(state, &input.graph(), &input.units);
        assert_eq!(answer, (Ok(()), state));
    }
    (state.step, state.starts[0]) = (LAST_STEP, 0);
    let (answer, onward) = direct::advance(state, &input.graph(), &input.units);
    assert_eq!((answer, onward.step), (Ok(()), LAST_STEP + 1));
    assert_eq!(usize::from(onward.starts[0]), LAST_STEP);
    assert_eq!(onward.starts[1..], state.starts[1..]);
}

/// Peak use counts from step 0 on and beyond the last 16-bit step.
#[test]
fn peak_use_takes_any_starts() {
    let graph = Graph {
        delays: &[2, 1, LONGEST_DELAY, LONGEST_DELAY],
        types: &[0, 0, 2, 2],
        kinds: 3,
        from: &[],
        to: &[],
    };
    let peaks = direct::peak_use(&graph, &[0, 1, 65535, 65530]);
    assert_eq!(peaks, Ok([2, 0, 2, 0]));
    let peaks = direct::peak_use(&graph, &[0, 2, 0, 65535]);
    assert_eq!(peaks, Ok([1, 0, 1, 0]));
}

/// The checker tells times before edges and edges before over-use.
#[test]
fn checker_tells_the_first_fault() {
    let graph = Graph {
        delays: &[2, 1, 2],
        types: &[1, 0, 1],
        kinds: 2,
        from: &[1, 0],
        to: &[0, 2],
    };
    let ask = |starts: &[u16]| direct::check(&graph, &[1, 1], 5, starts).unwrap();
    assert_eq!(ask(&[1, 0, 5]), Finding::Untimely(1));
    assert_eq!(ask(&[1, 1, 5]), Finding::Untimely(2));
    assert_eq!(ask(&[1, 65535, 4]), Finding::Untimely(1));
    assert_eq!(ask(&[1, 1, 2]), Finding::Broken(0));
    assert_eq!(ask(&[2, 1, 3]), Finding::Broken(1));
    assert_eq!(ask(&[2, 1, 4]), Finding::Lawful);
}

/// Over-use is told by the earliest step, and then by the lowest type.
#[test]
fn checker_tells_the_first_over_use() {
    let graph = Graph {
        delays: &[2, 2, 1, 1, 1],
        types: &[1, 1, 0, 0, 1],
        kinds: 2,
        from: &[],
        to: &[],
    };
    let ask = |starts: &[u16]| direct::check(&graph, &[1, 1], 5, starts).unwrap();
    let over_use = |step, kind| Finding::OverUse { step, kind };
    assert_eq!(ask(&[3, 4, 1, 2, 1]), over_use(4, 1));
    assert_eq!(ask(&[3, 4, 4, 4, 1]), over_use(4, 0));
    assert_eq!(ask(&[3, 4, 5, 5, 1]), over_use(4, 1));
    assert_eq!(ask(&[2, 4, 5, 5, 2]), over_use(2, 1));
    assert_eq!(ask(&[2, 4, 5, 4, 1]), Finding::Lawful);
}

/// A view lies in the chosen table, however large the numbers are.
#[test]
fn views_stay_in_their_table() {
    let refused = |number| Err(Refusal { number, place: 0 });
    assert_eq!(direct::view(0, 2, 3, 5, 0), Ok((2, 3)));
    assert_eq!(direct::view(1, 2, 3, 0, 5), Ok((2, 3)));
    assert_eq!(direct::view(1, 5, 0, 0, 5), Ok((5, 0)));
    assert_eq!(direct::view(0, 2, 4, 5, 9), refused(13));
    assert_eq!(direct::view(1, 6, 0, 9, 5), refused(13));
    assert_eq!(direct::view(0, usize::MAX, 1, 5, 5), refused(13));
    assert_eq!(
        direct::view(1, 1, usize::MAX, usize::MAX, usize::MAX),
        refused(13)
    );
    assert_eq!(direct::view(2, 9, 9, 5, 5), refused(12));
    assert_eq!(direct::view(usize::MAX, 0, 0, 5, 5), refused(12));
}
