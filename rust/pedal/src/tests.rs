//! The scope paper's cases and refusals through the safe face.

use crate::limits::{LAST_STEP, LONGEST_DELAY, MOST_EDGES, MOST_KINDS, MOST_OPERATIONS, MOST_ROWS};
use crate::{view, Broken, Error, Finding, Graph, GraphBuilder, NameError, Refusal, State};

/// The edges of the eleven-operation graph, by the numbers in the operations' names.
const ELEVEN_EDGES: [(usize, usize); 8] = [
    (1, 3),
    (2, 3),
    (3, 4),
    (4, 5),
    (6, 7),
    (7, 5),
    (8, 9),
    (10, 11),
];

/// The eleven-operation graph, by names.
fn eleven() -> Graph {
    let mut builder = GraphBuilder::new();
    builder.kind("mul").unwrap().kind("alu").unwrap();
    for number in 1..=11 {
        let kind = match number {
            1 | 2 | 3 | 6 | 7 | 8 => "mul",
            _ => "alu",
        };
        builder.operation(&format!("v{number}"), kind, 1).unwrap();
    }
    for (i, j) in ELEVEN_EDGES {
        builder.edge(&format!("v{i}"), &format!("v{j}")).unwrap();
    }
    builder.build()
}

/// Operations of one type and one delay, by numbers.
fn uniform(count: usize, delay: u8, edges: &[(u16, u16)]) -> Graph {
    let from: Vec<u16> = edges.iter().map(|edge| edge.0).collect();
    let to: Vec<u16> = edges.iter().map(|edge| edge.1).collect();
    Graph::new(vec![delay; count], vec![0; count], 1, from, to)
}

/// All schedules of a graph.
fn all(graph: &Graph, units: &[u8], bound: usize) -> Vec<Vec<u16>> {
    let schedules = graph.schedules(units, bound).unwrap();
    schedules.collect::<Result<_, Error>>().unwrap()
}

/// The refusal of a question that must have been refused.
fn refusal<T: std::fmt::Debug>(answer: Result<T, Error>) -> Refusal {
    match answer {
        Err(Error::Refused(refusal)) => refusal,
        other => panic!("not refused: {other:?}"),
    }
}

/// The reason of a refusal, with its number.
fn said<T: std::fmt::Debug>(answer: Result<T, Error>) -> String {
    refusal(answer).to_string()
}

/// Cases 1 and 2: tables.
#[test]
fn tables() {
    let graph = eleven();
    let early = [1, 1, 2, 3, 4, 1, 2, 1, 2, 1, 2];
    assert_eq!(graph.asap().unwrap(), early);
    assert_eq!(graph.latency(&early), 4);
    let late = [1, 1, 2, 3, 4, 2, 3, 3, 4, 3, 4];
    assert_eq!(graph.alap(4).unwrap(), late);
    let free = [0, 0, 0, 0, 0, 1, 1, 2, 2, 2, 2];
    assert_eq!(graph.mobility(4).unwrap(), free);
    assert_eq!(refusal(graph.alap(3)).number, 9);
    assert_eq!(refusal(graph.mobility(3)).number, 9);
}

/// Case 3: the list schedule, at once and watched.
#[test]
fn list_schedule() {
    let graph = eleven();
    let schedule = graph.list(&[2, 2]).unwrap();
    assert_eq!(schedule.starts, [1, 1, 2, 3, 4, 2, 3, 3, 4, 1, 2]);
    assert_eq!(schedule.latency, 4);
    let mut state = State::fresh().advance(&graph, &[2, 2]).unwrap();
    assert_eq!(state.step, 2);
    assert_eq!(state.starts[..11], [1, 1, 0, 0, 0, 0, 0, 0, 0, 1, 0]);
    for _ in 1..LAST_STEP {
        state = state.advance(&graph, &[2, 2]).unwrap();
    }
    assert_eq!(state.starts[..11], schedule.starts);
    assert_eq!(state.step, 5);
}

/// Cases 6 and 7: the cycle, by numbers, whether or not a row was lent.
#[test]
fn cycles() {
    let ring = uniform(3, 1, &[(0, 1), (1, 2), (2, 0)]);
    let whole = refusal(ring.asap());
    assert_eq!((whole.number, whole.place), (7, 3));
    assert_eq!(whole.cycle, Some(vec![0, 1, 2]));
    let tailed = uniform(3, 1, &[(1, 2), (2, 1), (1, 0)]);
    for refusal in [
        refusal(tailed.asap()),
        refusal(tailed.alap(5)),
        refusal(tailed.mobility(5)),
        refusal(tailed.list(&[1])),
        refusal(tailed.schedules(&[1], 5)),
        refusal(tailed.check(&[1], 5, &[1, 1, 1])),
        refusal(tailed.peak(&[1, 1, 1])),
        refusal(State::fresh().advance(&tailed, &[1])),
    ] {
        assert_eq!((refusal.number, refusal.place), (7, 2));
        assert_eq!(refusal.cycle, Some(vec![1, 2]));
    }
}

/// Cases 8 to 11: whole lists.
#[test]
fn lists() {
    assert_eq!(all(&uniform(0, 1, &[]), &[0], 0), [[0u16; 0]]);
    let pair = uniform(2, 1, &[]);
    assert_eq!(all(&pair, &[1], 2), [[1, 2], [2, 1]]);
    assert_eq!(all(&pair, &[2], 2), [[1, 1], [1, 2], [2, 1], [2, 2]]);
    let chain = uniform(2, 1, &[(0, 1)]);
    assert_eq!(all(&chain, &[2], 3), [[1, 2], [1, 3], [2, 3]]);
    assert!(all(&uniform(3, 1, &[]), &[1], 2).is_empty());
    assert_eq!(all(&eleven(), &[2, 2], 5).len(), 880);
}

/// The iterator stays at its end.
#[test]
fn listing_ends_once() {
    let pair = uniform(2, 1, &[]);
    let mut schedules = pair.schedules(&[1], 2).unwrap();
    assert_eq!(schedules.by_ref().count(), 2);
    assert_eq!(schedules.next(), None);
}

/// The peaks of a graph that uses its first type alone.
fn peaks(first: usize) -> [usize; MOST_KINDS] {
    std::array::from_fn(|kind| if kind == 0 { first } else { 0 })
}

/// Cases 12 and 13: every finding, and peak use.
#[test]
fn findings() {
    let single = uniform(1, 2, &[]);
    let untimely = Finding::Untimely { operation: 0 };
    assert_eq!(single.check(&[1], 2, &[1]), Ok(Finding::Lawful));
    assert_eq!(single.check(&[1], 1, &[1]), Ok(untimely));
    let pair = uniform(2, 2, &[]);
    let over_use = Finding::OverUse { step: 2, kind: 0 };
    assert_eq!(pair.check(&[1], 4, &[1, 2]), Ok(over_use));
    assert_eq!(pair.check(&[1], 4, &[1, 3]), Ok(Finding::Lawful));
    assert_eq!(pair.peak(&[1, 2]), Ok(peaks(2)));
    assert_eq!(pair.peak(&[1, 3]), Ok(peaks(1)));
    let chain = uniform(2, 2, &[(0, 1)]);
    let broken = Finding::Broken { edge: 0 };
    assert_eq!(chain.check(&[2], 4, &[1, 2]), Ok(broken));
}

/// Case 14: the lister's limit.
#[test]
fn most_rows() {
    assert!(uniform(19, 1, &[]).schedules(&[19], 2).is_ok());
    let many = refusal(uniform(20, 1, &[]).schedules(&[20], 2));
    assert_eq!((many.number, many.place), (10, 0));
}

/// A view is a part of the chosen table itself.
#[test]
fn views() {
    let (a, b) = ([1, 2, 3], [1, 2, 3, 4]);
    let part = view(&a, &b, 0, 1, 2).unwrap();
    assert!(std::ptr::eq(part, &a[1..3]));
    let part = view(&a, &b, 1, 1, 3).unwrap();
    assert!(std::ptr::eq(part, &b[1..4]));
    assert_eq!(view(&a, &b, 0, 3, 0), Ok(&a[3..]));
    assert_eq!(refusal(view(&a, &b, 0, 1, 3)).number, 13);
    assert_eq!(refusal(view(&a, &b, 1, usize::MAX, 2)).number, 13);
    assert_eq!(refusal(view(&a, &b, 2, 0, 0)).number, 12);
}

/// Refusals 1 to 4 in words, by numbers.
#[test]
fn form_in_words() {
    let many = MOST_OPERATIONS + 1;
    assert_eq!(
        said(uniform(many, 1, &[]).asap()),
        format!(
            "refusal 1: more than {MOST_OPERATIONS} operations, {MOST_EDGES} edges or \
             {MOST_KINDS} types: operations {many}, edges 0, types 1"
        )
    );
    let uneven = Graph::new([1, 1], [0], 1, [], []);
    assert_eq!(
        said(uneven.asap()),
        "refusal 2: rows that must match differ in length: types 1, delays 2"
    );
    let long = LONGEST_DELAY + 1;
    assert_eq!(
        said(Graph::new([1, long], [0, 0], 2, [], []).asap()),
        format!(
            "refusal 3: operation 1: the delay is outside 1 to {LONGEST_DELAY}, or its type is \
             not below 2 (delay {long}, type 0)"
        )
    );
    let loose = uniform(2, 1, &[(0, 1), (1, 2)]);
    assert_eq!(
        said(loose.asap()),
        "refusal 4: edge 1 (1 -> 2): an end is not below 2, the number of operations"
    );
}

/// Refusal 2 names the row that a question lent.
#[test]
fn lengths_in_words() {
    let pair = uniform(2, 1, &[]);
    let words = "refusal 2: rows that must match differ in length";
    assert_eq!(
        said(pair.list(&[1, 1])),
        format!("{words}: units 2, types of unit 1")
    );
    assert_eq!(
        said(pair.check(&[1], 4, &[1])),
        format!("{words}: starts 1, operations 2")
    );
    assert_eq!(
        said(pair.peak(&[])),
        format!("{words}: starts 0, operations 2")
    );
    let uneven = Graph::new([1, 1], [0, 0], 1, [0], []);
    assert_eq!(said(uneven.asap()), format!("{words}: to 0, from 1"));
}

/// Refusals 3, 6 and 7 speak of names.
#[test]
fn names_in_words() {
    let mut builder = GraphBuilder::new();
    builder.kind("mul").unwrap().kind("alu").unwrap();
    builder.operation("v1", "mul", 1).unwrap();
    builder.operation("v2", "alu", 1).unwrap();
    builder.edge("v1", "v2").unwrap().edge("v2", "v1").unwrap();
    let ring = builder.clone().build();
    assert_eq!(
        said(ring.asap()),
        "refusal 7: the graph has a cycle: v1 -> v2 -> v1"
    );
    assert_eq!(
        said(ring.list(&[1, 0])),
        "refusal 6: type alu is in use and has no unit"
    );
    builder.operation("v4", "alu", 0).unwrap();
    assert_eq!(
        said(builder.build().asap()),
        format!(
            "refusal 3: operation v4: the delay is outside 1 to {LONGEST_DELAY}, or its type is \
             not below 2 (delay 0, type 1)"
        )
    );
}

/// Refusals 8 to 11 in words.
#[test]
fn bounds_in_words() {
    let graph = eleven();
    let late = LAST_STEP + 1;
    assert_eq!(
        said(graph.alap(late)),
        format!("refusal 8: the bound {late} is above {LAST_STEP}")
    );
    assert_eq!(
        said(graph.mobility(3)),
        "refusal 9: the bound 3 is below the ASAP latency 4"
    );
    assert_eq!(
        said(graph.schedules(&[2, 2], 40)),
        format!(
            "refusal 10: the product of (mobility + 1) over all operations exceeds {MOST_ROWS}; a \
             lower bound leaves fewer schedules"
        )
    );
    let mut state = State::fresh();
    state.step = 0;
    assert_eq!(
        said(state.advance(&graph, &[2, 2])),
        format!(
            "refusal 11: the state has an operation unplaced and its step 0 is outside 1 to \
             {LAST_STEP}"
        )
    );
}

/// Refusals 12 and 13 in words.
#[test]
fn views_in_words() {
    assert_eq!(
        said(view(&[], &[], 2, 0, 0)),
        "refusal 12: channel 2 is neither 0 nor 1"
    );
    assert_eq!(
        said(view(&[1], &[1, 2], 1, 1, 2)),
        "refusal 13: first + count (1 + 2) is past the end of the chosen table, which has 2 \
         entries"
    );
}

/// A refusal and trouble on the way are errors like any other, and only one is a refusal.
#[test]
fn errors() {
    let refused = eleven().alap(3).unwrap_err();
    assert_eq!(refused.refusal().unwrap().number, 9);
    let broken = Error::from(Broken::new("no engine"));
    assert_eq!(broken.refusal(), None);
    let words =
        [refused, broken].map(|error| Box::<dyn std::error::Error>::from(error).to_string());
    assert!(words[0].starts_with("refusal 9: "));
    assert_eq!(words[1], "no engine");
}

/// Names unknown or used twice are errors, and leave the builder as it was.
#[test]
fn wrong_names() {
    let mut builder = GraphBuilder::new();
    builder.kind("mul").unwrap();
    builder.operation("v1", "mul", 1).unwrap();
    let before = builder.clone().build();
    let unknown = NameError::UnknownKind("alu".to_string());
    assert_eq!(builder.operation("v2", "alu", 1).unwrap_err(), unknown);
    let twice = NameError::KindTwice("mul".to_string());
    assert_eq!(builder.kind("mul").unwrap_err(), twice);
    let twice = NameError::OperationTwice("v1".to_string());
    assert_eq!(builder.operation("v1", "mul", 2).unwrap_err(), twice);
    let unknown = NameError::UnknownOperation("v3".to_string());
    assert_eq!(builder.edge("v1", "v3").unwrap_err(), unknown);
    assert_eq!(builder.edge("v3", "v1").unwrap_err(), unknown);
    assert_eq!(unknown.to_string(), "operation v3 is unknown");
    assert_eq!(builder.build(), before);
}

/// More names than numbers are an error, and no number is used twice.
#[test]
fn too_many_names() {
    let mut builder = GraphBuilder::new();
    for number in 0..256 {
        builder.kind(&format!("k{number}")).unwrap();
    }
    assert_eq!(builder.kind("more").unwrap_err(), NameError::TooManyKinds);
    for number in 0..=65535 {
        builder.operation(&format!("v{number}"), "k0", 1).unwrap();
    }
    let error = builder.operation("more", "k0", 1).unwrap_err();
    assert_eq!(error, NameError::TooManyOperations);
    assert_eq!(refusal(builder.build().asap()).number, 1);
}
