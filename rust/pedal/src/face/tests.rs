//! Every question through the engine, and the same answers as linked.

use super::question::LONGEST_ROW;
use super::{engine, GraphRows, Row, WrittenRow};
use crate::ffi::{Advanced, Filled, Listed, Part, Peaks, Scheduled, Verdict};
use crate::limits::{MOST_KINDS, MOST_OPERATIONS};

/// Two operations of delays 2 and 1, the second after the first.
fn pair() -> GraphRows<'static> {
    GraphRows {
        delays: Row::of(&[2, 1]),
        types: Row::of(&[0, 0]),
        kinds: 1,
        from: Row::of(&[0]),
        to: Row::of(&[1]),
    }
}

/// One unit of one type.
fn units() -> Row<'static, u8> {
    Row::of(&[1])
}

/// The tables, each in a row with an entry more than it needs.
#[test]
fn tables_through_the_engine() {
    let answered = Ok(Filled {
        refusal: 0,
        place: 0,
    });
    let mut out = [7, 8, 9];
    let row = WrittenRow::of(&mut out);
    assert_eq!(engine::asap(pair(), row), answered);
    assert_eq!(out, [1, 3, 9]);
    let row = WrittenRow::of(&mut out);
    assert_eq!(engine::alap(pair(), 5, row), answered);
    assert_eq!(out, [3, 5, 9]);
    let row = WrittenRow::of(&mut out);
    assert_eq!(engine::mobility(pair(), 5, row), answered);
    assert_eq!(out, [2, 2, 9]);
}

/// The list schedule, at once and one step of it.
#[test]
fn list_through_the_engine() {
    let mut out = [7, 8, 9];
    let answer = engine::list(pair(), units(), WrittenRow::of(&mut out));
    let (refusal, place, latency) = (0, 0, 3);
    let scheduled = Scheduled {
        refusal,
        place,
        latency,
    };
    assert_eq!((answer, out), (Ok(scheduled), [1, 3, 9]));
    let mut starts = [0; MOST_OPERATIONS];
    let answer = engine::advance(pair(), units(), 1, WrittenRow::of(&mut starts));
    let step = 2;
    let advanced = Advanced {
        refusal,
        place,
        step,
    };
    assert_eq!(answer, Ok(advanced));
    assert_eq!(starts[..2], [1, 0]);
}

/// The checker's findings, and peak use.
#[test]
fn verdicts_through_the_engine() {
    let found = |bound: usize, starts: &[u16]| {
        let verdict = engine::check(pair(), units(), bound, Row::of(starts)).unwrap();
        assert_eq!((verdict.refusal, verdict.place), (0, 0));
        (verdict.finding, verdict.first, verdict.second)
    };
    assert_eq!(found(3, &[1, 3]), (0, 0, 0));
    assert_eq!(found(3, &[1, 4]), (1, 1, 0));
    assert_eq!(found(3, &[1, 2]), (2, 0, 0));
    let apart = GraphRows {
        from: Row::null(),
        to: Row::null(),
        ..pair()
    };
    let (refusal, place) = (0, 0);
    let over_use = Verdict {
        refusal,
        place,
        finding: 3,
        first: 2,
        second: 0,
    };
    let starts = Row::of(&[1, 2]);
    assert_eq!(engine::check(apart, units(), 3, starts), Ok(over_use));
    let mut peak = [0; MOST_KINDS];
    peak[0] = 2;
    let peaks = Peaks {
        refusal,
        place,
        peak,
    };
    assert_eq!(engine::peak(apart, starts), Ok(peaks));
}

/// The lister: the first schedule, the next one, and none left.
#[test]
fn lister_through_the_engine() {
    let listed = |found: usize| {
        Ok(Listed {
            refusal: 0,
            place: 0,
            found,
        })
    };
    let mut out = [0, 0];
    let answer = engine::first(pair(), units(), 4, WrittenRow::of(&mut out));
    assert_eq!((answer, out), (listed(1), [1, 3]));
    let (after, row) = (Row::of(&[1, 3]), WrittenRow::of(&mut out));
    let answer = engine::next(pair(), units(), 4, after, row);
    assert_eq!((answer, out), (listed(1), [1, 4]));
    let (after, row) = (Row::of(&[2, 4]), WrittenRow::of(&mut out));
    let answer = engine::next(pair(), units(), 4, after, row);
    assert_eq!((answer, out), (listed(0), [1, 4]));
}

/// Views, and refusals with their place and row.
#[test]
fn refusals_through_the_engine() {
    let view = |channel, first| engine::view(Row::of(&[1, 2, 3]), Row::of(&[4]), channel, first, 2);
    let part = |refusal, start, length| {
        Ok(Part {
            refusal,
            start,
            length,
        })
    };
    assert_eq!(view(0, 1), part(0, 1, 2));
    assert_eq!(view(1, 0), part(13, 0, 0));
    assert_eq!(view(2, 0), part(12, 0, 0));
    let ring = GraphRows {
        from: Row::of(&[0, 1]),
        to: Row::of(&[1, 0]),
        ..pair()
    };
    let mut out = [7, 8, 9];
    let answer = engine::asap(ring, WrittenRow::of(&mut out));
    let (refusal, place) = (7, 2);
    assert_eq!((answer, out), (Ok(Filled { refusal, place }), [0, 1, 9]));
}

/// Rows that are empty, with null pointers and without.
#[test]
fn empty_rows_through_the_engine() {
    let nothing = GraphRows {
        delays: Row::null(),
        types: Row::of(&[]),
        kinds: 0,
        from: Row::null(),
        to: Row::of(&[]),
    };
    let (refusal, place) = (0, 0);
    let filled = Ok(Filled { refusal, place });
    assert_eq!(engine::asap(nothing, WrittenRow::null()), filled);
    let row = WrittenRow::of(&mut []);
    assert_eq!(engine::alap(nothing, 0, row), filled);
}

/// A table that the engine does not take is told in words, and one that it just takes is viewed.
#[test]
fn long_tables() {
    let table = vec![1; LONGEST_ROW + 1];
    let (whole, fits) = (Row::of(&table[..]), Row::of(&table[1..]));
    for (a, b) in [(whole, fits), (fits, whole)] {
        let words = engine::view(a, b, 0, 0, 1).unwrap_err().to_string();
        let due = format!(
            "a table of {} entries is longer than the engine takes",
            table.len()
        );
        assert!(words.starts_with(&due), "{words}");
    }
    let part = engine::view(fits, fits, 1, LONGEST_ROW, 0).unwrap();
    assert_eq!((part.refusal, part.start, part.length), (0, LONGEST_ROW, 0));
}

/// Rows longer than the engine takes, in every place: the answer is the library's all the same.
#[cfg(linked)]
mod long_rows {
    use super::super::linked;
    use super::*;
    use crate::limits::MOST_EDGES;

    /// Lengths on both sides of every limit.
    const LENGTHS: [usize; 12] = [
        0,
        1,
        2,
        MOST_OPERATIONS - 1,
        MOST_OPERATIONS,
        MOST_OPERATIONS + 1,
        MOST_EDGES,
        MOST_EDGES + 1,
        LONGEST_ROW - 1,
        LONGEST_ROW,
        LONGEST_ROW + 1,
        16 * LONGEST_ROW,
    ];

    /// Rows for every question.
    #[derive(Clone)]
    struct Rows {
        /// The delays and the types.
        operations: [Vec<u8>; 2],
        /// Where edges leave, and where they lead.
        edges: [Vec<u16>; 2],
        /// The units.
        units: Vec<u8>,
        /// Starts, a row to go on from, an output row and a state.
        rows: [Vec<u16>; 4],
    }

    impl Rows {
        /// Rows that fit each other.
        fn usual() -> Rows {
            Rows {
                operations: [vec![1, 1], vec![0, 0]],
                edges: [vec![0], vec![1]],
                units: vec![1],
                rows: [
                    vec![1, 2],
                    vec![1, 2],
                    vec![5, 6, 7],
                    vec![0; MOST_OPERATIONS],
                ],
            }
        }

        /// The graph's rows.
        fn graph(&self) -> GraphRows<'_> {
            GraphRows {
                delays: Row::of(&self.operations[0]),
                types: Row::of(&self.operations[1]),
                kinds: 1,
                from: Row::of(&self.edges[0]),
                to: Row::of(&self.edges[1]),
            }
        }

        /// The rows with one of them, or two that must match, as long as is said.
        fn stretched(length: usize) -> Vec<Rows> {
            let edits: [fn(&mut Rows, usize); 11] = [
                |rows, length| rows.operations[0].resize(length, 1),
                |rows, length| rows.operations[1].resize(length, 0),
                |rows, length| {
                    rows.operations
                        .iter_mut()
                        .for_each(|row| row.resize(length, 0))
                },
                |rows, length| rows.edges[0].resize(length, 0),
                |rows, length| rows.edges[1].resize(length, 1),
                |rows, length| rows.edges.iter_mut().for_each(|row| row.resize(length, 1)),
                |rows, length| rows.units.resize(length, 1),
                |rows, length| rows.rows[0].resize(length, 1),
                |rows, length| rows.rows[1].resize(length, 1),
                |rows, length| rows.rows[2].resize(length, 9),
                |rows, length| rows.rows[3].resize(length, 0),
            ];
            let mut all = Vec::new();
            for edit in edits {
                let mut rows = Rows::usual();
                edit(&mut rows, length);
                all.push(rows);
            }
            all
        }
    }

    /// Asks both ways with the same row to write: answers and rows must be the same.
    macro_rules! alike {
        ($row:expr, $question:ident($($lent:expr),*)) => {{
            let (mut one, mut other) = ($row.clone(), $row.clone());
            let linked = linked::$question($($lent,)* WrittenRow::of(&mut one));
            let engine = engine::$question($($lent,)* WrittenRow::of(&mut other));
            assert_eq!((engine, other), (Ok(linked), one));
        }};
    }

    /// Asks every question about a graph.
    fn ask(rows: &Rows) {
        let (graph, units, bound) = (rows.graph(), Row::of(&rows.units), 3);
        let [starts, after, out, state] = &rows.rows;
        alike!(out, asap(graph));
        alike!(out, alap(graph, bound));
        alike!(out, mobility(graph, bound));
        alike!(out, list(graph, units));
        alike!(state, advance(graph, units, 1));
        alike!(out, first(graph, units, bound));
        alike!(out, next(graph, units, bound, Row::of(after)));
        let starts = Row::of(starts);
        let linked = linked::check(graph, units, bound, starts);
        assert_eq!(engine::check(graph, units, bound, starts), Ok(linked));
        let linked = linked::peak(graph, starts);
        assert_eq!(engine::peak(graph, starts), Ok(linked));
    }

    /// No answer is another one for a long row.
    #[test]
    fn no_answer_changes() {
        for length in LENGTHS {
            for rows in Rows::stretched(length) {
                ask(&rows);
            }
        }
    }
}
