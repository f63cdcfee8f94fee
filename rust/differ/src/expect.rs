//! What the second opinion expects of the C face.

use second::{direct, Finding, Refusal, State, MOST_KINDS, MOST_OPERATIONS};

use crate::{Answer, Input, Question};

/// An answer of a question that leaves all but one row alone.
fn answer(result: Result<Vec<usize>, Refusal>, blank: &[usize], row: Vec<u16>) -> Answer {
    let (refusal, place, values) = match result {
        Ok(values) => (0, 0, values),
        Err(refusal) => (refusal.number, refusal.place, blank.to_vec()),
    };
    Answer {
        refusal,
        place,
        values,
        row,
        spoiled: vec![],
    }
}

/// The answer of a question that fills the output row and gives no numbers.
fn filled(input: &Input, ask: impl Fn(&mut [u16]) -> Result<(), Refusal>) -> Answer {
    let mut out = input.out.clone();
    answer(ask(&mut out).map(|()| vec![]), &[], out)
}

/// The list schedule.
fn list(input: &Input) -> Answer {
    let mut out = input.out.clone();
    let latency = direct::list_schedule(&input.graph(), &input.units, &mut out);
    answer(latency.map(|latency| vec![latency]), &[0], out)
}

/// One step of the list schedule; a refused state keeps its step.
fn advance(input: &Input) -> Answer {
    let Ok(starts) = <[u16; MOST_OPERATIONS]>::try_from(input.state.as_slice()) else {
        return advance_misfit(input);
    };
    let state = State {
        step: input.step,
        starts,
    };
    let (result, state) = direct::advance(state, &input.graph(), &input.units);
    let result = result.map(|()| vec![state.step]);
    answer(result, &[input.step], state.starts.to_vec())
}

/// A state with another number of starts is refusal 2, after refusal 1.
fn advance_misfit(input: &Input) -> Answer {
    let state = State {
        step: 1,
        starts: [0; MOST_OPERATIONS],
    };
    let number = match direct::advance(state, &input.graph(), &input.units).0 {
        Err(Refusal { number: 1, .. }) => 1,
        _ => 2,
    };
    let refusal = Refusal { number, place: 0 };
    answer(Err(refusal), &[input.step], input.state.clone())
}

/// The numbers of a finding.
fn numbers(finding: Finding) -> Vec<usize> {
    match finding {
        Finding::Lawful => vec![0, 0, 0],
        Finding::Untimely(operation) => vec![1, operation, 0],
        Finding::Broken(edge) => vec![2, edge, 0],
        Finding::OverUse { step, kind } => vec![3, step, kind],
    }
}

/// The checker.
fn check(input: &Input) -> Answer {
    let finding = direct::check(&input.graph(), &input.units, input.bound, &input.starts);
    answer(finding.map(numbers), &[0, 0, 0], vec![])
}

/// Peak use.
fn peak(input: &Input) -> Answer {
    let peaks = direct::peak_use(&input.graph(), &input.starts);
    answer(peaks.map(|peaks| peaks.to_vec()), &[0; MOST_KINDS], vec![])
}

/// The lister.
fn listed(input: &Input, ask: impl Fn(&mut [u16]) -> Result<bool, Refusal>) -> Answer {
    let mut out = input.out.clone();
    let found = ask(&mut out).map(|found| vec![usize::from(found)]);
    answer(found, &[0], out)
}

/// A part of a channel's table.
fn view(input: &Input) -> Answer {
    let lengths = (input.a.len(), input.b.len());
    let part = direct::view(
        input.channel,
        input.first,
        input.count,
        lengths.0,
        lengths.1,
    );
    let part = part.map(|(start, length)| vec![start, length]);
    answer(part, &[0, 0], vec![])
}

/// What the second opinion expects of one question about an input.
pub fn expect(question: Question, input: &Input) -> Answer {
    let (graph, units, bound) = (input.graph(), &input.units, input.bound);
    match question {
        Question::Asap => filled(input, |out| direct::asap(&graph, out)),
        Question::Alap => filled(input, |out| direct::alap(&graph, bound, out)),
        Question::Mobility => filled(input, |out| direct::mobility(&graph, bound, out)),
        Question::List => list(input),
        Question::Advance => advance(input),
        Question::Check => check(input),
        Question::Peak => peak(input),
        Question::First => listed(input, |out| direct::first(&graph, units, bound, out)),
        Question::Next => listed(input, |out| {
            direct::next(&graph, units, bound, &input.after, out)
        }),
        Question::View => view(input),
    }
}
