//! The plain side: Rust written for speed.

use std::hint::black_box;

use second::{quick, Finding, MOST_KINDS};

use crate::proved::sum;
use crate::subject::Subject;

/// Earliest starts.
pub fn asap(subject: &Subject, out: &mut [u16]) -> (usize, u64) {
    let answer = quick::asap(&black_box(subject).graph(), out);
    (
        answer.map_or_else(|refusal| refusal.number, |()| 0),
        sum(out),
    )
}

/// The list schedule.
pub fn list(subject: &Subject, out: &mut [u16]) -> (usize, u64) {
    let answer = quick::list_schedule(&black_box(subject).graph(), &subject.units, out);
    (answer.unwrap_or(0), sum(out))
}

/// The checker; 0 where lawful.
pub fn check(subject: &Subject) -> usize {
    let subject = black_box(subject);
    let graph = subject.graph();
    let answer = quick::check(&graph, &subject.units, subject.bound, &subject.starts);
    usize::from(answer != Ok(Finding::Lawful))
}

/// Peak use.
pub fn peak(subject: &Subject) -> [usize; MOST_KINDS] {
    let subject = black_box(subject);
    quick::peak_use(&subject.graph(), &subject.starts).unwrap_or_default()
}

/// Lists all schedules: how many there are, and the sum over them.
pub fn all(subject: &Subject) -> (usize, u64) {
    let subject = black_box(subject);
    let (graph, units, bound) = (subject.graph(), &subject.units, subject.bound);
    let (mut row, mut after) = (subject.row(), subject.row());
    let (mut count, mut total) = (0, 0u64);
    let mut found = quick::first(&graph, units, bound, &mut row);
    while found == Ok(true) {
        count += 1;
        total = total.wrapping_add(sum(&row));
        std::mem::swap(&mut row, &mut after);
        found = quick::next(&graph, units, bound, &after, &mut row);
    }
    (count, total)
}

/// Counts all schedules in one walk over the whole tree.
pub fn all_once(subject: &Subject) -> usize {
    let subject = black_box(subject);
    quick::all_once(&subject.graph(), &subject.units, subject.bound).unwrap_or(0)
}
