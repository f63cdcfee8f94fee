//! The proved side, lent its rows directly.

use std::hint::black_box;

use pedal::face::{self, Row, WrittenRow};
use pedal::{Broken, MOST_KINDS};

use crate::subject::Subject;

/// An answer, which cannot fail to come where the library is linked.
#[inline]
fn answered<T>(answer: Result<T, Broken>) -> T {
    answer.unwrap_or_else(|broken| panic!("{broken}"))
}

/// The sum of a row, so that both sides' rows are compared.
pub fn sum(row: &[u16]) -> u64 {
    let add = |sum: u64, &entry: &u16| sum.wrapping_mul(31).wrapping_add(u64::from(entry));
    row.iter().fold(0, add)
}

/// Earliest starts.
pub fn asap(subject: &Subject, out: &mut [u16]) -> (usize, u64) {
    let graph = black_box(subject).rows();
    let answer = answered(face::asap(graph, WrittenRow::of(out)));
    (answer.refusal, sum(out))
}

/// The list schedule.
pub fn list(subject: &Subject, out: &mut [u16]) -> (usize, u64) {
    let subject = black_box(subject);
    let (graph, units) = (subject.rows(), Row::of(&subject.units));
    let answer = answered(face::list(graph, units, WrittenRow::of(out)));
    (answer.latency, sum(out))
}

/// The checker; 0 where lawful.
pub fn check(subject: &Subject) -> usize {
    let subject = black_box(subject);
    let (units, starts) = (Row::of(&subject.units), Row::of(&subject.starts));
    let answer = answered(face::check(subject.rows(), units, subject.bound, starts));
    answer.refusal + answer.finding
}

/// Peak use.
pub fn peak(subject: &Subject) -> [usize; MOST_KINDS] {
    let subject = black_box(subject);
    answered(face::peak(subject.rows(), Row::of(&subject.starts))).peak
}

/// The least schedule.
fn first(subject: &Subject, out: &mut [u16]) -> bool {
    let subject = black_box(subject);
    let (graph, units) = (subject.rows(), Row::of(&subject.units));
    let answer = face::first(graph, units, subject.bound, WrittenRow::of(out));
    answered(answer).found == 1
}

/// The least schedule after a row.
fn next(subject: &Subject, after: &[u16], out: &mut [u16]) -> bool {
    let subject = black_box(subject);
    let (graph, units) = (subject.rows(), Row::of(&subject.units));
    let (after, out) = (Row::of(after), WrittenRow::of(out));
    let answer = face::next(graph, units, subject.bound, after, out);
    answered(answer).found == 1
}

/// Lists all schedules: how many there are, and the sum over them.
pub fn all(subject: &Subject) -> (usize, u64) {
    let (mut row, mut after) = (subject.row(), subject.row());
    let (mut count, mut total) = (0, 0u64);
    let mut found = first(subject, &mut row);
    while found {
        count += 1;
        total = total.wrapping_add(sum(&row));
        std::mem::swap(&mut row, &mut after);
        found = next(subject, &after, &mut row);
    }
    (count, total)
}
