//! Views of two channels' start tables.

use crate::face::{self, Row};
use crate::{Error, Refusal};

/// A part of channel A's (0) or channel B's (1) table: that table's own memory.
pub fn view<'a>(
    a: &'a [u16],
    b: &'a [u16],
    channel: usize,
    first: usize,
    count: usize,
) -> Result<&'a [u16], Error> {
    let part = face::view(Row::of(a), Row::of(b), channel, first, count)?;
    let table = if channel == 0 { a } else { b };
    match part.refusal {
        0 => Ok(&table[part.start..][..part.length]),
        12 => Err(channel_refusal(channel).into()),
        number => Err(extent_refusal(number, table.len(), first, count).into()),
    }
}

/// Refusal 12: there is no such channel.
fn channel_refusal(channel: usize) -> Refusal {
    Refusal::of_view(12, format!("channel {channel} is neither 0 nor 1"))
}

/// Refusal 13: the part does not lie within the table.
fn extent_refusal(number: usize, entries: usize, first: usize, count: usize) -> Refusal {
    let reason = format!(
        "first + count ({first} + {count}) is past the end of the chosen table, which has \
         {entries} entries"
    );
    Refusal::of_view(number, reason)
}
