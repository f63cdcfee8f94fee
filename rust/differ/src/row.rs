//! Lent rows with margins, so that a stray write shows.

use pedal::face;

/// How many entries stand before and after a row.
const MARGIN: usize = 8;

/// A row to be lent, with its content before and a margin on both sides.
pub struct Row<T> {
    /// The row's name.
    name: &'static str,
    /// The margins and the row between.
    cells: Vec<T>,
    /// The cells as they were.
    before: Vec<T>,
    /// Whether an empty row is lent with a null pointer.
    null: bool,
}

impl<T: Copy + PartialEq> Row<T> {
    /// A row of some content, with a mark all over its margins.
    pub fn new(name: &'static str, content: &[T], mark: T, null: bool) -> Row<T> {
        let margin = [mark; MARGIN];
        let cells = [&margin, content, &margin].concat();
        Row {
            name,
            before: cells.clone(),
            cells,
            null: null && content.is_empty(),
        }
    }

    /// The row as it is lent to be read.
    pub fn lend(&self) -> face::Row<'_, T> {
        match self.null {
            true => face::Row::null(),
            false => face::Row::of(self.content()),
        }
    }

    /// The row as it is lent to be written.
    pub fn lend_to_write(&mut self) -> face::WrittenRow<'_, T> {
        let end = self.cells.len() - MARGIN;
        match self.null {
            true => face::WrittenRow::null(),
            false => face::WrittenRow::of(&mut self.cells[MARGIN..end]),
        }
    }

    /// The row as it is now.
    pub fn content(&self) -> &[T] {
        &self.cells[MARGIN..self.cells.len() - MARGIN]
    }

    /// The row's name, if anything changed in it or around it.
    pub fn changed(&self) -> Option<&'static str> {
        (self.cells != self.before).then_some(self.name)
    }

    /// The row's name, if anything changed around it.
    pub fn overrun(&self) -> Option<&'static str> {
        let end = self.cells.len() - MARGIN;
        let same = self.cells[..MARGIN] == self.before[..MARGIN]
            && self.cells[end..] == self.before[end..];
        (!same).then_some(self.name)
    }
}

#[cfg(test)]
mod tests {
    use super::*;

    /// A row that nobody touched is as it was, whether empty or not.
    #[test]
    fn untouched() {
        for content in [&[][..], &[1, 2, 3]] {
            let row = Row::new("row", content, 9u16, true);
            assert_eq!(row.content(), content);
            assert_eq!(row.lend().entries(), content);
            assert_eq!((row.changed(), row.overrun()), (None, None));
        }
    }

    /// An empty row has a null pointer where that is asked for, and only then.
    #[test]
    fn null_pointers() {
        for (content, null, is_null) in [
            (&[][..], true, true),
            (&[], false, false),
            (&[1], true, false),
        ] {
            let mut row = Row::new("row", content, 9u16, null);
            assert_eq!(row.lend().is_null(), is_null);
            assert_eq!(row.lend_to_write().read().is_null(), is_null);
        }
    }

    /// A write to an entry is a change; one before or after the row is also an overrun.
    #[test]
    fn strays() {
        let before = MARGIN - 1;
        for (place, overrun) in [(0, Some("row")), (1, None), (3, None), (4, Some("row"))] {
            let mut row = Row::new("row", &[1, 2, 3], 9u16, false);
            row.cells[before + place] = 7;
            assert_eq!((row.changed(), row.overrun()), (Some("row"), overrun));
        }
    }
}
