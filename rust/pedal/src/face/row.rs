//! Rows as they are lent.

/// A row that a question only reads.
#[derive(Clone, Copy, Debug)]
pub struct Row<'a, T> {
    /// The entries.
    entries: &'a [T],
    /// Whether it is lent with a null pointer; it is then empty.
    null: bool,
}

impl<'a, T> Row<'a, T> {
    /// A row of these entries.
    #[inline]
    pub fn of(entries: &'a [T]) -> Row<'a, T> {
        Row {
            entries,
            null: false,
        }
    }

    /// An empty row that is lent with a null pointer.
    #[inline]
    pub fn null() -> Row<'a, T> {
        Row {
            entries: &[],
            null: true,
        }
    }

    /// The entries.
    #[inline]
    pub fn entries(self) -> &'a [T] {
        self.entries
    }

    /// Whether the row is lent with a null pointer.
    #[inline]
    pub fn is_null(self) -> bool {
        self.null
    }

    /// Where the row begins.
    #[cfg(linked)]
    #[inline]
    pub(super) fn pointer(self) -> *const T {
        match self.null {
            true => std::ptr::null(),
            false => self.entries.as_ptr(),
        }
    }

    /// How many entries it has.
    #[inline]
    pub(super) fn length(self) -> usize {
        self.entries.len()
    }
}

/// A row that a question may write, over which nothing else is lent.
#[derive(Debug)]
pub struct WrittenRow<'a, T> {
    /// The entries.
    entries: &'a mut [T],
    /// Whether it is lent with a null pointer; it is then empty.
    null: bool,
}

impl<'a, T> WrittenRow<'a, T> {
    /// A row of these entries.
    #[inline]
    pub fn of(entries: &'a mut [T]) -> WrittenRow<'a, T> {
        WrittenRow {
            entries,
            null: false,
        }
    }

    /// An empty row that is lent with a null pointer.
    #[inline]
    pub fn null() -> WrittenRow<'a, T> {
        WrittenRow {
            entries: &mut [],
            null: true,
        }
    }

    /// The entries, to be read before the question.
    #[inline]
    pub fn read(&self) -> Row<'_, T> {
        Row {
            entries: self.entries,
            null: self.null,
        }
    }

    /// The entries, to be written.
    #[inline]
    pub fn entries(self) -> &'a mut [T] {
        self.entries
    }

    /// Where the row begins, and how many entries it has.
    #[cfg(linked)]
    #[inline]
    pub(super) fn parts(self) -> (*mut T, usize) {
        match self.null {
            true => (std::ptr::null_mut(), 0),
            false => (self.entries.as_mut_ptr(), self.entries.len()),
        }
    }
}

/// The rows of a graph and its number of types.
#[derive(Clone, Copy, Debug)]
pub struct GraphRows<'a> {
    /// The delay of each operation.
    pub delays: Row<'a, u8>,
    /// The type of each operation.
    pub types: Row<'a, u8>,
    /// The number of types.
    pub kinds: usize,
    /// The operation that each edge leaves.
    pub from: Row<'a, u16>,
    /// The operation that each edge leads to.
    pub to: Row<'a, u16>,
}
