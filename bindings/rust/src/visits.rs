use crate::ffi::ListedVisit;
use crate::Space;

/// One occurrence of an index in a binary, or the begin or the end of a scope: of a nested module, component, or type of one or of an
/// instance.
#[derive(Clone, Copy, Debug, PartialEq, Eq, Hash)]
pub enum Visit {
    /// An index of the scope that it stands in.
    Index {
        /// Its space.
        space: Space,
        /// The index.
        index: u32,
    },
    /// An index of a scope further out, as of an alias.
    Outer {
        /// Its space.
        space: Space,
        /// How many scopes further out.
        count: u32,
        /// The index.
        index: u32,
    },
    /// A scope begins.
    Push,
    /// The innermost scope ends.
    Pop,
}

impl Visit {
    pub(crate) fn of(listed: &ListedVisit) -> Visit {
        let ListedVisit { kind, space, count, index, .. } = *listed;
        match (kind, Space::from_number(space)) {
            (0, Some(space)) => Visit::Index { space, index },
            (1, Some(space)) => Visit::Outer { space, count, index },
            (2, _) => Visit::Push,
            (3, _) => Visit::Pop,
            _ => unreachable!("the library lists no such visit"),
        }
    }
}

/// Where a visit stands in a core module.
#[derive(Clone, Copy, Debug, PartialEq, Eq, Hash)]
pub struct Place {
    /// The id of the section, 0 of a custom one. Of a component it is that of a section from 1 to 13 of a core module inside it, and
    /// else 0.
    pub section: u32,
    /// The number of the row in the section, of code that of the body, counted from 0. The start, the data count and names stand in no
    /// row; of a component no row is told.
    pub row: Option<u32>,
}

impl Place {
    fn of(listed: &ListedVisit) -> Place {
        Place { section: listed.section, row: (listed.row != u32::MAX).then_some(listed.row) }
    }
}

/// The visits of a binary, in order, as [`visits`](crate::visits) lists them. Each takes 24 bytes.
///
/// ```
/// use hyssopplinth::{visits, Space, Visit};
///
/// // a module with one type and one function
/// let module = b"\0asm\x01\0\0\0\x01\x04\x01\x60\0\0\x03\x02\x01\0\x0a\x04\x01\x02\0\x0b";
/// let visits = visits(module)?;
/// assert_eq!(visits.iter().collect::<Vec<_>>(), [Visit::Index { space: Space::Type, index: 0 }]);
/// # Ok::<(), hyssopplinth::Error>(())
/// ```
#[derive(Clone, Debug, PartialEq, Eq)]
pub struct Visits {
    pub(crate) rows: Vec<ListedVisit>,
}

impl Visits {
    /// How many visits there are.
    pub fn len(&self) -> usize {
        self.rows.len()
    }

    /// Whether there is no visit.
    pub fn is_empty(&self) -> bool {
        self.rows.is_empty()
    }

    /// The visit at a place, counted from 0.
    pub fn get(&self, place: usize) -> Option<Visit> {
        self.rows.get(place).map(Visit::of)
    }

    /// The visits, in order.
    pub fn iter(&self) -> impl DoubleEndedIterator<Item = Visit> + ExactSizeIterator + '_ {
        self.rows.iter().map(Visit::of)
    }

    /// The visits, in order, each with its place.
    ///
    /// ```
    /// use hyssopplinth::{visits, Space, Visit};
    ///
    /// // one function, which is exported and calls itself
    /// let module = b"\0asm\x01\0\0\0\x01\x04\x01\x60\0\0\x03\x02\x01\0\x07\x05\x01\x01f\0\0\x0a\x06\x01\x04\0\x10\0\x0b";
    /// let visits = visits(module)?;
    /// let asks = visits.placed().filter(|(_, visit)| matches!(visit, Visit::Index { space: Space::Function, .. }));
    /// let rows: Vec<_> = asks.map(|(place, _)| (place.section, place.row)).collect();
    /// assert_eq!(rows, [(7, Some(0)), (10, Some(0))]);
    /// # Ok::<(), hyssopplinth::Error>(())
    /// ```
    pub fn placed(&self) -> impl DoubleEndedIterator<Item = (Place, Visit)> + ExactSizeIterator + '_ {
        self.rows.iter().map(|row| (Place::of(row), Visit::of(row)))
    }
}
