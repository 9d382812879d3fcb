use crate::ffi::Entry;
use crate::Space;

/// Which indices become which: entries of a space, an index and what becomes of it, in any order. Of several for an index the last
/// counts. An index without an entry stays as it is, and an outer one, as of an alias, goes by the entries of its space.
///
/// ```
/// use hyssopplinth::{Renaming, Space};
///
/// let mut renaming = Renaming::new();
/// renaming.set(Space::Function, 0, 1).set(Space::Function, 1, 0);
/// assert_eq!(renaming, [(Space::Function, 0, 1), (Space::Function, 1, 0)].into_iter().collect());
/// ```
#[derive(Clone, Debug, Default, PartialEq, Eq)]
pub struct Renaming {
    pub(crate) entries: Vec<Entry>,
    pub(crate) strict: bool,
}

impl Renaming {
    /// A renaming without entries, which is not strict.
    pub fn new() -> Renaming {
        Renaming::default()
    }

    /// Says that an index of a space becomes another.
    pub fn set(&mut self, space: Space, from: u32, to: u32) -> &mut Renaming {
        self.entries.push(Entry { space: space.number(), from, to });
        self
    }

    /// Says whether an index without an entry is refused: one of the eight spaces of core modules, also where a component names it,
    /// and never a `data_count` or an index of components.
    pub fn set_strict(&mut self, strict: bool) -> &mut Renaming {
        self.strict = strict;
        self
    }

    /// Whether it is strict.
    pub fn is_strict(&self) -> bool {
        self.strict
    }

    /// How many entries there are.
    pub fn len(&self) -> usize {
        self.entries.len()
    }

    /// Whether there is no entry.
    pub fn is_empty(&self) -> bool {
        self.entries.is_empty()
    }
}

impl Extend<(Space, u32, u32)> for Renaming {
    fn extend<I: IntoIterator<Item = (Space, u32, u32)>>(&mut self, entries: I) {
        self.entries.extend(entries.into_iter().map(|(space, from, to)| Entry { space: space.number(), from, to }));
    }
}

impl FromIterator<(Space, u32, u32)> for Renaming {
    fn from_iter<I: IntoIterator<Item = (Space, u32, u32)>>(entries: I) -> Renaming {
        let mut renaming = Renaming::new();
        renaming.extend(entries);
        renaming
    }
}
