use crate::ffi::{status, Outcome};
use crate::Space;
use std::convert::Infallible;
use std::fmt;

/// Which of the two modules that are merged is refused.
#[derive(Clone, Copy, Debug, PartialEq, Eq, Hash)]
pub enum By {
    /// The first.
    First = 1,
    /// The second.
    Second = 2,
}

/// Why a call gave no output. The text of each is what the program says.
///
/// `E` is what a reencoder refuses with, its [`Reencode::Error`](crate::Reencode::Error). The calls that ask no reencoder have no such
/// error: they answer an `Error`, which is an `Error<Infallible>`.
///
/// A field `by` says which of two modules is refused, with [`merge`](crate::merge) alone.
#[derive(Clone, Debug, PartialEq, Eq)]
#[non_exhaustive]
pub enum Error<E = Infallible> {
    /// Out of memory (1).
    NoMemory,
    /// The bytes have no reading (5).
    ParseError {
        /// The place of the first section without a reading, at its id; or 0 where no header stands.
        place: u64,
        /// Which of two.
        by: Option<By>,
    },
    /// A strict renaming has no entry for this index (6).
    Refused {
        /// The space of the index.
        space: Space,
        /// The index.
        index: u32,
    },
    /// A code section states a size that passes the end of the bytes (7).
    InvalidCodeSectionSize {
        /// Which of two.
        by: Option<By>,
    },
    /// The header of a component stands where a core module is taken (8).
    UnexpectedNonCoreModuleSection {
        /// Which of two.
        by: Option<By>,
    },
    /// The header of a core module stands where a component is taken (9).
    UnexpectedNonComponentSection,
    /// A frame of the output is above the ceiling (10).
    TooLarge {
        /// How many bytes the first such frame has.
        size: u64,
        /// The ceiling.
        ceiling: u32,
    },
    /// An entry's space is none (11). It does not come of this crate, whose spaces are a [`Space`].
    BadRenaming {
        /// The place of the first such entry.
        place: u64,
        /// Its space.
        space: u32,
        /// Its index.
        index: u32,
    },
    /// [`answer`](crate::answer) wants one answer for each visit (15).
    Miscounted {
        /// How many are wanted.
        wanted: usize,
    },
    /// The room was too small twice (16). It does not come of this crate, which makes room as it is wanted.
    TooSmall {
        /// How many items are wanted.
        length: usize,
        /// How many kept functions have no room.
        count: usize,
    },
    /// The order is no permutation of the numbers of the defined functions (17).
    NotAnOrder {
        /// The first number that is too great or stood before, or is missing or too many.
        place: u64,
    },
    /// A module names an index that is not there (18).
    Dangling {
        /// The space of the first such index.
        space: Space,
        /// The index.
        index: u32,
        /// Which of two.
        by: Option<By>,
    },
    /// Both modules export this name (19), the first such of the second module.
    ExportClash {
        /// The name.
        name: String,
    },
    /// Both modules have a start (20).
    TwoStarts,
    /// A module states so many functions, and has so many bodies; or data segments (115, of the program 15).
    Uneven {
        /// How many are stated.
        stated: u32,
        /// How many stand there.
        rows: u32,
        /// Which of two.
        by: Option<By>,
    },
    /// A module has two sections with this id (116, of the program 16).
    RepeatedSection {
        /// The id.
        id: u32,
        /// Which of two.
        by: Option<By>,
    },
    /// The archive answered a status that this crate does not know: it is of another version.
    Unknown {
        /// The status.
        status: u32,
    },
    /// The reencoder refused an index. As the library for C has it, its status is 6.
    UserError(E),
}

impl<E> Error<E> {
    /// The status of the library for C. They are the program's exit statuses, but that its 15 and 16 are 115 and 116 here.
    pub fn status(&self) -> u32 {
        match self {
            Error::NoMemory => status::NO_MEMORY,
            Error::ParseError { .. } => status::PARSE_ERROR,
            Error::Refused { .. } | Error::UserError(_) => status::REFUSED,
            Error::InvalidCodeSectionSize { .. } => status::CODE_SECTION_SIZE,
            Error::UnexpectedNonCoreModuleSection { .. } => status::NON_CORE_MODULE,
            Error::UnexpectedNonComponentSection => status::NON_COMPONENT,
            Error::TooLarge { .. } => status::TOO_LARGE,
            Error::BadRenaming { .. } => status::BAD_RENAMING,
            Error::Miscounted { .. } => status::MISCOUNTED,
            Error::TooSmall { .. } => status::TOO_SMALL,
            Error::NotAnOrder { .. } => status::NOT_AN_ORDER,
            Error::Dangling { .. } => status::DANGLING,
            Error::ExportClash { .. } => status::EXPORT_CLASH,
            Error::TwoStarts => status::TWO_STARTS,
            Error::Uneven { .. } => status::UNEVEN,
            Error::RepeatedSection { .. } => status::REPEATED_SECTION,
            Error::Unknown { status } => *status,
        }
    }

    /// What an outcome says whose status is not 0; `name` is the front of the room of a merge.
    pub(crate) fn of(outcome: &Outcome, ceiling: u32, name: Vec<u8>) -> Error<E> {
        let by = match outcome.by {
            1 => Some(By::First),
            2 => Some(By::Second),
            _ => None,
        };
        let index = outcome.index;
        let unknown = Error::Unknown { status: outcome.status };
        match outcome.status {
            status::NO_MEMORY => Error::NoMemory,
            status::PARSE_ERROR => Error::ParseError { place: outcome.place, by },
            status::REFUSED => Space::from_number(outcome.space).map_or(unknown, |space| Error::Refused { space, index }),
            status::CODE_SECTION_SIZE => Error::InvalidCodeSectionSize { by },
            status::NON_CORE_MODULE => Error::UnexpectedNonCoreModuleSection { by },
            status::NON_COMPONENT => Error::UnexpectedNonComponentSection,
            status::TOO_LARGE => Error::TooLarge { size: outcome.size, ceiling },
            status::BAD_RENAMING => Error::BadRenaming { place: outcome.place, space: outcome.space, index },
            status::MISCOUNTED => Error::Miscounted { wanted: outcome.length },
            status::TOO_SMALL => Error::TooSmall { length: outcome.length, count: outcome.count },
            status::NOT_AN_ORDER => Error::NotAnOrder { place: outcome.place },
            status::DANGLING => Space::from_number(outcome.space).map_or(unknown, |space| Error::Dangling { space, index, by }),
            status::EXPORT_CLASH => Error::ExportClash { name: String::from_utf8_lossy(&name).into_owned() },
            status::TWO_STARTS => Error::TwoStarts,
            status::UNEVEN => Error::Uneven { stated: outcome.stated, rows: outcome.rows, by },
            status::REPEATED_SECTION => Error::RepeatedSection { id: outcome.id, by },
            _ => unknown,
        }
    }
}

/// What the program says behind a refusal of one of two modules.
fn by_text(by: &Option<By>) -> &'static str {
    match by {
        None => "",
        Some(By::First) => " by 1",
        Some(By::Second) => " by 2",
    }
}

impl<E: fmt::Display> fmt::Display for Error<E> {
    fn fmt(&self, f: &mut fmt::Formatter<'_>) -> fmt::Result {
        match self {
            Error::NoMemory => f.write_str("no memory"),
            Error::ParseError { place, by } => write!(f, "parse error at {place}{}", by_text(by)),
            Error::Refused { space, index } => write!(f, "refused {space} {index}"),
            Error::InvalidCodeSectionSize { by } => write!(f, "invalid code section size{}", by_text(by)),
            Error::UnexpectedNonCoreModuleSection { by } => {
                write!(f, "There was a section that does not belong in a core wasm module{}", by_text(by))
            }
            Error::UnexpectedNonComponentSection => f.write_str("There was a section that does not belong in a component"),
            Error::TooLarge { size, ceiling } => write!(f, "too large: {size} over {ceiling}"),
            Error::BadRenaming { .. } => f.write_str("bad renaming"),
            Error::Miscounted { wanted } => write!(f, "wrong number of answers: {wanted} are wanted"),
            Error::TooSmall { length, count: 0 } => write!(f, "room too small: {length} are wanted"),
            Error::TooSmall { length, count } => write!(f, "room too small: {length} and {count} are wanted"),
            Error::NotAnOrder { place } => write!(f, "not an order at {place}"),
            Error::Dangling { space, index, by } => write!(f, "dangling {space} {index}{}", by_text(by)),
            Error::ExportClash { name } => write!(f, "export clash {name}"),
            Error::TwoStarts => f.write_str("two starts"),
            Error::Uneven { stated, rows, by } => write!(f, "uneven: {stated} and {rows}{}", by_text(by)),
            Error::RepeatedSection { id, by } => write!(f, "repeated section {id}{}", by_text(by)),
            Error::Unknown { status } => write!(f, "unknown status {status}"),
            Error::UserError(error) => error.fmt(f),
        }
    }
}

impl<E: std::error::Error> std::error::Error for Error<E> {
    fn source(&self) -> Option<&(dyn std::error::Error + 'static)> {
        match self {
            // its own text is this error's
            Error::UserError(error) => error.source(),
            _ => None,
        }
    }
}
