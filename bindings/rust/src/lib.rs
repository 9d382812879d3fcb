//! WebAssembly modules and components re-encoded with other indices, and tools over core modules, by proved code.
//!
//! This crate is safe Rust over the library for C of Hyssopplinth, whose archive it links; docs/BINDINGS.md tells how it is found,
//! docs/C.md what is proved of the library's calls. The crate itself is tested, and not proved.
//!
//! - [`reencode`] asks a reencoder of yours, a [`Reencode`], for each index. Its methods have the names of `wasm_encoder::reencode`.
//! - [`plain`] gives the normal spelling, [`rename`] goes by a [`Renaming`], [`visits`] and [`answer`] are the halves of [`reencode`].
//! - [`renumber`], [`prune`], [`merge`] and [`calls`] are tools over core modules.
//!
//! Each call that makes a binary has a second, with `_within` behind its name, that takes a ceiling: the most bytes that a frame of the
//! output may have (a section's body, a function's, a subsection's of names). Nothing is validated, and an index that changes moves
//! nothing.
//!
//! ```
//! use hyssopplinth::{plain, rename, Renaming, Space};
//!
//! // a module with one function, exported as `f`, whose export section states its size in two bytes
//! let module = b"\0asm\x01\0\0\0\x01\x04\x01\x60\0\0\x03\x02\x01\0\x07\x85\0\x01\x01f\0\0\x0a\x04\x01\x02\0\x0b";
//! let made = plain(module)?;
//! assert_eq!(made.len(), module.len() - 1);
//!
//! let renaming: Renaming = [(Space::Function, 0, 3)].into_iter().collect();
//! assert_eq!(rename(module, &renaming)?[18..25], *b"\x07\x05\x01\x01f\0\x03");
//! # Ok::<(), hyssopplinth::Error>(())
//! ```
#![warn(missing_docs)]
#![deny(unsafe_op_in_unsafe_fn, clippy::undocumented_unsafe_blocks)]

mod calls;
mod error;
mod ffi;
mod reencoder;
mod renaming;
mod space;
mod visits;

pub use calls::Calls;
pub use error::{By, Error};
pub use reencoder::{reencode, reencode_within, Reencode, RoundtripReencoder};
pub use renaming::Renaming;
pub use space::Space;
pub use visits::{Place, Visit, Visits};

/// The ceiling where there is no wish.
pub const NO_CEILING: u32 = u32::MAX;

/// The binary in normal spelling: shortest numbers and sizes, nothing else changed. It is no longer than the input.
///
/// # Errors
///
/// Those of the bytes, as [`reencode`] has them, [`TooLarge`](Error::TooLarge) and [`NoMemory`](Error::NoMemory).
pub fn plain(bytes: &[u8]) -> Result<Vec<u8>, Error> {
    plain_within(bytes, NO_CEILING)
}

/// [`plain`], and no frame of the output has more than `ceiling` bytes.
///
/// # Errors
///
/// Those of [`plain`].
pub fn plain_within(bytes: &[u8], ceiling: u32) -> Result<Vec<u8>, Error> {
    ffi::plain(bytes, ceiling).map_err(|it| it.error(ceiling))
}

/// The binary in normal spelling, with its indices renamed.
///
/// # Errors
///
/// Those of [`plain`], and [`Refused`](Error::Refused) with the first index that a strict renaming has no entry for.
pub fn rename(bytes: &[u8], renaming: &Renaming) -> Result<Vec<u8>, Error> {
    rename_within(bytes, renaming, NO_CEILING)
}

/// [`rename`], and no frame of the output has more than `ceiling` bytes.
///
/// # Errors
///
/// Those of [`rename`].
pub fn rename_within(bytes: &[u8], renaming: &Renaming, ceiling: u32) -> Result<Vec<u8>, Error> {
    ffi::rename(bytes, &renaming.entries, renaming.strict, ceiling).map_err(|it| it.error(ceiling))
}

/// The visits of the binary, in order. They depend on the bytes alone, and each is what [`reencode`] asks a method for.
///
/// # Errors
///
/// Those of the bytes, as [`reencode`] has them, and [`NoMemory`](Error::NoMemory).
pub fn visits(bytes: &[u8]) -> Result<Visits, Error> {
    match ffi::visits(bytes) {
        Ok(rows) => Ok(Visits { rows }),
        Err(it) => Err(it.error(NO_CEILING)),
    }
}

/// The binary in normal spelling with these answers in the places of the visits: one for each, in order. That of a begin or an end of a
/// scope is not looked at.
///
/// # Errors
///
/// Those of [`plain`], and [`Miscounted`](Error::Miscounted) where there are more or fewer answers than visits.
pub fn answer(bytes: &[u8], answers: &[u32]) -> Result<Vec<u8>, Error> {
    answer_within(bytes, answers, NO_CEILING)
}

/// [`answer`], and no frame of the output has more than `ceiling` bytes.
///
/// # Errors
///
/// Those of [`answer`].
pub fn answer_within(bytes: &[u8], answers: &[u32], ceiling: u32) -> Result<Vec<u8>, Error> {
    ffi::answer(bytes, answers, ceiling).map_err(|it| it.error(ceiling))
}

/// The core module with the functions that it defines in another order, and each use of one renamed: the j-th goes to the place
/// `order[j]`, both counted from 0 behind the imported ones.
///
/// # Errors
///
/// [`NotAnOrder`](Error::NotAnOrder) where the order has not each number below that of the defined functions once;
/// [`Uneven`](Error::Uneven), [`RepeatedSection`](Error::RepeatedSection), and those of [`plain`].
pub fn renumber(bytes: &[u8], order: &[u32]) -> Result<Vec<u8>, Error> {
    renumber_within(bytes, order, NO_CEILING)
}

/// [`renumber`], and no frame of the output has more than `ceiling` bytes.
///
/// # Errors
///
/// Those of [`renumber`].
pub fn renumber_within(bytes: &[u8], order: &[u32], ceiling: u32) -> Result<Vec<u8>, Error> {
    ffi::renumber(bytes, order, ceiling).map_err(|it| it.error(ceiling))
}

/// A module without the functions that nothing reaches.
#[derive(Clone, Debug, PartialEq, Eq)]
pub struct Pruned {
    /// The module.
    pub bytes: Vec<u8>,
    /// The defined functions that stay, by their old indices, rising.
    pub kept: Vec<u32>,
}

/// The core module without the defined functions that nothing reaches, from its exports, its start, its element segments and its initial
/// values.
///
/// # Errors
///
/// [`Dangling`](Error::Dangling) where a function is named that is not there; [`Uneven`](Error::Uneven),
/// [`RepeatedSection`](Error::RepeatedSection), and those of [`plain`].
pub fn prune(bytes: &[u8]) -> Result<Pruned, Error> {
    prune_within(bytes, NO_CEILING)
}

/// [`prune`], and no frame of the output has more than `ceiling` bytes.
///
/// # Errors
///
/// Those of [`prune`].
pub fn prune_within(bytes: &[u8], ceiling: u32) -> Result<Pruned, Error> {
    match ffi::prune(bytes, ceiling) {
        Ok((bytes, kept)) => Ok(Pruned { bytes, kept }),
        Err(it) => Err(it.error(ceiling)),
    }
}

/// One core module of two: the imports of both, then the definitions of the first and of the second. No import is resolved by an export.
///
/// # Errors
///
/// [`ExportClash`](Error::ExportClash) where both export a name, [`TwoStarts`](Error::TwoStarts), and, with `by`,
/// [`Dangling`](Error::Dangling) of any space, [`Uneven`](Error::Uneven), [`RepeatedSection`](Error::RepeatedSection) and those of
/// [`plain`].
pub fn merge(first: &[u8], second: &[u8]) -> Result<Vec<u8>, Error> {
    merge_within(first, second, NO_CEILING)
}

/// [`merge`], and no frame of the output has more than `ceiling` bytes.
///
/// # Errors
///
/// Those of [`merge`].
pub fn merge_within(first: &[u8], second: &[u8], ceiling: u32) -> Result<Vec<u8>, Error> {
    ffi::merge(first, second, ceiling).map_err(|it| it.error(ceiling))
}

/// Which functions the core module asks for: its roots, and the body of each defined function.
///
/// # Errors
///
/// Those of [`prune`], but [`TooLarge`](Error::TooLarge).
pub fn calls(bytes: &[u8]) -> Result<Calls, Error> {
    match ffi::calls(bytes) {
        Ok(list) => Ok(Calls { list }),
        Err(it) => Err(it.error(NO_CEILING)),
    }
}

impl ffi::Refusal {
    pub(crate) fn error<E>(self, ceiling: u32) -> Error<E> {
        Error::of(&self.outcome, ceiling, self.name)
    }
}
